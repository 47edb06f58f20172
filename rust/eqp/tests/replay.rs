//! What the effects of a call are held against is itself held against cases made by hand: the truth
//! of a root, and the nodes of its table.

mod compared;
mod made;

use compared::replay::{is_true, is_true_at_random, is_true_by, reached, table_nodes, taken};
use eqp::problem::{last_node, Formula, Problem};
use eqp::samples::{ackermann, row, three_tests, two_departments};
use eqp::workloads;

/// Row 5's tables by its witness, x = 1, y = 2 and f 1 everywhere: false. With y = 1, true; with
/// f(2) = 2, true; and with no row for y, which is 0 then, and for f(0), still false.
#[test]
fn truth_by_a_witness() {
    let five = row(5).bytes();
    let by = |rows: &[[u8; 5]]| {
        let head = [b'E', b'Q', b'W', 1, 0, rows.len() as u8];
        is_true_by(&five, 7, &[&head[..], &rows.concat()].concat())
    };
    let (x, f1) = ([0, 0, 0, 0, 1], [2, 1, 0, 0, 1]);
    assert!(!by(&[x, [1, 0, 0, 0, 2], f1, [2, 2, 0, 0, 1]]));
    assert!(by(&[x, [1, 0, 0, 0, 1], f1, f1]));
    assert!(by(&[x, [1, 0, 0, 0, 2], f1, [2, 2, 0, 0, 2]]));
    assert!(by(&[x, f1]));
    assert!(!by(&[x, [2, 1, 0, 0, 0]]));
}

#[test]
#[should_panic(expected = "two values")]
fn rows_that_contradict() {
    is_true_by(&row(8).bytes(), 0, b"EQW\x01\x00\x02\0\0\0\0\x01\0\0\0\0\0");
}

#[test]
#[should_panic(expected = "an unused argument")]
fn an_argument_too_many() {
    is_true_by(&row(8).bytes(), 0, b"EQW\x01\x00\x01\0\0\0\x01\x01");
}

#[test]
#[should_panic(expected = "the count of rows")]
fn a_row_too_few() {
    is_true_by(&row(8).bytes(), 0, b"EQW\x01\x00\x02\0\0\0\0\x01");
}

#[test]
#[should_panic(expected = "the witness's start")]
fn another_version() {
    is_true_by(&row(8).bytes(), 0, b"EQW\x02\x00\x01\0\0\0\0\x01");
}

/// The truth tables of the connectives, for p false and true, q false, then again for q true.
#[test]
fn connectives() {
    let table = |make: fn(&mut Problem, Formula, Formula) -> Formula| {
        let mut problem = Problem::new();
        let (p, q) = (problem.predicate("p", 0), problem.predicate("q", 0));
        let (p, q) = (problem.test(p, &[]), problem.test(q, &[]));
        let root = make(&mut problem, p, q).node();
        let bytes = problem.bytes();
        [[0, 0], [1, 0], [0, 1], [1, 1]]
            .map(|values: [u64; 2]| is_true(&bytes, root, |symbol, _| values[usize::from(symbol)]))
    };
    let (f, t) = (false, true);
    assert_eq!(table(|_, _, q| q), [f, f, t, t]);
    assert_eq!(table(|problem, p, _| problem.not(p)), [t, f, t, f]);
    assert_eq!(table(|problem, p, q| problem.and(p, q)), [f, f, f, t]);
    assert_eq!(table(|problem, p, q| problem.or(p, q)), [f, t, t, t]);
    assert_eq!(table(|problem, p, q| problem.select(p, q, p)), [f, f, f, t]);
    assert_eq!(table(|problem, p, q| problem.select(p, p, q)), [f, t, t, t]);
    assert_eq!(table(|problem, _, _| problem.yes()), [t, t, t, t]);
    assert_eq!(table(|problem, _, _| problem.no()), [f, f, f, f]);
}

/// Valid rows are true at random, and of the others some are false.
#[test]
fn truth_at_random() {
    let trues = |number: usize| {
        let bytes = row(number).bytes();
        (1..=64)
            .filter(|&seed| is_true_at_random(&bytes, last_node(&bytes), seed, 3))
            .count()
    };
    for number in [1, 4, 7, 10] {
        assert_eq!(trues(number), 64, "row {number}");
    }
    for number in [2, 3, 5, 6, 8, 9, 12] {
        assert!((1..64).contains(&trues(number)), "row {number}");
    }
    assert_eq!(trues(11), 0);
}

#[test]
fn nodes_of_tables() {
    let last = |problem: Problem| {
        let bytes = problem.bytes();
        table_nodes(&bytes, last_node(&bytes))
    };
    assert_eq!(last(row(4)), 10);
    assert_eq!(last(row(11)), 1);
    assert_eq!(last(ackermann()), 19);
    assert_eq!(last(three_tests()), 25);
    assert_eq!(last(workloads::largest()), 2_494);
    let tables = workloads::tables();
    let large = tables.iter().find(|table| table.name == "1,522 nodes");
    let large = &large.expect("a table of that name").problem;
    assert_eq!(table_nodes(large, last_node(large)), 1_522);
    let four = row(4).bytes();
    assert_eq!([2, 3, 6].map(|root| table_nodes(&four, root)), [3, 4, 7]);
}

/// Row 9 is p, x, y, the choice of them and choice = x; of the two departments x = y reaches what
/// stands before it, and f(z) = f(x) all but y and x = y. Nothing takes these two.
#[test]
fn reached_nodes() {
    let numbers = |marks: Vec<bool>| -> Vec<usize> {
        let marked = marks.into_iter().enumerate().filter(|(_, mark)| *mark);
        marked.map(|(number, _)| number).collect()
    };
    let (nine, two) = (row(9).bytes(), two_departments().bytes());
    assert_eq!(numbers(reached(&nine, 4)), [0, 1, 2, 3, 4]);
    assert_eq!(numbers(reached(&nine, 0)), [0]);
    assert_eq!(numbers(reached(&two, 2)), [0, 1, 2]);
    assert_eq!(numbers(reached(&two, 6)), [0, 3, 4, 5, 6]);
    assert_eq!(numbers(taken(&two)), [0, 1, 3, 4, 5]);
}
