//! Document 01's worked values, for the proved library and for the reference alike.
//!
//! Every value here is from the paper or from docs/FORMAT.md, or worked by hand from them.

mod compared;
mod made;

use std::thread;

use compared::both::{
    call, expect, expect_table, expect_witness, falsified, refused, stopped, valid,
};
use compared::both::{Call, BOTH, FILL};
use eqp::problem::{last_node, Formula, Problem, Term};
use eqp::samples::{self, row, variables};
use eqp::{host, workloads, Answer, WITNESS_LEN, WORK_LEN};
use made::budgets::WIDE;

/// The twelve rows with an ample budget.
fn twelve() -> [Answer; 12] {
    [
        valid(1),
        falsified(2, 2, 2),
        falsified(1, 2, 2),
        valid(4),
        falsified(2, 4, 4),
        falsified(4, 4, 4),
        valid(2),
        falsified(1, 2, 1),
        falsified(2, 4, 3),
        valid(1),
        falsified(1, 1, 0),
        falsified(1, 4, 4),
    ]
}

/// All budgets here are ample, while some low bits of each are not.
#[test]
fn twelve_rows() {
    for (number, wanted) in (1..).zip(twelve()) {
        for budget in WIDE {
            expect(&row(number), budget, wanted);
        }
    }
}

#[test]
fn budgets() {
    expect(&row(4), 0, stopped(0, 4));
    expect(&row(4), 3, stopped(3, 4));
    expect(&row(4), 4, valid(4));
    expect(&row(4), 5, valid(4));
    expect(&row(6), 0, stopped(0, 4));
    expect(&row(6), 3, stopped(3, 4));
    expect(&row(6), 4, falsified(4, 4, 4));
    expect(&row(5), 1, stopped(1, 4));
    expect(&row(5), 2, falsified(2, 4, 4));
}

/// Row 4's ten nodes.
#[test]
fn row_four_table() {
    let wanted = [
        [0, 0, 0, 0, 0, 0, 0, 0], // 0 x
        [0, 1, 0, 0, 0, 0, 0, 0], // 1 y
        [2, 0, 0, 0, 1, 0, 0, 0], // 2 x = y
        [3, 0, 2, 0, 0, 0, 0, 0], // 3 not 2
        [0, 2, 0, 0, 0, 0, 0, 0], // 4 f(x)
        [0, 3, 0, 0, 0, 0, 0, 0], // 5 f(y), its own
        [2, 0, 1, 0, 0, 0, 0, 0], // 6 y = x
        [1, 0, 6, 0, 4, 0, 5, 0], // 7 f(y)
        [2, 0, 4, 0, 7, 0, 0, 0], // 8 f(x) = f(y)
        [5, 0, 3, 0, 8, 0, 0, 0], // 9 3 or 8
    ];
    expect_table(&row(4), 0, &wanted);
    expect_table(&row(4), 4, &wanted);
}

#[test]
fn witnesses() {
    let five = b"EQW\x01\x00\x04\
        \x00\x00\x00\x00\x01\
        \x01\x00\x00\x00\x02\
        \x02\x01\x00\x00\x01\
        \x02\x02\x00\x00\x01";
    expect_witness(&row(5), five, "x = 1, y = 2, f(1) = 1, f(2) = 1");
    let nine = b"EQW\x01\x00\x03\
        \x00\x00\x00\x00\x00\
        \x01\x00\x00\x00\x01\
        \x02\x00\x00\x00\x02";
    expect_witness(&row(9), nine, "p = false, x = 1, y = 2");
    expect_witness(&row(11), b"EQW\x01\x00\x00", "");
}

/// Not x = y, or z = f(x), or p(f(y)).
fn image_and_own_variable() -> Problem {
    let mut p = Problem::new();
    let (x, y, z) = (p.function("x", 0), p.function("y", 0), p.function("z", 0));
    let (f, q) = (p.function("f", 1), p.predicate("p", 1));
    let (x, y) = (p.apply(x, &[]), p.apply(y, &[]));
    let same = p.equal(x, y);
    let apart = p.not(same);
    let (z, fx) = (p.apply(z, &[]), p.apply(f, &[x]));
    let image = p.equal(z, fx);
    let either = p.or(apart, image);
    let fy = p.apply(f, &[y]);
    let test = p.test(q, &[fy]);
    p.or(either, test);
    p
}

/// Not x = y, or z = f(x), or p(f(y)), worked by hand.
///
/// The variables are x, y, z, f(x) and f(y), by number; nodes 2 and 9 of the table link x with y,
/// node 6 links z with f(x), and f(y) is alone: the tops are 1, 2, 1, 2 and 1, and with p there
/// are 8 places. Digits move in the order y, f(x), p.
/// - Place 1: all are 1, so z = f(x).
/// - Place 2: y is 2, so not x = y.
/// - Place 3: y is 1 again, f(x) is 2 and p false. x = y, z and f(x) differ, p is false: falsified.
///
/// There f(y)'s own variable, node 8, is 1. Its image, node 10, is f(x)'s variable where y = x,
/// so 2, both as the value of f(y) and as the argument of p.
#[test]
fn rows_list_the_images() {
    let p = image_and_own_variable();
    let table = [
        [0, 0, 0, 0, 0, 0, 0, 0],  //  0 x
        [0, 1, 0, 0, 0, 0, 0, 0],  //  1 y
        [2, 0, 0, 0, 1, 0, 0, 0],  //  2 x = y
        [3, 0, 2, 0, 0, 0, 0, 0],  //  3 not 2
        [0, 2, 0, 0, 0, 0, 0, 0],  //  4 z
        [0, 3, 0, 0, 0, 0, 0, 0],  //  5 f(x)
        [2, 0, 4, 0, 5, 0, 0, 0],  //  6 z = f(x)
        [5, 0, 3, 0, 6, 0, 0, 0],  //  7 3 or 6
        [0, 4, 0, 0, 0, 0, 0, 0],  //  8 f(y), its own
        [2, 0, 1, 0, 0, 0, 0, 0],  //  9 y = x
        [1, 0, 9, 0, 5, 0, 8, 0],  // 10 f(y)
        [6, 0, 0, 0, 0, 0, 0, 0],  // 11 p(f(y))
        [5, 0, 7, 0, 11, 0, 0, 0], // 12 7 or 11
    ];
    expect_table(&p, 2, &table);
    expect(&p, 2, stopped(2, 8));
    expect(&p, 3, falsified(3, 8, 6));
    let witness = b"EQW\x01\x00\x06\
        \x00\x00\x00\x00\x01\
        \x01\x00\x00\x00\x01\
        \x02\x00\x00\x00\x01\
        \x03\x01\x00\x00\x02\
        \x03\x01\x00\x00\x02\
        \x04\x02\x00\x00\x00";
    let words = "x = 1, y = 1, z = 1, f(1) = 2, f(1) = 2, p(2) = false";
    expect_witness(&p, witness, words);
}

/// Not x = y, or not q(x), or not q(y), worked by hand: y has the top 2 and there are two truth
/// variables, so 8 places, and the digits move in the order y, q(x), q(y). At place 1 q(x) is
/// false, at place 2 y is 2. At place 3 y is 1 and q(x) true; q(y)'s own variable is false, but
/// its image is q(x)'s where y = x, so true: falsified.
#[test]
fn rows_list_the_images_of_predicates() {
    let mut p = Problem::new();
    let (x, y) = (p.function("x", 0), p.function("y", 0));
    let q = p.predicate("q", 1);
    let (x, y) = (p.apply(x, &[]), p.apply(y, &[]));
    let same = p.equal(x, y);
    let apart = p.not(same);
    let qx = p.test(q, &[x]);
    let left = p.not(qx);
    let either = p.or(apart, left);
    let qy = p.test(q, &[y]);
    let right = p.not(qy);
    p.or(either, right);
    expect(&p, 2, stopped(2, 8));
    expect(&p, 3, falsified(3, 8, 4));
    let witness = b"EQW\x01\x00\x04\
        \x00\x00\x00\x00\x01\
        \x01\x00\x00\x00\x01\
        \x02\x01\x00\x00\x01\
        \x02\x01\x00\x00\x01";
    expect_witness(&p, witness, "x = 1, y = 1, q(1) = true, q(1) = true");
}

#[test]
fn document_004() {
    for budget in WIDE {
        expect(&samples::ackermann(), budget, valid(36));
    }
    expect(&samples::ackermann(), 36, valid(36));
    expect(&samples::ackermann(), 35, stopped(35, 36));
}

/// Variables joined by equations: x1 = x2, or x2 = x3, and so on.
fn joined(count: usize) -> Problem {
    let mut p = Problem::new();
    let x = variables(&mut p, "x", count);
    any_equal(&mut p, &x);
    p
}

fn any_equal(p: &mut Problem, terms: &[Term]) -> Formula {
    let mut any = p.no();
    for pair in terms.windows(2) {
        let equation = p.equal(pair[0], pair[1]);
        any = p.or(any, equation);
    }
    any
}

#[test]
fn nineteen_and_twenty_variables() {
    expect(&joined(19), 0, stopped(0, 121_645_100_408_832_000));
    expect(&joined(20), 0, refused(13));
    expect(&joined(20), u64::MAX, refused(13));
}

/// Refusal 13 leaves the table: twenty variables, false, nineteen equations and disjunctions.
#[test]
fn table_of_refusal_thirteen() {
    let mut wanted: Vec<[u8; 8]> = (0..20).map(|i| [0, i, 0, 0, 0, 0, 0, 0]).collect();
    wanted.push([8, 0, 0, 0, 0, 0, 0, 0]);
    for i in 0..19 {
        let last = wanted.len() as u8;
        wanted.push([2, 0, i, 0, i + 1, 0, 0, 0]);
        wanted.push([5, 0, last - 1, 0, last, 0, 0, 0]);
    }
    expect_table(&joined(20), 7, &wanted);
}

/// 24 variables that no equation joins have one place, and 25 are too many. Each equals itself, so
/// that the root reaches it.
#[test]
fn many_functions() {
    let apart = |count| {
        let mut p = Problem::new();
        let x = variables(&mut p, "x", count);
        let mut root = p.no();
        for x in x {
            let equation = p.equal(x, x);
            root = p.or(root, equation);
        }
        p
    };
    expect(&apart(24), u64::MAX, valid(1));
    expect(&apart(25), u64::MAX, refused(9));
}

/// 16 truth variables have 65,536 places, and all are false at the first; 17 are too many.
#[test]
fn many_predicates() {
    let tests = |count| {
        let mut p = Problem::new();
        let mut root = p.no();
        for i in 0..count {
            let q = p.predicate(&format!("q{i}"), 0);
            let test = p.test(q, &[]);
            root = p.or(root, test);
        }
        p
    };
    expect(&tests(16), u64::MAX, falsified(1, 65_536, 16));
    expect(&tests(16), 0, stopped(0, 65_536));
    expect(&tests(17), u64::MAX, refused(10));
}

/// The largest table, 2,494 nodes: its 24 variables are joined, so that the product is refused.
/// The root, a chain of disjunctions, reaches all 256 problem nodes. The 2,632 of document 01, for
/// which the work buffer has room, would take 24 applications of one function with arguments, but
/// the first term of a problem has none.
#[test]
fn largest_table() {
    for (name, decide) in BOTH {
        let Call { answer, work, .. } = call(decide, 1, &workloads::largest().bytes());
        assert_eq!(answer, refused(13), "{name}");
        let (table, rest) = work.split_at(8 * 2_494);
        assert!(table.chunks(8).all(|node| node[0] <= 9), "{name}");
        assert!(rest.iter().all(|&byte| byte == FILL), "{name}");
    }
}

/// The library's frames are of fixed size, and together under 128 KiB.
#[test]
fn small_stack() {
    let mut problems: Vec<_> = (1..=12).map(|number| row(number).bytes()).collect();
    problems.extend(workloads::tables().into_iter().map(|table| table.problem));
    problems.push(workloads::largest().bytes());
    let decide_all = move || {
        let (mut work, mut witness) = (vec![0; WORK_LEN], vec![0; WITNESS_LEN]);
        for problem in &problems {
            host::decide(1_000, last_node(problem), problem, &mut work, &mut witness);
        }
    };
    let thread = thread::Builder::new().stack_size(128 << 10);
    let thread = thread.spawn(decide_all).expect("the thread starts");
    thread.join().expect("the thread ends");
}
