//! What is counted of a problem's root is held against cases made by hand.

mod compared;
mod counted;
mod made;

use counted::facts::Facts;
use eqp::problem::{last_node, Formula, Problem};
use eqp::samples::{ackermann, row, three_tests, variables};

/// Document 004's example: F(x1) comes twice, far apart, and F three times. Its table has 3
/// variables, 3 own variables, 2 + 4 nodes for the pairs, and 7 others.
#[test]
fn facts_of_the_ackermann_example() {
    let mut wanted = Facts {
        arities: [[true, true, false, false], [false; 4]],
        repeat: [true, false],
        far_repeat: [true, false],
        near_repeat: [true, false, false],
        threefold: [true, false],
        congruence: [true, false],
        distinct: [6, 0],
        in_all: [6, 0],
        table_nodes: 19,
        ..Facts::default()
    };
    for op in [0, 2, 3, 5] {
        wanted.ops[op] = true;
    }
    let bytes = ackermann().bytes();
    assert_eq!(Facts::of(&bytes, last_node(&bytes)), wanted);
    assert_eq!(wanted.most_places(), 720);
}

/// q(x, y, x), q(y, x, x) and q(x, x, y) differ in two operands, each two of them.
#[test]
fn facts_of_three_tests() {
    let mut wanted = Facts {
        arities: [[true, false, false, false], [false, false, false, true]],
        threefold: [false, true],
        distinct: [2, 3],
        in_all: [2, 3],
        table_nodes: 25,
        ..Facts::default()
    };
    for op in [0, 5, 6] {
        wanted.ops[op] = true;
    }
    assert_eq!(Facts::of(&three_tests().bytes(), 6), wanted);
    assert_eq!(wanted.most_places(), 16);
}

/// f(x, x, x) = f with y for the last argument, or q, or at once q again.
#[test]
fn facts_of_repeats() {
    let mut p = Problem::new();
    let (f, q) = (p.function("f", 3), p.predicate("q", 0));
    let x = variables(&mut p, "x", 2);
    let fxx = p.apply(f, &[x[0], x[0], x[0]]);
    let fxy = p.apply(f, &[x[0], x[0], x[1]]);
    let (test, again) = (p.test(q, &[]), p.test(q, &[]));
    let same = p.equal(fxx, fxy);
    let either = p.or(test, again);
    let root = p.or(same, either);
    let facts = Facts::of(&p.bytes(), root.node());
    assert_eq!(
        (facts.repeat, facts.far_repeat),
        ([false, true], [false; 2])
    );
    assert_eq!(facts.near_repeat, [false, false, true]);
    assert_eq!((facts.root_repeats, facts.unreached), (false, [false; 2]));
    assert_eq!(
        (facts.threefold, facts.unreached_twin),
        ([false; 2], [false; 2])
    );
    // Another f, with y for the second argument too.
    let fyy = p.apply(f, &[x[0], x[1], x[1]]);
    let other = p.equal(fxx, fyy);
    assert_eq!(Facts::of(&p.bytes(), root.node()).threefold, [false; 2]);
    let root = p.or(root, other);
    let facts = Facts::of(&p.bytes(), root.node());
    assert_eq!(facts.near_repeat, [false, true, true]);
    assert_eq!(facts.threefold, [true, false]);
}

/// p, then q, q and not q: the negation's q equals one that it does not reach. Asked itself, the
/// second q does.
#[test]
fn facts_of_unreached_nodes() {
    let mut problem = Problem::new();
    let (p, q) = (problem.predicate("p", 0), problem.predicate("q", 0));
    problem.test(p, &[]);
    problem.test(q, &[]);
    let again = problem.test(q, &[]);
    let not = problem.not(again);
    let mut wanted = Facts {
        arities: [[false; 4], [true, false, false, false]],
        unreached: [false, true],
        unreached_twin: [false, true],
        distinct: [0, 1],
        in_all: [0, 2],
        table_nodes: 2,
        ..Facts::default()
    };
    wanted.ops[3] = true;
    wanted.ops[6] = true;
    assert_eq!(Facts::of(&problem.bytes(), not.node()), wanted);
    wanted.ops[3] = false;
    wanted.root_repeats = true;
    wanted.table_nodes = 1;
    assert_eq!(Facts::of(&problem.bytes(), again.node()), wanted);
}

/// Rows 9, 4, 5, 6 and 12; then f(x, x) = f(x, y), with x = y beside it and with that reached.
#[test]
fn facts_of_equations() {
    let of_row = |number| {
        let bytes = row(number).bytes();
        Facts::of(&bytes, last_node(&bytes))
    };
    assert!(!of_row(6).equated_choice && of_row(9).equated_choice);
    let whole = [true, false];
    assert_eq!(
        [4, 5, 6, 12].map(|number| of_row(number).congruence),
        [whole, whole, [false; 2], whole]
    );
    let mut p = Problem::new();
    let f = p.function("f", 2);
    let x = variables(&mut p, "x", 2);
    let (fxx, fxy) = (p.apply(f, &[x[0], x[0]]), p.apply(f, &[x[0], x[1]]));
    let images = p.equal(fxx, fxy);
    let arguments = p.equal(x[0], x[1]);
    let congruence = |p: &Problem, root: Formula| Facts::of(&p.bytes(), root.node()).congruence;
    assert_eq!(congruence(&p, images), [false; 2]);
    let both = p.and(images, arguments);
    assert_eq!(congruence(&p, both), [false, true]);
}
