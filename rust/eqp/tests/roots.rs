//! A call names its root (document 02, E2): the worked values, every root of generated tables, and
//! tables to which nodes are appended.

mod compared;
mod made;

use compared::both::{call_at, expect_start, falsified, refused, stopped, valid, Call, BOTH};
use eqp::problem::{Formula, Problem, Term};
use eqp::samples::{two_departments, variables};
use eqp::{reference, Answer};
use made::generate::{self, Shape};
use made::rng::Rng;
use made::roots::{cut, formulas, terms, WIDE};

/// Both sides must give this answer for a root.
fn expect(problem: &[u8], root: usize, budget: u64, wanted: Answer) {
    for (name, decide) in BOTH {
        let Call { answer, .. } = call_at(decide, budget, root, problem);
        assert_eq!(answer, wanted, "{name}, root {root}, budget {budget}");
    }
}

/// Both sides must give this answer for a root, and leave this table and this witness, with
/// nothing changed past them.
fn expect_whole(problem: &[u8], root: usize, wanted: Answer, table: &[u8], witness: &[u8]) {
    for (name, decide) in BOTH {
        let call = call_at(decide, u64::MAX, root, problem);
        assert_eq!(call.answer, wanted, "{name}, root {root}");
        expect_start(&call.work, table, name);
        expect_start(&call.witness, witness, name);
    }
}

/// Check's two counts, by the reference: the host has no call for them.
fn counts(problem: &[u8], root: usize) -> (usize, usize) {
    let checked = reference::check(problem, root).expect("accepted");
    (checked.functions, checked.predicates)
}

/// Bytes by their hexadecimal digits.
fn bytes(digits: &str) -> Vec<u8> {
    let byte = |at| u8::from_str_radix(&digits[at..at + 2], 16).expect("two digits");
    (0..digits.len()).step_by(2).map(byte).collect()
}

/// Symbols x y z f(1); nodes x, y, x = y, z, f(z), f(x), f(z) = f(x).
const TWO_DEPARTMENTS: &str = "4551500100040700000000010000000000000000000100000000000002000000010\
    000000002000000000000000303000000000000030000000000000200040005000000";

#[test]
fn the_voice_group_and_the_effects_group() {
    let all = bytes(TWO_DEPARTMENTS);
    assert_eq!(two_departments().bytes(), all);
    let table = bytes("000000000000000000010000000000000200000001000000");
    let witness = b"EQW\x01\x00\x02\0\0\0\0\x01\x01\0\0\0\x02";
    for problem in [cut(&all, 3), all.clone()] {
        assert_eq!(counts(&problem, 2), (2, 0));
        expect_whole(&problem, 2, falsified(2, 2, 2), &table, witness);
    }
    let table = bytes(
        "0000000000000000000100000000000000020000000000000003000000000000020000000100000001000400\
         020003000200020005000000",
    );
    let witness = bytes("4551570100040000000001020000000203020000010301000002");
    assert_eq!(counts(&all, 6), (4, 0));
    expect_whole(&all, 6, falsified(4, 4, 4), &table, &witness);
}

#[test]
fn terms_and_numbers_past_the_end() {
    let all = bytes(TWO_DEPARTMENTS);
    for root in [0, 1, 3, 4, 5, 7, usize::MAX].into_iter().chain(WIDE) {
        expect_whole(&all, root, refused(16), &[], &[]);
    }
    for root in [3, 4, 5, 6] {
        expect_whole(&cut(&all, 3), root, refused(16), &[], &[]);
    }
    for high in [1 << 8, 1 << 16, 1 << 32, 1 << 63] {
        expect_whole(&all, high + 2, refused(16), &[], &[]);
        expect_whole(&all, high + 6, refused(16), &[], &[]);
    }
}

/// x = y does not reach f(z), nor f: a late operand of the one, node 4, and a wrong byte for the
/// other, symbol 3, are refused all the same. The nodes start at byte 12.
#[test]
fn what_a_root_does_not_reach_is_checked() {
    for (at, number, place) in [(12 + 8 * 4 + 2, 7, 4), (8 + 3, 6, 3)] {
        let mut problem = bytes(TWO_DEPARTMENTS);
        problem[at] = 4;
        let wanted = Answer::Refused { number, place };
        expect_whole(&problem, 2, wanted, &[], &[]);
        expect_whole(&problem, 0, wanted, &[], &[]);
    }
}

/// p, q and not q: p is no truth variable, and q is the first.
#[test]
fn an_unreached_truth_variable() {
    let mut problem = Problem::new();
    let (p, q) = (problem.predicate("p", 0), problem.predicate("q", 0));
    problem.test(p, &[]);
    let q = problem.test(q, &[]);
    let root = problem.not(q).node();
    let table = [[6, 0, 0, 0, 0, 0, 0, 0], [3, 0, 0, 0, 0, 0, 0, 0]].concat();
    let witness = b"EQW\x01\x00\x01\x01\0\0\0\x01";
    assert_eq!(counts(&problem.bytes(), root), (0, 1));
    expect_whole(&problem.bytes(), root, falsified(2, 2, 1), &table, witness);
}

/// x, x, and the second x equal to itself: the first is no earlier one, since it is not reached.
/// With the first on the left side the second is its repeat.
#[test]
fn an_unreached_repeat() {
    let mut p = Problem::new();
    let x = p.function("x", 0);
    let (first, second) = (p.apply(x, &[]), p.apply(x, &[]));
    let itself = p.equal(second, second).node();
    let other = p.equal(first, second).node();
    let table = [[0, 0, 0, 0, 0, 0, 0, 0], [2, 0, 0, 0, 0, 0, 0, 0]].concat();
    assert_eq!((itself, counts(&p.bytes(), itself)), (2, (1, 0)));
    expect_whole(&p.bytes(), itself, valid(1), &table, &[]);
    expect_whole(&p.bytes(), other, valid(1), &table, &[]);
}

/// x, y, x, and y equal to the second x: y is variable 0 and comes first in the witness, since the
/// first x is not reached.
#[test]
fn an_unreached_repeat_changes_the_order() {
    let mut p = Problem::new();
    let (x, y) = (p.function("x", 0), p.function("y", 0));
    p.apply(x, &[]);
    let (y, x) = (p.apply(y, &[]), p.apply(x, &[]));
    let root = p.equal(y, x).node();
    let table = bytes("000000000000000000010000000000000200000001000000");
    let witness = b"EQW\x01\x00\x02\x01\0\0\0\x01\0\0\0\0\x02";
    expect_whole(&p.bytes(), root, falsified(2, 2, 2), &table, witness);
}

/// A disjunction of an equation for each term: with itself, so that it joins no others.
fn reach_all(p: &mut Problem, terms: &[Term]) -> Formula {
    let mut root = p.no();
    for &term in terms {
        let equation = p.equal(term, term);
        root = p.or(root, equation);
    }
    root
}

/// 32 variables, of which a root reaches 24, and another one 25. The first has one place, where it
/// is true.
#[test]
fn an_unreached_25th_variable() {
    let mut p = Problem::new();
    let x = variables(&mut p, "x", 32);
    let taken = reach_all(&mut p, &x[8..]).node();
    let many = reach_all(&mut p, &x[..25]).node();
    assert_eq!(counts(&p.bytes(), taken), (24, 0));
    expect(&p.bytes(), taken, 1, valid(1));
    expect_whole(&p.bytes(), many, refused(9), &[], &[]);
}

/// 20 truth variables, of which a root reaches 16, and another one 17: 16 have 65,536 places, and
/// at the first none is true.
#[test]
fn an_unreached_17th_truth_variable() {
    let mut p = Problem::new();
    let symbols: Vec<_> = (0..20).map(|i| p.predicate(&format!("q{i}"), 0)).collect();
    let tests: Vec<_> = symbols.into_iter().map(|q| p.test(q, &[])).collect();
    let mut either = |tests: &[Formula]| {
        let no = p.no();
        tests.iter().fold(no, |root, &test| p.or(root, test)).node()
    };
    let (taken, many) = (either(&tests[4..]), either(&tests[..17]));
    assert_eq!(counts(&p.bytes(), taken), (0, 16));
    expect(&p.bytes(), taken, 9, falsified(1, 65_536, 16));
    expect_whole(&p.bytes(), many, refused(10), &[], &[]);
}

/// Twenty variables, each equal to the one before, joined by "or" one by one: a root that reaches
/// k + 1 of them has (k + 1)! places, and 20! are too many. Refusal 13 leaves the table, which has
/// every node: 20 variables, false, 19 equations and 19 disjunctions.
#[test]
fn a_chain_of_twenty_variables() {
    let mut p = Problem::new();
    let x = variables(&mut p, "x", 20);
    let mut root = p.no();
    let mut links = Vec::new();
    for pair in x.windows(2) {
        let equation = p.equal(pair[0], pair[1]);
        root = p.or(root, equation);
        links.push((equation.node(), root.node()));
    }
    let mut places = 1;
    for (k, &(equation, joined)) in (1..19).zip(&links) {
        places *= k + 1;
        expect(&p.bytes(), equation, 0, stopped(0, 2));
        expect(&p.bytes(), joined, 0, stopped(0, places));
    }
    expect(&p.bytes(), links[0].0, 9, falsified(2, 2, 2));
    for (name, decide) in BOTH {
        let call = call_at(decide, u64::MAX, links[18].1, &p.bytes());
        assert_eq!(call.answer, refused(13), "{name}");
        expect_start(&call.work, &p.bytes()[8 + 20..], name);
        expect_start(&call.witness, &[], name);
    }
}

/// What both sides do for a root, which must be the same.
fn both(budget: u64, root: usize, problem: &[u8]) -> Call {
    let [library, reference] = BOTH.map(|(_, decide)| call_at(decide, budget, root, problem));
    assert!(
        library == reference,
        "root {root}, budget {budget}, problem {problem:?}: the library answers {:?}, the \
         reference {:?}, or the buffers differ",
        library.answer,
        reference.answer
    );
    library
}

/// A generated table: small ones have up to some thousand places.
fn table(rng: &mut Rng, i: usize) -> Vec<u8> {
    let shape = match i % 10 {
        0 => Shape::large(rng),
        _ => Shape::small(rng),
    };
    generate::problem(rng, shape).bytes()
}

#[test]
fn every_root_of_generated_tables() {
    let mut rng = Rng::new(21);
    let (mut accepted, mut refused_terms) = (0, 0);
    for i in 0..1_500 {
        let problem = table(&mut rng, i);
        for root in terms(&problem) {
            assert_eq!(both(9, root, &problem).answer, refused(16));
            refused_terms += 1;
        }
        for root in formulas(&problem) {
            let Call { answer, .. } = both(50, root, &problem);
            assert!(answer != refused(16));
            accepted += u64::from(!matches!(answer, Answer::Refused { .. }));
        }
        let count = terms(&problem).len() + formulas(&problem).len();
        for root in (count..count + 3).chain(WIDE) {
            assert_eq!(both(9, root, &problem).answer, refused(16));
        }
    }
    assert!(accepted > 10_000 && refused_terms > 5_000);
}

/// Appending nodes changes nothing for a root that stands before them: every cut of a table behind
/// the root has its answer and its buffers.
#[test]
fn appended_nodes() {
    let mut rng = Rng::new(22);
    let mut cuts = 0;
    for i in 0..150 {
        let problem = table(&mut rng, i);
        let budget = rng.below(100) as u64;
        let count = terms(&problem).len() + formulas(&problem).len();
        for root in formulas(&problem) {
            let whole = both(budget, root, &problem);
            for shorter in root + 1..count {
                assert!(both(budget, root, &cut(&problem, shorter)) == whole);
                cuts += 1;
            }
        }
    }
    assert!(cuts > 10_000);
}

/// A root in the middle, with every budget up to its product and one more.
#[test]
fn budgets_of_a_root_in_the_middle() {
    let mut rng = Rng::new(23);
    let mut ends = [0; 3];
    for i in 0..400 {
        let problem = table(&mut rng, i);
        let formulas = formulas(&problem);
        let root = formulas[formulas.len() / 2];
        let product = match both(0, root, &problem).answer {
            Answer::Stopped { tried: 0, product } if product <= 150 => product,
            _ => continue,
        };
        for budget in 0..=product + 1 {
            let end = match both(budget, root, &problem).answer {
                Answer::Valid { .. } => 0,
                Answer::Falsified { .. } => 1,
                _ => 2,
            };
            ends[end] += 1;
        }
    }
    assert!(ends.iter().all(|&count| count > 100), "{ends:?}");
}
