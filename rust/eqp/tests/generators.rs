//! The generators make all that they are for. Each has a table of what must come up, so that one
//! that goes lame fails here even where another makes up for it in the comparison.

mod compared;
mod counted;
mod made;

use std::collections::BTreeSet;

use compared::lend::Lengths;
use counted::facts::Facts;
use counted::tally::{Row, Tally};
use eqp::problem::last_node;
use eqp::{ANSWER_LEN, WITNESS_LEN, WORK_LEN};
use made::generate::{self, Shape};
use made::limits;
use made::rng::Rng;

/// How often a number below `end` came up in so many draws, each.
fn spread(end: usize, draws: usize, mut draw: impl FnMut() -> usize) -> Vec<usize> {
    let mut counts = vec![0; end];
    for _ in 0..draws {
        counts[draw()] += 1;
    }
    counts
}

#[test]
fn numbers_are_spread() {
    let mut rng = Rng::new(1);
    let about =
        |counts: &[usize], low: usize| counts.iter().all(|count| (low..2 * low).contains(count));
    assert!(about(&spread(6, 6_000, || rng.below(6)), 700));
    assert!(about(&spread(4, 4_000, || rng.within(3, 6) - 3), 700));
    assert!(about(
        &spread(2, 2_000, || usize::from(rng.once_in(2))),
        700
    ));
    let once = spread(2, 4_000, || usize::from(rng.once_in(4)))[1];
    assert!((700..1_400).contains(&once));
    let five = [0, 1, 2, 3, 4];
    assert!(about(&spread(5, 5_000, || *rng.pick(&five)), 700));
    let all: Vec<usize> = (0..20).collect();
    let recent = spread(20, 20_000, || *rng.pick_recent(&all));
    assert!(about(&recent[..16], 350) && about(&recent[16..], 2_200));
}

/// Each of the 64 bits is set about half of the time, and another seed gives other numbers.
#[test]
fn bits_are_spread() {
    let mut rng = Rng::new(1);
    let numbers: Vec<u64> = (0..1_000).map(|_| rng.next()).collect();
    for bit in 0..64 {
        let set = numbers
            .iter()
            .filter(|&&number| number >> bit & 1 == 1)
            .count();
        assert!((400..600).contains(&set), "bit {bit}");
    }
    let mut other = Rng::new(2);
    assert!((0..1_000).all(|i| other.next() != numbers[i]));
}

/// 10,000 small shapes.
#[rustfmt::skip] // One row on a line.
const SMALL: &[Row<Facts>] = &[
    ("op 0, function applications", |f| f.ops[0], 4_000),
    ("op 1, choices of terms", |f| f.ops[1], 2_000),
    ("op 2, equations", |f| f.ops[2], 3_000),
    ("op 3, not", |f| f.ops[3], 3_000),
    ("op 4, and", |f| f.ops[4], 1_000),
    ("op 5, or", |f| f.ops[5], 4_000),
    ("op 6, predicate applications", |f| f.ops[6], 2_000),
    ("op 7, true", |f| f.ops[7], 2_000),
    ("op 8, false", |f| f.ops[8], 2_000),
    ("op 9, choices of formulas", |f| f.ops[9], 1_000),
    ("functions of arity 0", |f| f.arities[0][0], 4_000),
    ("functions of arity 1", |f| f.arities[0][1], 700),
    ("functions of arity 2", |f| f.arities[0][2], 700),
    ("functions of arity 3", |f| f.arities[0][3], 800),
    ("predicates of arity 0", |f| f.arities[1][0], 600),
    ("predicates of arity 1", |f| f.arities[1][1], 500),
    ("predicates of arity 2", |f| f.arities[1][2], 500),
    ("predicates of arity 3", |f| f.arities[1][3], 500),
    ("repeats of functions", |f| f.repeat[0], 3_000),
    ("repeats of predicates", |f| f.repeat[1], 900),
    ("far repeats of functions", |f| f.far_repeat[0], 200),
    ("far repeats of predicates", |f| f.far_repeat[1], 80),
    ("all but repeats, operand 1", |f| f.near_repeat[0], 400),
    ("all but repeats, operand 2", |f| f.near_repeat[1], 100),
    ("all but repeats, operand 3", |f| f.near_repeat[2], 40),
    ("a function three times", |f| f.threefold[0], 200),
    ("a predicate three times", |f| f.threefold[1], 20),
    ("functions not reached", |f| f.unreached[0], 3_000),
    ("predicates not reached", |f| f.unreached[1], 1_000),
    ("functions whose earlier equals are not reached", |f| f.unreached_twin[0], 300),
    ("predicates whose earlier equals are not reached", |f| f.unreached_twin[1], 300),
    ("an earlier node equals the root", |f| f.root_repeats, 100),
    ("choices in equations", |f| f.equated_choice, 1_000),
    ("equations of a function and its arguments", |f| f.congruence[0], 300),
    ("equations of a function and some arguments", |f| f.congruence[1], 100),
    ("no applications", |f| f.distinct == [0, 0], 40),
    ("7 functions", |f| f.distinct[0] == 7, 10),
    ("3 predicates", |f| f.distinct[1] == 3, 80),
];

/// 2,000 large shapes.
#[rustfmt::skip] // One row on a line.
const LARGE: &[Row<Facts>] = &[
    ("op 1, choices of terms", |f| f.ops[1], 800),
    ("op 6, predicate applications", |f| f.ops[6], 800),
    ("op 9, choices of formulas", |f| f.ops[9], 700),
    ("functions of arity 3", |f| f.arities[0][3], 600),
    ("predicates of arity 3", |f| f.arities[1][3], 600),
    ("functions of arity 3 alone", |f| f.arities[0] == [true, false, false, true], 300),
    ("a function three times", |f| f.threefold[0], 700),
    ("a predicate three times", |f| f.threefold[1], 400),
    ("all but repeats, operand 3", |f| f.near_repeat[2], 90),
    ("far repeats of functions", |f| f.far_repeat[0], 500),
    ("far repeats of predicates", |f| f.far_repeat[1], 400),
    ("functions not reached", |f| f.unreached[0], 800),
    ("equations of a function and its arguments", |f| f.congruence[0], 500),
    ("equations of a function and some arguments", |f| f.congruence[1], 300),
    ("20 functions and more", |f| f.distinct[0] >= 20, 5),
    ("12 predicates and more", |f| f.distinct[1] >= 12, 20),
    ("tables up to 86 nodes", |f| f.table_nodes <= 86, 600),
    ("tables over 86 nodes", |f| f.table_nodes > 86, 700),
    ("tables over 500 nodes", |f| f.table_nodes > 500, 100),
];

fn expect_shapes(rows: &'static [Row<Facts>], count: usize, shape: fn(&mut Rng) -> Shape) {
    let mut rng = Rng::new(1);
    let mut tally = Tally::new(rows);
    for _ in 0..count {
        let shape = shape(&mut rng);
        let problem = generate::problem(&mut rng, shape).bytes();
        tally.add(&Facts::of(&problem, last_node(&problem)));
    }
    println!("{tally}");
    tally.expect_enough();
}

#[test]
fn small_shapes() {
    expect_shapes(SMALL, 10_000, Shape::small);
}

#[test]
fn large_shapes() {
    expect_shapes(LARGE, 2_000, Shape::large);
}

/// 4,800 draws.
#[rustfmt::skip] // One row on a line.
const LENGTHS: &[Row<Lengths>] = &[
    ("exact", |l| *l == Lengths::EXACT, 200),
    ("work, a byte short", |l| l.work + 1 == WORK_LEN, 90),
    ("work, shorter", |l| l.work > 0 && l.work + 1 < WORK_LEN, 80),
    ("work, empty", |l| l.work == 0, 90),
    ("work, a byte longer", |l| l.work == WORK_LEN + 1, 10),
    ("work, longer", |l| l.work > WORK_LEN + 1, 800),
    ("witness, a byte short", |l| l.witness + 1 == WITNESS_LEN, 100),
    ("witness, shorter", |l| l.witness > 0 && l.witness + 1 < WITNESS_LEN, 100),
    ("witness, empty", |l| l.witness == 0, 90),
    ("witness, a byte longer", |l| l.witness == WITNESS_LEN + 1, 20),
    ("witness, longer", |l| l.witness > WITNESS_LEN + 1, 800),
    ("work and witness short", |l| l.work < WORK_LEN && l.witness < WITNESS_LEN, 30),
    ("answer, a byte short", |l| l.answer + 1 == ANSWER_LEN, 90),
    ("answer, empty", |l| l.answer == 0, 70),
    ("answer, longer", |l| l.answer > ANSWER_LEN, 700),
];

#[test]
fn lengths() {
    let mut rng = Rng::new(1);
    let mut tally = Tally::new(LENGTHS);
    for _ in 0..4_800 {
        tally.add(&Lengths::any(&mut rng));
    }
    println!("{tally}");
    tally.expect_enough();
}

/// A group's name, how many of its cases are taken, and how many refused, by their numbers.
type Group = (&'static str, usize, &'static [(u8, usize)]);

/// A case that is dropped, or made twice in place of another, changes the counts.
#[test]
fn limits_on_both_sides() {
    let wanted: [Group; 9] = [
        ("counts", 4, &[(1, 1), (4, 3), (5, 3)]),
        ("symbols", 8, &[(6, 248)]),
        ("nodes", 2, &[(7, 260)]),
        ("fields", 16, &[(7, 256)]),
        ("applications", 3, &[(9, 3), (10, 2)]),
        ("products", 20, &[(13, 20)]),
        ("wrapped products", 0, &[(13, 30)]),
        ("arrays", 6, &[]),
        ("tables", 0, &[(13, 1)]),
    ];
    let groups = limits::groups();
    for ((name, cases), (wanted_name, taken, refused)) in groups.into_iter().zip(wanted) {
        assert_eq!(name, wanted_name);
        let apart: BTreeSet<_> = cases.iter().map(|(bytes, _)| bytes).collect();
        assert_eq!(apart.len(), cases.len(), "{name} has a case twice");
        let numbers = || {
            cases
                .iter()
                .map(|(_, refusal)| refusal.map(|(number, _)| number))
        };
        let by = |wanted| numbers().filter(|&number| number == wanted).count();
        assert_eq!(by(None), taken, "{name}");
        for &(number, count) in refused {
            assert_eq!(by(Some(number)), count, "{name}, refusal {number}");
        }
        let all: usize = refused.iter().map(|(_, count)| count).sum();
        assert_eq!(cases.len(), taken + all, "{name}");
    }
}
