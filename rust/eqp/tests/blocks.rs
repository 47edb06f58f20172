//! The walk goes in blocks: a false place in every lane of every block, and budgets at the edges
//! of blocks.

mod compared;
mod made;

use compared::both::{call, expect, falsified, stopped, BOTH};
use eqp::problem::{Formula, Problem};
use eqp::samples::variables;
use eqp::workloads;

/// A formula over so many truth variables that is false at this place alone: the first truth
/// variable moves fastest, so they are the binary digits of the place less 1.
fn false_at(place: u64, truths: usize) -> Problem {
    let mut p = Problem::new();
    let tests: Vec<Formula> = (0..truths)
        .map(|i| {
            let q = p.predicate(&format!("q{i}"), 0);
            p.test(q, &[])
        })
        .collect();
    let mut differs = p.no();
    for (i, test) in tests.into_iter().enumerate() {
        let other = if (place - 1) >> i & 1 == 1 {
            p.not(test)
        } else {
            test
        };
        differs = p.or(differs, other);
    }
    p
}

/// Ten truth variables have 1,024 places, in eight blocks of 128 lanes.
#[test]
fn every_lane_of_every_block() {
    for place in 1..=1024 {
        let problem = false_at(place, 10);
        expect(&problem, u64::MAX, falsified(place, 1024, 10));
        expect(&problem, place, falsified(place, 1024, 10));
        expect(&problem, place - 1, stopped(place - 1, 1024));
    }
}

/// Seven variables in one component have the sizes 1 to 7, so a block has 120 places. All are
/// equal at place 1, and no two at the last one, where each has its highest value.
#[test]
fn last_lane_of_the_last_block() {
    let mut p = Problem::new();
    let x = variables(&mut p, "x", 7);
    let mut equal_somewhere = p.no();
    for i in 0..7 {
        for j in 0..i {
            let equation = p.equal(x[i], x[j]);
            equal_somewhere = p.or(equal_somewhere, equation);
        }
    }
    expect(&p, u64::MAX, falsified(5040, 5040, 7));
    expect(&p, 5039, stopped(5039, 5040));
}

/// The whole outcome, buffers too, is the reference's at budgets around the edges of blocks of
/// every size that a table may have.
#[test]
fn budgets_at_the_edges() {
    let edges = [16, 24, 32, 48, 64, 72, 96, 120, 128, 240, 720, 1_024, 5_000];
    for table in workloads::tables() {
        for budget in edges.into_iter().flat_map(|edge| edge - 1..=edge + 1) {
            let [library, reference] = BOTH.map(|(_, decide)| call(decide, budget, &table.problem));
            let name = table.name;
            assert_eq!(library.answer, reference.answer, "{name}, budget {budget}");
            assert_eq!(library.work, reference.work, "{name}, budget {budget}");
            assert_eq!(
                library.witness, reference.witness,
                "{name}, budget {budget}"
            );
        }
    }
}
