//! The verdicts against z3 and cvc5, where they are installed: valid must be unsat, falsified sat
//! for the formula's negation.

mod compared;
mod counted;
mod made;

use compared::notice::notice;
use compared::solver::{is_on_path, run, verdict};
use counted::facts::Facts;
use counted::tally::{Row, Tally};
use eqp::problem::{last_node, Problem};
use eqp::samples::{ackermann, inlined_tap, late_tap, row};
use eqp::smt;
use made::generate::{self, Shape};
use made::rng::Rng;
use made::roots;

/// How many problems are generated.
const PROBLEMS: usize = 600;
/// No walk is longer than this.
const MOST_PLACES: u128 = 50_000;

/// A problem, and the root to ask.
type Asked = (Vec<u8>, usize);

/// A problem, asked for its last node.
fn asked_last(problem: Problem) -> Asked {
    let bytes = problem.bytes();
    let root = last_node(&bytes);
    (bytes, root)
}

/// Document 01's rows, document 004's example, the feedback patches, and roots of generated
/// problems whose walks are short.
fn problems() -> Vec<Asked> {
    let rows = (1..=12).map(row);
    let others = [ackermann(), late_tap(), inlined_tap()];
    let mut problems: Vec<_> = rows.chain(others).map(asked_last).collect();
    let mut rng = Rng::new(7);
    while problems.len() < 15 + PROBLEMS {
        let shape = Shape {
            nodes: rng.within(5, 60),
            functions: rng.within(2, 8),
            predicates: rng.below(5),
            dense: rng.once_in(10),
        };
        let problem = generate::problem(&mut rng, shape).bytes();
        let root = roots::formula(&mut rng, &problem);
        if Facts::of(&problem, root).most_places() <= MOST_PLACES {
            problems.push((problem, root));
        }
    }
    problems
}

/// A generated problem, and what a solver says of it.
type Said = (Facts, &'static str);

#[rustfmt::skip] // One row on a line.
const SAID: &[Row<Said>] = &[
    ("unsat, with functions", |(f, said)| *said == "unsat" && f.has_arguments(0), 90),
    ("unsat, with predicates", |(f, said)| *said == "unsat" && f.has_arguments(1), 60),
    ("sat, with functions", |(f, said)| *said == "sat" && f.has_arguments(0), 80),
    ("sat, with predicates", |(f, said)| *said == "sat" && f.has_arguments(1), 60),
    ("unsat, with choices", |(f, said)| *said == "unsat" && f.ops[1] && f.ops[9], 60),
    ("sat, with choices", |(f, said)| *said == "sat" && f.ops[1] && f.ops[9], 35),
];

/// Holds all verdicts against a solver's; says a word where it is not on the PATH.
fn expect_agreement(solver: &str, arguments: &[&str]) {
    if !is_on_path(solver) {
        return notice(&format!("skipped: {solver} is not on the PATH"));
    }
    let problems = problems();
    let mut script = String::from(smt::PREAMBLE);
    for (problem, root) in &problems {
        script += &smt::job(problem, *root).expect("an accepted problem");
    }
    let printed = run(solver, arguments, script.as_bytes()).expect("the solver runs");
    expect_said(solver, &problems, &printed);
}

/// A solver must print one line for each problem, and the right one.
fn expect_said(solver: &str, problems: &[Asked], printed: &str) {
    let said: Vec<&str> = printed.lines().collect();
    assert_eq!(said.len(), problems.len(), "{solver} prints {printed}");
    for ((problem, root), said) in problems.iter().zip(said) {
        let wanted = verdict(problem, *root);
        assert_eq!(said, wanted, "{solver} on root {root} of {problem:?}");
    }
}

/// Rows 1 and 2 are valid and falsified.
fn expect_two_rows(printed: &str) {
    expect_said("a solver", &[row(1), row(2)].map(asked_last), printed);
}

/// The night program is started by bash, so that is on the PATH where these tests run.
#[test]
fn programs_on_the_path() {
    assert!(is_on_path("bash"));
    assert!(!is_on_path("no such solver"));
}

#[test]
fn two_verdicts() {
    expect_two_rows("unsat\nsat\n");
}

#[test]
#[should_panic(expected = "a solver on")]
fn a_wrong_verdict() {
    expect_two_rows("unsat\nunsat\n");
}

#[test]
#[should_panic(expected = "a solver on")]
fn another_wrong_verdict() {
    expect_two_rows("sat\nsat\n");
}

#[test]
#[should_panic(expected = "a solver prints")]
fn too_few_verdicts() {
    expect_two_rows("unsat\n");
}

#[test]
fn z3() {
    expect_agreement("z3", &["-in"]);
}

#[test]
fn cvc5() {
    expect_agreement("cvc5", &["--lang", "smt2", "--incremental", "-"]);
}

#[test]
fn enough_of_each_verdict() {
    let mut tally = Tally::new(SAID);
    for (problem, root) in &problems() {
        tally.add(&(Facts::of(problem, *root), verdict(problem, *root)));
    }
    println!("{tally}");
    tally.expect_enough();
}
