//! Chains decided whole by the library and by solvers, and from where on a solver wins.

use std::ops::RangeInclusive;
use std::time::Instant;

use eqp::workloads::{self, Workload};
use eqp::{host, smt, Answer};

use crate::side::Side;
use crate::solver::{verdict, Solver, CVC5, Z3};
use crate::timing::{median, medians, repeats};

/// How many variables the chains have.
const VARIABLES: RangeInclusive<usize> = 6..=12;
/// A walk that would take more seconds than this is not done: its time is estimated.
const LONGEST: f64 = 6.0;
/// A walk that takes more seconds than this is timed once.
const LONG: f64 = 0.1;
/// How often a solver is timed; the median counts.
const RUNS: usize = 9;
const SOLVERS: [Solver; 2] = [Z3, CVC5];

/// What one chain takes, in seconds.
struct Row {
    variables: usize,
    library: f64,
    /// Whether the library's time is an estimate.
    estimated: bool,
    /// `None` where a solver is not installed.
    solvers: [Option<f64>; SOLVERS.len()],
}

/// Prints a line for each chain, and from where on a solver wins.
pub fn bench() {
    println!("chains decided whole, in ms; a solver is one process, and its start counts");
    println!("(on the first line it is all there is: a script without a chain):");
    line([
        "variables",
        "places",
        "library",
        Z3.name,
        CVC5.name,
        "first",
    ]);
    let starts = SOLVERS.map(|solver| solver_time(|| Some(solver.run(smt::PREAMBLE.into())?.1)));
    let [z3, cvc5] = starts.map(in_ms);
    line(["none", "", "", &z3, &cvc5, ""]);
    let mut rows: Vec<Row> = Vec::new();
    for variables in VARIABLES {
        let row = Row::new(variables, rows.last());
        row.print();
        rows.push(row);
    }
    for (solver, _) in SOLVERS.iter().zip(starts).filter(|(_, t)| t.is_none()) {
        println!("  {}", solver.absent());
    }
    match from(&rows) {
        Some(variables) => println!("a solver wins from {variables} variables on"),
        None if starts == [None; SOLVERS.len()] => {}
        None => println!("the library wins at the longest of them"),
    }
}

/// How many variables the first chain has from which on no chain is the library's.
fn from(rows: &[Row]) -> Option<usize> {
    let ours = rows.iter().rposition(|row| row.first() == "library");
    let row = rows.get(ours.map_or(0, |last| last + 1))?;
    Some(row.variables)
}

impl Row {
    fn new(variables: usize, before: Option<&Row>) -> Self {
        let chain = Workload {
            name: "chain",
            problem: workloads::chain(variables).bytes(),
            budget: u64::MAX,
        };
        // A chain with one variable more has that many times the places.
        let estimate = before.map_or(0.0, |before| before.library * variables as f64);
        let estimated = estimate > LONGEST;
        let valid = valid(variables);
        let problems = [chain.problem.clone()];
        Self {
            variables,
            library: if estimated {
                estimate
            } else {
                walked(&chain, valid)
            },
            estimated,
            solvers: SOLVERS
                .map(|solver| solver_time(|| solver.decide(&problems, &[verdict(valid)]))),
        }
    }

    /// Who takes the least time.
    fn first(&self) -> &'static str {
        let mut first = ("library", self.library);
        for (solver, time) in SOLVERS.iter().zip(self.solvers) {
            match time {
                Some(time) if time < first.1 => first = (solver.name, time),
                _ => {}
            }
        }
        first.0
    }

    fn print(&self) {
        let ms = self.library * 1e3;
        let library = match self.estimated {
            true => format!("about {ms:.0}"),
            false => format!("{ms:.3}"),
        };
        let [z3, cvc5] = self.solvers.map(in_ms);
        line([
            &self.variables.to_string(),
            &factorial(self.variables).to_string(),
            &library,
            &z3,
            &cvc5,
            self.first(),
        ]);
    }
}

fn line([variables, places, library, z3, cvc5, first]: [&str; 6]) {
    println!("  {variables:>9} {places:>10} {library:>15} {z3:>9} {cvc5:>9}  {first}");
}

fn in_ms(time: Option<f64>) -> String {
    time.map_or_else(|| "-".to_string(), |time| format!("{:.1}", time * 1e3))
}

fn factorial(count: usize) -> u64 {
    (1..=count as u64).product()
}

/// The answer for a chain that is walked whole. A chain is valid whatever its length, so a
/// solver is held to this also where the library's time is an estimate.
fn valid(variables: usize) -> Answer {
    let product = factorial(variables);
    Answer::Valid {
        tried: product,
        product,
    }
}

/// The library's seconds for a chain.
fn walked(chain: &Workload, valid: Answer) -> f64 {
    let mut library = Side::new(host::decide);
    let start = Instant::now();
    let answer = library.decide(chain.budget, &chain.problem);
    let once = start.elapsed();
    assert_eq!(answer, valid, "the library on a chain");
    if once.as_secs_f64() > LONG {
        return once.as_secs_f64();
    }
    let walks = repeats(once);
    let [time] = medians([&mut || library.time(chain, walks)]);
    time / walks as f64
}

/// The median of a solver's seconds; `None` where it is not installed.
fn solver_time(run: impl Fn() -> Option<f64>) -> Option<f64> {
    let times: Option<Vec<f64>> = (0..RUNS).map(|_| run()).collect();
    times.map(|times| median(&times))
}

#[cfg(test)]
mod tests {
    use super::*;

    fn row(variables: usize, library: f64, solvers: [Option<f64>; 2]) -> Row {
        Row {
            variables,
            library,
            estimated: false,
            solvers,
        }
    }

    #[test]
    fn who_is_first() {
        assert_eq!(row(6, 1.0, [None, None]).first(), "library");
        assert_eq!(row(6, 1.0, [Some(2.0), Some(1.5)]).first(), "library");
        assert_eq!(row(6, 3.0, [Some(2.0), None]).first(), "z3");
        assert_eq!(row(6, 3.0, [Some(2.0), Some(1.5)]).first(), "cvc5");
    }

    /// A chain that the library loses before one that it wins does not count.
    #[test]
    fn from_where_on() {
        let solvers = [Some(2.0), None];
        let rows = [(6, 3.0), (7, 1.0), (8, 4.0), (9, 5.0)];
        let rows = rows.map(|(variables, library)| row(variables, library, solvers));
        assert_eq!(from(&rows), Some(8));
        assert_eq!(from(&rows[..2]), None);
        assert_eq!(from(&rows[2..]), Some(8));
    }

    #[test]
    fn places() {
        assert_eq!([0, 1, 6, 12].map(factorial), [1, 1, 720, 479_001_600]);
    }
}
