//! How the bench asks a solver: one process that reads a script.
//!
//! A solver that is not on the PATH is left out. One that does not do its part, or whose verdicts
//! are not ours, ends the bench.

use std::io::{ErrorKind, Write};
use std::process::{Command, Stdio};
use std::thread;
use std::time::Instant;

use eqp::problem::last_node;
use eqp::{smt, Answer};

/// A solver that may be installed.
pub struct Solver {
    pub name: &'static str,
    arguments: &'static [&'static str],
}

pub const Z3: Solver = Solver {
    name: "z3",
    arguments: &["-in"],
};

pub const CVC5: Solver = Solver {
    name: "cvc5",
    arguments: &["--lang", "smt2", "--incremental", "-"],
};

impl Solver {
    /// What it prints for a script, and the seconds it takes, the start of the process among
    /// them; `None` where it is not on the PATH.
    pub fn run(&self, script: Vec<u8>) -> Option<(String, f64)> {
        let name = self.name;
        let start = Instant::now();
        let spawned = Command::new(name)
            .args(self.arguments)
            .stdin(Stdio::piped())
            .stdout(Stdio::piped())
            .spawn();
        let mut child = match spawned {
            Err(error) if error.kind() == ErrorKind::NotFound => return None,
            Err(error) => panic!("{name} does not start: {error}"),
            Ok(child) => child,
        };
        let mut input = child.stdin.take().expect("its input is a pipe");
        let writer = thread::spawn(move || input.write_all(&script));
        let output = child.wait_with_output().expect("its output is a pipe");
        let time = start.elapsed().as_secs_f64();
        let written = writer.join().expect("the writer does not panic");
        if let Err(error) = written {
            panic!("{name} does not read its script: {error}");
        }
        let printed = String::from_utf8_lossy(&output.stdout).into_owned();
        Some((printed, time))
    }

    /// The seconds it takes for these problems, in one process; ends the bench where a verdict is
    /// not the wanted one.
    pub fn decide(&self, problems: &[Vec<u8>], wanted: &[&str]) -> Option<f64> {
        let mut script = String::from(smt::PREAMBLE);
        for problem in problems {
            let job = smt::job(problem, last_node(problem));
            script += &job.expect("a problem of the bench is accepted");
        }
        let (printed, time) = self.run(script.into_bytes())?;
        self.expect_verdicts(&printed, wanted);
        Some(time)
    }

    fn expect_verdicts(&self, printed: &str, wanted: &[&str]) {
        let name = self.name;
        let said: Vec<&str> = printed.lines().collect();
        for (number, (said, wanted)) in said.iter().zip(wanted).enumerate() {
            assert!(
                said == wanted,
                "{name} disagrees: it says {said} of problem {number}, not {wanted}"
            );
        }
        let (said, wanted) = (said.len(), wanted.len());
        assert!(
            said == wanted,
            "{name} disagrees: it prints {said} lines for {wanted} problems"
        );
    }

    /// What to say where there are no figures of it.
    pub fn absent(&self) -> String {
        format!("{} is not on the PATH", self.name)
    }
}

/// What a solver must say of the negation, by an answer.
pub fn verdict(answer: Answer) -> &'static str {
    match answer {
        Answer::Valid { .. } => "unsat",
        Answer::Falsified { .. } => "sat",
        other => panic!("a job for a solver is {other:?}"),
    }
}

#[cfg(test)]
mod tests {
    use super::*;

    const WANTED: &[&str] = &["unsat", "sat"];

    #[test]
    fn the_same_verdicts() {
        Z3.expect_verdicts("unsat\nsat\n", WANTED);
    }

    #[test]
    #[should_panic(expected = "z3 disagrees: it says unsat of problem 1, not sat")]
    fn another_verdict() {
        Z3.expect_verdicts("unsat\nunsat\n", WANTED);
    }

    #[test]
    #[should_panic(expected = "cvc5 disagrees: it prints 1 lines for 2 problems")]
    fn too_few_verdicts() {
        CVC5.expect_verdicts("unsat\n", WANTED);
    }

    #[test]
    #[should_panic(expected = "z3 disagrees: it prints 3 lines for 2 problems")]
    fn too_many_verdicts() {
        Z3.expect_verdicts("unsat\nsat\nsat\n", WANTED);
    }

    #[test]
    fn a_missing_solver() {
        let missing = Solver {
            name: "no such solver",
            arguments: &[],
        };
        assert!(missing.run(Vec::new()).is_none());
        assert_eq!(missing.absent(), "no such solver is not on the PATH");
    }
}
