//! Solvers that may be installed: what they print, and what they must say.

use std::env;
use std::io::{self, Write};
use std::process::{Command, Stdio};
use std::thread;

use eqp::Answer;

use super::both::{call_at, BOTH};

/// What a solver must say of a root, as both the library and the reference decide.
pub fn verdict(problem: &[u8], root: usize) -> &'static str {
    let decide = |(_, decide)| call_at(decide, u64::MAX, root, problem).answer;
    let [library, reference] = BOTH.map(decide);
    assert_eq!(library, reference);
    match library {
        Answer::Valid { .. } => "unsat",
        Answer::Falsified { .. } => "sat",
        other => panic!("{other:?} for root {root} of {problem:?}"),
    }
}

/// Whether a directory of the PATH has this program.
pub fn is_on_path(program: &str) -> bool {
    let path = env::var_os("PATH").unwrap_or_default();
    env::split_paths(&path).any(|directory| directory.join(program).is_file())
}

/// What a solver prints for a script.
pub fn run(solver: &str, arguments: &[&str], script: &[u8]) -> io::Result<String> {
    let mut child = Command::new(solver)
        .args(arguments)
        .stdin(Stdio::piped())
        .stdout(Stdio::piped())
        .spawn()?;
    let mut stdin = child.stdin.take().expect("its input is a pipe");
    let output = thread::scope(|scope| {
        scope.spawn(move || stdin.write_all(script));
        child.wait_with_output()
    })?;
    Ok(String::from_utf8_lossy(&output.stdout).into_owned())
}
