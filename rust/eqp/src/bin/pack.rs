//! Makes a job file for the night run out of solver texts:
//!
//!     pack OUT.jobs FILE.smt2 [FILE.smt2 ..] [--budget N]
//!
//! The jobs stand in the order of the files. Where a text is refused nothing is written, and every
//! refused text has a line that says why. The status is 0 where the file was written, 1 where a
//! text is refused, 2 for wrong usage and for files that cannot be read or written.

use std::env;
use std::ffi::OsString;
use std::fs;
use std::path::{Path, PathBuf};
use std::process::ExitCode;

use eqp::host::read;
use eqp::jobs::Jobs;
use eqp::{Reading, PROBLEM_LEN};

/// The budget of every job, where none is given.
const BUDGET: u64 = 1_000_000_000;

const USAGE: &str = "usage: pack OUT.jobs FILE.smt2 [FILE.smt2 ..] [--budget N]";

/// What the command line asks for.
#[derive(Debug, PartialEq, Eq)]
struct Order {
    out: PathBuf,
    texts: Vec<PathBuf>,
    budget: u64,
}

fn main() -> ExitCode {
    let told = order(env::args_os().skip(1)).and_then(|order| pack(&order));
    match told {
        Ok(refused) if refused.is_empty() => ExitCode::SUCCESS,
        Ok(refused) => {
            refused.iter().for_each(|line| eprintln!("pack: {line}"));
            ExitCode::from(1)
        }
        Err(why) => {
            eprintln!("pack: {why}");
            ExitCode::from(2)
        }
    }
}

/// The order that these words give.
fn order(words: impl IntoIterator<Item = OsString>) -> Result<Order, String> {
    let mut words = words.into_iter();
    let (mut paths, mut budget) = (Vec::new(), BUDGET);
    while let Some(word) = words.next() {
        if word == "--budget" {
            let number = words
                .next()
                .and_then(|number| number.to_str()?.parse().ok());
            budget = number.ok_or("--budget wants a number from 0 to 18446744073709551615")?;
        } else {
            paths.push(PathBuf::from(word));
        }
    }
    if paths.len() < 2 {
        return Err(USAGE.to_string());
    }
    let texts = paths.split_off(1);
    let out = paths.remove(0);
    if out
        .extension()
        .map_or(false, |extension| extension == "smt2")
    {
        // The name of the job file was left out, and a text would be written over.
        return Err(format!(
            "{} is no name for a job file; {USAGE}",
            out.display()
        ));
    }
    Ok(Order { out, texts, budget })
}

/// Writes the job file, unless texts are refused: then gives a line for each.
fn pack(order: &Order) -> Result<Vec<String>, String> {
    let (mut jobs, mut refused) = (Jobs::new(), Vec::new());
    for path in &order.texts {
        let text = fs::read(path);
        let text = text.map_err(|why| format!("{} cannot be read: {why}", path.display()))?;
        let mut problem = [0; PROBLEM_LEN];
        match read(&text, &mut problem) {
            Reading::Read { length } => jobs.push(order.budget, &problem[..length]),
            Reading::Refused { number, place } => refused.push(line(path, &text, number, place)),
        }
    }
    if refused.is_empty() {
        let out = &order.out;
        let written = fs::write(out, jobs.bytes());
        written.map_err(|why| format!("{} cannot be written: {why}", out.display()))?;
    }
    Ok(refused)
}

/// What is said of a refused text.
fn line(path: &Path, text: &[u8], number: u8, place: u64) -> String {
    let path = path.display();
    let meaning = match number {
        4 => "it has over 32 symbols or over 256 nodes",
        9 => "it has over 24 distinct function applications",
        10 => "it has over 16 distinct predicate applications",
        14 if place == text.len() as u64 => "the text ends too early",
        14 => "no text of the subset goes on like this",
        15 => "this bracket opens level 65, and terms may nest to a depth of 64",
        _ => "the problem buffer is too short",
    };
    match number {
        14 | 15 => {
            let (line, column) = line_and_column(text, place);
            format!("{path}:{line}:{column}: refused {number}: {meaning}")
        }
        _ => format!("{path}: refused {number}: {meaning}"),
    }
}

/// Where a byte stands: lines end at line feeds, columns count bytes, and both count from 1.
fn line_and_column(text: &[u8], place: u64) -> (usize, usize) {
    let before = &text[..place as usize];
    let lines = before.iter().filter(|&&byte| byte == b'\n').count();
    let start = before.iter().rposition(|&byte| byte == b'\n');
    let column = before.len() - start.map_or(0, |feed| feed + 1);
    (lines + 1, column + 1)
}

#[cfg(test)]
mod tests {
    use super::*;

    fn words(words: &[&str]) -> Result<Order, String> {
        order(words.iter().map(OsString::from))
    }

    #[test]
    fn orders() {
        let wanted = |budget| Order {
            out: "o.jobs".into(),
            texts: vec!["a.smt2".into(), "b.smt2".into()],
            budget,
        };
        assert_eq!(words(&["o.jobs", "a.smt2", "b.smt2"]), Ok(wanted(BUDGET)));
        let first = ["--budget", "0", "o.jobs", "a.smt2", "b.smt2"];
        assert_eq!(words(&first), Ok(wanted(0)));
        let last = [
            "o.jobs",
            "a.smt2",
            "b.smt2",
            "--budget",
            "18446744073709551615",
        ];
        assert_eq!(words(&last), Ok(wanted(u64::MAX)));
    }

    #[test]
    fn wrong_orders() {
        let wrong: [&[&str]; 7] = [
            &[],
            &["o.jobs"],
            &["a.smt2", "b.smt2"],
            &["o.jobs", "a.smt2", "--budget"],
            &["o.jobs", "a.smt2", "--budget", "many"],
            &["o.jobs", "a.smt2", "--budget", "-1"],
            &["o.jobs", "a.smt2", "--budget", "18446744073709551616"],
        ];
        for order in wrong {
            assert!(words(order).is_err(), "{order:?}");
        }
    }

    #[test]
    fn lines_and_columns() {
        let text = b"ab\n\ncd";
        let places = [(1, 1), (1, 2), (1, 3), (2, 1), (3, 1), (3, 2), (3, 3)];
        for (place, wanted) in (0..).zip(places) {
            assert_eq!(line_and_column(text, place), wanted);
        }
        assert_eq!(line_and_column(b"", 0), (1, 1));
    }
}
