//! The program solve: the examples' lines, and what it prints for generated texts, held to what the
//! reference reads and decides.

mod compared;
mod made;

use std::env;
use std::fs;
use std::path::{Path, PathBuf};
use std::process::{self, Command};

use eqp::problem::last_node;
use eqp::{reference, Answer, Reading, PROBLEM_LEN, WITNESS_LEN, WORK_LEN};
use made::rng::Rng;
use made::text;

/// How many texts are made, and how many come up at least that are refused, unsat, unknown and sat.
const TEXTS: usize = 600;
const FLOORS: [usize; 4] = [120, 45, 6, 55];
const BUDGET: u64 = 2_000;

fn root() -> PathBuf {
    Path::new(env!("CARGO_MANIFEST_DIR")).join("../..")
}

/// Whether the program has been built; in the gate it must have been.
fn built() -> bool {
    let built = root().join("target/bin/solve").exists();
    assert!(built || env::var_os("CI").is_none(), "solve is not there");
    built
}

fn solve(file: &Path, budget: u64) -> String {
    let mut command = Command::new(root().join(".ci/start"));
    let command = command.arg("solve").arg(file).arg(budget.to_string());
    let output = command.output().expect("solve starts");
    String::from_utf8_lossy(&output.stdout).into_owned()
}

/// The words of a refusal, as docs/TEXT.md has the conditions.
fn meaning(number: u8) -> &'static str {
    match number {
        4 => "over 32 symbols, or over 256 nodes",
        9 => "over 24 different applications of functions",
        10 => "over 16 different applications of predicates",
        13 => "over 10^18 places to try",
        14 => "the text cannot go on so",
        15 => "over 64 brackets of a term are open",
        _ => panic!("a text is not refused with {number}"),
    }
}

fn error(text: &[u8], number: u8, place: u64) -> String {
    let mut standing = String::new();
    if number == 14 || number == 15 {
        let before = &text[..place as usize];
        let line = 1 + before.iter().filter(|&&byte| byte == b'\n').count();
        let column = 1 + before.iter().rev().take_while(|&&b| b != b'\n').count();
        standing = format!(", line {line}, column {column}");
    }
    let meaning = meaning(number);
    format!("(error \"refusal {number}: {meaning}{standing}\")\n")
}

/// The tokens of a text of the subset, each as it is written.
fn tokens(text: &[u8]) -> Vec<&[u8]> {
    let mut tokens = Vec::new();
    let mut at = 0;
    while at < text.len() {
        let rest = &text[at..];
        let until = |stop: &[u8]| rest.iter().position(|byte| stop.contains(byte));
        let length = match rest[0] {
            b' ' | b'\t' | b'\r' | b'\n' | b'(' | b')' => 1,
            b';' => until(b"\r\n").unwrap_or(rest.len()),
            b'|' => 2 + rest[1..].iter().position(|&b| b == b'|').expect("a bar"),
            _ => until(b" \t\r\n();|").unwrap_or(rest.len()),
        };
        if !b" \t\r\n;".contains(&rest[0]) {
            tokens.push(&rest[..length]);
        }
        at += length;
    }
    tokens
}

/// The tables of a witness, by the names of the text.
fn tables(text: &[u8], problem: &[u8], witness: &[u8]) -> String {
    let tokens = tokens(text);
    let declared = |pair: &&[&[u8]]| pair[0] == b"declare-fun";
    let names: Vec<_> = tokens.windows(2).filter(declared).map(|p| p[1]).collect();
    let mut lines = String::new();
    for row in witness[6..].chunks(5) {
        let symbol = usize::from(row[0]);
        let byte = problem[8 + symbol];
        let arguments: Vec<_> = row[1..4].iter().map(u8::to_string).collect();
        let arguments = match usize::from(byte % 16) {
            0 => String::new(),
            arity => format!("({})", arguments[..arity].join(", ")),
        };
        let value = match (byte < 16, row[4]) {
            (true, value) => value.to_string(),
            (false, value) => (value == 1).to_string(),
        };
        let name = String::from_utf8_lossy(names[symbol]);
        lines += &format!("; {name}{arguments} = {value}\n");
    }
    lines
}

/// What solve is to print, and which of the four answers it is.
fn wanted(text: &[u8]) -> (usize, String) {
    let mut problem = [0; PROBLEM_LEN];
    let length = match reference::read(text, &mut problem) {
        Reading::Read { length } => length,
        Reading::Refused { number, place } => return (0, error(text, number, place)),
    };
    let (mut work, mut witness) = ([0; WORK_LEN], [0; WITNESS_LEN]);
    let problem = &problem[..length];
    match reference::decide(BUDGET, last_node(problem), problem, &mut work, &mut witness) {
        Answer::Refused { number, .. } => (0, error(text, number, 0)),
        Answer::Valid { .. } => (1, String::from("unsat\n")),
        Answer::Stopped { tried, product } => {
            (2, format!("unknown\n; tried {tried} of {product}\n"))
        }
        Answer::Falsified { witness_len, .. } => {
            let tables = tables(text, problem, &witness[..witness_len]);
            (3, format!("sat\n{tables}"))
        }
    }
}

#[test]
fn generated_texts() {
    if !built() {
        return;
    }
    let file = env::temp_dir().join(format!("eqp-solve-{}.smt2", process::id()));
    let mut rng = Rng::new(0x5017e);
    let mut counts = [0; 4];
    for _ in 0..TEXTS {
        let text = text::any(&mut rng);
        let (answer, lines) = wanted(&text);
        counts[answer] += 1;
        fs::write(&file, &text).expect("the text is written");
        let shown = String::from_utf8_lossy(&text);
        assert_eq!(solve(&file, BUDGET), lines, "{shown}");
    }
    let _ = fs::remove_file(&file);
    for (count, floor) in counts.iter().zip(FLOORS) {
        assert!(*count >= floor, "{counts:?}");
    }
}

/// examples/README.md has what the texts print.
#[test]
fn example_texts() {
    if !built() {
        return;
    }
    let readme = fs::read_to_string(root().join("examples/README.md")).expect("it is there");
    let shown = |lines: &str| readme.contains(&lines.replace('\n', "\n    "));
    let lines = |name: &str| solve(&root().join("examples").join(name), 1_000_000_000);
    let late = lines("late-tap.smt2");
    assert!(
        late.starts_with("sat\n; ") && shown(late.trim_end()),
        "{late}"
    );
    assert_eq!(lines("bypass-switch.smt2"), "unsat\n");
    let shared = "(error \"refusal 14: the text cannot go on so, line 13, column 10\")\n";
    assert_eq!(lines("shared-tap.smt2"), shared);
}
