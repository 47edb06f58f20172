//! `pack`, as it is called: the job file that it makes, and what it says where it makes none.

use std::path::{Path, PathBuf};
use std::process::{self, Command, Output};
use std::{env, fs};

use eqp::jobs::Jobs;
use eqp::reference;

const HEAD: &str = "(set-logic QF_UF)\n(declare-sort U 0)\n";

/// Unsat after 4 places.
const UNSAT: &str = "(declare-fun x () U)(declare-fun y () U)(declare-fun f (U) U)\n\
    (assert (= x y))\n(assert (not (= (f x) (f y))))\n(check-sat)\n";
/// Sat at the second place.
const SAT: &str = "(declare-fun p () Bool)\n(assert p)\n(check-sat)\n";

/// A directory of the test's own.
struct Folder(PathBuf);

impl Folder {
    fn new(name: &str) -> Self {
        let path = env::temp_dir().join(format!("eqp-pack-{name}-{}", process::id()));
        fs::create_dir_all(&path).expect("a directory for this test");
        Self(path)
    }

    /// Writes a text after the usual head, and gives its path.
    fn text(&self, name: &str, commands: &str) -> PathBuf {
        let path = self.0.join(name);
        fs::write(&path, [HEAD, commands].concat()).expect("a file for this test");
        path
    }

    fn out(&self) -> PathBuf {
        self.0.join("night.jobs")
    }

    /// Packs these texts.
    fn pack(&self, texts: &[&Path], more: &[&str]) -> Output {
        let mut command = Command::new(env!("CARGO_BIN_EXE_pack"));
        command.arg(self.out()).args(texts).args(more);
        command.output().expect("pack starts")
    }
}

impl Drop for Folder {
    fn drop(&mut self) {
        let _ = fs::remove_dir_all(&self.0);
    }
}

/// It says one line on the error stream, with these words, and ends so.
fn expect_line(output: &Output, words: &str, status: i32) {
    let line = String::from_utf8_lossy(&output.stderr);
    let says = line.starts_with("pack: ") && line.contains(words);
    assert!(says && line.lines().count() == 1, "{line}");
    assert!(output.stdout.is_empty());
    assert_eq!(output.status.code(), Some(status), "{line}");
}

/// p, and its negation: the problem of the text that is sat.
const SAT_PROBLEM: [u8; 25] = [
    b'E', b'Q', b'P', 1, 0, 1, 2, 0, 16, //
    6, 0, 0, 0, 0, 0, 0, 0, //
    3, 0, 0, 0, 0, 0, 0, 0,
];

#[test]
fn jobs_in_order() {
    let folder = Folder::new("order");
    let (unsat, sat) = (folder.text("a.smt2", UNSAT), folder.text("b.smt2", SAT));
    let output = folder.pack(&[&unsat, &sat, &unsat], &[]);
    assert!(output.status.success() && output.stderr.is_empty());
    let file = fs::read(folder.out()).expect("the job file");
    let lines = "EQP NIGHT 1\nJOB 1 VALID 4 4\nJOB 2 FALSIFIED 2 2\nJOB 3 VALID 4 4\nEND 3\n";
    assert_eq!(String::from_utf8_lossy(&reference::night(&file)), lines);
}

#[test]
fn budgets() {
    let folder = Folder::new("budget");
    let sat = folder.text("a.smt2", SAT);
    for (more, budget) in [(&[][..], 1_000_000_000), (&["--budget", "1"], 1)] {
        assert!(folder.pack(&[&sat], more).status.success());
        let mut wanted = Jobs::new();
        wanted.push(budget, &SAT_PROBLEM);
        let file = fs::read(folder.out()).expect("the job file");
        assert_eq!(file, wanted.bytes());
    }
}

/// A refused text keeps all others back, and a job file that is there stays.
#[test]
fn refused_texts() {
    let folder = Folder::new("refused");
    let sat = folder.text("a.smt2", SAT);
    let deep = format!("(assert\n {}", "(not ".repeat(65));
    let many: String = (0..33)
        .map(|i| format!("(declare-fun x{i} () U)"))
        .collect();
    let cases = [
        ("(assert\n  (and true))", ":4:12: refused 14: no text"),
        (
            "(assert true)\n",
            ":4:1: refused 14: the text ends too early",
        ),
        (&deep, ":4:322: refused 15: this bracket"),
        (
            &[&many, "(check-sat)"].concat(),
            ": refused 4: it has over 32",
        ),
    ];
    for (commands, words) in cases {
        let bad = folder.text("bad.smt2", commands);
        let words = format!("{}{words}", bad.display());
        expect_line(&folder.pack(&[&sat, &bad, &sat], &[]), &words, 1);
        assert!(!folder.out().exists());
    }
    fs::write(folder.out(), "before").expect("a file for this test");
    let bad = folder.0.join("bad.smt2");
    let output = folder.pack(&[&bad, &sat, &bad], &[]);
    assert_eq!(String::from_utf8_lossy(&output.stderr).lines().count(), 2);
    let file = fs::read(folder.out()).expect("the file of before");
    assert_eq!(file, b"before");
}

#[test]
fn wrong_usage() {
    let folder = Folder::new("usage");
    let sat = folder.text("a.smt2", SAT);
    expect_line(&folder.pack(&[], &[]), "usage: pack OUT.jobs", 2);
    expect_line(
        &folder.pack(&[&sat], &["--budget", "x"]),
        "--budget wants",
        2,
    );
    let absent = folder.0.join("absent.smt2");
    expect_line(
        &folder.pack(&[&sat, &absent], &[]),
        "absent.smt2 cannot be read",
        2,
    );
    assert!(!folder.out().exists());
    fs::create_dir(folder.out()).expect("a directory in the file's place");
    expect_line(
        &folder.pack(&[&sat], &[]),
        "night.jobs cannot be written",
        2,
    );
}
