//! `./night FILE`, as a rig calls it: what it prints, and the exit status that tells how the night went.

use std::env;
use std::ffi::OsStr;
use std::fs::{self, File};
use std::io::{self, Write};
use std::os::unix::fs::symlink;
use std::path::{Path, PathBuf};
use std::process::{self, Command, Output, Stdio};
use std::sync::{Mutex, PoisonError};

use eqp::jobs::Jobs;
use eqp::reference;
use eqp::samples::row;

const ALL_VALID: i32 = 0;
const ONE_FALSIFIED: i32 = 1;
const WRONG_USAGE: i32 = 2;
const ONE_OPEN: i32 = 3;
const NO_END: i32 = 4;
const NOT_BUILT: i32 = 5;

/// A row of document 01, with a budget.
type Job = (u64, usize);
const VALID: Job = (4, 4);
const FALSIFIED: Job = (2, 2);
const STOPPED: Job = (3, 4);

/// The command, and a directory of the test's own.
struct Fixture {
    command: PathBuf,
    directory: PathBuf,
}

/// One test at a time: each run asks the kit whether the program is still proved.
static TURN: Mutex<()> = Mutex::new(());

/// Runs a test; says a word instead where the night program has not been built.
fn with_fixture(name: &str, test: fn(&Fixture)) {
    let root = Path::new(env!("CARGO_MANIFEST_DIR")).join("../..");
    if !root.join("target/bin/night").exists() {
        let absent = "the night program is not there";
        assert!(env::var_os("CI").is_none(), "{absent}");
        // Straight to the error stream: what print macros write is kept back from passing tests.
        let _ = io::stderr().write_all(format!("skipped: {absent}\n").as_bytes());
        return;
    }
    let _turn = TURN.lock().unwrap_or_else(PoisonError::into_inner);
    let directory = env::temp_dir().join(format!("eqp-{name}-{}", process::id()));
    fs::create_dir_all(&directory).expect("a directory for this test");
    let command = fs::canonicalize(root.join("night")).expect("the command is there");
    test(&Fixture { command, directory });
}

impl Drop for Fixture {
    fn drop(&mut self) {
        let _ = fs::remove_dir_all(&self.directory);
    }
}

impl Fixture {
    fn file(&self, bytes: &[u8]) -> PathBuf {
        let path = self.directory.join("night.jobs");
        fs::write(&path, bytes).expect("a file for this test");
        path
    }

    fn run<S: AsRef<OsStr>>(&self, arguments: &[S]) -> Output {
        let output = Command::new(&self.command).args(arguments).output();
        output.expect("the command starts")
    }

    /// The command prints the run's lines and nothing else, and ends so.
    fn expect(&self, input: &[u8], status: i32) {
        let output = self.run(&[self.file(input)]);
        assert_eq!(output.stdout, reference::night(input));
        assert_eq!(output.status.code(), Some(status));
    }
}

fn night(rows: &[Job]) -> Jobs {
    let mut jobs = Jobs::new();
    for &(budget, number) in rows {
        jobs.push(budget, &row(number).bytes());
    }
    jobs
}

/// It prints nothing but one sentence, on the error stream, and ends so.
fn expect_sentence(output: &Output, words: &str, status: i32) {
    let sentence = String::from_utf8_lossy(&output.stderr);
    let says = sentence.starts_with("night: ") && sentence.contains(words);
    assert!(says && sentence.lines().count() == 1, "{sentence}");
    assert!(output.stdout.is_empty());
    assert_eq!(output.status.code(), Some(status), "{sentence}");
}

#[test]
fn status_tells_how_the_night_went() {
    with_fixture("status", |fixture| {
        let expect = |rows: &[Job], status| fixture.expect(night(rows).bytes(), status);
        expect(&[], ALL_VALID);
        expect(&[VALID, VALID], ALL_VALID);
        expect(&[VALID, FALSIFIED], ONE_FALSIFIED);
        expect(&[FALSIFIED, STOPPED], ONE_FALSIFIED);
        expect(&[VALID, STOPPED, VALID], ONE_OPEN);
        let mut refused = night(&[VALID]);
        refused.push(5, &[]);
        fixture.expect(refused.bytes(), ONE_OPEN);
        refused.push(FALSIFIED.0, &row(FALSIFIED.1).bytes());
        fixture.expect(refused.bytes(), ONE_FALSIFIED);
    });
}

/// A night that is cut has no END, whatever its jobs are.
#[test]
fn cut_nights_have_a_status_of_their_own() {
    with_fixture("cut", |fixture| {
        for job in [VALID, FALSIFIED, STOPPED] {
            let jobs = night(&[job, VALID]);
            let (_, cut) = jobs.bytes().split_last().expect("some bytes");
            fixture.expect(cut, NO_END);
        }
    });
}

#[test]
fn lost_output_is_told() {
    with_fixture("lost", |fixture| {
        let full = File::options().write(true).open("/dev/full");
        let ended = Command::new(&fixture.command)
            .arg(fixture.file(night(&[VALID]).bytes()))
            .stdout(full.expect("a device on which no byte can be written"))
            .stderr(Stdio::null())
            .status();
        assert_eq!(ended.expect("the command starts").code(), Some(NO_END));
    });
}

#[test]
fn wrong_usage_is_a_sentence() {
    with_fixture("usage", |fixture| {
        let absent = fixture.directory.join("absent.jobs");
        let expect = |arguments: &[&OsStr], words| {
            expect_sentence(&fixture.run(arguments), words, WRONG_USAGE);
        };
        expect(&[], "usage");
        expect(&[OsStr::new("one"), OsStr::new("two")], "usage");
        expect(&[absent.as_os_str()], "there is no file");
        expect(&[fixture.directory.as_os_str()], "is a directory");
    });
}

/// The command may be called through a link, from anywhere.
#[test]
fn links_are_followed() {
    with_fixture("link", |fixture| {
        let link = fixture.directory.join("overnight");
        symlink(&fixture.command, &link).expect("a link for this test");
        let file = fixture.file(night(&[VALID]).bytes());
        let ended = Command::new(link).arg(file).stdout(Stdio::null()).status();
        assert_eq!(ended.expect("the link starts").code(), Some(ALL_VALID));
    });
}

/// Where the kit's command is missing, one sentence says so: here the PATH has some usual tools and nothing else.
#[test]
fn missing_kit_is_told() {
    with_fixture("kit", |fixture| {
        for tool in ["bash", "dirname", "readlink", "mktemp", "rm"] {
            let found = ["/bin", "/usr/bin"].map(|folder| Path::new(folder).join(tool));
            let found = found.into_iter().find(|path| path.exists());
            let link = fixture.directory.join(tool);
            symlink(found.expect("a usual tool"), link).expect("a link for this test");
        }
        let output = Command::new("bash")
            .arg(&fixture.command)
            .arg(fixture.file(night(&[VALID]).bytes()))
            .env("PATH", &fixture.directory)
            .output();
        expect_sentence(&output.expect("bash starts"), "rt,", NOT_BUILT);
    });
}
