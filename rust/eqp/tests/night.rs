//! The night run: document 01's sample, and the proved program against the reference.

mod compared;
mod counted;
mod made;

use std::env;
use std::io::Write;
use std::path::{Path, PathBuf};
use std::process::{Command, Stdio};
use std::thread;

use compared::notice::notice;
use counted::facts::Facts;
use counted::lines::{Line, ENDS, LINES};
use counted::tally::Tally;
use eqp::jobs::Jobs;
use eqp::problem::{last_node, Problem};
use eqp::reference;
use eqp::samples::{self, row, variables};
use made::budgets::WIDE;
use made::generate::{self, Shape};
use made::rng::Rng;
use made::{refuse, roots};

/// How many jobs the stream has.
const JOBS: usize = 10_000;
/// At how many places it is cut.
const WHOLE_CUTS: usize = 2;
/// How many parts of it are cut, and how many jobs a part has.
const CUTS: usize = 60;
const WINDOW: usize = 80;

/// The lines of document 01.
const SAMPLE: &str = "EQP NIGHT 1\n\
    JOB 1 FALSIFIED 2 2\n\
    JOB 2 STOPPED 3 4\n\
    JOB 3 VALID 4 4\n\
    JOB 4 REFUSED 1 0\n\
    END 4\n";

fn text(lines: &[u8]) -> String {
    String::from_utf8_lossy(lines).into_owned()
}

/// The sample cut everywhere. It has jobs of 10 + 34, 10 + 75, 10 + 75 and 10 bytes, and ends
/// after each of them and nowhere else.
fn expect_cut_sample(night: impl Fn(&[u8]) -> Vec<u8>) {
    let jobs = samples::sample_night();
    let ends = [0, 44, 129, 214, 224];
    assert_eq!(jobs.bytes().len(), 224);
    for length in 0..=224 {
        let whole = ends.iter().filter(|&&end| end <= length).count() - 1;
        let word = if ends.contains(&length) { "END" } else { "CUT" };
        let first: Vec<_> = SAMPLE.lines().take(1 + whole).collect();
        let wanted = format!("{}\n{word} {whole}\n", first.join("\n"));
        assert_eq!(text(&night(&jobs.bytes()[..length])), wanted);
    }
}

/// A job's budget and problem, and its line after the number.
type Job = (u64, Vec<u8>, &'static str);

/// Jobs whose numbers use all their bytes or digits, and their lines: budgets that are ample while
/// their low bits are not, the product of nineteen variables, a place of three digits, the longest
/// job.
fn long_numbers() -> Vec<Job> {
    let mut jobs = Vec::new();
    for budget in WIDE {
        jobs.push((budget, row(4).bytes(), "VALID 4 4"));
        jobs.push((budget, row(6).bytes(), "FALSIFIED 4 4"));
    }
    let mut nineteen = Problem::new();
    let x = variables(&mut nineteen, "x", 19);
    let mut root = nineteen.no();
    for pair in x.windows(2) {
        let equation = nineteen.equal(pair[0], pair[1]);
        root = nineteen.or(root, equation);
    }
    let nineteen = nineteen.bytes();
    jobs.push((0, nineteen.clone(), "STOPPED 0 121645100408832000"));
    jobs.push((300, nineteen, "STOPPED 300 121645100408832000"));
    let mut truths = Problem::new();
    for _ in 0..256 {
        truths.yes();
    }
    let mut truths = truths.bytes();
    jobs.push((1, truths.clone(), "VALID 1 1"));
    truths[8 + 8 * 255] = 10;
    jobs.push((1, truths, "REFUSED 7 255"));
    jobs.push((1, vec![b'E'; 65_535], "REFUSED 2 0"));
    jobs
}

/// Tables whose last node is one of several formulas, or a term. Document 02's two departments
/// with 3 and with 7 nodes: x = y, then f(z) = f(x); with 6 nodes f(x) comes last. A header alone,
/// with no nodes and with one.
fn last_nodes() -> Vec<Job> {
    let two = samples::two_departments().bytes();
    vec![
        (9, roots::cut(&two, 3), "FALSIFIED 2 2"),
        (9, two.clone(), "FALSIFIED 4 4"),
        (9, roots::cut(&two, 6), "REFUSED 16 0"),
        (9, roots::cut(&two, 1), "REFUSED 16 0"),
        (9, b"EQP\x01\x00\x00\x00\x00".to_vec(), "REFUSED 4 0"),
        (9, b"EQP\x01\x00\x00\x01\x00".to_vec(), "REFUSED 5 0"),
    ]
}

fn expect_worked_lines(night: impl Fn(&[u8]) -> Vec<u8>) {
    let mut jobs = Jobs::new();
    let mut wanted = String::from("EQP NIGHT 1\n");
    let all = [long_numbers(), last_nodes()].concat();
    for (number, (budget, problem, line)) in (1..).zip(&all) {
        jobs.push(*budget, problem);
        wanted += &format!("JOB {number} {line}\n");
    }
    wanted += &format!("END {}\n", all.len());
    assert_eq!(text(&night(jobs.bytes())), wanted);
}

#[test]
fn sample_by_the_reference() {
    let lines = reference::night(samples::sample_night().bytes());
    assert_eq!(text(&lines), SAMPLE);
    expect_cut_sample(reference::night);
    expect_worked_lines(reference::night);
}

/// What starts the proved program; `None`, and a word about it, where that has not been made.
fn starter() -> Option<PathBuf> {
    let root = Path::new(env!("CARGO_MANIFEST_DIR")).join("../..");
    let program = root.join("target/bin/night");
    if program.exists() {
        return Some(root.join(".ci/start"));
    }
    let absent = format!("{} is not there", program.display());
    assert!(env::var_os("CI").is_none(), "{absent}");
    notice(&format!("skipped: {absent}"));
    None
}

/// What the program prints for an input.
fn run(starter: &Path, input: &[u8]) -> Vec<u8> {
    let mut child = Command::new(starter)
        .arg("night")
        .stdin(Stdio::piped())
        .stdout(Stdio::piped())
        .spawn()
        .expect("the night program starts");
    let mut stdin = child.stdin.take().expect("its input is a pipe");
    let output = thread::scope(|scope| {
        scope.spawn(move || stdin.write_all(input));
        child.wait_with_output().expect("its output can be read")
    });
    let ended = output.status.code();
    assert!(ended.is_some(), "the night program was killed: {output:?}");
    output.stdout
}

/// The lines that both print for an input.
fn expect_same(starter: &Path, input: &[u8]) -> Vec<String> {
    expect_lines(&reference::night(input), &run(starter, input))
}

/// The lines, which must be the same to the last byte.
fn expect_lines(wanted: &[u8], printed: &[u8]) -> Vec<String> {
    let lines = |all: &[u8]| -> Vec<String> { text(all).lines().map(str::to_owned).collect() };
    if wanted != printed {
        let (wanted, printed) = (lines(wanted), lines(printed));
        let same = wanted.iter().zip(&printed).take_while(|(a, b)| a == b);
        let line = same.count();
        panic!(
            "line {line}: the reference prints {:?}, the program {:?}",
            wanted.get(line),
            printed.get(line)
        );
    }
    lines(printed)
}

#[test]
#[should_panic(
    expected = "line 1: the reference prints Some(\"END 0\"), the program Some(\"END 1\")"
)]
fn another_line() {
    expect_lines(b"EQP NIGHT 1\nEND 0\n", b"EQP NIGHT 1\nEND 1\n");
}

#[test]
#[should_panic(expected = "line 2: the reference prints None, the program None")]
fn no_line_feed() {
    expect_lines(b"EQP NIGHT 1\nEND 0\n", b"EQP NIGHT 1\nEND 0");
}

/// A problem, and a budget: a wide one only where no walk can be long, whatever the verdict.
fn job(rng: &mut Rng) -> (u64, Vec<u8>) {
    let shape = match rng.below(20) {
        0 => Shape::large(rng),
        _ => Shape::small(rng),
    };
    let whole = generate::problem(rng, shape).bytes();
    let short = Facts::of(&whole, last_node(&whole)).most_places() <= 5_040;
    let (problem, refused) = match rng.below(24) {
        i @ 1..=8 => (refuse::edit(rng, refuse::EDITS[i - 1], &whole).0, true),
        9 => (refuse::many_functions(rng), true),
        10 => (refuse::many_predicates(rng), true),
        11 => (refuse::many_places(rng), true),
        12 if rng.once_in(20) => (vec![b'E'; rng.within(2_000, 65_535)], true),
        _ => (whole, false),
    };
    let budget = match rng.below(3) {
        0 if short || refused => *rng.pick(&WIDE),
        1 => rng.below(8) as u64,
        _ => rng.below(300) as u64,
    };
    (budget, problem)
}

#[test]
fn sample_by_the_program() {
    if let Some(starter) = starter() {
        let night = |input: &[u8]| run(&starter, input);
        assert_eq!(text(&night(samples::sample_night().bytes())), SAMPLE);
        expect_cut_sample(night);
        expect_worked_lines(night);
        expect_same(&starter, samples::feedback_tap().bytes());
    }
}

/// Counts the lines of a whole stream.
fn count_lines(stream: &[(u64, Vec<u8>)], printed: &[String]) {
    let mut tally = Tally::new(LINES);
    assert_eq!(printed.len(), 1 + stream.len() + 1);
    for (i, (budget, problem)) in stream.iter().enumerate() {
        let line = &printed[1 + i];
        tally.add(&Line::read(1 + i, *budget, problem.len(), line));
    }
    println!("{tally}");
    tally.expect_enough();
}

/// Where to cut a run of jobs: near its start, close to the end of a job, or anywhere.
fn cut(rng: &mut Rng, way: usize, ends: &[usize]) -> usize {
    let (first, last) = (ends[0], ends[ends.len() - 1]);
    match way {
        0 => first + rng.below(20),
        1 => *rng.pick(ends),
        2 => rng.pick(&ends[1..]) - 1,
        3 => (rng.pick(ends) + rng.within(1, 10)).min(last),
        4 => first,
        _ => rng.within(first, last),
    }
}

#[test]
fn stream_by_the_program() {
    let starter = match starter() {
        Some(starter) => starter,
        None => return,
    };
    let mut rng = Rng::new(2);
    let stream: Vec<_> = (0..JOBS).map(|_| job(&mut rng)).collect();
    let (mut jobs, mut ends) = (Jobs::new(), vec![0]);
    for (budget, problem) in &stream {
        jobs.push(*budget, problem);
        ends.push(jobs.bytes().len());
    }
    let whole = jobs.bytes();
    count_lines(&stream, &expect_same(&starter, whole));
    let mut tally = Tally::new(ENDS);
    let mut expect_end = |input: &[u8]| {
        let printed = expect_same(&starter, input);
        let (word, count) = printed[printed.len() - 1].split_once(' ').expect("the end");
        tally.add(&(word.to_owned(), count.parse().expect("a decimal number")));
    };
    for _ in 0..WHOLE_CUTS {
        expect_end(&whole[..rng.below(whole.len())]);
    }
    for i in 0..CUTS {
        let from = rng.below(JOBS - WINDOW);
        let ends = &ends[from..=from + WINDOW];
        let end = cut(&mut rng, i % 6, ends);
        expect_end(&whole[ends[0]..end]);
    }
    println!("{tally}");
    tally.expect_enough();
}
