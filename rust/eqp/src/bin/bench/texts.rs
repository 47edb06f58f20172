//! Texts read per second, and the time of texts of 64 KB.

use std::time::{Duration, Instant};

use eqp::workloads::texts::{self, Text};
use eqp::{host, reference, Reading, PROBLEM_LEN};

use crate::solver::Z3;
use crate::timing::{medians, repeats};

/// How many small texts there are.
const TEXTS: usize = 100_000;
/// How many of them go through z3, and how often each long one.
const FOR_Z3: usize = 2_000;
const LONG_FOR_Z3: usize = 2;

/// One side, and what all its answers come to: a reading that nobody looks at might be left out.
struct Side {
    read: fn(&[u8], &mut [u8]) -> Reading,
    sum: u64,
}

impl Side {
    /// The time of reading these texts so often.
    fn time(&mut self, texts: &[&[u8]], times: u64) -> Duration {
        let start = Instant::now();
        let mut problem = [0; PROBLEM_LEN];
        for _ in 0..times {
            for text in texts {
                self.sum += match (self.read)(text, &mut problem) {
                    Reading::Read { length } => length as u64,
                    Reading::Refused { number, place } => u64::from(number) + place,
                };
            }
        }
        start.elapsed()
    }
}

/// Prints a line for each side and the small texts, and one for each long text.
pub fn bench() {
    let side = |read| Side { read, sum: 0 };
    let (mut library, mut reference) = (side(host::read), side(reference::read));
    bench_small(&mut library, &mut reference);
    println!(
        "{:<28} {:>6} {:>11} {:>11} {:>6} {:>11}",
        "text", "bytes", "library us", "reference", "ratio", "z3's parse"
    );
    for text in texts::long() {
        bench_long(&mut library, &mut reference, &text);
    }
    assert_eq!(library.sum, reference.sum);
}

fn bench_small(library: &mut Side, reference: &mut Side) {
    let small = texts::small(TEXTS);
    let slices: Vec<&[u8]> = small.iter().map(|text| &text[..]).collect();
    let [ours, theirs] = medians([&mut || library.time(&slices, 1), &mut || {
        reference.time(&slices, 1)
    }]);
    println!("{TEXTS} small texts, in texts per second:");
    println!("  library   {:>10.0}", TEXTS as f64 / ours);
    println!("  reference {:>10.0}", TEXTS as f64 / theirs);
    match parse(&slices[..FOR_Z3]) {
        Some(time) => println!("  z3's parse {:>9.0}", FOR_Z3 as f64 / time),
        None => println!("  {}", Z3.absent()),
    }
}

fn bench_long(library: &mut Side, reference: &mut Side, text: &Text) {
    let slices = [&text.bytes[..]];
    let slower = library.time(&slices, 1).max(reference.time(&slices, 1));
    let times = repeats(slower);
    let [ours, theirs] = medians([&mut || library.time(&slices, times), &mut || {
        reference.time(&slices, times)
    }]);
    let per_text = |time: f64| time * 1e6 / times as f64;
    let z3 = parse(&[slices[0]; LONG_FOR_Z3]).map(|time| time * 1e6 / LONG_FOR_Z3 as f64);
    println!(
        "{:<28} {:>6} {:>11.0} {:>11.0} {:>6.2} {:>11}",
        text.name,
        text.bytes.len(),
        per_text(ours),
        per_text(theirs),
        theirs / ours,
        z3.map_or_else(|| "-".to_string(), |time| format!("{time:.0}")),
    );
}

/// The seconds that one z3 process takes to read texts without their check-sat; the start of the
/// process counts. A text that z3 finds fault with ends the bench.
fn parse(texts: &[&[u8]]) -> Option<f64> {
    let mut script = Vec::new();
    for text in texts {
        script.extend_from_slice(&text[..text.len() - "(check-sat)".len()]);
        script.extend_from_slice(b"\n(reset)\n");
    }
    let (printed, time) = Z3.run(script)?;
    assert_eq!(printed, "", "z3 disagrees: it does not read a text");
    Some(time)
}
