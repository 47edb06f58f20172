//! The proved library against the reference on many generated texts.

mod compared;
mod counted;
mod made;

use std::thread;
use std::time::Instant;

use compared::lend_text::{TextLender, TextLengths};
use compared::notice::notice;
use counted::readings::{ReadCall, READINGS};
use counted::tally::Tally;
use eqp::workloads::texts::{long, small};
use eqp::{host, reference, PROBLEM_LEN};
use made::rng::Rng;

/// A comparison under way.
struct Comparison {
    rng: Rng,
    lender: TextLender,
    tally: Tally<ReadCall>,
}

impl Comparison {
    fn new(seed: u64) -> Self {
        let mut rng = Rng::new(seed);
        Self {
            lender: TextLender::new(&mut rng, reference::read, host::raw_read),
            rng,
            tally: Tally::new(READINGS),
        }
    }

    /// Compares one reading, and counts it.
    fn call(&mut self, text: &[u8], lengths: TextLengths) {
        let (reading, problem) = self.lender.call(&mut self.rng, text, lengths);
        let call = ReadCall::new(text, lengths, reading, problem);
        self.tally.add(&call);
    }

    /// Compares a text with exact buffers and with others.
    fn text(&mut self, text: &[u8]) {
        self.call(text, TextLengths::EXACT);
        let lengths = TextLengths::any(&mut self.rng);
        self.call(text, lengths);
    }
}

/// Half of the comparison: another seed makes another half.
fn half(seed: u64) -> Tally<ReadCall> {
    let mut comparison = Comparison::new(seed);
    for _ in 0..100_000 {
        let text = made::text::any(&mut comparison.rng);
        comparison.text(&text);
    }
    comparison.tally
}

#[test]
fn library_and_reference_agree() {
    let start = Instant::now();
    let tally = Tally::of_halves(READINGS, half);
    notice(&format!("texts compared in {:.1?}", start.elapsed()));
    println!("{tally}");
    tally.expect_enough();
}

/// The bench's small texts cut at every byte, and with every byte changed; and the long ones.
#[test]
fn texts_of_the_bench() {
    let mut comparison = Comparison::new(3);
    for text in small(5) {
        for at in 0..=text.len() {
            comparison.text(&text[..at]);
        }
        for at in 0..text.len() {
            let mut changed = text.clone();
            changed[at] ^= 1 << comparison.rng.below(8);
            comparison.text(&changed);
        }
    }
    for text in long() {
        comparison.text(&text.bytes);
        comparison.text(&text.bytes[..text.bytes.len() / 2]);
    }
}

/// Every length of the problem buffer up to some more than is wanted.
#[test]
fn lengths_of_the_buffer() {
    let mut comparison = Comparison::new(4);
    let text = small(1).concat();
    for problem in 0..PROBLEM_LEN + 40 {
        let lengths = TextLengths {
            problem,
            ..TextLengths::EXACT
        };
        comparison.call(&text, lengths);
    }
    for answer in 0..72 {
        let lengths = TextLengths {
            answer,
            ..TextLengths::EXACT
        };
        comparison.call(&text, lengths);
        comparison.call(b"(", lengths);
    }
}

/// The library must keep nothing between calls or beside its buffers.
#[test]
fn threads_do_not_disturb_each_other() {
    thread::scope(|scope| {
        for seed in 5..=8 {
            scope.spawn(move || {
                let mut comparison = Comparison::new(seed);
                for _ in 0..5_000 {
                    let text = made::text::any(&mut comparison.rng);
                    comparison.text(&text);
                }
            });
        }
    });
}

/// A caller owes the call 256 KiB of stack, and no more for terms that nest to the full depth.
#[test]
fn small_stack() {
    let read_all = || {
        let mut problem = vec![0; PROBLEM_LEN];
        for text in long() {
            host::read(&text.bytes, &mut problem);
        }
    };
    let thread = thread::Builder::new().stack_size(256 << 10);
    let thread = thread.spawn(read_all).expect("the thread starts");
    thread.join().expect("the thread ends");
}
