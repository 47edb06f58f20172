//! What is counted of the night run's lines, with the floors.

use super::tally::Row;

/// A job, and the line that it got.
pub struct Line {
    pub budget: u64,
    /// How many bytes the problem has.
    pub length: usize,
    pub word: String,
    /// Tried, or the refusal's number.
    pub first: u64,
    /// The product, or the refusal's place.
    pub second: u64,
}

impl Line {
    /// The job with this number and its line.
    pub fn read(number: usize, budget: u64, length: usize, line: &str) -> Self {
        let words: Vec<&str> = line.split(' ').collect();
        let (word, first, second) = match words[..] {
            ["JOB", job, word, first, second] if job == number.to_string() => (word, first, second),
            _ => panic!("job {number} has the line {line:?}"),
        };
        let decimal = |word: &str| word.parse().expect("a decimal number");
        Self {
            budget,
            length,
            word: word.to_owned(),
            first: decimal(first),
            second: decimal(second),
        }
    }

    fn is(&self, word: &str) -> bool {
        self.word == word
    }

    fn refused(&self, number: u64) -> bool {
        self.is("REFUSED") && self.first == number
    }

    /// Whether the verdict would be another with the low bits of the budget alone.
    fn tells(&self, word: &str, bits: u32) -> bool {
        self.is(word) && self.budget % (1 << bits) < self.first
    }
}

/// The lines of one long stream. No problem is refused by 11 and 12, which are about buffers.
#[rustfmt::skip] // One row on a line.
pub const LINES: &[Row<Line>] = &[
    ("lines", |_| true, 4_000),
    ("valid", |l| l.is("VALID"), 1_000),
    ("valid after place 1", |l| l.is("VALID") && l.first > 1, 700),
    ("falsified", |l| l.is("FALSIFIED"), 1_000),
    ("falsified after place 1", |l| l.is("FALSIFIED") && l.first > 1, 200),
    ("stopped", |l| l.is("STOPPED"), 300),
    ("stopped after place 16", |l| l.is("STOPPED") && l.first > 16, 40),
    ("refusal 1", |l| l.refused(1), 100),
    ("refusal 2", |l| l.refused(2), 100),
    ("refusal 3", |l| l.refused(3), 100),
    ("refusal 4", |l| l.refused(4), 200),
    ("refusal 5", |l| l.refused(5), 100),
    ("refusal 6", |l| l.refused(6), 100),
    ("refusal 7", |l| l.refused(7), 100),
    ("refusal 9", |l| l.refused(9), 100),
    ("refusal 10", |l| l.refused(10), 100),
    ("refusal 13", |l| l.refused(13), 100),
    ("refusal 16", |l| l.refused(16), 100),
    ("places over 9", |l| l.is("REFUSED") && l.second > 9, 80),
    ("products over 2^32", |l| !l.is("REFUSED") && l.second > 1 << 32, 20),
    ("budgets of 2^32 and more", |l| l.budget >= 1 << 32, 800),
    ("valid, not with 8 bits of the budget", |l| l.tells("VALID", 8), 300),
    ("valid, not with 16 bits of the budget", |l| l.tells("VALID", 16), 200),
    ("valid, not with 32 bits of the budget", |l| l.tells("VALID", 32), 100),
    ("valid, not with 63 bits of the budget", |l| l.tells("VALID", 63), 50),
    ("falsified, not with 8 bits of the budget", |l| l.tells("FALSIFIED", 8), 200),
    ("falsified, not with 16 bits of the budget", |l| l.tells("FALSIFIED", 16), 200),
    ("falsified, not with 32 bits of the budget", |l| l.tells("FALSIFIED", 32), 100),
    ("falsified, not with 63 bits of the budget", |l| l.tells("FALSIFIED", 63), 40),
    ("problems over 255 bytes", |l| l.length > 255, 1_000),
    ("problems longer than any good one", |l| l.length > 8 + 32 + 8 * 256, 6),
];

/// How a run ended: the last line's word, and the jobs read.
pub type End = (String, u64);

/// The ends of the runs on parts of the stream.
#[rustfmt::skip] // One row on a line.
pub const ENDS: &[Row<End>] = &[
    ("END after some jobs", |(word, jobs)| word == "END" && *jobs > 0, 4),
    ("END at once", |(word, jobs)| word == "END" && *jobs == 0, 5),
    ("CUT after some jobs", |(word, jobs)| word == "CUT" && *jobs > 0, 10),
    ("CUT inside the first job", |(word, jobs)| word == "CUT" && *jobs == 0, 3),
];
