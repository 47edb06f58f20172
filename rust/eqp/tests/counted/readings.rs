//! What is counted of the readings that compare the two sides, with the floors.

use eqp::{Reading, ANSWER_LEN, PROBLEM_LEN};

use super::tally::Row;
use crate::compared::lend_text::TextLengths;
use crate::compared::replay::nodes;

/// The commands of a text in order.
const COMMANDS: [&str; 5] = [
    "set-logic",
    "declare-sort",
    "declare-fun",
    "assert",
    "check-sat",
];

/// A reading that both sides agree on.
pub struct ReadCall {
    pub lengths: TextLengths,
    pub reading: Option<Reading>,
    /// The byte that a text was refused at; none at its end.
    byte: Option<u8>,
    /// The command whose name stands last before that byte.
    command: Option<usize>,
    /// How many functions and predicates are declared up to there, about.
    declared: usize,
    /// How many symbols, nodes and nodes of each op the problem has.
    symbols: u8,
    nodes: usize,
    ops: [usize; 10],
}

impl ReadCall {
    pub fn new(
        text: &[u8],
        lengths: TextLengths,
        reading: Option<Reading>,
        problem: &[u8],
    ) -> Self {
        let mut call = Self {
            lengths,
            reading,
            byte: None,
            command: None,
            declared: 0,
            symbols: 0,
            nodes: 0,
            ops: [0; 10],
        };
        match reading {
            Some(Reading::Read { length }) => call.count(&problem[..length]),
            Some(Reading::Refused { place, .. }) => call.look(text, place as usize),
            None => {}
        }
        call
    }

    fn count(&mut self, problem: &[u8]) {
        self.symbols = problem[5];
        for (op, ..) in nodes(problem) {
            self.ops[usize::from(op)] += 1;
            self.nodes += 1;
        }
    }

    fn look(&mut self, text: &[u8], place: usize) {
        self.byte = text.get(place).copied();
        let before = String::from_utf8_lossy(&text[..place]);
        let last = |&command: &usize| before.rfind(COMMANDS[command]);
        let found = (0..5).filter(|command| last(command).is_some());
        self.command = found.max_by_key(last);
        self.declared = before.matches("declare-fun").count();
    }

    fn is_read(&self) -> bool {
        matches!(self.reading, Some(Reading::Read { .. }))
    }

    fn refused(&self, wanted: u8) -> bool {
        matches!(self.reading, Some(Reading::Refused { number, .. }) if number == wanted)
    }

    /// Refused with 14 at one of these bytes.
    fn at(&self, bytes: &[u8]) -> bool {
        self.refused(14) && self.byte.map_or(false, |byte| bytes.contains(&byte))
    }

    /// Refused with 14 after the name of this command.
    fn within(&self, command: usize) -> bool {
        self.refused(14) && self.command == Some(command)
    }

    fn off_by(&self, problem: isize) -> bool {
        self.lengths.problem as isize - PROBLEM_LEN as isize == problem
    }
}

/// The readings of both sides.
#[rustfmt::skip] // One row on a line.
pub const READINGS: &[Row<ReadCall>] = &[
    ("readings", |_| true, 400_000),
    ("read", |c| c.is_read(), 100_000),
    ("refusal 4", |c| c.refused(4), 10_000),
    ("refusal 9", |c| c.refused(9), 2_000),
    ("refusal 10", |c| c.refused(10), 2_000),
    ("refusal 14", |c| c.refused(14), 100_000),
    ("refusal 15", |c| c.refused(15), 7_000),
    ("refusal 23", |c| c.refused(23), 10_000),
    // Where 14 stands.
    ("14 at the end", |c| c.refused(14) && c.byte.is_none(), 7_000),
    ("14 at an opening bracket", |c| c.at(b"("), 10_000),
    ("14 at a closing bracket", |c| c.at(b")"), 10_000),
    ("14 at bars", |c| c.at(b"|"), 7_000),
    ("14 at =", |c| c.at(b"="), 2_000),
    ("14 at a numeral", |c| c.at(b"0123456789"), 2_000),
    ("14 at a byte that starts no token", |c| c.at(b"\"#,:\\{}[]'`\x00\x7f\x80"), 1_500),
    ("14 before any command", |c| c.refused(14) && c.command.is_none(), 2_000),
    ("14 in set-logic", |c| c.within(0), 5_000),
    ("14 in declare-sort", |c| c.within(1), 7_000),
    ("14 in declare-fun", |c| c.within(2), 20_000),
    ("14 in assert", |c| c.within(3), 30_000),
    ("14 after check-sat", |c| c.within(4), 3_000),
    ("14 after 32 symbols", |c| c.refused(14) && c.declared > 32, 1_200),
    // What the problems have.
    ("no symbols", |c| c.is_read() && c.symbols == 0, 3_000),
    ("32 symbols", |c| c.symbols == 32, 1_000),
    ("256 nodes", |c| c.nodes == 256, 300),
    ("24 functions", |c| c.ops[0] == 24, 400),
    ("16 predicates", |c| c.ops[6] == 16, 400),
    ("64 negations and more", |c| c.ops[3] >= 64, 40),
    ("op 1, choices of terms", |c| c.ops[1] > 0, 10_000),
    ("op 2, equations", |c| c.ops[2] > 0, 50_000),
    ("op 5, or", |c| c.ops[5] > 0, 50_000),
    ("op 8, false", |c| c.ops[8] > 0, 30_000),
    ("op 9, choices of formulas", |c| c.ops[9] > 0, 20_000),
    // The lengths of the lent buffers.
    ("no answer, the buffer is a byte short", |c| c.reading.is_none() && c.lengths.answer + 1 == ANSWER_LEN, 5_000),
    ("no answer, the buffer is empty", |c| c.reading.is_none() && c.lengths.answer == 0, 5_000),
    ("an answer in a longer buffer", |c| c.reading.is_some() && c.lengths.answer > ANSWER_LEN, 50_000),
    ("refusal 23 for a byte", |c| c.refused(23) && c.off_by(-1), 5_000),
    ("refusal 23 for all bytes", |c| c.refused(23) && c.lengths.problem == 0, 5_000),
    ("read into a buffer that is a byte longer", |c| c.is_read() && c.off_by(1), 500),
    ("read into a longer buffer", |c| c.is_read() && c.lengths.problem > PROBLEM_LEN, 20_000),
];
