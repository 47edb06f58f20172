//! Readings of both sides with the same bytes in and around every buffer.

use eqp::problem::last_node;
use eqp::{host, reference, Reading, ANSWER_LEN, PROBLEM_LEN};

use super::lend::{answer_length, around, noise, Lent};
use super::readers::Read;
use super::replay::{nodes, reached};
use crate::made::rng::Rng;

/// The lengths of the lent buffers.
#[derive(Clone, Copy, Debug, PartialEq, Eq)]
pub struct TextLengths {
    pub problem: usize,
    pub answer: usize,
}

impl TextLengths {
    /// Exactly what is wanted.
    pub const EXACT: Self = Self {
        problem: PROBLEM_LEN,
        answer: ANSWER_LEN,
    };

    /// Mostly long enough.
    pub fn any(rng: &mut Rng) -> Self {
        Self {
            problem: around(rng, PROBLEM_LEN),
            answer: answer_length(rng),
        }
    }
}

/// The library's own call, or what a test puts in its place.
pub type RawRead = fn(&[u8], &mut [u8], &mut [u8]) -> u32;

/// The three buffers of one side: text, problem, answer.
#[derive(Clone, PartialEq, Eq)]
struct Buffers([Lent; 3]);

impl Buffers {
    fn refill(&mut self, noise: &[u8], at: usize, text: &[u8], lengths: TextLengths) {
        let all = [text.len(), lengths.problem, lengths.answer];
        for (lent, length) in self.0.iter_mut().zip(all) {
            lent.refill(noise, at, length);
        }
        self.0[0].slice().copy_from_slice(text);
    }
}

/// Both sides, and the noise that their buffers start from.
pub struct TextLender {
    reference: Read,
    library: RawRead,
    noise: Vec<u8>,
    ours: Buffers,
    theirs: Buffers,
}

impl TextLender {
    pub fn new(rng: &mut Rng, reference: Read, library: RawRead) -> Self {
        let buffers = Buffers(std::array::from_fn(|_| Lent::empty()));
        Self {
            reference,
            library,
            noise: noise(rng),
            ours: buffers.clone(),
            theirs: buffers,
        }
    }

    /// Calls both sides, compares what they return and every byte in and around the buffers, and
    /// holds the problem buffer against document 02. Gives the reading, `None` where the answer
    /// buffer is too short, and the problem buffer.
    pub fn call(
        &mut self,
        rng: &mut Rng,
        text: &[u8],
        lengths: TextLengths,
    ) -> (Option<Reading>, &[u8]) {
        let at = rng.below(1_000);
        self.ours.refill(&self.noise, at, text, lengths);
        self.theirs.refill(&self.noise, at, text, lengths);
        let reading = self.ask();
        let [text, problem, answer] = &mut self.theirs.0;
        let returned = (self.library)(text.slice(), problem.slice(), answer.slice());
        if returned != u32::from(reading.is_some()) || self.ours != self.theirs {
            self.differ(lengths, reading, returned);
        }
        let problem = &mut self.ours.0[1];
        expect_problem(reading, problem.before(&self.noise, at), problem.slice());
        (reading, problem.slice())
    }

    /// The reference's reading, written as the library writes its own.
    fn ask(&mut self) -> Option<Reading> {
        let [text, problem, answer] = &mut self.ours.0;
        let answer = answer.slice().get_mut(..ANSWER_LEN)?;
        let reading = (self.reference)(text.slice(), problem.slice());
        answer.copy_from_slice(&host::encode_reading(&reading));
        Some(reading)
    }

    fn differ(&mut self, lengths: TextLengths, reading: Option<Reading>, returned: u32) {
        for (i, name) in ["text", "problem", "answer"].into_iter().enumerate() {
            self.ours.0[i].tell_difference(&self.theirs.0[i], name);
        }
        let answer = self.theirs.0[2].slice().to_vec();
        let text = self.ours.0[0].slice();
        let shown = String::from_utf8_lossy(text);
        panic!(
            "{lengths:?}, text {text:?}:\n{shown}\nthe reference answers {reading:?}, \
             the library returns {returned} with {answer:?}"
        );
    }
}

/// The problem buffer changes where the problem goes and nowhere else. The problem passes the
/// check, ends with a negation that reaches all nodes, and has no node twice.
pub fn expect_problem(reading: Option<Reading>, before: &[u8], after: &[u8]) {
    let length = match reading {
        Some(Reading::Read { length }) => length,
        _ => 0,
    };
    assert_eq!(before[length..], after[length..], "the buffer's rest");
    if length > 0 {
        let problem = &after[..length];
        let root = last_node(problem);
        reference::check(problem, root).expect("a problem that is read passes the check");
        let all_reached = reached(problem, root).into_iter().all(|reached| reached);
        assert!(all_reached, "a node is not reached");
        let mut all: Vec<_> = nodes(problem).collect();
        let last = all.last().map(|node| node.0);
        assert_eq!(last, Some(3), "the negation comes last");
        all.sort_unstable();
        let twice = all.windows(2).any(|pair| pair[0] == pair[1]);
        assert!(!twice, "a node stands twice");
    }
}
