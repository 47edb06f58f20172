//! Calls of both sides with the same bytes in and around every buffer.

use eqp::{host, Answer, ANSWER_LEN, WITNESS_LEN, WORK_LEN};

use super::both::Decide;
use super::effects::expect_effects;
use crate::made::rng::Rng;

/// How many bytes stand on each side of a lent slice, less up to 7 on the left.
const GUARD: usize = 24;

/// The lengths of the lent buffers.
#[derive(Clone, Copy, Debug, PartialEq, Eq)]
pub struct Lengths {
    pub work: usize,
    pub witness: usize,
    pub answer: usize,
}

impl Lengths {
    /// Exactly what is wanted.
    pub const EXACT: Self = Self {
        work: WORK_LEN,
        witness: WITNESS_LEN,
        answer: ANSWER_LEN,
    };

    /// Mostly long enough: each buffer is exact, a byte short, empty, or longer.
    pub fn any(rng: &mut Rng) -> Self {
        Self {
            work: around(rng, WORK_LEN),
            witness: around(rng, WITNESS_LEN),
            answer: answer_length(rng),
        }
    }
}

/// A length that is mostly enough, where this one is wanted.
pub fn around(rng: &mut Rng, exact: usize) -> usize {
    match rng.below(24) {
        0 => exact - 1,
        1 => rng.below(exact),
        2 => 0,
        3..=12 => exact + rng.within(1, 40),
        _ => exact,
    }
}

/// The length of an answer buffer, mostly enough.
pub fn answer_length(rng: &mut Rng) -> usize {
    match rng.below(24) {
        0 => 0,
        1 => ANSWER_LEN - 1,
        2..=9 => 40,
        _ => ANSWER_LEN,
    }
}

/// Bytes to start buffers from.
pub fn noise(rng: &mut Rng) -> Vec<u8> {
    (0..80_000).map(|_| rng.next() as u8).collect()
}

/// A slice to lend, with guard bytes around it.
#[derive(Clone, PartialEq, Eq)]
pub struct Lent {
    bytes: Vec<u8>,
    start: usize,
    length: usize,
}

impl Lent {
    pub fn empty() -> Self {
        Self {
            bytes: Vec::new(),
            start: 0,
            length: 0,
        }
    }

    /// Takes new bytes from the noise, at an odd place of the memory as often as not.
    pub fn refill(&mut self, noise: &[u8], at: usize, length: usize) {
        self.bytes.clear();
        self.bytes
            .extend_from_slice(&noise[at..at + length + 2 * GUARD]);
        self.start = GUARD - at % 8;
        self.length = length;
    }

    pub fn slice(&mut self) -> &mut [u8] {
        &mut self.bytes[self.start..self.start + self.length]
    }

    /// What the slice held when it was filled from this place of the noise.
    pub fn before<'a>(&self, noise: &'a [u8], at: usize) -> &'a [u8] {
        &noise[at + self.start..][..self.length]
    }

    /// Says from which byte on two buffers of this name differ, if they do.
    pub fn tell_difference(&self, other: &Self, name: &str) {
        if let Some(at) = self
            .bytes
            .iter()
            .zip(&other.bytes)
            .position(|(a, b)| a != b)
        {
            let at = at as isize - self.start as isize;
            eprintln!("the {name} buffers differ from byte {at} on");
        }
    }
}

/// The four buffers of one side: problem, work, witness, answer.
#[derive(Clone, PartialEq, Eq)]
struct Buffers([Lent; 4]);

impl Buffers {
    fn refill(&mut self, noise: &[u8], at: usize, problem: &[u8], lengths: Lengths) {
        let all = [problem.len(), lengths.work, lengths.witness, lengths.answer];
        for (lent, length) in self.0.iter_mut().zip(all) {
            lent.refill(noise, at, length);
        }
        self.0[0].slice().copy_from_slice(problem);
    }

    /// The reference's answer, written as the library writes its own; `None` where the answer
    /// buffer is too short.
    fn ask(&mut self, (budget, root): Asked, reference: Decide) -> Option<Answer> {
        let [problem, work, witness, answer] = &mut self.0;
        if answer.length < ANSWER_LEN {
            return None;
        }
        let (work, witness) = (work.slice(), witness.slice());
        let decided = reference(budget, root, problem.slice(), work, witness);
        answer.slice()[..ANSWER_LEN].copy_from_slice(&host::encode(&decided));
        Some(decided)
    }

    fn lend(&mut self, (budget, root): Asked, library: Raw) -> u32 {
        let [problem, work, witness, answer] = &mut self.0;
        library(
            budget,
            root,
            problem.slice(),
            work.slice(),
            witness.slice(),
            answer.slice(),
        )
    }
}

/// What a call did, by the reference.
pub struct Done<'a> {
    /// What it answered; `None` where the answer buffer is too short.
    pub answer: Option<Answer>,
    /// The lent work buffer, before and after.
    pub work: (&'a [u8], &'a [u8]),
    /// The lent witness buffer, before and after.
    pub witness: (&'a [u8], &'a [u8]),
}

/// The library's own call, or what a test puts in its place.
pub type Raw = fn(u64, usize, &[u8], &mut [u8], &mut [u8], &mut [u8]) -> u32;

/// The numbers of a call: the budget and the root.
pub type Asked = (u64, usize);

/// Both sides, and the noise that their buffers start from.
pub struct Lender {
    reference: Decide,
    library: Raw,
    noise: Vec<u8>,
    ours: Buffers,
    theirs: Buffers,
}

impl Lender {
    pub fn new(rng: &mut Rng, reference: Decide, library: Raw) -> Self {
        let noise = noise(rng);
        let buffers = Buffers(std::array::from_fn(|_| Lent::empty()));
        Self {
            reference,
            library,
            noise,
            ours: buffers.clone(),
            theirs: buffers,
        }
    }

    /// Calls both sides, compares what they return and every byte in and around the buffers, and
    /// holds the effects against document 01.
    pub fn call(
        &mut self,
        rng: &mut Rng,
        asked: Asked,
        problem: &[u8],
        lengths: Lengths,
    ) -> Done<'_> {
        let at = rng.below(1_000);
        self.ours.refill(&self.noise, at, problem, lengths);
        self.theirs.refill(&self.noise, at, problem, lengths);
        let answer = self.ours.ask(asked, self.reference);
        let returned = self.theirs.lend(asked, self.library);
        if returned != u32::from(answer.is_some()) || self.ours != self.theirs {
            self.differ(asked, lengths, answer, returned);
        }
        let [_, work, witness, _] = &mut self.ours.0;
        let done = Done {
            answer,
            work: (work.before(&self.noise, at), work.slice()),
            witness: (witness.before(&self.noise, at), witness.slice()),
        };
        expect_effects(problem, asked.1, &done);
        done
    }

    fn differ(
        &mut self,
        (budget, root): Asked,
        lengths: Lengths,
        answer: Option<Answer>,
        returned: u32,
    ) {
        let names = ["problem", "work", "witness", "answer"];
        for (i, name) in names.into_iter().enumerate() {
            self.ours.0[i].tell_difference(&self.theirs.0[i], name);
        }
        let theirs = self.theirs.0[3].slice().to_vec();
        let problem = self.ours.0[0].slice();
        panic!(
            "budget {budget}, root {root}, {lengths:?}, problem {problem:?}: \
             the reference answers {answer:?}, the library returns {returned} with {theirs:?}"
        );
    }
}
