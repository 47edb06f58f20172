//! What is counted of the calls that compare the two sides.

use eqp::problem::last_node;
use eqp::{Answer, ANSWER_LEN, WITNESS_LEN, WORK_LEN};

use super::facts::{only_flaw, Facts, Flaw};
use crate::compared::lend::{Asked, Lengths};

/// A call that both sides answered alike.
pub struct Call {
    pub budget: u64,
    pub root: usize,
    /// The number of the last node, as the header counts them.
    pub last: usize,
    pub lengths: Lengths,
    pub answer: Option<Answer>,
    /// The facts of the root, where it was accepted.
    pub facts: Option<Facts>,
    /// What is wrong, where a node was refused for one thing alone.
    pub flaw: Option<Flaw>,
    /// The largest value, of functions and of predicates, among the rows of the witness whose
    /// symbol and arguments an earlier row has too.
    pub coinciding: [Option<u8>; 2],
}

impl Call {
    pub fn new(
        (budget, root): Asked,
        problem: &[u8],
        lengths: Lengths,
        answer: Option<Answer>,
        witness: &[u8],
    ) -> Self {
        let mut call = Self {
            budget,
            root,
            last: last_node(problem),
            lengths,
            answer,
            facts: None,
            flaw: None,
            coinciding: [None; 2],
        };
        match answer {
            Some(Answer::Refused { number: 7, place }) => {
                call.flaw = only_flaw(problem, place as usize);
            }
            None | Some(Answer::Refused { .. }) => {}
            Some(_) => call.facts = Some(Facts::of(problem, root)),
        }
        if let Some(Answer::Falsified { witness_len, .. }) = answer {
            call.coinciding = coinciding(problem, &witness[6..witness_len]);
        }
        call
    }

    pub fn has(&self, fact: fn(&Facts) -> bool) -> bool {
        self.facts.as_ref().map_or(false, fact)
    }

    pub fn refused(&self, wanted: u8) -> bool {
        matches!(self.answer, Some(Answer::Refused { number, .. }) if number == wanted)
    }

    /// Whether a root before the last node was accepted.
    pub fn asks_within(&self) -> bool {
        self.facts.is_some() && self.root < self.last
    }

    /// Whether the root is no node, while its low bits would be one.
    pub fn root_tells(&self, bits: u32) -> bool {
        self.refused(16) && self.root > self.last && self.root % (1 << bits) <= self.last
    }

    pub fn valid(&self) -> Option<u64> {
        match self.answer {
            Some(Answer::Valid { tried, .. }) => Some(tried),
            _ => None,
        }
    }

    pub fn falsified(&self) -> Option<u64> {
        match self.answer {
            Some(Answer::Falsified { tried, .. }) => Some(tried),
            _ => None,
        }
    }

    pub fn stopped(&self) -> Option<u64> {
        match self.answer {
            Some(Answer::Stopped { tried, .. }) => Some(tried),
            _ => None,
        }
    }

    pub fn product(&self) -> u64 {
        match self.answer {
            Some(Answer::Valid { product, .. })
            | Some(Answer::Falsified { product, .. })
            | Some(Answer::Stopped { product, .. }) => product,
            _ => 0,
        }
    }

    /// Whether a verdict after so many places would be another with the low bits of the budget
    /// alone.
    pub fn tells(&self, tried: Option<u64>, bits: u32) -> bool {
        tried.map_or(false, |tried| self.budget % (1 << bits) < tried)
    }

    /// The number of the symbol or node that was refused.
    pub fn place(&self) -> u64 {
        match self.answer {
            Some(Answer::Refused { place, .. }) => place,
            _ => 0,
        }
    }

    /// Whether the table is one of those that the library walks in its large arrays.
    pub fn is_large(&self) -> bool {
        self.has(|facts| facts.table_nodes > 86)
    }

    pub fn work_off_by(&self, more: isize) -> bool {
        self.lengths.work as isize - WORK_LEN as isize == more
    }

    pub fn answer_off_by(&self, more: isize) -> bool {
        self.lengths.answer as isize - ANSWER_LEN as isize == more
    }

    pub fn witness_off_by(&self, more: isize) -> bool {
        self.lengths.witness as isize - WITNESS_LEN as isize == more
    }
}

fn coinciding(problem: &[u8], rows: &[u8]) -> [Option<u8>; 2] {
    let mut largest = [None; 2];
    let rows: Vec<&[u8]> = rows.chunks_exact(5).collect();
    for (i, row) in rows.iter().enumerate() {
        if rows[..i].iter().any(|other| other[..4] == row[..4]) {
            let kind = usize::from(problem[8 + usize::from(row[0])] >= 16);
            largest[kind] = largest[kind].max(Some(row[4]));
        }
    }
    largest
}
