//! A second implementation of document 01, written from the paper and from nothing else, and of
//! document 02's requests: a call names its root (E2).
//!
//! The modules follow its sections: `check` the problem bytes and the refusals, `eliminate` the
//! function-free table, `ranges` the components and the product, `walk` the places in order,
//! `witness` the rows of a falsified answer, and `night` the night run. `text` is the jobs in
//! solver text (E1).

mod check;
mod eliminate;
mod night;
mod node;
mod ranges;
mod text;
mod walk;
mod witness;

pub use check::{check, Checked};
pub use night::night;
pub use node::{Node, Op, Sort};
pub use text::read;

use crate::{Answer, WITNESS_LEN, WORK_LEN};
use eliminate::eliminate;
use ranges::Ranges;
use walk::{Outcome, Walk};

/// The largest product that is not refused.
const MOST_PLACES: u128 = 1_000_000_000_000_000_000;

/// Why a call is refused.
#[derive(Clone, Copy, Debug, PartialEq, Eq)]
pub struct Refusal {
    /// The refusal number.
    pub number: u8,
    /// The first wrong symbol or node for refusals 6 and 7, a byte of the text for 14 and 15,
    /// else 0.
    pub place: u64,
}

impl Refusal {
    /// A refusal whose place is 0.
    const fn new(number: u8) -> Self {
        Self { number, place: 0 }
    }

    /// A refusal of the symbol, node or byte with this number.
    const fn at(number: u8, place: usize) -> Self {
        Self {
            number,
            place: place as u64,
        }
    }
}

/// Decides the formula at a problem's root, with the effects on the buffers that document 01
/// fixes.
pub fn decide(
    budget: u64,
    root: usize,
    problem: &[u8],
    work: &mut [u8],
    witness: &mut [u8],
) -> Answer {
    match try_decide(budget, root, problem, work, witness) {
        Ok(answer) => answer,
        Err(Refusal { number, place }) => Answer::Refused { number, place },
    }
}

fn try_decide(
    budget: u64,
    root: usize,
    problem: &[u8],
    work: &mut [u8],
    witness: &mut [u8],
) -> Result<Answer, Refusal> {
    let problem = check(problem, root)?;
    if work.len() < WORK_LEN {
        return Err(Refusal::new(11));
    }
    if witness.len() < WITNESS_LEN {
        return Err(Refusal::new(12));
    }
    let table = eliminate(&problem);
    table.write(work);
    let ranges = Ranges::new(&problem, &table);
    if ranges.product > MOST_PLACES {
        return Err(Refusal::new(13));
    }
    let product = ranges.product as u64;
    let mut walk = Walk::new(&table, &ranges);
    Ok(match walk.run(budget, product) {
        Outcome::True { tried } if tried == product => Answer::Valid { tried, product },
        Outcome::True { tried } => Answer::Stopped { tried, product },
        Outcome::False { tried } => Answer::Falsified {
            tried,
            product,
            witness_len: witness::write(&problem, &table, walk.values(), witness),
        },
    })
}
