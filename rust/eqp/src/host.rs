//! The proved library behind a safe wrapper. The only unsafe code of the crate is here.

mod bytes;

pub use bytes::{decode, decode_reading, encode, encode_reading};

use crate::{Answer, Reading, ANSWER_LEN};

/// Decides the formula at a problem's root with the proved library.
///
/// The root is the number of a node. What it does not reach counts for nothing, once the whole
/// table is well formed (document 02, E2).
///
/// The work buffer gets the function-free table, the witness buffer the witness of a falsified
/// answer; `docs/FORMAT.md` says which bytes each answer leaves alone.
///
/// # Panics
///
/// Where the library answers in another way than it is proved to, so that it is not that library.
pub fn decide(
    budget: u64,
    root: usize,
    problem: &[u8],
    work: &mut [u8],
    witness: &mut [u8],
) -> Answer {
    let mut answer = [0; ANSWER_LEN];
    let returned = raw_decide(budget, root, problem, work, witness, &mut answer);
    answered(returned, &answer, decode)
}

/// What the 32 bytes of a raw call stand for, if its answer buffer was long enough.
fn answered<T>(
    returned: u32,
    answer: &[u8; ANSWER_LEN],
    decode: fn(&[u8; ANSWER_LEN]) -> Option<T>,
) -> T {
    assert_eq!(
        returned, 1,
        "the library takes an answer buffer of 32 bytes"
    );
    decode(answer).expect("the library answers as docs/FORMAT.md says")
}

/// Reads one text with the proved library (document 02, E1). The problem's bytes go to the start of
/// the problem buffer; a refusal writes nothing.
///
/// # Panics
///
/// Where the library answers in another way than it is proved to, so that it is not that library.
pub fn read(text: &[u8], problem: &mut [u8]) -> Reading {
    let mut answer = [0; ANSWER_LEN];
    let returned = raw_read(text, problem, &mut answer);
    answered(returned, &answer, decode_reading)
}

/// The library's own call: 1, with the answer in the first 32 bytes of `answer`, or 0, with no
/// buffer changed, where `answer` is shorter than that.
pub fn raw_decide(
    budget: u64,
    root: usize,
    problem: &[u8],
    work: &mut [u8],
    witness: &mut [u8],
    answer: &mut [u8],
) -> u32 {
    call::eqp_decide(budget, root, problem, work, witness, answer)
}

/// The library's own call: 1, with the answer in the first 32 bytes of `answer`, or 0, with no
/// buffer changed, where `answer` is shorter than that.
pub fn raw_read(text: &[u8], problem: &mut [u8], answer: &mut [u8]) -> u32 {
    call::eqp_read(text, problem, answer)
}

/// The foreign calls. Each pointer comes with the length of the live slice that it is taken from,
/// the slices that are written are borrowed mutably and so apart from all others, and the library
/// keeps no pointer past a call. It has no state of its own either, so that threads may call it at
/// once; tests/compare.rs and tests/texts.rs try that.
#[allow(unsafe_code)]
mod call {
    mod foreign {
        extern "C" {
            pub fn eqp_decide(
                budget: u64,
                root: usize,
                problem: *const u8,
                problem_len: usize,
                work: *mut u8,
                work_len: usize,
                witness: *mut u8,
                witness_len: usize,
                answer: *mut u8,
                answer_len: usize,
            ) -> u32;

            pub fn eqp_read(
                text: *const u8,
                text_len: usize,
                problem: *mut u8,
                problem_len: usize,
                answer: *mut u8,
                answer_len: usize,
            ) -> u32;
        }
    }

    pub fn eqp_decide(
        budget: u64,
        root: usize,
        problem: &[u8],
        work: &mut [u8],
        witness: &mut [u8],
        answer: &mut [u8],
    ) -> u32 {
        // SAFETY: as the module says.
        unsafe {
            foreign::eqp_decide(
                budget,
                root,
                problem.as_ptr(),
                problem.len(),
                work.as_mut_ptr(),
                work.len(),
                witness.as_mut_ptr(),
                witness.len(),
                answer.as_mut_ptr(),
                answer.len(),
            )
        }
    }

    pub fn eqp_read(text: &[u8], problem: &mut [u8], answer: &mut [u8]) -> u32 {
        // SAFETY: as the module says.
        unsafe {
            foreign::eqp_read(
                text.as_ptr(),
                text.len(),
                problem.as_mut_ptr(),
                problem.len(),
                answer.as_mut_ptr(),
                answer.len(),
            )
        }
    }
}

#[cfg(test)]
mod tests {
    use super::*;

    #[test]
    #[should_panic(expected = "the library takes an answer buffer of 32 bytes")]
    fn no_answer() {
        answered(0, &[0; ANSWER_LEN], decode);
    }

    #[test]
    #[should_panic(expected = "the library answers as docs/FORMAT.md says")]
    fn no_such_answer() {
        answered(1, &[4; ANSWER_LEN], decode);
    }

    #[test]
    #[should_panic(expected = "the library answers as docs/FORMAT.md says")]
    fn no_such_reading() {
        answered(1, &[4; ANSWER_LEN], decode_reading);
    }
}
