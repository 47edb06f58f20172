//! Equality jobs from a Rust host.
//!
//! A problem is formulas of equality with uninterpreted functions, as a table of nodes in bytes; a
//! call names the root, the formula that is asked (document 02, E2). [`host::decide`] hands both
//! to the proved checker (`libhost.a`, made by `.ci/archive`), which answers valid,
//! falsified with tables that make the formula false, stopped where the budget ends first, or
//! refused. [`reference::decide`] is a second implementation, written from documents 01 and 02
//! alone; the tests compare the two on many generated problems. [`host::read`] and
//! [`reference::read`] make a problem of solver text, SMT-LIB 2.6 (document 02, E1).
//!
//! ```
//! use eqp::problem::Problem;
//! use eqp::{host, Answer, WITNESS_LEN, WORK_LEN};
//!
//! let mut p = Problem::new();
//! let (x, y) = (p.function("x", 0), p.function("y", 0));
//! let (x, y) = (p.apply(x, &[]), p.apply(y, &[]));
//! let root = p.equal(x, y).node();
//! let (mut work, mut witness) = ([0; WORK_LEN], [0; WITNESS_LEN]);
//! let answer = host::decide(u64::MAX, root, &p.bytes(), &mut work, &mut witness);
//! assert_eq!(answer, Answer::Falsified { tried: 2, product: 2, witness_len: 16 });
//! assert_eq!(p.explain(&witness), "x = 1, y = 2");
//! ```
//!
//! From this directory, once `.ci/archive` has made `target/staticlib/libhost.a`:
//!
//! - `cargo test --profile checked` runs the worked rows, the comparison, the night run and, where
//!   z3 or cvc5 is on the PATH, the solvers;
//! - `cargo run --release --bin bench` times both implementations, a walk of sixteen lanes beside
//!   them and, where z3 or cvc5 is on the PATH, the solvers;
//! - `cargo run --release --bin make_examples` writes the files of `examples/` anew;
//! - `cargo run --release --bin pack OUT.jobs FILE.smt2 ..` makes a job file of solver texts.

#![deny(unsafe_code)]
#![warn(missing_docs)]

pub mod host;
pub mod jobs;
pub mod problem;
pub mod reference;
pub mod samples;
pub mod smt;
pub mod workloads;

/// The least length of a work buffer that is not refused: 2,632 nodes of 8 bytes.
pub const WORK_LEN: usize = 21_056;

/// The least length of a witness buffer that is not refused: 6 bytes and 40 rows of 5.
pub const WITNESS_LEN: usize = 206;

/// The least length of an answer buffer that the raw call takes.
pub const ANSWER_LEN: usize = 32;

/// The least length of a problem buffer that a text is read into: a header of 8 bytes, 32 symbols
/// and 256 nodes of 8.
pub const PROBLEM_LEN: usize = 2_088;

/// What a decision answers.
#[derive(Clone, Copy, Debug, PartialEq, Eq)]
pub enum Answer {
    /// The problem, the root, a buffer or the product broke a condition.
    Refused {
        /// The refusal number: 1 to 7, 9 to 13, or 16.
        number: u8,
        /// The first wrong symbol or node for refusals 6 and 7, else 0.
        place: u64,
    },
    /// The formula is true at every place.
    Valid {
        /// How many places were tried: all of them, the product.
        tried: u64,
        /// The number of places.
        product: u64,
    },
    /// The formula is false at the last place tried.
    Falsified {
        /// How many places were tried: the first false place.
        tried: u64,
        /// The number of places.
        product: u64,
        /// How many bytes of the witness buffer the witness takes.
        witness_len: usize,
    },
    /// The budget ended before a false place or the last place.
    Stopped {
        /// How many places were tried: the budget.
        tried: u64,
        /// The number of places.
        product: u64,
    },
}

/// What reading a text answers.
#[derive(Clone, Copy, Debug, PartialEq, Eq)]
pub enum Reading {
    /// The buffer is too short, the text is not of the subset, or its problem breaks a limit.
    Refused {
        /// The refusal number: 4, 9, 10, 14, 15 or 23.
        number: u8,
        /// The byte of the text where refusals 14 and 15 stand, else 0.
        place: u64,
    },
    /// The problem stands at the start of its buffer.
    Read {
        /// How many bytes it has.
        length: usize,
    },
}

#[cfg(test)]
mod tests {
    use std::{env, panic};

    /// A profile without the checks lets sums wrap in silence, so the gate must not use one.
    #[test]
    fn the_gate_checks_sums() {
        if env::var_os("CI").is_some() {
            let one: u8 = "1".parse().expect("a number");
            let sum = panic::catch_unwind(|| u8::MAX + one);
            assert!(sum.is_err(), "overflow checks are off");
            let asserted = panic::catch_unwind(|| debug_assert!(one == 2));
            assert!(asserted.is_err(), "debug assertions are off");
        }
    }
}
