//! The reference's way to a function-free table and to a witness, compiled once more for the walk
//! of sixteen lanes.
//!
//! The same functions could be shared. But then the compiler no longer puts them into the
//! reference's `decide`, and in one comparison its walk then came out some 9% slower: the bench
//! must not slow one of the sides that it times.

#[path = "../../reference/eliminate.rs"]
mod eliminate;
#[path = "../../reference/ranges.rs"]
mod ranges;
#[path = "../../reference/witness.rs"]
mod witness;

/// What these files find beside them.
mod check {
    pub use eqp::reference::Checked;
}
mod node {
    pub use eqp::reference::{Node, Op};
}

#[cfg(test)]
use eqp::reference::check;

pub use eliminate::{eliminate, Table};
pub use ranges::Ranges;
pub use witness::write as write_witness;
