//! What the tests count: each thing that must come up, with a floor.

#![allow(dead_code)] // No test uses all of it.

pub mod calls;
pub mod facts;
pub mod floors;
pub mod lines;
pub mod readings;
pub mod tally;
