//! The problems and budgets that the tests make.

#![allow(dead_code)] // No test uses all of it.

pub mod budgets;
pub mod fields;
pub mod generate;
pub mod limits;
pub mod refuse;
pub mod rng;
pub mod roots;
pub mod text;
