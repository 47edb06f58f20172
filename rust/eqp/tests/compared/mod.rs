//! How the tests compare: both sides called alike, and held against document 01.

#![allow(dead_code)] // No test uses all of it.

pub mod both;
pub mod effects;
pub mod lend;
pub mod lend_text;
pub mod notice;
pub mod readers;
pub mod replay;
pub mod solver;
