//! Words for whoever runs the tests.

use std::io::{self, Write};

/// Writes straight to the error stream: what print macros write is kept back from passing tests.
pub fn notice(message: &str) {
    let _ = io::stderr().write_all(format!("{message}\n").as_bytes());
}
