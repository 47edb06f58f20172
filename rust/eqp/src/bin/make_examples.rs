//! Writes the example job files of the repository.

use std::fs;
use std::io;
use std::path::Path;

use eqp::samples;

fn main() -> io::Result<()> {
    let directory = Path::new(env!("CARGO_MANIFEST_DIR")).join("../../examples");
    fs::create_dir_all(&directory)?;
    fs::write(
        directory.join("sample-night.jobs"),
        samples::sample_night().bytes(),
    )?;
    fs::write(
        directory.join("feedback-tap.jobs"),
        samples::feedback_tap().bytes(),
    )
}
