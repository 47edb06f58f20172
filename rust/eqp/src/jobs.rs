//! Job files, the input of the night run.

/// A job file under construction.
#[derive(Clone, Debug, Default, PartialEq, Eq)]
pub struct Jobs {
    bytes: Vec<u8>,
}

impl Jobs {
    /// A file with no jobs.
    pub fn new() -> Self {
        Self::default()
    }

    /// Adds a job: the budget in 8 bytes, the problem's length in 2, then the problem.
    ///
    /// # Panics
    ///
    /// Where the problem is longer than two bytes can say.
    pub fn push(&mut self, budget: u64, problem: &[u8]) {
        let length = u16::try_from(problem.len()).expect("a job has at most 65,535 problem bytes");
        self.bytes.extend_from_slice(&budget.to_le_bytes());
        self.bytes.extend_from_slice(&length.to_le_bytes());
        self.bytes.extend_from_slice(problem);
    }

    /// The file.
    pub fn bytes(&self) -> &[u8] {
        &self.bytes
    }
}
