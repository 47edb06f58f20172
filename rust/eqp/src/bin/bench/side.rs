//! The three sides that decide: the library, the reference and the walk of sixteen lanes.

use std::time::{Duration, Instant};

use eqp::problem::last_node;
use eqp::workloads::Workload;
use eqp::{host, reference, Answer, WITNESS_LEN, WORK_LEN};

use crate::lanes;

/// How a side is called.
pub type Decide = fn(u64, usize, &[u8], &mut [u8], &mut [u8]) -> Answer;

/// One side: its buffers, and the places of all timed answers. They are compared in the end, so
/// that no walk is left out because nobody looks at its answer.
pub struct Side {
    decide: Decide,
    work: Vec<u8>,
    witness: Vec<u8>,
    pub tried: u64,
}

impl Side {
    pub fn new(decide: Decide) -> Self {
        Self {
            decide,
            work: vec![0; WORK_LEN],
            witness: vec![0; WITNESS_LEN],
            tried: 0,
        }
    }

    /// Decides the last node, as the night run does.
    pub fn decide(&mut self, budget: u64, problem: &[u8]) -> Answer {
        let root = last_node(problem);
        (self.decide)(budget, root, problem, &mut self.work, &mut self.witness)
    }

    /// How many nodes a function-free table has: past it the work buffer stays.
    pub fn table_nodes(&mut self, problem: &[u8]) -> usize {
        self.work.fill(0xff);
        self.decide(0, problem);
        let used = self.work.iter().rposition(|&byte| byte != 0xff);
        used.map_or(0, |last| last / 8 + 1)
    }

    fn count(&mut self, answer: Answer) {
        self.tried += match answer {
            Answer::Refused { .. } => 0,
            Answer::Valid { tried, .. }
            | Answer::Falsified { tried, .. }
            | Answer::Stopped { tried, .. } => tried,
        };
    }

    /// The time of so many walks.
    pub fn time(&mut self, workload: &Workload, walks: u64) -> Duration {
        let start = Instant::now();
        for _ in 0..walks {
            let answer = self.decide(workload.budget, &workload.problem);
            self.count(answer);
        }
        start.elapsed()
    }

    /// The time of all jobs.
    pub fn time_jobs(&mut self, jobs: &[Vec<u8>]) -> Duration {
        let start = Instant::now();
        for job in jobs {
            let answer = self.decide(u64::MAX, job);
            self.count(answer);
        }
        start.elapsed()
    }
}

/// All sides.
pub struct Sides {
    pub library: Side,
    pub reference: Side,
    pub lanes: Side,
}

impl Sides {
    pub fn new() -> Self {
        Self {
            library: Side::new(host::decide),
            reference: Side::new(reference::decide),
            lanes: Side::new(lanes::decide),
        }
    }

    /// The answer of all sides, which is one.
    pub fn answer(&mut self, budget: u64, problem: &[u8]) -> Answer {
        let answer = self.reference.decide(budget, problem);
        assert_eq!(self.library.decide(budget, problem), answer);
        assert_eq!(self.lanes.decide(budget, problem), answer);
        answer
    }

    /// The longest time of one walk.
    pub fn slowest(&mut self, workload: &Workload) -> Duration {
        let times = [&mut self.library, &mut self.reference, &mut self.lanes]
            .map(|side| side.time(workload, 1));
        times.into_iter().max().unwrap_or_default()
    }

    /// All timed answers were of as many places.
    pub fn expect_same_places(&self) {
        assert_eq!(self.library.tried, self.reference.tried);
        assert_eq!(self.library.tried, self.lanes.tried);
    }
}
