//! The proved library against the reference on many generated problems.

mod compared;
mod counted;
mod made;

use std::thread;
use std::time::Instant;

use compared::lend::{Asked, Lender, Lengths};
use compared::notice::notice;
use counted::calls::Call;
use counted::floors::CALLS;
use counted::tally::Tally;
use eqp::problem::last_node;
use eqp::{host, reference, workloads, Answer, ANSWER_LEN, WITNESS_LEN, WORK_LEN};
use made::budgets::WIDE;
use made::generate::{self, Shape};
use made::rng::Rng;
use made::{limits, refuse, roots};

/// A comparison under way.
struct Comparison {
    rng: Rng,
    lender: Lender,
    tally: Tally<Call>,
}

impl Comparison {
    fn new(seed: u64) -> Self {
        let mut rng = Rng::new(seed);
        Self {
            lender: Lender::new(&mut rng, reference::decide, host::raw_decide),
            rng,
            tally: Tally::new(CALLS),
        }
    }

    /// Compares one call, and counts it.
    fn call(&mut self, asked: Asked, problem: &[u8], lengths: Lengths) -> Option<Answer> {
        let done = self.lender.call(&mut self.rng, asked, problem, lengths);
        let answer = done.answer;
        let call = Call::new(asked, problem, lengths, answer, done.witness.1);
        self.tally.add(&call);
        answer
    }

    /// Compares a root of a problem with several budgets and lengths; no walk is longer than
    /// `most` places.
    fn problem(&mut self, problem: &[u8], most: u64) {
        let root = roots::any(&mut self.rng, problem);
        let answer = self.call((most, root), problem, Lengths::EXACT);
        let budgets = match answer.expect("an exact answer buffer") {
            Answer::Refused { .. } => vec![most, 0, u64::MAX],
            Answer::Valid { tried, .. } | Answer::Falsified { tried, .. } => {
                let wide = *self.rng.pick(&WIDE);
                vec![tried - 1, tried, tried + 1, wide, wide, 0, 1]
            }
            Answer::Stopped { .. } => vec![most - 1, 0, 1],
        };
        for _ in 0..2 {
            let budget = *self.rng.pick(&budgets);
            let lengths = Lengths::any(&mut self.rng);
            self.call((budget, root), problem, lengths);
        }
    }

    /// Compares a problem whose last node must be refused, whatever the budget, and before 16
    /// whatever the root; with short buffers it may be another refusal that comes first.
    fn refusal(&mut self, problem: &[u8], number: u8, place: u64) {
        let root = match number {
            1..=7 => roots::any(&mut self.rng, problem),
            _ => last_node(problem),
        };
        self.refusal_at(root, problem, number, place);
    }

    /// Compares a root that must be refused.
    fn refusal_at(&mut self, root: usize, problem: &[u8], number: u8, place: u64) {
        let wanted = Some(Answer::Refused { number, place });
        for budget in [0, u64::MAX] {
            assert_eq!(self.call((budget, root), problem, Lengths::EXACT), wanted);
        }
        let lengths = Lengths::any(&mut self.rng);
        let short = |number| Some(Answer::Refused { number, place: 0 });
        let wanted = match number {
            _ if lengths.answer < ANSWER_LEN => None,
            13 if lengths.work < WORK_LEN => short(11),
            13 if lengths.witness < WITNESS_LEN => short(12),
            _ => wanted,
        };
        assert_eq!(self.call((7, root), problem, lengths), wanted);
    }

    fn small(&mut self) -> Vec<u8> {
        let shape = Shape::small(&mut self.rng);
        generate::problem(&mut self.rng, shape).bytes()
    }

    /// A well-formed problem, and a damaged copy of it.
    fn damaged(&mut self) {
        let mut bytes = self.small();
        for _ in 0..self.rng.within(1, 3) {
            let at = self.rng.below(bytes.len());
            match self.rng.below(8) {
                0 => bytes.truncate(at),
                1 => bytes.push(self.rng.next() as u8),
                2 => bytes[at] = self.rng.next() as u8,
                3 => bytes[at] = self.rng.below(4) as u8,
                _ => bytes[at] ^= 1 << self.rng.below(8),
            }
            if bytes.is_empty() {
                break;
            }
        }
        self.problem(&bytes, 200);
    }

    /// Random bytes, some behind a good header.
    fn random(&mut self) {
        let nodes = self.rng.within(1, 6);
        let symbols = self.rng.below(4);
        let length = match self.rng.below(3) {
            0 => self.rng.below(100),
            _ => 8 + symbols + 8 * nodes,
        };
        let few = self.rng.once_in(2);
        let mut random = || match few {
            true => self.rng.below(7) as u8 * self.rng.below(2) as u8,
            false => self.rng.next() as u8,
        };
        let mut bytes: Vec<u8> = (0..length).map(|_| random()).collect();
        let header = [b'E', b'Q', b'P', 1, 0, symbols as u8, nodes as u8, 0];
        let good = self.rng.below(9).min(length);
        bytes[..good].copy_from_slice(&header[..good]);
        self.problem(&bytes, 200);
    }
}

/// Well-formed problems: small ones, walked whole where that is short, and large ones.
fn well_formed(comparison: &mut Comparison) {
    for i in 0..150_000 {
        let most = if i % 16 == 0 { 3_000 } else { 200 };
        let problem = comparison.small();
        comparison.problem(&problem, most);
    }
    for _ in 0..7_500 {
        let shape = Shape::large(&mut comparison.rng);
        let problem = generate::problem(&mut comparison.rng, shape).bytes();
        comparison.problem(&problem, 40);
    }
    for table in workloads::tables() {
        (0..10).for_each(|_| comparison.problem(&table.problem, 5_000));
    }
}

/// Problems made to be refused, and those on both sides of each limit.
fn refused(comparison: &mut Comparison) {
    for _ in 0..500 {
        for number in refuse::EDITS {
            let whole = comparison.small();
            let (bytes, place) = refuse::edit(&mut comparison.rng, number, &whole);
            comparison.refusal(&bytes, number, place);
        }
        let whole = comparison.small();
        let root = roots::wrong(&mut comparison.rng, &whole);
        comparison.refusal_at(root, &whole, 16, 0);
        let functions = refuse::many_functions(&mut comparison.rng);
        comparison.refusal(&functions, 9, 0);
        let predicates = refuse::many_predicates(&mut comparison.rng);
        comparison.refusal(&predicates, 10, 0);
        let places = refuse::many_places(&mut comparison.rng);
        comparison.refusal(&places, 13, 0);
        // Their other roots reach less, and mostly little enough.
        for problem in [functions, predicates, places] {
            comparison.problem(&problem, 50);
        }
    }
    let groups = limits::groups().into_iter();
    for (bytes, refusal) in groups.flat_map(|(_, cases)| cases) {
        match refusal {
            Some((number, place)) => comparison.refusal(&bytes, number, place),
            None => {
                let asked = (50, last_node(&bytes));
                let answer = comparison.call(asked, &bytes, Lengths::EXACT);
                assert!(!matches!(answer, Some(Answer::Refused { .. })));
                (0..10).for_each(|_| comparison.problem(&bytes, 50));
            }
        }
    }
}

/// Half of the comparison: another seed makes another half.
fn half(seed: u64) -> Tally<Call> {
    let mut comparison = Comparison::new(seed);
    well_formed(&mut comparison);
    refused(&mut comparison);
    (0..60_000).for_each(|_| comparison.damaged());
    (0..20_000).for_each(|_| comparison.random());
    comparison.tally
}

#[test]
fn library_and_reference_agree() {
    let start = Instant::now();
    let tally = Tally::of_halves(CALLS, half);
    notice(&format!("compared in {:.1?}", start.elapsed()));
    println!("{tally}");
    tally.expect_enough();
}

/// The wrapper is safe to call from several threads at once, so the library must keep nothing
/// between calls or beside its buffers.
#[test]
fn threads_do_not_disturb_each_other() {
    thread::scope(|scope| {
        for seed in 3..=6 {
            scope.spawn(move || {
                let mut comparison = Comparison::new(seed);
                for _ in 0..10_000 {
                    let problem = comparison.small();
                    comparison.problem(&problem, 200);
                }
            });
        }
    });
}
