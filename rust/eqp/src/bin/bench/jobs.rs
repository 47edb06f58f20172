//! Small jobs per second.

use eqp::workloads;

use crate::side::Sides;
use crate::solver::{verdict, Z3};
use crate::timing::{median, rounds, Spread};

/// How many small jobs there are.
const JOBS: usize = 100_000;

/// Prints how many small jobs each side does in a second, and z3, whose verdicts must be ours.
pub fn bench(sides: &mut Sides) {
    let jobs = workloads::small_jobs(JOBS);
    let answers = jobs.iter().map(|job| sides.answer(u64::MAX, job));
    let wanted: Vec<&str> = answers.map(verdict).collect();
    let [library, reference, lanes] = rounds([
        &mut || sides.library.time_jobs(&jobs),
        &mut || sides.reference.time_jobs(&jobs),
        &mut || sides.lanes.time_jobs(&jobs),
    ]);
    let per_second = |time: f64| jobs.len() as f64 / time;
    println!("{JOBS} small jobs, in jobs per second:");
    println!("  library   {:>10.0}", per_second(median(&library)));
    println!("  reference {:>10.0}", per_second(median(&reference)));
    println!("  lanes     {:>10.0}", per_second(median(&lanes)));
    match Z3.decide(&jobs, &wanted) {
        Some(time) => println!("  z3        {:>10.0}", per_second(time)),
        None => println!("  {}", Z3.absent()),
    }
    let ratio = Spread::of_ratios(&reference, &library);
    println!("small jobs, library / reference {ratio}");
}
