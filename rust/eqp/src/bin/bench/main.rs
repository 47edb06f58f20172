//! Times the proved library against the reference and against a plain walk of sixteen lanes, and
//! against z3 and cvc5 where those are installed.
//!
//! Ratios are the other side's time over the library's: above 1 the library is the faster one.
//! Where two sides answer differently, or a solver's verdict is another one, the bench fails.

mod again;
mod crossover;
mod jobs;
mod lanes;
mod side;
mod sizes;
mod solver;
mod tables;
mod texts;
mod timing;

// For the tests of the files that `again` compiles.
#[cfg(test)]
use eqp::{problem, samples};
use side::Sides;
use timing::geometric_mean;

fn main() {
    let mut sides = Sides::new();
    let ratios = tables::bench(&mut sides);
    println!(
        "geometric mean over lanes {:.2}",
        geometric_mean(&ratios.lanes)
    );
    jobs::bench(&mut sides);
    sides.expect_same_places();
    sizes::bench();
    crossover::bench();
    texts::bench();
    println!("geometric mean {:.2}", geometric_mean(&ratios.reference));
}
