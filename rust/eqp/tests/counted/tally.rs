//! Counts of what came up, each with a floor: a generator that no longer makes something fails
//! the test, instead of leaving it untried.

use std::{fmt, thread};

/// What is counted: its name, whether a thing is one of them, and how many there must be.
pub type Row<T> = (&'static str, fn(&T) -> bool, u64);

/// The counts of a table of rows.
pub struct Tally<T: 'static> {
    rows: &'static [Row<T>],
    counts: Vec<u64>,
}

impl<T> Tally<T> {
    pub fn new(rows: &'static [Row<T>]) -> Self {
        let counts = vec![0; rows.len()];
        Self { rows, counts }
    }

    /// Counts a thing in each row that it belongs to.
    pub fn add(&mut self, thing: &T) {
        for ((_, belongs, _), count) in self.rows.iter().zip(&mut self.counts) {
            *count += u64::from(belongs(thing));
        }
    }

    /// Adds what another tally of the same rows has counted.
    pub fn join(&mut self, other: &Self) {
        for (count, more) in self.counts.iter_mut().zip(&other.counts) {
            *count += more;
        }
    }

    /// The counts of two halves, made at once from the seeds 1 and 2.
    pub fn of_halves(rows: &'static [Row<T>], half: fn(u64) -> Self) -> Self {
        let mut tally = Self::new(rows);
        thread::scope(|scope| {
            let halves = [1, 2].map(|seed| scope.spawn(move || half(seed)));
            for half in halves {
                tally.join(&half.join().expect("the halves agree"));
            }
        });
        tally
    }

    /// The names of the rows that something was counted in.
    pub fn counted(&self) -> Vec<&'static str> {
        let rows = self.rows.iter().zip(&self.counts);
        rows.filter(|(_, &count)| count > 0)
            .map(|((name, ..), _)| *name)
            .collect()
    }

    /// The names of the rows that are under their floors.
    pub fn short(&self) -> Vec<&'static str> {
        let rows = self.rows.iter().zip(&self.counts);
        rows.filter(|((_, _, floor), count)| *count < floor)
            .map(|((name, ..), _)| *name)
            .collect()
    }

    /// Every row must have its floor.
    pub fn expect_enough(&self) {
        let short = self.short();
        assert!(short.is_empty(), "too few of {short:?} in\n{self}");
    }
}

impl<T> fmt::Display for Tally<T> {
    fn fmt(&self, f: &mut fmt::Formatter<'_>) -> fmt::Result {
        for ((name, _, floor), count) in self.rows.iter().zip(&self.counts) {
            writeln!(f, "{count:>9} {name} (at least {floor})")?;
        }
        Ok(())
    }
}
