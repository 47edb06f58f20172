//! One table walked whole at five sizes: a place costs the same whatever their number.

use std::time::Duration;

use eqp::workloads::{self, Workload};
use eqp::{host, Answer};

use crate::side::Side;
use crate::timing::{repeats, rounds, Spread};

/// Prints a line for each size; the sizes are timed in turn.
pub fn bench() {
    let mut tables = workloads::sizes().map(Table::new);
    let [a, b, c, d, e] = &mut tables;
    let times = rounds([
        &mut || a.time(),
        &mut || b.time(),
        &mut || c.time(),
        &mut || d.time(),
        &mut || e.time(),
    ]);
    println!("one table walked whole at five sizes, by the library:");
    println!(
        "  {:>9} {:>6} {:>10} {:>22} {:>22}",
        "places", "nodes", "ms", "ns per place", "ns per place and node"
    );
    for (table, times) in tables.iter().zip(&times) {
        table.print(times);
    }
}

/// A table of one size, and the library.
struct Table {
    workload: Workload,
    library: Side,
    places: u64,
    nodes: usize,
    /// How many walks one timing is of.
    walks: u64,
}

impl Table {
    fn new(workload: Workload) -> Self {
        let mut library = Side::new(host::decide);
        let nodes = library.table_nodes(&workload.problem);
        let places = match library.decide(workload.budget, &workload.problem) {
            Answer::Valid { product, .. } => product,
            other => panic!("{} is {other:?}", workload.name),
        };
        let walks = repeats(library.time(&workload, 1));
        Self {
            workload,
            library,
            places,
            nodes,
            walks,
        }
    }

    fn time(&mut self) -> Duration {
        self.library.time(&self.workload, self.walks)
    }

    fn print(&self, times: &[f64]) {
        let (places, nodes) = (self.places, self.nodes);
        let timed = self.walks * places;
        assert_eq!(self.library.tried, places + times.len() as u64 * timed);
        let per_place = times.iter().map(|time| time * 1e9 / timed as f64);
        let spread = Spread::of(per_place.collect());
        println!(
            "  {places:>9} {nodes:>6} {:>10.3} {spread:>22} {:>22.3}",
            spread.median * places as f64 / 1e6,
            spread.median / nodes as f64
        );
    }
}

#[cfg(test)]
mod tests {
    use super::*;

    /// The factorials of 6 to 10, and the nodes of a chain of 10 variables.
    #[test]
    fn sizes() {
        let tables = workloads::sizes().map(Table::new);
        let places = [720, 5_040, 40_320, 362_880, 3_628_800];
        assert_eq!(
            tables.map(|table| (table.places, table.nodes)),
            places.map(|n| (n, 32))
        );
    }
}
