//! Nanoseconds per place, table by table.

use eqp::problem::last_node;
use eqp::reference::check;
use eqp::workloads::{self, Workload};
use eqp::Answer;

use crate::side::Sides;
use crate::timing::{median, repeats, rounds, Spread};

/// The median ratio of each table: the other side's time over the library's.
#[derive(Default)]
pub struct Ratios {
    pub reference: Vec<f64>,
    pub lanes: Vec<f64>,
}

/// Prints a line for each table, and gives the ratios.
pub fn bench(sides: &mut Sides) -> Ratios {
    println!("ns per place (medians), and ratios of times: median (least to greatest)");
    println!(
        "{:<28} {:>5} {:>4} {:>6} {:>7} {:>8} {:>9} {:>8} {:>23} {:>22}",
        "table",
        "nodes",
        "vars",
        "truths",
        "places",
        "library",
        "reference",
        "lanes",
        "reference / library",
        "lanes / library"
    );
    let mut ratios = Ratios::default();
    for table in workloads::tables() {
        let [reference, lanes] = bench_table(sides, &table);
        ratios.reference.push(reference);
        ratios.lanes.push(lanes);
    }
    ratios
}

/// Prints the line of a table, and gives its ratios: reference and lanes over library.
fn bench_table(sides: &mut Sides, table: &Workload) -> [f64; 2] {
    let places = match sides.answer(table.budget, &table.problem) {
        Answer::Valid { tried, .. } | Answer::Stopped { tried, .. } => tried,
        other => panic!("{} is {other:?}", table.name),
    };
    let walks = repeats(sides.slowest(table));
    let [library, reference, lanes] = &rounds([
        &mut || sides.library.time(table, walks),
        &mut || sides.reference.time(table, walks),
        &mut || sides.lanes.time(table, walks),
    ]);
    let per_place = |times| median(times) * 1e9 / (walks * places) as f64;
    let nodes = sides.reference.table_nodes(&table.problem);
    let (functions, predicates) = counts(&table.problem);
    let to_reference = Spread::of_ratios(reference, library);
    let to_lanes = Spread::of_ratios(lanes, library);
    println!(
        "{:<28} {nodes:>5} {functions:>4} {predicates:>6} {places:>7} \
         {:>8.2} {:>9.2} {:>8.2} {to_reference:>23} {to_lanes:>22}",
        table.name,
        per_place(library),
        per_place(reference),
        per_place(lanes),
    );
    [to_reference.median, to_lanes.median]
}

/// The distinct function and predicate applications of a problem.
fn counts(problem: &[u8]) -> (usize, usize) {
    let checked = check(problem, last_node(problem)).expect("a bench table is accepted");
    (checked.functions, checked.predicates)
}
