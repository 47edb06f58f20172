//! The walk over all places, in order.

use super::eliminate::Table;
use super::node::{Node, Op};
use super::ranges::Ranges;

/// Room for the value of every node: a table has at most 2,632. A power of two, so that taking a
/// number modulo this is cheap and spares the bounds check.
const ROOM: usize = 4096;

/// How a walk ends.
#[derive(Debug, PartialEq, Eq)]
pub enum Outcome {
    /// The root was true at each of the places tried.
    True {
        /// How many there were.
        tried: u64,
    },
    /// The root was false at the last place tried.
    False {
        /// How many there were.
        tried: u64,
    },
}

/// A variable or truth variable that takes more than one value.
#[derive(Debug)]
struct Wheel {
    node: u16,
    low: u8,
    high: u8,
}

/// A node whose value depends on others, with its number.
#[derive(Debug)]
struct Step {
    node: Node,
    number: u16,
}

/// A function-free table made ready for evaluation.
///
/// The values of variables and constants stay in place between evaluations: only the wheels move
/// them, and only the steps are worked out anew.
#[derive(Debug)]
pub struct Walk {
    values: Box<[u8; ROOM]>,
    steps: Vec<Step>,
    wheels: Vec<Wheel>,
    root: usize,
}

impl Walk {
    /// A walk that stands at place 1.
    pub fn new(table: &Table, ranges: &Ranges) -> Self {
        let mut values = Box::new([0; ROOM]);
        let mut steps = Vec::with_capacity(table.nodes.len());
        for (number, &node) in (0..).zip(&table.nodes) {
            match node.op {
                Op::Apply | Op::True => values[usize::from(number)] = 1,
                Op::Test | Op::False => {}
                _ => steps.push(Step { node, number }),
            }
        }
        Self {
            values,
            steps,
            wheels: wheels(table, ranges),
            root: usize::from(table.root),
        }
    }

    /// The value of each table node at the place last tried; true is 1 and false 0.
    pub fn values(&self) -> &[u8] {
        &*self.values
    }

    /// Evaluates place after place, as far as the budget, the product and the truth of the root
    /// allow.
    pub fn run(&mut self, budget: u64, product: u64) -> Outcome {
        let last = budget.min(product);
        for tried in 1..=last {
            self.evaluate();
            if self.values[self.root] == 0 {
                return Outcome::False { tried };
            }
            self.advance();
        }
        Outcome::True { tried: last }
    }

    fn evaluate(&mut self) {
        let values = &mut *self.values;
        for Step { node, number } in &self.steps {
            let [a, b, c] = node.indices().map(|index| index % ROOM);
            values[usize::from(*number) % ROOM] = match node.op {
                Op::Equal => u8::from(values[a] == values[b]),
                Op::Not => values[a] ^ 1,
                Op::And => values[a] & values[b],
                Op::Or => values[a] | values[b],
                Op::Choose | Op::Select if values[a] == 1 => values[b],
                Op::Choose | Op::Select => values[c],
                Op::Apply | Op::Test | Op::True | Op::False => continue,
            };
        }
    }

    /// Moves on to the next place: the first wheel that is not at its high end moves up, and
    /// those before it go back to their low ends.
    fn advance(&mut self) {
        for wheel in &self.wheels {
            let value = &mut self.values[usize::from(wheel.node)];
            if *value < wheel.high {
                *value += 1;
                return;
            }
            *value = wheel.low;
        }
    }
}

/// The wheels, the fastest first; a variable with top 1 never moves and has none.
fn wheels(table: &Table, ranges: &Ranges) -> Vec<Wheel> {
    let variables = table.variables.iter().zip(&ranges.tops);
    let variables = variables.map(|(&node, &high)| Wheel { node, low: 1, high });
    let truths = table.truths.iter().map(|&node| Wheel {
        node,
        low: 0,
        high: 1,
    });
    let moving = |wheel: &Wheel| wheel.low < wheel.high;
    variables.chain(truths).filter(moving).collect()
}

#[cfg(test)]
mod tests {
    use super::super::{check, eliminate};
    use super::*;
    use crate::problem::Problem;
    use crate::samples::variables;

    /// Three joined variables and a truth variable: the first variable has top 1 and stays, the
    /// second moves fastest, then the third, then the truth variable.
    #[test]
    fn order_of_places() {
        let mut p = Problem::new();
        let x = variables(&mut p, "x", 3);
        let q = p.predicate("q", 0);
        let (left, right) = (p.equal(x[0], x[1]), p.equal(x[1], x[2]));
        let test = p.test(q, &[]);
        let either = p.or(left, right);
        let root = p.or(either, test);
        let bytes = p.bytes();
        let checked = check(&bytes, root.node()).expect("accepted");
        let table = eliminate(&checked);
        let mut walk = Walk::new(&table, &Ranges::new(&checked, &table));
        let mut places = Vec::new();
        for _ in 0..12 {
            places.push([0, 1, 2, 5].map(|node| walk.values()[node]));
            walk.advance();
        }
        let by_truth = |truth| {
            let row = move |third| [[1, 1, third, truth], [1, 2, third, truth]];
            [row(1), row(2), row(3)].concat()
        };
        assert_eq!(places, [by_truth(0), by_truth(1)].concat());
    }
}
