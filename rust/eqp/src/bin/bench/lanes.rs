//! A plain walk of sixteen places at a time, for the bench alone: what a Rust programmer writes
//! who knows that the compiler makes vectors of loops over arrays of bytes.

use eqp::reference::{check, Checked, Node, Op, Refusal};
use eqp::{Answer, WITNESS_LEN, WORK_LEN};

use crate::again::{eliminate, write_witness, Ranges, Table};

/// How many places are walked at a time.
const LANES: usize = 16;
/// Room for the nodes of a small table, and of any: a table has at most 2,632. Powers of two, so
/// that a number modulo the room spares the bounds check; clearing the larger one takes longer
/// than most small jobs.
const SMALL: usize = 128;
const LARGE: usize = 4096;
/// The largest product that is not refused.
const MOST_PLACES: u128 = 1_000_000_000_000_000_000;

/// The values of a node at sixteen places in order; true is 1 and false 0.
type Lanes = [u8; LANES];

/// A variable or truth variable that takes more than one value.
struct Digit {
    node: usize,
    low: u8,
    high: u8,
    value: u8,
}

/// A function-free table made ready for the walk.
struct Walk<const ROOM: usize> {
    lanes: Box<[Lanes; ROOM]>,
    /// The fastest first.
    digits: Vec<Digit>,
    /// The nodes whose values depend on others, with their numbers.
    steps: Vec<(u16, Node)>,
    root: usize,
}

/// The walk itself.
impl<const ROOM: usize> Walk<ROOM> {
    /// The first place where the root is false, among so many.
    fn first_false(&mut self, places: u64) -> Option<u64> {
        for before in (0..places).step_by(LANES) {
            self.fill();
            self.evaluate();
            let root = self.lanes[self.root % ROOM];
            if root != [1; LANES] {
                let lane = root.iter().position(|&value| value == 0)?;
                return Some(before + lane as u64 + 1).filter(|&place| place <= places);
            }
        }
        None
    }

    /// Takes the digits through sixteen places.
    fn fill(&mut self) {
        for lane in 0..LANES {
            for digit in &self.digits {
                self.lanes[digit.node % ROOM][lane] = digit.value;
            }
            for digit in &mut self.digits {
                if digit.value < digit.high {
                    digit.value += 1;
                    break;
                }
                digit.value = digit.low;
            }
        }
    }

    /// Works out the other nodes at these sixteen places.
    fn evaluate(&mut self) {
        for &(number, node) in &self.steps {
            let [x, y, z] = node.indices().map(|operand| self.lanes[operand % ROOM]);
            let lanes = &mut self.lanes[usize::from(number) % ROOM];
            match node.op {
                Op::Equal => (0..LANES).for_each(|i| lanes[i] = u8::from(x[i] == y[i])),
                Op::Not => (0..LANES).for_each(|i| lanes[i] = x[i] ^ 1),
                Op::And => (0..LANES).for_each(|i| lanes[i] = x[i] & y[i]),
                Op::Or => (0..LANES).for_each(|i| lanes[i] = x[i] | y[i]),
                _ => (0..LANES).for_each(|i| lanes[i] = if x[i] == 1 { y[i] } else { z[i] }),
            }
        }
    }
}

/// What comes before it and after it.
impl<const ROOM: usize> Walk<ROOM> {
    /// A walk that stands before place 1.
    fn new(table: &Table, ranges: &Ranges) -> Self {
        let mut lanes = Box::new([[0; LANES]; ROOM]);
        let mut steps = Vec::with_capacity(table.nodes.len());
        for (number, &node) in (0..).zip(&table.nodes) {
            match node.op {
                Op::Apply | Op::True => lanes[usize::from(number)] = [1; LANES],
                Op::Test | Op::False => {}
                _ => steps.push((number, node)),
            }
        }
        Self {
            lanes,
            digits: digits(table, ranges),
            steps,
            root: usize::from(table.root),
        }
    }

    /// The value of each table node at this place, one of the sixteen last walked.
    fn values(&self, place: u64) -> Vec<u8> {
        let lane = (place - 1) as usize % LANES;
        self.lanes.iter().map(|lanes| lanes[lane]).collect()
    }

    fn answer(
        budget: u64,
        problem: &Checked,
        table: &Table,
        ranges: &Ranges,
        witness: &mut [u8],
    ) -> Answer {
        let mut walk = Self::new(table, ranges);
        let product = ranges.product as u64;
        let places = budget.min(product);
        match walk.first_false(places) {
            Some(tried) => Answer::Falsified {
                tried,
                product,
                witness_len: write_witness(problem, table, &walk.values(tried), witness),
            },
            None if places == product => Answer::Valid {
                tried: product,
                product,
            },
            None => Answer::Stopped {
                tried: places,
                product,
            },
        }
    }
}

/// The digits at place 1; a variable with top 1 never moves and has none.
fn digits(table: &Table, ranges: &Ranges) -> Vec<Digit> {
    let digit = |node, low, high| Digit {
        node: usize::from(node),
        low,
        high,
        value: low,
    };
    let variables = table.variables.iter().zip(&ranges.tops);
    let variables = variables.map(|(&node, &top)| digit(node, 1, top));
    let truths = table.truths.iter().map(|&node| digit(node, 0, 1));
    let moving = |digit: &Digit| digit.low < digit.high;
    variables.chain(truths).filter(moving).collect()
}

/// Decides a problem's root: all but the walk is the reference's.
pub fn decide(
    budget: u64,
    root: usize,
    problem: &[u8],
    work: &mut [u8],
    witness: &mut [u8],
) -> Answer {
    match try_decide(budget, root, problem, work, witness) {
        Ok(answer) => answer,
        Err(Refusal { number, place }) => Answer::Refused { number, place },
    }
}

fn try_decide(
    budget: u64,
    root: usize,
    problem: &[u8],
    work: &mut [u8],
    witness: &mut [u8],
) -> Result<Answer, Refusal> {
    let refusal = |number| Err(Refusal { number, place: 0 });
    let problem = check(problem, root)?;
    if work.len() < WORK_LEN {
        return refusal(11);
    }
    if witness.len() < WITNESS_LEN {
        return refusal(12);
    }
    let table = eliminate(&problem);
    table.write(work);
    let ranges = Ranges::new(&problem, &table);
    if ranges.product > MOST_PLACES {
        return refusal(13);
    }
    let answer = match table.nodes.len() {
        0..=SMALL => Walk::<SMALL>::answer,
        _ => Walk::<LARGE>::answer,
    };
    Ok(answer(budget, &problem, &table, &ranges, witness))
}

#[cfg(test)]
mod tests {
    use super::*;
    use crate::side::Decide;
    use eqp::problem::last_node;
    use eqp::samples::{inlined_tap, late_tap, row};
    use eqp::{reference, workloads};

    /// An answer, and what stands in the buffers after it.
    type After = (Answer, Vec<u8>, Vec<u8>);

    fn after(decide: Decide, budget: u64, root: usize, problem: &[u8]) -> After {
        let (mut work, mut witness) = (vec![0xff; WORK_LEN], vec![0xff; WITNESS_LEN]);
        let answer = decide(budget, root, problem, &mut work, &mut witness);
        (answer, work, witness)
    }

    fn expect_agreement_at(budget: u64, root: usize, problem: &[u8]) -> Answer {
        let ours = after(decide, budget, root, problem);
        assert!(ours == after(reference::decide, budget, root, problem));
        ours.0
    }

    fn expect_agreement(budget: u64, problem: &[u8]) -> Answer {
        expect_agreement_at(budget, last_node(problem), problem)
    }

    /// Every node of two rows, terms and formulas, and the number past the last.
    #[test]
    fn roots() {
        for problem in [row(5).bytes(), row(9).bytes()] {
            for root in 0..=last_node(&problem) + 1 {
                expect_agreement_at(u64::MAX, root, &problem);
            }
        }
    }

    /// All kinds of small jobs, whole and with budgets around one and two blocks of places.
    #[test]
    fn small_jobs() {
        let mut falsified = 0;
        for job in workloads::small_jobs(17) {
            for budget in (0..=2 * LANES as u64 + 1).chain([u64::MAX]) {
                let answer = expect_agreement(budget, &job);
                falsified += usize::from(matches!(answer, Answer::Falsified { .. }));
            }
        }
        assert!(falsified > 0);
    }

    /// A table that is false at a place far from the first, and the same with a budget that ends
    /// right before that place and at it.
    #[test]
    fn falsified() {
        let problem = late_tap().bytes();
        let tried = match expect_agreement(u64::MAX, &problem) {
            Answer::Falsified { tried, .. } => tried,
            other => panic!("the late tap is {other:?}"),
        };
        assert!(tried > LANES as u64);
        for budget in [tried - 1, tried, tried + 1] {
            expect_agreement(budget, &problem);
        }
    }

    /// The bench's tables, both rooms among them, for some thousand places.
    #[test]
    fn tables() {
        for table in workloads::tables() {
            for budget in [1_000, 4_007] {
                expect_agreement(budget, &table.problem);
            }
        }
    }

    #[test]
    fn refusals() {
        let largest = workloads::largest().bytes();
        let refused = |number| Answer::Refused { number, place: 0 };
        assert_eq!(expect_agreement(1, &largest), refused(13));
        assert_eq!(expect_agreement(1, b"EQP"), refused(1));
        let tap = inlined_tap().bytes();
        let (mut work, mut witness) = ([0; WORK_LEN], [0; WITNESS_LEN]);
        let root = last_node(&tap);
        let answer = decide(1, root, &tap, &mut work[1..], &mut witness);
        assert_eq!(answer, refused(11));
        let answer = decide(1, root, &tap, &mut work, &mut witness[1..]);
        assert_eq!(answer, refused(12));
    }
}
