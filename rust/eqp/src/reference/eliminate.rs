//! Elimination: the function-free table of what a problem's root reaches.

use super::check::Checked;
use super::node::{Node, Op};

/// A function-free table.
#[derive(Debug)]
pub struct Table {
    /// The nodes in order; those of op 0 and 6 are variables and truth variables.
    pub nodes: Vec<Node>,
    /// For each problem node that the root reaches the number of the table node that stands for it.
    pub images: Vec<Option<u16>>,
    /// For each variable its node.
    pub variables: Vec<u16>,
    /// For each truth variable its node.
    pub truths: Vec<u16>,
    /// The image of the problem's root.
    pub root: u16,
}

impl Table {
    /// Writes the nodes to the start of a work buffer.
    pub fn write(&self, work: &mut [u8]) {
        for (slot, node) in work.chunks_exact_mut(8).zip(&self.nodes) {
            slot.copy_from_slice(&node.to_bytes());
        }
    }

    /// Lays one more node and gives its number.
    fn lay(&mut self, op: Op, symbol: u8, operands: [u16; 3]) -> u16 {
        let number = self.nodes.len() as u16;
        self.nodes.push(Node {
            op,
            symbol,
            operands,
        });
        number
    }

    /// The image of a problem node that the root reaches.
    pub fn image(&self, node: usize) -> u16 {
        self.images[node].expect("the root reaches it")
    }

    /// Copies a node that is no application.
    fn copy(&mut self, op: Op, used: &[u16]) -> u16 {
        let mut operands = [0; 3];
        for (to, &from) in operands.iter_mut().zip(used) {
            *to = self.image(usize::from(from));
        }
        self.lay(op, 0, operands)
    }

    /// Lays the own variable node of a distinct application.
    fn own_variable(&mut self, op: Op) -> u16 {
        let number = self.nodes.len() as u16;
        let family = match op {
            Op::Apply => &mut self.variables,
            _ => &mut self.truths,
        };
        let variable = family.len() as u8;
        family.push(number);
        self.lay(op, variable, [0; 3])
    }

    /// Lays the condition that two applications have equal arguments, one by one.
    fn same_arguments(&mut self, these: &[u16], those: &[u16]) -> u16 {
        let mut condition = None;
        for (&this, &that) in these.iter().zip(those) {
            let [this, that] = [this, that].map(|argument| self.image(usize::from(argument)));
            let equation = self.lay(Op::Equal, 0, [this, that, 0]);
            condition = Some(match condition {
                None => equation,
                Some(before) => self.lay(Op::And, 0, [before, equation, 0]),
            });
        }
        condition.expect("distinct applications of one symbol have arguments")
    }
}

/// A distinct application that has been laid.
struct Laid<'a> {
    symbol: u8,
    arguments: &'a [u16],
    own: u16,
}

/// The function-free table of a problem. Nodes that the root does not reach lay nothing.
pub fn eliminate(problem: &Checked) -> Table {
    let count = problem.nodes.len();
    let mut table = Table {
        nodes: Vec::with_capacity(2 * count),
        images: Vec::with_capacity(count),
        variables: Vec::with_capacity(problem.functions),
        truths: Vec::with_capacity(problem.predicates),
        root: 0,
    };
    let mut laid = Vec::with_capacity(problem.functions + problem.predicates);
    for (i, node) in problem.nodes.iter().enumerate() {
        let used = problem.used(node);
        let image = match problem.earliest[i].map(usize::from) {
            None => None,
            Some(earliest) if earliest < i => table.images[earliest],
            Some(_) if node.op.is_application() => {
                Some(application(&mut table, &mut laid, node, used))
            }
            Some(_) => Some(table.copy(node.op, used)),
        };
        table.images.push(image);
    }
    table.root = table.image(problem.root);
    table
}

/// Lays a distinct application: its own variable, then one choice for each earlier application
/// of its symbol, the latest first.
fn application<'a>(
    table: &mut Table,
    laid: &mut Vec<Laid<'a>>,
    node: &Node,
    arguments: &'a [u16],
) -> u16 {
    let choice = match node.op {
        Op::Apply => Op::Choose,
        _ => Op::Select,
    };
    let own = table.own_variable(node.op);
    let mut so_far = own;
    let earlier = laid.iter().rev();
    for other in earlier.filter(|other| other.symbol == node.symbol) {
        let condition = table.same_arguments(arguments, other.arguments);
        so_far = table.lay(choice, 0, [condition, other.own, so_far]);
    }
    let symbol = node.symbol;
    laid.push(Laid {
        symbol,
        arguments,
        own,
    });
    so_far
}

#[cfg(test)]
mod tests {
    use super::super::check;
    use super::*;
    use crate::problem::Problem;
    use crate::samples;

    fn table(problem: &[u8], root: usize) -> Table {
        eliminate(&check(problem, root).expect("accepted"))
    }

    fn table_bytes(problem: &[u8], root: usize) -> Vec<[u8; 8]> {
        let nodes = table(problem, root).nodes.into_iter();
        nodes.map(Node::to_bytes).collect()
    }

    /// Row 5's table and root, as docs/FORMAT.md works them out.
    #[test]
    fn row_five() {
        let problem = samples::row(5).bytes();
        let wanted = [
            [0, 0, 0, 0, 0, 0, 0, 0],
            [0, 1, 0, 0, 0, 0, 0, 0],
            [0, 2, 0, 0, 0, 0, 0, 0],
            [0, 3, 0, 0, 0, 0, 0, 0],
            [2, 0, 1, 0, 0, 0, 0, 0],
            [1, 0, 4, 0, 2, 0, 3, 0],
            [2, 0, 2, 0, 5, 0, 0, 0],
            [3, 0, 6, 0, 0, 0, 0, 0],
            [2, 0, 0, 0, 1, 0, 0, 0],
            [5, 0, 7, 0, 8, 0, 0, 0],
        ];
        assert_eq!(table_bytes(&problem, 7), wanted);
        let table = table(&problem, 7);
        assert_eq!((table.root, table.image(2), table.image(3)), (9, 2, 5));
    }

    /// Roots in row 5, by hand. x = y, node 6, reaches x and y alone. Not f(x) = f(y), node 5,
    /// has what stands before x = y in the table above.
    #[test]
    fn roots_of_row_five() {
        let problem = samples::row(5).bytes();
        let wanted = [
            [0, 0, 0, 0, 0, 0, 0, 0],
            [0, 1, 0, 0, 0, 0, 0, 0],
            [2, 0, 0, 0, 1, 0, 0, 0],
        ];
        assert_eq!(table_bytes(&problem, 6), wanted);
        let alone = table(&problem, 6);
        let images = [Some(0), Some(1), None, None, None, None, Some(2), None];
        assert_eq!((alone.root, &alone.images[..]), (2, &images[..]));
        assert_eq!(table_bytes(&problem, 5), table_bytes(&problem, 7)[..8]);
        assert_eq!(table(&problem, 5).root, 7);
    }

    /// p, not p, and p again: no root reaches a node that it repeats, so that each p asked is a
    /// truth variable of its own table.
    #[test]
    fn no_root_is_a_repeat() {
        let mut problem = Problem::new();
        let p = problem.predicate("p", 0);
        let first = problem.test(p, &[]);
        problem.not(first);
        let again = problem.test(p, &[]);
        for root in [first, again] {
            let table = table_bytes(&problem.bytes(), root.node());
            assert_eq!(table, [[6, 0, 0, 0, 0, 0, 0, 0]]);
        }
    }

    /// q(x, y, x), q(y, x, x) and q(x, x, y), by hand: the third compares itself with the second
    /// first, and each choice takes the other's own variable.
    #[test]
    fn three_arguments() {
        let problem = samples::three_tests().bytes();
        let wanted = [
            [0, 0, 0, 0, 0, 0, 0, 0],   //  0 x
            [0, 1, 0, 0, 0, 0, 0, 0],   //  1 y
            [6, 0, 0, 0, 0, 0, 0, 0],   //  2 q(x, y, x)
            [6, 1, 0, 0, 0, 0, 0, 0],   //  3 q(y, x, x), its own
            [2, 0, 1, 0, 0, 0, 0, 0],   //  4 y = x
            [2, 0, 0, 0, 1, 0, 0, 0],   //  5 x = y
            [4, 0, 4, 0, 5, 0, 0, 0],   //  6 and
            [2, 0, 0, 0, 0, 0, 0, 0],   //  7 x = x
            [4, 0, 6, 0, 7, 0, 0, 0],   //  8 and
            [9, 0, 8, 0, 2, 0, 3, 0],   //  9 q(y, x, x)
            [6, 2, 0, 0, 0, 0, 0, 0],   // 10 q(x, x, y), its own
            [2, 0, 0, 0, 1, 0, 0, 0],   // 11 x = y, against q(y, x, x)
            [2, 0, 0, 0, 0, 0, 0, 0],   // 12 x = x
            [4, 0, 11, 0, 12, 0, 0, 0], // 13 and
            [2, 0, 1, 0, 0, 0, 0, 0],   // 14 y = x
            [4, 0, 13, 0, 14, 0, 0, 0], // 15 and
            [9, 0, 15, 0, 3, 0, 10, 0], // 16
            [2, 0, 0, 0, 0, 0, 0, 0],   // 17 x = x, against q(x, y, x)
            [2, 0, 0, 0, 1, 0, 0, 0],   // 18 x = y
            [4, 0, 17, 0, 18, 0, 0, 0], // 19 and
            [2, 0, 1, 0, 0, 0, 0, 0],   // 20 y = x
            [4, 0, 19, 0, 20, 0, 0, 0], // 21 and
            [9, 0, 21, 0, 2, 0, 16, 0], // 22 q(x, x, y)
            [5, 0, 2, 0, 9, 0, 0, 0],   // 23 2 or 9
            [5, 0, 23, 0, 22, 0, 0, 0], // 24 23 or 22
        ];
        assert_eq!(table_bytes(&problem, 6), wanted);
    }
}
