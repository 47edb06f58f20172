//! The nodes of a text: every term written in pairs, equal nodes once, then what joins the asserts
//! and the one negation (document 02, E1).

use std::collections::HashMap;

use super::subset::Text;
use super::terms::{Head, Term};
use crate::reference::{Node, Op, Sort};

/// A node with room for any number: a text may have more nodes and symbols than a problem.
type Wide = (Op, usize, [usize; 3]);

/// The nodes of a text in order, each after its operands. Numbers over those that a node can have
/// are cut: a problem with so many is refused.
pub fn of(text: &Text) -> Vec<Node> {
    let mut laid = Laid::default();
    let asserts: Vec<usize> = text.asserts.iter().map(|term| laid.term(term)).collect();
    let joined = asserts
        .into_iter()
        .reduce(|before, assert| laid.pair(Op::And, before, assert));
    let joined = joined.unwrap_or_else(|| laid.node(Op::True, [0; 3]));
    laid.node(Op::Not, [joined, 0, 0]);
    let narrow = |&(op, symbol, operands): &Wide| Node {
        op,
        symbol: symbol as u8,
        operands: operands.map(|operand| operand as u16),
    };
    laid.nodes.iter().map(narrow).collect()
}

/// The nodes laid so far.
#[derive(Default)]
struct Laid {
    nodes: Vec<Wide>,
    numbers: HashMap<Wide, usize>,
}

impl Laid {
    /// The number of an equal node, or of a new one.
    fn find(&mut self, node: Wide) -> usize {
        let next = self.nodes.len();
        let number = *self.numbers.entry(node).or_insert(next);
        if number == next {
            self.nodes.push(node);
        }
        number
    }

    fn node(&mut self, op: Op, operands: [usize; 3]) -> usize {
        self.find((op, 0, operands))
    }

    fn pair(&mut self, op: Op, left: usize, right: usize) -> usize {
        self.node(op, [left, right, 0])
    }

    /// The number of a term's node.
    fn term(&mut self, term: &Term) -> usize {
        match term.head {
            Head::Constant(true) => self.node(Op::True, [0; 3]),
            Head::Constant(false) => self.node(Op::False, [0; 3]),
            Head::And => self.list(Op::And, &term.arguments),
            Head::Or => self.list(Op::Or, &term.arguments),
            Head::Implies => self.implications(&term.arguments),
            Head::Equal => self.chain(&term.arguments),
            Head::Not => self.applied(Op::Not, 0, &term.arguments),
            Head::Ite(Sort::Term) => self.applied(Op::Choose, 0, &term.arguments),
            Head::Ite(Sort::Formula) => self.applied(Op::Select, 0, &term.arguments),
            Head::Declared(number, symbol) => {
                let op = if symbol.byte() < 16 {
                    Op::Apply
                } else {
                    Op::Test
                };
                self.applied(op, number, &term.arguments)
            }
        }
    }

    /// A node of at most three operands.
    fn applied(&mut self, op: Op, symbol: usize, arguments: &[Term]) -> usize {
        let mut operands = [0; 3];
        for (operand, argument) in operands.iter_mut().zip(arguments) {
            *operand = self.term(argument);
        }
        self.find((op, symbol, operands))
    }

    /// (and a b c) is ((a and b) and c); "or" likewise.
    fn list(&mut self, op: Op, arguments: &[Term]) -> usize {
        let mut so_far = self.term(&arguments[0]);
        for argument in &arguments[1..] {
            let next = self.term(argument);
            so_far = self.pair(op, so_far, next);
        }
        so_far
    }

    /// (=> a b c) is not a or (not b or c).
    fn implications(&mut self, arguments: &[Term]) -> usize {
        let (last, conditions) = arguments.split_last().expect("two arguments or more");
        let mut denied = Vec::with_capacity(conditions.len());
        for condition in conditions {
            let holds = self.term(condition);
            denied.push(self.node(Op::Not, [holds, 0, 0]));
        }
        let last = self.term(last);
        let join = |so_far, &fails: &usize| self.pair(Op::Or, fails, so_far);
        denied.iter().rev().fold(last, join)
    }

    /// (= a b c d) is (((a = b) and (b = c)) and (c = d)).
    fn chain(&mut self, arguments: &[Term]) -> usize {
        let mut left = self.term(&arguments[0]);
        let mut so_far = None;
        for argument in &arguments[1..] {
            let right = self.term(argument);
            let equation = self.pair(Op::Equal, left, right);
            so_far = Some(match so_far {
                None => equation,
                Some(before) => self.pair(Op::And, before, equation),
            });
            left = right;
        }
        so_far.expect("two arguments or more")
    }
}
