//! Problem bytes: the refusals 1 to 7 and 16, what the root reaches, the repeats among those
//! applications, and the refusals 9 and 10.

use std::mem;

use super::node::{Node, Op, Sort};
use super::Refusal;

/// The most nodes.
const MOST_NODES: usize = 256;
/// The most distinct function applications.
const MOST_FUNCTIONS: usize = 24;
/// The most distinct predicate applications.
const MOST_PREDICATES: usize = 16;

/// A problem that has passed the check, with the root that is asked.
///
/// Nodes keep their numbers: those that the root does not reach are passed over wherever the
/// nodes are gone through.
#[derive(Debug)]
pub struct Checked<'a> {
    /// The symbol bytes.
    pub symbols: &'a [u8],
    /// The nodes in order.
    pub nodes: Vec<Node>,
    /// The number of the node that is asked, a formula.
    pub root: usize,
    /// For each node that the root reaches the earliest equal one that it reaches: its own number,
    /// unless it is a repeat. `None` where the root does not reach it.
    pub earliest: Vec<Option<u16>>,
    /// How many distinct function applications the root reaches.
    pub functions: usize,
    /// How many distinct predicate applications the root reaches.
    pub predicates: usize,
}

impl Checked<'_> {
    /// The operands of a node that are in use.
    pub fn used<'b>(&self, node: &'b Node) -> &'b [u16] {
        used(self.symbols, node)
    }

    /// The numbers of the distinct applications that the root reaches, in order.
    pub fn distinct(&self) -> impl Iterator<Item = usize> + '_ {
        let nodes = (0..).zip(&self.nodes).zip(&self.earliest);
        nodes
            .filter(|((i, node), first)| node.op.is_application() && **first == Some(*i))
            .map(|((i, _), _)| usize::from(i))
    }
}

/// Checks a problem and the root that is asked of it: refusals 1 to 7, then 16, 9 and 10.
pub fn check(bytes: &[u8], root: usize) -> Result<Checked<'_>, Refusal> {
    let (symbols, nodes) = split(bytes)?;
    if let Some(bad) = symbols.iter().position(|&byte| !is_symbol(byte)) {
        return Err(Refusal::at(6, bad));
    }
    let nodes = read_nodes(symbols, nodes)?;
    if nodes.get(root).map(|node| node.op.sort()) != Some(Sort::Formula) {
        return Err(Refusal::new(16));
    }
    let mut reached = [false; MOST_NODES];
    reach(symbols, &nodes, root, &mut reached);
    let (earliest, functions, predicates) = find_repeats(&nodes, &reached);
    if functions > MOST_FUNCTIONS {
        return Err(Refusal::new(9));
    }
    if predicates > MOST_PREDICATES {
        return Err(Refusal::new(10));
    }
    Ok(Checked {
        symbols,
        nodes,
        root,
        earliest,
        functions,
        predicates,
    })
}

/// The symbol bytes and the node bytes: refusals 1 to 5.
fn split(bytes: &[u8]) -> Result<(&[u8], &[u8]), Refusal> {
    let header: &[u8; 8] = bytes
        .get(..8)
        .and_then(|header| header.try_into().ok())
        .ok_or_else(|| Refusal::new(1))?;
    let rest = &bytes[8..];
    let [letters @ .., v0, v1, s, n0, n1] = header;
    let (s, n) = (usize::from(*s), u16::from_le_bytes([*n0, *n1]));
    if letters != b"EQP" {
        return Err(Refusal::new(2));
    }
    if u16::from_le_bytes([*v0, *v1]) != 1 {
        return Err(Refusal::new(3));
    }
    if s > 32 || !(1..=MOST_NODES).contains(&usize::from(n)) {
        return Err(Refusal::new(4));
    }
    if rest.len() != s + 8 * usize::from(n) {
        return Err(Refusal::new(5));
    }
    Ok(rest.split_at(s))
}

fn is_symbol(byte: u8) -> bool {
    matches!(byte, 0..=3 | 16..=19)
}

fn arity(symbol: u8) -> usize {
    usize::from(symbol % 16)
}

/// The nodes, all of them well formed: refusal 7.
fn read_nodes(symbols: &[u8], bytes: &[u8]) -> Result<Vec<Node>, Refusal> {
    let mut nodes = Vec::with_capacity(bytes.len() / 8);
    for chunk in bytes.chunks_exact(8) {
        let chunk = chunk.try_into().expect("a chunk of eight bytes");
        match Node::from_bytes(chunk).filter(|node| fits(symbols, &nodes, node)) {
            Some(node) => nodes.push(node),
            None => return Err(Refusal::at(7, nodes.len())),
        }
    }
    Ok(nodes)
}

/// Whether a node may stand after `earlier`.
fn fits(symbols: &[u8], earlier: &[Node], node: &Node) -> bool {
    let arity = match (node.op, symbols.get(usize::from(node.symbol))) {
        (Op::Apply, Some(&symbol)) if symbol < 16 => arity(symbol),
        (Op::Test, Some(&symbol)) if symbol >= 16 => arity(symbol),
        (Op::Apply | Op::Test, _) => return false,
        (_, _) if node.symbol != 0 => return false,
        (_, _) => 0,
    };
    let takes = node.op.takes(arity);
    let (used, unused) = node.operands.split_at(takes.len());
    let sorted = |(&operand, &sort): (&u16, _)| {
        let operand = earlier.get(usize::from(operand));
        operand.map_or(false, |operand| operand.op.sort() == sort)
    };
    used.iter().zip(takes).all(sorted) && unused.iter().all(|&operand| operand == 0)
}

/// The operands that a well-formed node uses, by its op and its symbol's arity.
fn used<'a>(symbols: &[u8], node: &'a Node) -> &'a [u16] {
    let arity = match node.op {
        Op::Apply | Op::Test => arity(symbols[usize::from(node.symbol)]),
        _ => 0,
    };
    &node.operands[..node.op.takes(arity).len()]
}

/// Marks what a node reaches: itself, and what the operands that it uses reach. It goes no deeper
/// than there are nodes.
fn reach(symbols: &[u8], nodes: &[Node], number: usize, reached: &mut [bool]) {
    if !mem::replace(&mut reached[number], true) {
        for &operand in used(symbols, &nodes[number]) {
            reach(symbols, nodes, usize::from(operand), reached);
        }
    }
}

/// For each reached node the earliest equal one among the reached, and the counts of distinct
/// applications among them.
fn find_repeats(nodes: &[Node], reached: &[bool]) -> (Vec<Option<u16>>, usize, usize) {
    let mut earliest = vec![None; nodes.len()];
    let mut distinct: Vec<u16> = Vec::with_capacity(MOST_FUNCTIONS + MOST_PREDICATES);
    let mut functions = 0;
    for (i, node) in (0..).zip(nodes) {
        if !reached[usize::from(i)] {
            continue;
        }
        let same = |&&other: &&u16| nodes[usize::from(other)] == *node;
        let first = match node.op {
            Op::Apply | Op::Test => distinct.iter().find(same).copied(),
            _ => Some(i),
        };
        earliest[usize::from(i)] = Some(first.unwrap_or(i));
        if first.is_none() {
            distinct.push(i);
            functions += usize::from(node.op == Op::Apply);
        }
    }
    let predicates = distinct.len() - functions;
    (earliest, functions, predicates)
}

#[cfg(test)]
mod tests {
    use super::*;
    use crate::problem::{Formula, Problem};
    use crate::samples;

    /// What root 1 is refused by, and every other root too that is no formula.
    fn refused(bytes: &[u8]) -> (u8, u64) {
        let by = |root| {
            let refusal = check(bytes, root).expect_err("refused");
            (refusal.number, refusal.place)
        };
        assert_eq!([0, 2, 1 << 32, usize::MAX].map(by), [by(1); 4]);
        by(1)
    }

    /// The order in which the conditions are tried: each edit mends the one before it.
    #[test]
    fn order_of_refusals() {
        assert_eq!(refused(b"EQX\x02\x00\x21\x00"), (1, 0));
        assert_eq!(refused(b"EQX\x02\x00\x21\x00\x00"), (2, 0));
        assert_eq!(refused(b"EQP\x02\x00\x21\x00\x00"), (3, 0));
        assert_eq!(refused(b"EQP\x01\x01\x21\x00\x00"), (3, 0));
        assert_eq!(refused(b"EQP\x01\x00\x21\x01\x00"), (4, 0));
        assert_eq!(refused(b"EQP\x01\x00\x02\x00\x00"), (4, 0));
        assert_eq!(refused(b"EQP\x01\x00\x02\x01\x01"), (4, 0));
        assert_eq!(refused(b"EQP\x01\x00\x02\x01\x00"), (5, 0));
        assert_eq!(refused(b"EQP\x01\x00\x02\x01\x00\x00\x04********"), (6, 1));
        assert_eq!(refused(b"EQP\x01\x00\x02\x01\x00\x00\x03********"), (7, 0));
        let term = b"EQP\x01\x00\x02\x01\x00\x00\x03\0\0\0\0\0\0\0\0";
        assert_eq!(refused(term), (16, 0));
    }

    /// f(x), f(x), f(y) and f of the second f(x): the second is a repeat, while the last has
    /// another operand number than f of the first would have.
    #[test]
    fn repeats_go_by_operand_numbers() {
        let mut p = Problem::new();
        let (x, y, f) = (p.function("x", 0), p.function("y", 0), p.function("f", 1));
        let (x, y) = (p.apply(x, &[]), p.apply(y, &[]));
        let first = p.apply(f, &[x]);
        let second = p.apply(f, &[x]);
        let third = p.apply(f, &[y]);
        let (fourth, fifth) = (p.apply(f, &[first]), p.apply(f, &[second]));
        let (left, right) = (p.equal(third, fourth), p.equal(fifth, first));
        let both = p.and(left, right);
        let bytes = p.bytes();
        let checked = check(&bytes, both.node()).expect("accepted");
        let earliest = [0, 1, 2, 2, 4, 5, 6, 7, 8, 9];
        assert_eq!(checked.earliest, earliest.map(Some));
        assert_eq!((checked.functions, checked.predicates), (6, 0));
        assert_eq!(checked.distinct().collect::<Vec<_>>(), [0, 1, 2, 4, 5, 6]);
    }

    /// The same nodes, asked for f(f(x)) = f(x), whose two sides take the second f(x) and the
    /// first: with both reached it is a repeat. Asked for f(y) = f(y), no f(x) is reached.
    #[test]
    fn unreached_nodes_are_no_repeats() {
        let mut p = Problem::new();
        let (x, y, f) = (p.function("x", 0), p.function("y", 0), p.function("f", 1));
        let (x, y) = (p.apply(x, &[]), p.apply(y, &[]));
        let first = p.apply(f, &[x]);
        let second = p.apply(f, &[x]);
        let outer = p.apply(f, &[second]);
        let both = p.equal(outer, first);
        let one = p.equal(outer, outer);
        let other = p.apply(f, &[y]);
        let last = p.equal(other, other);
        let bytes = p.bytes();
        let check = |root: Formula| check(&bytes, root.node()).expect("accepted");
        let with = |reached: &[(usize, u16)]| {
            let mut wanted = [None; 9];
            for &(node, earliest) in reached {
                wanted[node] = Some(earliest);
            }
            wanted
        };
        let reached = [(0, 0), (2, 2), (3, 2), (4, 4), (5, 5)];
        assert_eq!(check(both).earliest, with(&reached));
        assert_eq!(check(both).functions, 3);
        let reached = [(0, 0), (3, 3), (4, 4), (6, 6)];
        assert_eq!(check(one).earliest, with(&reached));
        assert_eq!(check(one).functions, 3);
        assert_eq!(check(last).earliest, with(&[(1, 1), (7, 7), (8, 8)]));
        assert_eq!(check(last).distinct().collect::<Vec<_>>(), [1, 7]);
    }

    /// A root is a formula of the table: its terms, its end and what lies past it are not, and
    /// neither is a number whose low bits are a formula's.
    #[test]
    fn roots() {
        let bytes = samples::row(9).bytes();
        let accepted = |root: usize| match check(&bytes, root) {
            Ok(_) => true,
            Err(refusal) => {
                assert_eq!(refusal, Refusal::new(16));
                false
            }
        };
        assert_eq!(
            (0..8).filter(|&root| accepted(root)).collect::<Vec<_>>(),
            [0, 4]
        );
        for root in [256, 260, 1 << 16, (1 << 32) + 4, (1 << 63) + 4, usize::MAX] {
            assert!(!accepted(root));
        }
    }
}
