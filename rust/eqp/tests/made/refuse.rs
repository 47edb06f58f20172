//! Problems that must be refused, each with the number and place it must be refused by.

use eqp::problem::{Formula, Problem};
use eqp::samples::variables;

use super::generate::{Growing, Shape};
use super::rng::Rng;
use crate::compared::replay::{arity, nodes};

/// The refusals that an edit is for.
pub const EDITS: [u8; 8] = [1, 2, 3, 4, 5, 6, 7, 16];

/// An edit of a well-formed problem whose last node is refused by `number`; and the place.
pub fn edit(rng: &mut Rng, number: u8, problem: &[u8]) -> (Vec<u8>, u64) {
    let mut bytes = problem.to_vec();
    let place = match number {
        1 => {
            bytes.truncate(rng.below(8));
            0
        }
        2 => {
            bytes[rng.below(3)] ^= rng.within(1, 255) as u8;
            0
        }
        3 => {
            bytes[3 + rng.below(2)] ^= rng.within(1, 255) as u8;
            0
        }
        4 => bad_count(rng, &mut bytes),
        5 => bad_length(rng, &mut bytes),
        6 => bad_symbols(rng, &mut bytes),
        7 => bad_node(rng, &mut bytes),
        16 => ask_term(&mut bytes),
        _ => unreachable!("there is no edit for refusal {number}"),
    };
    (bytes, place as u64)
}

fn node_count(bytes: &[u8]) -> usize {
    usize::from(u16::from_le_bytes([bytes[6], bytes[7]]))
}

fn set_node_count(bytes: &mut [u8], count: usize) {
    bytes[6..8].copy_from_slice(&(count as u16).to_le_bytes());
}

fn bad_count(rng: &mut Rng, bytes: &mut [u8]) -> usize {
    match rng.below(4) {
        0 => bytes[5] = rng.within(33, 255) as u8,
        1 => set_node_count(bytes, 0),
        2 => set_node_count(bytes, 257),
        _ => set_node_count(bytes, rng.within(257, 65_535)),
    }
    0
}

fn bad_length(rng: &mut Rng, bytes: &mut Vec<u8>) -> usize {
    let count = node_count(bytes);
    match rng.below(4) {
        0 => bytes.truncate(rng.within(8, bytes.len() - 1)),
        1 => bytes.extend((0..rng.within(1, 20)).map(|byte| byte as u8)),
        2 if bytes[5] < 32 => bytes[5] += 1,
        2 => bytes[5] -= 1,
        _ if count < 256 => set_node_count(bytes, count + 1),
        _ => set_node_count(bytes, count - 1),
    }
    0
}

/// Spoils a symbol, and perhaps a later one; the first counts.
fn bad_symbols(rng: &mut Rng, bytes: &mut [u8]) -> usize {
    let symbols = usize::from(bytes[5]);
    let first = rng.below(symbols);
    for at in [first, rng.within(first, symbols - 1)] {
        bytes[8 + at] = match rng.below(2) {
            0 => rng.within(4, 15) as u8,
            _ => rng.within(20, 255) as u8,
        };
    }
    first
}

/// Spoils a node, and perhaps a later one; the first counts.
fn bad_node(rng: &mut Rng, bytes: &mut [u8]) -> usize {
    let count = node_count(bytes);
    let first = rng.below(count);
    for at in [first, rng.within(first, count - 1)] {
        while !spoil(rng, bytes, at) {}
    }
    first
}

/// Tries to spoil a node in one of six ways.
fn spoil(rng: &mut Rng, bytes: &mut [u8], at: usize) -> bool {
    let (op, symbol, _) = nodes(bytes).nth(at).expect("a node of the problem");
    let symbols = usize::from(bytes[5]);
    let is_application = op == 0 || op == 6;
    if op > 9 || is_application && usize::from(symbol) >= symbols {
        return true; // It is spoilt already.
    }
    let start = 8 + symbols + 8 * at;
    match rng.below(6) {
        0 => bytes[start] = rng.within(10, 255) as u8,
        1 if is_application => bytes[start + 1] = rng.within(symbols, 255) as u8,
        1 => bytes[start + 1] = rng.within(1, 255) as u8,
        2 if is_application => {
            let other = rng.below(symbols);
            bytes[start + 1] = other as u8;
            return (bytes[8 + other] >= 16) != (op == 6);
        }
        _ => return spoil_operand(rng, bytes, at, start),
    }
    true
}

/// Tries to name a node that is not earlier, to use an unused operand, or to take a wrong sort.
fn spoil_operand(rng: &mut Rng, bytes: &mut [u8], at: usize, start: usize) -> bool {
    let all: Vec<_> = nodes(bytes).collect();
    let (op, symbol, _) = all[at];
    let operand = rng.below(3);
    let (used, wants_term) = match op {
        0 | 6 => (arity(bytes, symbol), true),
        1 => (3, operand > 0),
        9 => (3, false),
        2 => (2, true),
        4 | 5 => (2, false),
        3 => (1, false),
        _ => (0, false),
    };
    let is_term = |node: usize| all[node].0 <= 1;
    let value = match rng.below(2) {
        _ if operand >= used => rng.within(1, 65_535),
        0 => rng.within(at, 65_535),
        _ => match rng.below(at.max(1)) {
            other if other < at && is_term(other) != wants_term => other,
            _ => return false,
        },
    };
    let field = start + 2 + 2 * operand;
    bytes[field..field + 2].copy_from_slice(&(value as u16).to_le_bytes());
    true
}

/// Adds a variable at the end, where it is asked.
fn ask_term(bytes: &mut Vec<u8>) -> usize {
    let symbols = usize::from(bytes[5]);
    let kinds = &bytes[8..8 + symbols];
    let variable = kinds.iter().position(|&kind| kind == 0);
    let variable = variable.expect("generated problems have a variable");
    bytes.extend_from_slice(&[0, variable as u8, 0, 0, 0, 0, 0, 0]);
    let count = node_count(bytes) + 1;
    set_node_count(bytes, count);
    0
}

/// A problem whose last node reaches too many distinct function applications, and perhaps
/// predicate applications.
pub fn many_functions(rng: &mut Rng) -> Vec<u8> {
    let mut p = Problem::new();
    let x = variables(&mut p, "x", rng.within(6, 12));
    let f = p.function("f", 2);
    let q = p.predicate("q", 1);
    let mut terms = x.clone();
    for i in 0..rng.within(25, 60) - x.len() {
        terms.push(p.apply(f, &[x[i % x.len()], terms[i]]));
    }
    let mut root = p.yes();
    for pair in terms.chunks(2) {
        let equation = p.equal(pair[0], pair[pair.len() - 1]);
        root = p.or(root, equation);
    }
    for _ in 0..rng.below(40) {
        let test = p.test(q, &[*rng.pick(&terms)]);
        root = p.or(root, test);
    }
    p.bytes()
}

/// A problem whose last node reaches too many distinct predicate applications and few functions.
pub fn many_predicates(rng: &mut Rng) -> Vec<u8> {
    let mut p = Problem::new();
    let x = variables(&mut p, "x", rng.within(6, 12));
    let q = p.predicate("q", 2);
    let mut root = p.no();
    for i in 0..rng.within(17, 30) {
        let test = p.test(q, &[x[i % 6], x[i / 6]]);
        root = p.or(root, test);
    }
    p.bytes()
}

/// A problem whose last node joins twenty variables or more, which is over 10^18 places.
pub fn many_places(rng: &mut Rng) -> Vec<u8> {
    let shape = Shape {
        nodes: rng.below(40),
        functions: 4,
        predicates: 3,
        dense: false,
    };
    let mut growing = Growing::new(rng, shape);
    let count = 20;
    let x = variables(&mut growing.p, "x", count);
    let mut links = growing.p.no();
    for pair in x.windows(2) {
        let link = growing.p.equal(pair[1], pair[0]);
        links = growing.p.or(link, links);
    }
    let linked = growing.p.node_count();
    while growing.p.node_count() < linked + shape.nodes {
        growing.step();
    }
    let other: Formula = growing.finish();
    growing.p.or(other, links);
    growing.p.bytes()
}
