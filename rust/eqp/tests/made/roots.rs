//! Roots to name, and tables cut short.

use eqp::problem::last_node;

use super::rng::Rng;

/// No table has so many nodes; the low bits of each are the number of a node of most tables.
pub const WIDE: [usize; 8] = [
    256,
    65_536,
    65_537,
    1 << 31,
    1 << 32,
    (1 << 32) + 1,
    1 << 63,
    usize::MAX,
];

/// The numbers of the nodes whose op belongs, as far as there are nodes.
fn nodes_by(problem: &[u8], belongs: fn(u8) -> bool) -> Vec<usize> {
    let symbols = usize::from(problem.get(5).copied().unwrap_or(0));
    let nodes = problem.get(8 + symbols..).unwrap_or(&[]).chunks_exact(8);
    let numbered = nodes.enumerate().filter(|(_, node)| belongs(node[0]));
    numbered.map(|(number, _)| number).collect()
}

/// The formulas of a well-formed problem.
pub fn formulas(problem: &[u8]) -> Vec<usize> {
    nodes_by(problem, |op| op > 1)
}

/// The terms of a well-formed problem.
pub fn terms(problem: &[u8]) -> Vec<usize> {
    nodes_by(problem, |op| op <= 1)
}

/// A formula of a well-formed problem: the last one, or as often any.
pub fn formula(rng: &mut Rng, problem: &[u8]) -> usize {
    let formulas = formulas(problem);
    match rng.below(2) {
        0 => formulas[formulas.len() - 1],
        _ => *rng.pick(&formulas),
    }
}

/// A root that a well-formed problem is refused for: a term, or what is no node.
pub fn wrong(rng: &mut Rng, problem: &[u8]) -> usize {
    let terms = terms(problem);
    match rng.below(3) {
        0 if !terms.is_empty() => *rng.pick(&terms),
        1 => last_node(problem) + rng.within(1, 3),
        _ if rng.once_in(2) => *rng.pick(&WIDE) | last_node(problem),
        _ => *rng.pick(&WIDE),
    }
}

/// Any root for any bytes, mostly a formula where they are well formed.
pub fn any(rng: &mut Rng, problem: &[u8]) -> usize {
    match rng.below(16) {
        0 => wrong(rng, problem),
        1..=8 if !formulas(problem).is_empty() => formula(rng, problem),
        _ => last_node(problem),
    }
}

/// The first so many nodes of a well-formed problem, with all its symbols.
pub fn cut(problem: &[u8], count: usize) -> Vec<u8> {
    let mut bytes = problem[..8 + usize::from(problem[5]) + 8 * count].to_vec();
    bytes[6..8].copy_from_slice(&(count as u16).to_le_bytes());
    bytes
}
