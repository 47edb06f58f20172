//! The witness of a falsified answer.

use super::check::Checked;
use super::eliminate::Table;

/// Writes the witness for the values at the falsifying place, and gives its length.
pub fn write(problem: &Checked, table: &Table, values: &[u8], witness: &mut [u8]) -> usize {
    let value_of = |node: usize| values[usize::from(table.image(node))];
    let rows = problem.functions + problem.predicates;
    let (header, space) = witness.split_at_mut(6);
    header.copy_from_slice(&[b'E', b'Q', b'W', 1, 0, rows as u8]);
    for (slot, number) in space.chunks_exact_mut(5).zip(problem.distinct()) {
        let node = problem.nodes[number];
        let mut arguments = [0; 3];
        for (argument, &operand) in arguments.iter_mut().zip(problem.used(&node)) {
            *argument = value_of(usize::from(operand));
        }
        let [a, b, c] = arguments;
        slot.copy_from_slice(&[node.symbol, a, b, c, value_of(number)]);
    }
    6 + 5 * rows
}
