//! Each field of a node of each op, with a good value and with the bad ones next to it.

use super::limits::Case;

/// The symbols: functions of arity 0 to 3, then predicates.
const SYMBOLS: [u8; 8] = [0, 1, 2, 3, 16, 17, 18, 19];
/// A formula and a term to take, then the node in question, then true.
const FORMULA: u16 = 0;
const TERM: u16 = 1;
const PLACE: u16 = 2;

/// A node in question: op, symbol, and for each operand the number of what it takes.
type Subject = (u8, u8, &'static [u16]);

/// Every op, and the applications by arity.
const SUBJECTS: [Subject; 16] = [
    (0, 0, &[]),
    (0, 1, &[TERM]),
    (0, 2, &[TERM, TERM]),
    (0, 3, &[TERM, TERM, TERM]),
    (1, 0, &[FORMULA, TERM, TERM]),
    (2, 0, &[TERM, TERM]),
    (3, 0, &[FORMULA]),
    (4, 0, &[FORMULA, FORMULA]),
    (5, 0, &[FORMULA, FORMULA]),
    (6, 4, &[]),
    (6, 5, &[TERM]),
    (6, 6, &[TERM, TERM]),
    (6, 7, &[TERM, TERM, TERM]),
    (7, 0, &[]),
    (8, 0, &[]),
    (9, 0, &[FORMULA, FORMULA, FORMULA]),
];

fn problem(op: u8, symbol: u8, operands: [u16; 3]) -> Vec<u8> {
    let mut bytes = b"EQP\x01\x00\x08\x04\x00".to_vec();
    bytes.extend_from_slice(&SYMBOLS);
    bytes.extend_from_slice(&[7, 0, 0, 0, 0, 0, 0, 0]);
    bytes.extend_from_slice(&[0, 0, 0, 0, 0, 0, 0, 0]);
    bytes.extend_from_slice(&[op, symbol]);
    for operand in operands {
        bytes.extend_from_slice(&operand.to_le_bytes());
    }
    bytes.extend_from_slice(&[7, 0, 0, 0, 0, 0, 0, 0]);
    bytes
}

/// All of them.
pub fn cases() -> Vec<Case> {
    let mut cases = Vec::new();
    for (op, symbol, takes) in SUBJECTS {
        let mut good = [0; 3];
        good[..takes.len()].copy_from_slice(takes);
        cases.push((problem(op, symbol, good), None));
        let refusal = Some((7, u64::from(PLACE)));
        for symbol in bad_symbols(op) {
            cases.push((problem(op, symbol, good), refusal));
        }
        for k in 0..3 {
            for value in bad_operands(takes.get(k)) {
                let mut operands = good;
                operands[k] = value;
                cases.push((problem(op, symbol, operands), refusal));
            }
        }
    }
    cases
}

/// The other kind and the ones past the last, or any where none belongs.
fn bad_symbols(op: u8) -> [u8; 4] {
    match op {
        0 => [4, 7, 8, 255],
        6 => [0, 3, 8, 255],
        _ => [1, 4, 8, 255],
    }
}

/// The wrong sort, this node, a later one and a number with a high byte; or any where none
/// belongs.
fn bad_operands(takes: Option<&u16>) -> [u16; 4] {
    match takes {
        Some(&good) => [1 - good, PLACE, PLACE + 1, 256 + good],
        None => [1, PLACE, PLACE + 1, 256],
    }
}
