//! Damage to whole texts: to their pieces before they are spelled, or to their bytes.

use super::names;
use super::spell::Piece;
use super::Pieces;
use crate::made::rng::Rng;

/// Does one or two things to the pieces.
pub fn pieces(rng: &mut Rng, pieces: &mut Pieces) {
    for _ in 0..rng.within(1, 2) {
        let at = near_end(rng, pieces.len());
        let other = rng.below(pieces.len());
        match rng.below(10) {
            0 | 1 => {
                pieces.remove(at);
            }
            2 => pieces.insert(at, pieces[at].clone()),
            3 if at + 1 < pieces.len() => pieces.swap(at, at + 1),
            3 | 4 => pieces.swap(at, other),
            5 => pieces[at] = pieces[other].clone(),
            6 => pieces.insert(at, pieces[other].clone()),
            7 => pieces.insert(at, names::stray(rng)),
            8 => pieces.truncate(at.max(1)),
            _ => pieces[at] = names::stray(rng),
        }
        if pieces.is_empty() {
            pieces.push(Piece::Close);
        }
    }
}

/// Leaves out the declarations of the sort's constants, all of them or some: where all are gone,
/// there is no term of the sort, and what must have one is refused.
pub fn forget(rng: &mut Rng, pieces: &mut Pieces) {
    let all = rng.once_in(2);
    let mut at = 0;
    while at + CONSTANT < pieces.len() {
        let forgotten = is_constant(&pieces[at..]) && (all || rng.once_in(2));
        if forgotten {
            pieces.drain(at..at + CONSTANT);
        } else {
            at += 1;
        }
    }
}

/// How many pieces the declaration of a constant has.
const CONSTANT: usize = 7;

/// Whether a constant of the sort is declared here.
fn is_constant(pieces: &[Piece]) -> bool {
    use Piece::{Close, Open, Symbol, Word};
    match pieces {
        [Open, Word("declare-fun"), _, Open, Close, Symbol(result), ..] => {
            *result.bytes != *b"Bool"
        }
        _ => false,
    }
}

/// A place, past the first commands as often as not.
fn near_end(rng: &mut Rng, length: usize) -> usize {
    match rng.below(2) {
        0 => rng.below(length),
        _ => length - 1 - rng.below(length.min(40)),
    }
}

/// Does one or two things to the bytes.
pub fn bytes(rng: &mut Rng, text: &mut Vec<u8>) {
    for _ in 0..rng.within(1, 2) {
        if text.is_empty() {
            return;
        }
        let at = near_end(rng, text.len());
        match rng.below(8) {
            0 => text.truncate(at),
            1 => {
                text.remove(at);
            }
            2 => text.insert(at, *rng.pick(b"()|; 0\n\r\\@.\"\x00\x7f\x80")),
            3 => text[at] = rng.next() as u8,
            4 => text[at] = *rng.pick(b"()|; 0\n\r\\@.\"\x00\x7f\x80"),
            5 => text[at] ^= 1 << rng.below(8),
            6 => text.insert(at, text[at]),
            _ => text.push(*rng.pick(b"()|; 0x\n\r")),
        }
    }
}
