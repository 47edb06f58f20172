//! Jobs in solver text: a subset of SMT-LIB 2.6, logic QF_UF, written from document 02, E1.
//!
//! `tokens` cuts the text, `subset` reads commands and `terms`, `nodes` writes them in pairs.

mod nodes;
mod subset;
mod terms;
mod tokens;

use super::{check, Refusal};
use crate::{Reading, PROBLEM_LEN};

/// The most symbols and nodes that a problem can have.
const MOST_SYMBOLS: usize = 32;
const MOST_NODES: usize = 256;

/// Reads one text. The problem's bytes go to the start of the buffer; a refusal writes nothing.
pub fn read(text: &[u8], problem: &mut [u8]) -> Reading {
    match try_read(text, problem.len()) {
        Ok(bytes) => {
            problem[..bytes.len()].copy_from_slice(&bytes);
            Reading::Read {
                length: bytes.len(),
            }
        }
        Err(Refusal { number, place }) => Reading::Refused { number, place },
    }
}

/// The problem of a text, for a buffer with this much room. The text comes before the limits: a
/// symbol or a node too many is refused only where the text is read to its end.
fn try_read(text: &[u8], room: usize) -> Result<Vec<u8>, Refusal> {
    if room < PROBLEM_LEN {
        return Err(Refusal::new(23));
    }
    let text = subset::parse(text)?;
    let nodes = nodes::of(&text);
    if text.symbols.len() > MOST_SYMBOLS || nodes.len() > MOST_NODES {
        return Err(Refusal::new(4));
    }
    let mut bytes = b"EQP\x01\x00".to_vec();
    bytes.push(text.symbols.len() as u8);
    bytes.extend_from_slice(&(nodes.len() as u16).to_le_bytes());
    bytes.extend(text.symbols.iter().map(|symbol| symbol.byte()));
    for node in &nodes {
        bytes.extend_from_slice(&node.to_bytes());
    }
    check(&bytes, nodes.len() - 1)?;
    Ok(bytes)
}
