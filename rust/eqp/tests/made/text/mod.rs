//! Texts: whole ones, ones on both sides of each limit, and damaged ones.

pub mod damage;
pub mod edges;
pub mod grow;
pub mod names;
pub mod spell;

use super::rng::Rng;
use spell::{Piece, Style};

/// A text before it is spelled.
pub type Pieces = Vec<Piece>;

/// A text of some kind, whole or damaged.
pub fn any(rng: &mut Rng) -> Vec<u8> {
    let mut pieces = match rng.below(12) {
        0 => edges::depth(rng, names::Oddity::Any),
        1 => edges::symbols(rng),
        2 => edges::nodes(rng),
        3 => edges::applications(rng),
        4 => grow::text(rng, grow::Shape::LARGE),
        _ => grow::text(rng, grow::Shape::SMALL),
    };
    let damaged = rng.once_in(2);
    let in_bytes = damaged && rng.once_in(3);
    match rng.below(12) {
        _ if !damaged || in_bytes => {}
        0 => damage::forget(rng, &mut pieces),
        _ => damage::pieces(rng, &mut pieces),
    }
    let style = Style::any(rng);
    let mut text = spell::spell(rng, &pieces, style);
    if in_bytes {
        damage::bytes(rng, &mut text);
    }
    text
}
