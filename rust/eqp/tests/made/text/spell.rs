//! The bytes of a text: each piece with bars or without, and what stands between them.

use std::rc::Rc;

use crate::made::rng::Rng;

/// A token before it is spelled.
#[derive(Clone, Debug, PartialEq, Eq)]
pub enum Piece {
    /// An opening bracket.
    Open,
    /// A closing bracket.
    Close,
    /// What is written as it stands: a command, a numeral, or what a damage puts in.
    Word(&'static str),
    /// A symbol.
    Symbol(Name),
}

impl Piece {
    /// A symbol that may be written without bars.
    pub fn symbol(name: &str) -> Self {
        Piece::Symbol(Name::plain(name))
    }
}

/// A symbol's name.
#[derive(Clone, Debug, PartialEq, Eq)]
pub struct Name {
    pub bytes: Rc<[u8]>,
    /// Whether it is a symbol only with bars around it.
    pub needs_bars: bool,
}

impl Name {
    pub fn plain(name: &str) -> Self {
        Self {
            bytes: name.as_bytes().into(),
            needs_bars: false,
        }
    }
}

/// How a text is laid out.
#[derive(Clone, Copy, Debug, PartialEq, Eq)]
pub enum Style {
    /// As people write: one space where one is needed or usual, a line for each command.
    Plain,
    /// No byte more than is needed.
    Tight,
    /// Any white space, comments and bars.
    Odd {
        /// Whether a carriage return may end a comment, which z3 does not take.
        returns: bool,
    },
}

impl Style {
    pub fn any(rng: &mut Rng) -> Self {
        let odd = Style::Odd { returns: true };
        *rng.pick(&[Style::Plain, Style::Tight, odd, odd])
    }
}

/// The text of these pieces.
pub fn spell(rng: &mut Rng, pieces: &[Piece], style: Style) -> Vec<u8> {
    let mut text = Vec::new();
    let mut level = 0;
    for piece in pieces {
        write(rng, &mut text, piece, style, level);
        level += match piece {
            Piece::Open => 1,
            Piece::Close => -1,
            _ => 0,
        };
    }
    if let Style::Odd { returns } = style {
        between(rng, &mut text, false, returns);
        if rng.once_in(4) {
            text.extend_from_slice(b";end");
        }
    }
    text
}

/// Writes a piece, and what must stand or may stand before it.
fn write(rng: &mut Rng, text: &mut Vec<u8>, piece: &Piece, style: Style, level: i32) {
    let (word, bars): (&[u8], bool) = match piece {
        Piece::Open => (b"(", false),
        Piece::Close => (b")", false),
        Piece::Word(word) => (word.as_bytes(), false),
        Piece::Symbol(name) => {
            let odd = matches!(style, Style::Odd { .. }) && rng.once_in(4);
            (&name.bytes, name.needs_bars || odd)
        }
    };
    let touches = text.last().map_or(false, |&last| is_word_byte(last));
    let apart = touches && !bars && is_word_byte(word[0]);
    match style {
        Style::Odd { returns } => between(rng, text, apart, returns),
        Style::Plain => usual(text, piece, level),
        Style::Tight if apart => text.push(b' '),
        Style::Tight => {}
    }
    let bar: &[u8] = if bars { b"|" } else { b"" };
    [bar, word, bar]
        .iter()
        .for_each(|part| text.extend_from_slice(part));
}

/// What people write before a piece.
fn usual(text: &mut Vec<u8>, piece: &Piece, level: i32) {
    match text.last() {
        None | Some(b'(') => {}
        _ if *piece == Piece::Close => {}
        _ if level == 0 => text.push(b'\n'),
        _ => text.push(b' '),
    }
}

/// Whether a token that touches another one at this byte would run into it.
fn is_word_byte(byte: u8) -> bool {
    !matches!(byte, b'(' | b')' | b'|' | b' ' | b'\n')
}

/// White space and comments; some, where the tokens on both sides are words.
fn between(rng: &mut Rng, text: &mut Vec<u8>, apart: bool, returns: bool) {
    let start = text.len();
    for _ in 0..[0, 0, 0, 1, 1, 2, 3][rng.below(7)] {
        match rng.below(6) {
            0 => comment(rng, text, returns),
            _ => text.push(*rng.pick(b"  \n\t\r")),
        }
    }
    if apart && text.len() == start {
        text.push(*rng.pick(b" \n\t\r"));
    }
}

/// A comment of any bytes, up to a line feed or a carriage return.
fn comment(rng: &mut Rng, text: &mut Vec<u8>, returns: bool) {
    text.push(b';');
    for _ in 0..rng.below(8) {
        let byte = match rng.below(4) {
            0 => rng.next() as u8,
            1 => *rng.pick(b"()|;\"\\"),
            _ => rng.within(32, 126) as u8,
        };
        if byte != b'\n' && byte != b'\r' {
            text.push(byte);
        }
    }
    let end = if returns { *rng.pick(b"\n\n\r") } else { b'\n' };
    text.push(end);
}
