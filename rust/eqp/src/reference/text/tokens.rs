//! The tokens of a text, by SMT-LIB 2.6, sections 3.1 and 3.2.

use crate::reference::Refusal;

/// What a text is made of; white space and comments stand between the tokens.
#[derive(Clone, Copy, Debug, PartialEq, Eq)]
pub enum Token<'a> {
    /// An opening bracket.
    Open,
    /// A closing bracket.
    Close,
    /// The only numeral of the subset.
    Zero,
    /// A reserved word or a command's name.
    Reserved(&'a [u8]),
    /// A symbol, by its name: with bars and without them it is the same one.
    Symbol(&'a [u8]),
    /// The end of the text.
    End,
}

/// A token, and the byte that it starts at.
#[derive(Clone, Copy, Debug, PartialEq, Eq)]
pub struct Placed<'a> {
    pub token: Token<'a>,
    pub place: usize,
}

impl Placed<'_> {
    /// Refusal 14: no text of the subset goes on with this token.
    pub fn refused(&self) -> Refusal {
        Refusal::at(14, self.place)
    }
}

/// A text from some byte on.
pub struct Tokens<'a> {
    text: &'a [u8],
    at: usize,
}

impl<'a> Tokens<'a> {
    pub fn new(text: &'a [u8]) -> Self {
        Self { text, at: 0 }
    }

    /// The next token; refusal 14 where none begins there.
    pub fn next(&mut self) -> Result<Placed<'a>, Refusal> {
        self.skip();
        let (place, rest) = (self.at, &self.text[self.at..]);
        let (token, length) = match rest.first() {
            None => (Some(Token::End), 0),
            Some(b'(') => (Some(Token::Open), 1),
            Some(b')') => (Some(Token::Close), 1),
            Some(b'|') => {
                let name = barred(&rest[1..]);
                (
                    name.map(Token::Symbol),
                    name.map_or(0, |name| name.len() + 2),
                )
            }
            Some(_) => {
                let word = &rest[..run(rest, is_word_byte)];
                (classify(word), word.len())
            }
        };
        self.at += length;
        match token {
            Some(token) => Ok(Placed { token, place }),
            None => Err(Refusal::at(14, place)),
        }
    }

    /// Passes over white space and comments. A comment ends at a line feed or a carriage return.
    fn skip(&mut self) {
        loop {
            self.at += run(&self.text[self.at..], is_space);
            if self.text.get(self.at) != Some(&b';') {
                return;
            }
            self.at += run(&self.text[self.at..], |byte| byte != b'\n' && byte != b'\r');
        }
    }
}

/// How many bytes of this kind come first.
fn run(bytes: &[u8], kind: fn(u8) -> bool) -> usize {
    let other = bytes.iter().position(|&byte| !kind(byte));
    other.unwrap_or(bytes.len())
}

fn is_space(byte: u8) -> bool {
    matches!(byte, b' ' | b'\t' | b'\n' | b'\r')
}

fn is_word_byte(byte: u8) -> bool {
    byte.is_ascii_alphanumeric() || b"~!@$%^&*_-+=<>.?/".contains(&byte)
}

/// What may stand between bars.
fn is_barred_byte(byte: u8) -> bool {
    is_space(byte) || matches!(byte, b' '..=b'~' | 128..=255) && byte != b'|' && byte != b'\\'
}

/// The name before the closing bar; `None` where the bar is missing or another byte comes first.
fn barred(rest: &[u8]) -> Option<&[u8]> {
    let length = run(rest, is_barred_byte);
    (rest.get(length) == Some(&b'|')).then_some(&rest[..length])
}

/// The token that a word is, if it is one; a byte that starts no token gives an empty word.
fn classify(word: &[u8]) -> Option<Token<'_>> {
    match word.first()? {
        b'0'..=b'9' => (word == b"0").then_some(Token::Zero),
        _ if is_reserved(word) => Some(Token::Reserved(word)),
        _ => Some(Token::Symbol(word)),
    }
}

/// Whether a word is no symbol unless bars stand around it: a reserved word or a command's name.
#[rustfmt::skip] // Many words on a line.
fn is_reserved(word: &[u8]) -> bool {
    matches!(
        word,
        b"!" | b"_" | b"as" | b"BINARY" | b"DECIMAL" | b"exists" | b"HEXADECIMAL" | b"forall" |
        b"let" | b"match" | b"NUMERAL" | b"par" | b"STRING" |
        b"assert" | b"check-sat" | b"check-sat-assuming" | b"declare-const" |
        b"declare-datatype" | b"declare-datatypes" | b"declare-fun" | b"declare-sort" |
        b"define-fun" | b"define-fun-rec" | b"define-funs-rec" | b"define-sort" | b"echo" |
        b"exit" | b"get-assertions" | b"get-assignment" | b"get-info" | b"get-model" |
        b"get-option" | b"get-proof" | b"get-unsat-assumptions" | b"get-unsat-core" |
        b"get-value" | b"pop" | b"push" | b"reset" | b"reset-assertions" | b"set-info" |
        b"set-logic" | b"set-option"
    )
}
