//! Commands and terms: the subset of document 02, E1.
//!
//! Every place of a term wants one sort, known from what stands before it, so that the first token
//! that does not fit is the first with which no text of the subset can go on.

use std::collections::HashMap;

use super::terms::{Head, Symbol, Term};
use super::tokens::{Placed, Token, Tokens};
use crate::reference::{Refusal, Sort};

/// How deep terms may nest: the house rule of document 02.
const MOST_LEVELS: usize = 64;

/// The symbols of the Core theory, which no function may be named like.
const CORE: [&[u8]; 10] = [
    b"true",
    b"false",
    b"not",
    b"=>",
    b"and",
    b"or",
    b"xor",
    b"=",
    b"distinct",
    b"ite",
];

/// A text of the subset.
pub struct Text<'a> {
    /// The declared functions and predicates, in order.
    pub symbols: Vec<Symbol>,
    /// What is asserted, in order.
    pub asserts: Vec<Term>,
    names: HashMap<&'a [u8], usize>,
}

/// Reads a text: refusals 14 and 15, whichever comes first.
pub fn parse(text: &[u8]) -> Result<Text<'_>, Refusal> {
    let mut reader = Reader::new(text);
    reader.expect(&[
        Token::Open,
        Token::Reserved(b"set-logic"),
        Token::Symbol(b"QF_UF"),
        Token::Close,
    ])?;
    reader.declare_sort()?;
    while reader.command()? {}
    Ok(reader.read)
}

/// A text under reading.
struct Reader<'a> {
    tokens: Tokens<'a>,
    /// The name of the declared sort.
    sort: &'a [u8],
    /// Whether a constant of the sort is declared: before that there is no term of the sort.
    inhabited: bool,
    read: Text<'a>,
}

impl<'a> Reader<'a> {
    fn new(text: &'a [u8]) -> Self {
        Self {
            tokens: Tokens::new(text),
            sort: b"",
            inhabited: false,
            read: Text {
                symbols: Vec::new(),
                asserts: Vec::new(),
                names: HashMap::new(),
            },
        }
    }

    /// These tokens must come next.
    fn expect(&mut self, wanted: &[Token]) -> Result<(), Refusal> {
        for &token in wanted {
            let next = self.tokens.next()?;
            if next.token != token {
                return Err(next.refused());
            }
        }
        Ok(())
    }

    fn declare_sort(&mut self) -> Result<(), Refusal> {
        self.expect(&[Token::Open, Token::Reserved(b"declare-sort")])?;
        let name = self.tokens.next()?;
        self.sort = match name.token {
            Token::Symbol(sort) if sort != b"Bool" && !is_kept(sort) => sort,
            _ => return Err(name.refused()),
        };
        self.expect(&[Token::Zero, Token::Close])
    }

    /// Reads a command after the sort's; false where it was the last.
    fn command(&mut self) -> Result<bool, Refusal> {
        self.expect(&[Token::Open])?;
        let name = self.tokens.next()?;
        match name.token {
            Token::Reserved(b"declare-fun") => self.declare_fun().map(|()| true),
            Token::Reserved(b"assert") => self.assert().map(|()| true),
            Token::Reserved(b"check-sat") => {
                let end = [Token::Close, Token::End];
                self.expect(&end).map(|()| false)
            }
            _ => Err(name.refused()),
        }
    }

    fn declare_fun(&mut self) -> Result<(), Refusal> {
        let placed = self.tokens.next()?;
        let name = match placed.token {
            Token::Symbol(name) if self.is_free(name) => name,
            _ => return Err(placed.refused()),
        };
        self.expect(&[Token::Open])?;
        let arity = self.argument_sorts()?;
        let sort = self.result_sort()?;
        self.expect(&[Token::Close])?;
        self.inhabited |= arity == 0 && sort == Sort::Term;
        self.read.names.insert(name, self.read.symbols.len());
        self.read.symbols.push(Symbol { arity, sort });
        Ok(())
    }

    /// Whether a function may be declared with this name.
    fn is_free(&self, name: &[u8]) -> bool {
        !CORE.contains(&name) && !is_kept(name) && !self.read.names.contains_key(name)
    }

    /// The sorts of up to three arguments and the closing bracket; gives how many there are.
    fn argument_sorts(&mut self) -> Result<u8, Refusal> {
        for arity in 0..=3 {
            let next = self.tokens.next()?;
            match next.token {
                Token::Close => return Ok(arity),
                Token::Symbol(name) if name == self.sort && arity < 3 => {}
                _ => return Err(next.refused()),
            }
        }
        unreachable!("a fourth argument is refused")
    }

    fn result_sort(&mut self) -> Result<Sort, Refusal> {
        let next = self.tokens.next()?;
        match next.token {
            Token::Symbol(b"Bool") => Ok(Sort::Formula),
            Token::Symbol(name) if name == self.sort => Ok(Sort::Term),
            _ => Err(next.refused()),
        }
    }

    fn assert(&mut self) -> Result<(), Refusal> {
        let first = self.tokens.next()?;
        let term = self.term(first, Sort::Formula, 1)?;
        self.read.asserts.push(term);
        self.expect(&[Token::Close])
    }

    /// The term of the wanted sort that begins with this token; its bracket would open this level.
    fn term(&mut self, first: Placed, wanted: Sort, level: usize) -> Result<Term, Refusal> {
        let head = match first.token {
            Token::Open if level > MOST_LEVELS => return Err(Refusal::at(15, first.place)),
            Token::Open => return self.bracket(wanted, level),
            Token::Symbol(name) => self.constant(name, wanted),
            _ => None,
        };
        let head = head.ok_or_else(|| first.refused())?;
        let arguments = Vec::new();
        Ok(Term { head, arguments })
    }

    /// The rest of a term whose bracket has opened a level.
    fn bracket(&mut self, wanted: Sort, level: usize) -> Result<Term, Refusal> {
        let first = self.tokens.next()?;
        let head = match first.token {
            Token::Symbol(name) => self.head(name, wanted),
            _ => None,
        };
        let head = head.ok_or_else(|| first.refused())?;
        let mut arguments = Vec::new();
        loop {
            let next = self.tokens.next()?;
            if next.token == Token::Close && arguments.len() >= head.least() {
                return Ok(Term { head, arguments });
            }
            let sort = head.takes(arguments.len());
            let sort = sort.ok_or_else(|| next.refused())?;
            arguments.push(self.term(next, sort, level + 1)?);
        }
    }

    /// The head that a name without a bracket is.
    fn constant(&self, name: &[u8], wanted: Sort) -> Option<Head> {
        match (name, wanted) {
            (b"true", Sort::Formula) => Some(Head::Constant(true)),
            (b"false", Sort::Formula) => Some(Head::Constant(false)),
            _ => self.declared(name, wanted, |arity| arity == 0),
        }
    }

    /// The head that a name after a bracket is. One that must have a term of the sort is none as
    /// long as there is no such term.
    fn head(&self, name: &[u8], wanted: Sort) -> Option<Head> {
        match (name, wanted) {
            (b"ite", sort) => Some(Head::Ite(sort)),
            (b"not", Sort::Formula) => Some(Head::Not),
            (b"and", Sort::Formula) => Some(Head::And),
            (b"or", Sort::Formula) => Some(Head::Or),
            (b"=>", Sort::Formula) => Some(Head::Implies),
            _ if !self.inhabited => None,
            (b"=", Sort::Formula) => Some(Head::Equal),
            _ => self.declared(name, wanted, |arity| arity > 0),
        }
    }

    /// The declared symbol of this name, if it has the sort and such an arity.
    fn declared(&self, name: &[u8], wanted: Sort, fits: fn(u8) -> bool) -> Option<Head> {
        let &number = self.read.names.get(name)?;
        let symbol = self.read.symbols[number];
        (symbol.sort == wanted && fits(symbol.arity)).then_some(Head::Declared(number, symbol))
    }
}

/// Whether SMT-LIB 2.6 keeps a name for the solvers, by what it begins with.
fn is_kept(name: &[u8]) -> bool {
    matches!(name.first(), Some(b'@' | b'.'))
}
