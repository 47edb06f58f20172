//! Whole texts: declarations and asserts in any mix, with sub-terms that come again.

use super::names::{self, Oddity};
use super::spell::{Name, Piece};
use super::Pieces;
use crate::made::rng::Rng;

/// How large a text may become.
#[derive(Clone, Copy)]
pub struct Shape {
    /// Most commands between the sort and the end.
    pub commands: usize,
    /// How deep terms are, less one or two.
    pub depth: usize,
    /// How odd the names are.
    pub oddity: Oddity,
}

impl Shape {
    pub const SMALL: Self = Self {
        commands: 10,
        depth: 3,
        oddity: Oddity::Any,
    };
    pub const LARGE: Self = Self {
        commands: 30,
        depth: 5,
        oddity: Oddity::Any,
    };
}

/// The most pieces of a sub-term that comes again.
const MOST_SHARED: usize = 80;

/// A text under growth.
pub struct Growing<'a> {
    pub rng: &'a mut Rng,
    pub pieces: Pieces,
    oddity: Oddity,
    sort: Name,
    names: Vec<Name>,
    /// The declared symbols by sort, the sort's and then Bool's: name and arity.
    symbols: [Vec<(Name, usize)>; 2],
    /// Terms that were written, by sort.
    written: [Vec<Pieces>; 2],
}

/// The two sorts, as they number the lists.
const TERM: usize = 0;
const FORMULA: usize = 1;

/// A text of about this shape.
pub fn text(rng: &mut Rng, shape: Shape) -> Pieces {
    let mut growing = Growing::new(rng, shape.oddity);
    let commands = growing.rng.below(shape.commands + 1);
    for i in 0..commands {
        if growing.rng.below(commands) > i || growing.rng.once_in(5) {
            growing.declare_any();
        } else {
            growing.assert_any(shape.depth);
        }
    }
    growing.finish()
}

impl<'a> Growing<'a> {
    /// A text with its logic and its sort.
    pub fn new(rng: &'a mut Rng, oddity: Oddity) -> Self {
        let sort = names::sort(rng, oddity);
        let mut pieces = command("set-logic");
        pieces.extend([Piece::symbol("QF_UF"), Piece::Close]);
        pieces.extend(command("declare-sort"));
        pieces.extend([Piece::Symbol(sort.clone()), Piece::Word("0"), Piece::Close]);
        Self {
            rng,
            pieces,
            oddity,
            sort,
            names: Vec::new(),
            symbols: [Vec::new(), Vec::new()],
            written: [Vec::new(), Vec::new()],
        }
    }

    pub fn finish(mut self) -> Pieces {
        self.pieces.extend(command("check-sat"));
        self.pieces.push(Piece::Close);
        self.pieces
    }

    /// Declares a symbol of this sort, and gives its name as a piece.
    pub fn declare(&mut self, sort: usize, arity: usize) -> Piece {
        let name = names::new(self.rng, &self.names, self.oddity);
        self.pieces.extend(command("declare-fun"));
        self.pieces
            .extend([Piece::Symbol(name.clone()), Piece::Open]);
        for _ in 0..arity {
            self.pieces.push(Piece::Symbol(self.sort.clone()));
        }
        let result = match sort {
            TERM => Piece::Symbol(self.sort.clone()),
            _ => Piece::symbol("Bool"),
        };
        self.pieces.extend([Piece::Close, result, Piece::Close]);
        self.names.push(name.clone());
        self.symbols[sort].push((name.clone(), arity));
        Piece::Symbol(name)
    }

    pub fn declare_any(&mut self) {
        let sort = self.rng.below(2);
        let arity = self.rng.below(4) * self.rng.below(2);
        self.declare(sort, arity);
    }

    pub fn assert(&mut self, term: &[Piece]) {
        self.pieces.extend(command("assert"));
        self.pieces.extend_from_slice(term);
        self.pieces.push(Piece::Close);
    }

    pub fn assert_any(&mut self, depth: usize) {
        let term = match self.rng.below(6) {
            0 => self.lemma(depth),
            _ => self.formula(depth),
        };
        self.assert(&term);
    }

    fn is_inhabited(&self) -> bool {
        self.symbols[TERM].iter().any(|&(_, arity)| arity == 0)
    }

    /// A formula that is about so deep.
    pub fn formula(&mut self, depth: usize) -> Pieces {
        if let Some(again) = self.again(FORMULA) {
            return again;
        }
        let depth = if self.rng.once_in(6) { 0 } else { depth };
        let made = match self.rng.below(10) {
            _ if depth == 0 => self.leaf(FORMULA),
            0 | 1 => self.nested("not", 1, depth),
            2 => self.nested_list("and", depth),
            3 => self.nested_list("or", depth),
            4 => self.nested_list("=>", depth),
            5 => self.ite(FORMULA, depth),
            6 | 7 if self.is_inhabited() => self.equation(depth),
            _ => self.applied(FORMULA, depth),
        };
        self.write(FORMULA, made)
    }

    /// A term of the sort, of which there must be one.
    fn term(&mut self, depth: usize) -> Pieces {
        if let Some(again) = self.again(TERM) {
            return again;
        }
        let made = match self.rng.below(6) {
            _ if depth == 0 => self.leaf(TERM),
            0 => self.ite(TERM, depth),
            1 | 2 => self.leaf(TERM),
            _ => self.applied(TERM, depth),
        };
        self.write(TERM, made)
    }

    /// A term of this sort that was written already, now and then.
    fn again(&mut self, sort: usize) -> Option<Pieces> {
        let some = !self.written[sort].is_empty() && self.rng.once_in(4);
        some.then(|| self.rng.pick_recent(&self.written[sort]).clone())
    }

    fn write(&mut self, sort: usize, made: Pieces) -> Pieces {
        if made.len() <= MOST_SHARED {
            self.written[sort].push(made.clone());
        }
        made
    }

    /// A constant of this sort.
    fn leaf(&mut self, sort: usize) -> Pieces {
        let constants = self.symbols[sort].iter().filter(|(_, arity)| *arity == 0);
        let constants: Vec<&Name> = constants.map(|(name, _)| name).collect();
        if constants.is_empty() || sort == FORMULA && self.rng.once_in(6) {
            return vec![Piece::symbol(names::one(self.rng, &["true", "false"]))];
        }
        vec![Piece::Symbol((*self.rng.pick(&constants)).clone())]
    }

    /// A symbol with its arguments.
    fn applied(&mut self, sort: usize, depth: usize) -> Pieces {
        let all = self.symbols[sort].len();
        if all == 0 {
            return self.leaf(sort);
        }
        let (name, arity) = self.symbols[sort][self.rng.below(all)].clone();
        if arity == 0 || !self.is_inhabited() {
            return self.leaf(sort);
        }
        let arguments: Vec<Pieces> = (0..arity).map(|_| self.term(depth - 1)).collect();
        bracket(Piece::Symbol(name), &arguments)
    }

    fn nested(&mut self, head: &str, count: usize, depth: usize) -> Pieces {
        let arguments: Vec<Pieces> = (0..count).map(|_| self.formula(depth - 1)).collect();
        bracket(Piece::symbol(head), &arguments)
    }

    fn nested_list(&mut self, head: &str, depth: usize) -> Pieces {
        let count = self.list_length();
        self.nested(head, count, depth)
    }

    /// Mostly short.
    fn list_length(&mut self) -> usize {
        match self.rng.below(16) {
            0 => self.rng.within(5, 12),
            1..=4 => 3,
            _ => 2,
        }
    }

    fn equation(&mut self, depth: usize) -> Pieces {
        let count = self.list_length();
        let sides: Vec<Pieces> = (0..count).map(|_| self.term(depth - 1)).collect();
        bracket(Piece::symbol("="), &sides)
    }

    fn ite(&mut self, sort: usize, depth: usize) -> Pieces {
        let condition = self.formula(depth - 1);
        let mut side = || match sort {
            TERM => self.term(depth - 1),
            _ => self.formula(depth - 1),
        };
        let arguments = [condition, side(), side()];
        bracket(Piece::symbol("ite"), &arguments)
    }

    /// That a function or predicate takes equal arguments to equal values, denied; or nearly so.
    fn lemma(&mut self, depth: usize) -> Pieces {
        let with_arguments = |(_, arity): &&(Name, usize)| *arity > 0;
        let functions: Vec<_> = self.symbols[TERM].iter().filter(with_arguments).collect();
        if functions.is_empty() || !self.is_inhabited() {
            return self.formula(depth);
        }
        let (name, arity) = (*self.rng.pick(&functions)).clone();
        let sides = [0, 1].map(|_| -> Vec<Pieces> { (0..arity).map(|_| self.term(1)).collect() });
        let equal = |a: &Pieces, b: &Pieces| bracket(Piece::symbol("="), &[a.clone(), b.clone()]);
        let [left, right] = &sides;
        let mut list: Vec<Pieces> = left.iter().zip(right).map(|(a, b)| equal(a, b)).collect();
        if self.rng.once_in(4) {
            list[0] = self.formula(1);
        }
        let images = sides.map(|side| bracket(Piece::Symbol(name.clone()), &side));
        list.push(equal(&images[0], &images[1]));
        let lemma = bracket(Piece::symbol("=>"), &list);
        bracket(Piece::symbol("not"), &[lemma])
    }
}

/// A command up to its name.
fn command(name: &'static str) -> Pieces {
    vec![Piece::Open, Piece::Word(name)]
}

/// A head with its arguments.
pub fn bracket(head: Piece, arguments: &[Pieces]) -> Pieces {
    let mut pieces = vec![Piece::Open, head];
    pieces.extend(arguments.iter().flatten().cloned());
    pieces.push(Piece::Close);
    pieces
}
