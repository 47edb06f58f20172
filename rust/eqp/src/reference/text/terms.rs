//! Terms as they are written, and what each head takes.

use crate::reference::Sort;

/// A declared function or predicate.
#[derive(Clone, Copy)]
pub struct Symbol {
    pub arity: u8,
    pub sort: Sort,
}

impl Symbol {
    /// Its byte in a problem.
    pub fn byte(self) -> u8 {
        match self.sort {
            Sort::Term => self.arity,
            Sort::Formula => self.arity + 16,
        }
    }
}

/// A term or a formula as it is written.
pub struct Term {
    pub head: Head,
    pub arguments: Vec<Term>,
}

/// What a term begins with.
#[derive(Clone, Copy)]
pub enum Head {
    Constant(bool),
    Declared(usize, Symbol),
    Not,
    And,
    Or,
    Implies,
    Equal,
    /// A choice of this sort.
    Ite(Sort),
}

impl Head {
    /// The sort of the argument with this number; `None` where no such argument is taken.
    pub fn takes(self, argument: usize) -> Option<Sort> {
        match self {
            Head::And | Head::Or | Head::Implies => Some(Sort::Formula),
            Head::Equal => Some(Sort::Term),
            Head::Ite(sort) if matches!(argument, 1 | 2) => Some(sort),
            Head::Not | Head::Ite(_) => (argument == 0).then_some(Sort::Formula),
            Head::Declared(_, symbol) => {
                (argument < usize::from(symbol.arity)).then_some(Sort::Term)
            }
            Head::Constant(_) => None,
        }
    }

    /// How many arguments there must be at least.
    pub fn least(self) -> usize {
        match self {
            Head::Constant(_) => 0,
            Head::Declared(_, symbol) => usize::from(symbol.arity),
            Head::Not => 1,
            Head::And | Head::Or | Head::Implies | Head::Equal => 2,
            Head::Ite(_) => 3,
        }
    }
}
