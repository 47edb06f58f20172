//! The eight bytes of a node, in problems and in function-free tables alike.

/// What a node is, numbered as in document 01.
#[repr(u8)]
#[derive(Clone, Copy, Debug, PartialEq, Eq, Hash)]
pub enum Op {
    /// A function application; in a function-free table, a variable.
    Apply = 0,
    /// A choice between terms.
    Choose = 1,
    /// An equation.
    Equal = 2,
    /// A negation.
    Not = 3,
    /// A conjunction.
    And = 4,
    /// A disjunction.
    Or = 5,
    /// A predicate application; in a function-free table, a truth variable.
    Test = 6,
    /// True.
    True = 7,
    /// False.
    False = 8,
    /// A choice between formulas.
    Select = 9,
}

/// The two sorts of nodes.
#[derive(Clone, Copy, Debug, PartialEq, Eq)]
pub enum Sort {
    /// A whole number.
    Term,
    /// A truth value.
    Formula,
}

use Sort::{Formula, Term};

impl Op {
    /// The op with this number.
    fn from_byte(byte: u8) -> Option<Self> {
        Some(match byte {
            0 => Op::Apply,
            1 => Op::Choose,
            2 => Op::Equal,
            3 => Op::Not,
            4 => Op::And,
            5 => Op::Or,
            6 => Op::Test,
            7 => Op::True,
            8 => Op::False,
            9 => Op::Select,
            _ => return None,
        })
    }

    /// Whether the symbol field and its arity count.
    pub fn is_application(self) -> bool {
        matches!(self, Op::Apply | Op::Test)
    }

    /// The sort of the node.
    pub fn sort(self) -> Sort {
        match self {
            Op::Apply | Op::Choose => Term,
            _ => Formula,
        }
    }

    /// The sorts of the operands, where an application has `arity` of them.
    pub fn takes(self, arity: usize) -> &'static [Sort] {
        match self {
            Op::Apply | Op::Test => &[Term, Term, Term][..arity],
            Op::Choose => &[Formula, Term, Term],
            Op::Equal => &[Term, Term],
            Op::Not => &[Formula],
            Op::And | Op::Or => &[Formula, Formula],
            Op::True | Op::False => &[],
            Op::Select => &[Formula, Formula, Formula],
        }
    }
}

/// One node.
#[derive(Clone, Copy, Debug, PartialEq, Eq)]
pub struct Node {
    /// What it is.
    pub op: Op,
    /// The symbol, or in a function-free table the variable; 0 in all but applications.
    pub symbol: u8,
    /// Numbers of earlier nodes; 0 where the op does not use them.
    pub operands: [u16; 3],
}

impl Node {
    /// Reads a node; `None` if there is no such op.
    pub fn from_bytes(bytes: &[u8; 8]) -> Option<Self> {
        let [op, symbol, a0, a1, b0, b1, c0, c1] = *bytes;
        Some(Self {
            op: Op::from_byte(op)?,
            symbol,
            operands: [[a0, a1], [b0, b1], [c0, c1]].map(u16::from_le_bytes),
        })
    }

    /// Writes the node.
    pub fn to_bytes(self) -> [u8; 8] {
        let [[a0, a1], [b0, b1], [c0, c1]] = self.operands.map(u16::to_le_bytes);
        [self.op as u8, self.symbol, a0, a1, b0, b1, c0, c1]
    }

    /// The operands as indices.
    pub fn indices(self) -> [usize; 3] {
        self.operands.map(usize::from)
    }
}
