//! A builder of problem bytes.
//!
//! Symbols have names, nodes are handles, and the handles keep terms and formulas apart. The
//! builder writes what it is told in that order and merges nothing. Wrong bytes are made by
//! editing [`Problem::bytes`] afterwards; the limits on counts are left to the checker.

/// A function symbol.
#[derive(Clone, Copy, Debug, PartialEq, Eq)]
pub struct Function(u8);

/// A predicate symbol.
#[derive(Clone, Copy, Debug, PartialEq, Eq)]
pub struct Predicate(u8);

/// A node that is a term.
#[derive(Clone, Copy, Debug, PartialEq, Eq)]
pub struct Term(u16);

/// A node that is a formula.
#[derive(Clone, Copy, Debug, PartialEq, Eq)]
pub struct Formula(u16);

impl Term {
    /// Its number.
    pub fn node(self) -> usize {
        usize::from(self.0)
    }
}

impl Formula {
    /// Its number, by which a call names it as the root.
    pub fn node(self) -> usize {
        usize::from(self.0)
    }
}

/// The number of the last node, as the header of some problem bytes counts them: the root that the
/// night run names. 0 where there is no header, or no node: such bytes are refused before a root
/// is looked at.
pub fn last_node(problem: &[u8]) -> usize {
    let count = problem.get(6..8).and_then(|count| count.try_into().ok());
    usize::from(count.map_or(0, u16::from_le_bytes)).saturating_sub(1)
}

/// A problem under construction. Any of its formulas can be asked.
#[derive(Clone, Debug, Default)]
pub struct Problem {
    names: Vec<String>,
    symbols: Vec<u8>,
    nodes: Vec<[u8; 8]>,
}

impl Problem {
    /// A problem with no symbols and no nodes.
    pub fn new() -> Self {
        Self::default()
    }

    /// A new function symbol of arity 0 to 3; one of arity 0 is a variable.
    ///
    /// # Panics
    ///
    /// Where the arity is over 3, or there are 256 symbols already.
    pub fn function(&mut self, name: &str, arity: u8) -> Function {
        assert!(arity <= 3, "{name} has an arity over 3");
        Function(self.symbol(name, arity))
    }

    /// A new predicate symbol of arity 0 to 3; one of arity 0 is a truth variable.
    ///
    /// # Panics
    ///
    /// Where the arity is over 3, or there are 256 symbols already.
    pub fn predicate(&mut self, name: &str, arity: u8) -> Predicate {
        assert!(arity <= 3, "{name} has an arity over 3");
        Predicate(self.symbol(name, arity + 16))
    }

    /// A function application.
    ///
    /// # Panics
    ///
    /// Where there are more or fewer arguments than the arity.
    pub fn apply(&mut self, function: Function, arguments: &[Term]) -> Term {
        Term(self.application(0, function.0, arguments))
    }

    /// A predicate application.
    ///
    /// # Panics
    ///
    /// Where there are more or fewer arguments than the arity.
    pub fn test(&mut self, predicate: Predicate, arguments: &[Term]) -> Formula {
        Formula(self.application(6, predicate.0, arguments))
    }

    /// The term `yes` where `condition` is true, else the term `no`.
    pub fn choose(&mut self, condition: Formula, yes: Term, no: Term) -> Term {
        Term(self.node(1, 0, [condition.0, yes.0, no.0]))
    }

    /// An equation.
    pub fn equal(&mut self, left: Term, right: Term) -> Formula {
        Formula(self.node(2, 0, [left.0, right.0, 0]))
    }

    /// A negation.
    pub fn not(&mut self, formula: Formula) -> Formula {
        Formula(self.node(3, 0, [formula.0, 0, 0]))
    }

    /// Both.
    pub fn and(&mut self, left: Formula, right: Formula) -> Formula {
        Formula(self.node(4, 0, [left.0, right.0, 0]))
    }

    /// Either or both.
    pub fn or(&mut self, left: Formula, right: Formula) -> Formula {
        Formula(self.node(5, 0, [left.0, right.0, 0]))
    }

    /// True.
    pub fn yes(&mut self) -> Formula {
        Formula(self.node(7, 0, [0; 3]))
    }

    /// False.
    pub fn no(&mut self) -> Formula {
        Formula(self.node(8, 0, [0; 3]))
    }

    /// The formula `yes` where `condition` is true, else the formula `no`.
    pub fn select(&mut self, condition: Formula, yes: Formula, no: Formula) -> Formula {
        Formula(self.node(9, 0, [condition.0, yes.0, no.0]))
    }

    /// How many nodes there are.
    pub fn node_count(&self) -> usize {
        self.nodes.len()
    }

    /// The problem bytes of document 01.
    ///
    /// # Panics
    ///
    /// Where there are over 255 symbols or 65,535 nodes, more than the header can say.
    pub fn bytes(&self) -> Vec<u8> {
        let symbol_count = u8::try_from(self.symbols.len()).expect("at most 255 symbols");
        let node_count = u16::try_from(self.nodes.len()).expect("at most 65,535 nodes");
        let mut bytes = Vec::with_capacity(8 + self.symbols.len() + 8 * self.nodes.len());
        bytes.extend_from_slice(b"EQP\x01\x00");
        bytes.push(symbol_count);
        bytes.extend_from_slice(&node_count.to_le_bytes());
        bytes.extend_from_slice(&self.symbols);
        bytes.extend(self.nodes.iter().flatten());
        bytes
    }

    /// A witness in words, such as `x = 1, y = 2, f(1) = 1, f(2) = 1`.
    ///
    /// # Panics
    ///
    /// Where the bytes are no witness of this problem: fewer than 6, or with a symbol that it does
    /// not have.
    pub fn explain(&self, witness: &[u8]) -> String {
        let rows = witness[6..].chunks_exact(5).take(usize::from(witness[5]));
        rows.map(|row| self.explain_row(row))
            .collect::<Vec<_>>()
            .join(", ")
    }

    fn explain_row(&self, row: &[u8]) -> String {
        let symbol = usize::from(row[0]);
        let (name, kind) = (&self.names[symbol], self.symbols[symbol]);
        let arguments: Vec<_> = row[1..4].iter().map(u8::to_string).collect();
        let arguments = match usize::from(kind % 16) {
            0 => String::new(),
            arity => format!("({})", arguments[..arity].join(", ")),
        };
        match (kind < 16, row[4]) {
            (true, value) => format!("{name}{arguments} = {value}"),
            (false, 0) => format!("{name}{arguments} = false"),
            (false, _) => format!("{name}{arguments} = true"),
        }
    }

    fn symbol(&mut self, name: &str, kind: u8) -> u8 {
        let number = u8::try_from(self.symbols.len()).expect("at most 256 symbols");
        self.names.push(name.to_string());
        self.symbols.push(kind);
        number
    }

    fn application(&mut self, op: u8, symbol: u8, arguments: &[Term]) -> u16 {
        let arity = usize::from(self.symbols[usize::from(symbol)] % 16);
        let name = &self.names[usize::from(symbol)];
        assert_eq!(arguments.len(), arity, "the arity of {name}");
        let mut operands = [0; 3];
        for (operand, argument) in operands.iter_mut().zip(arguments) {
            *operand = argument.0;
        }
        self.node(op, symbol, operands)
    }

    fn node(&mut self, op: u8, symbol: u8, operands: [u16; 3]) -> u16 {
        let number = u16::try_from(self.nodes.len()).expect("at most 65,536 nodes");
        let [a, b, c] = operands.map(u16::to_le_bytes);
        self.nodes
            .push([op, symbol, a[0], a[1], b[0], b[1], c[0], c[1]]);
        number
    }
}
