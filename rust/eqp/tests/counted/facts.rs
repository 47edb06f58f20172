//! What a problem's root reaches, read from the bytes alone, so that the tests can count what came
//! up.

use crate::compared::replay::{arity, nodes, reached, table_nodes, takes};

/// A node: op, symbol and operands.
type Node = (u8, u8, [usize; 3]);

/// What the root of a well-formed problem reaches. Pairs are of functions and of predicates.
#[derive(Clone, Debug, Default, PartialEq, Eq)]
pub struct Facts {
    /// The ops of the nodes.
    pub ops: [bool; 10],
    /// The arities of the applications.
    pub arities: [[bool; 4]; 2],
    /// An application that an earlier node repeats.
    pub repeat: [bool; 2],
    /// A repeat with arguments, and with another distinct application of its kind between it and
    /// the earliest one.
    pub far_repeat: [bool; 2],
    /// Two applications of a symbol that differ in this operand alone.
    pub near_repeat: [bool; 3],
    /// Three or more distinct applications of one symbol.
    pub threefold: [bool; 2],
    /// An application that the root does not reach.
    pub unreached: [bool; 2],
    /// An application whose earliest equal node the root does not reach.
    pub unreached_twin: [bool; 2],
    /// The root is an application that an earlier node equals.
    pub root_repeats: bool,
    /// An equation has a choice for a side.
    pub equated_choice: bool,
    /// An equation of two applications of one function with equations of all their arguments, and
    /// one with equations of some.
    pub congruence: [bool; 2],
    /// The distinct applications.
    pub distinct: [usize; 2],
    /// The distinct applications of the whole problem, reached or not.
    pub in_all: [usize; 2],
    /// The nodes of the function-free table.
    pub table_nodes: usize,
}

/// The ops of applications, of functions and of predicates.
const APPLICATIONS: [u8; 2] = [0, 6];

impl Facts {
    /// The facts of a root of a well-formed problem.
    pub fn of(problem: &[u8], root: usize) -> Self {
        let all: Vec<Node> = nodes(problem).collect();
        let reached = reached(problem, root);
        let mut facts = Self {
            table_nodes: table_nodes(problem, root),
            root_repeats: APPLICATIONS.contains(&all[root].0) && all[..root].contains(&all[root]),
            ..Self::default()
        };
        let numbers = (0..all.len()).filter(|&i| reached[i]);
        for (op, _, [a, b, _]) in numbers.map(|i| all[i]) {
            facts.ops[usize::from(op)] = true;
            facts.equated_choice |= op == 2 && (all[a].0 == 1 || all[b].0 == 1);
        }
        facts.congruence = congruence(problem, &all, &reached);
        for (kind, op) in APPLICATIONS.into_iter().enumerate() {
            let of_kind = (0..all.len()).filter(|&i| all[i].0 == op);
            let (applications, others): (Vec<_>, Vec<_>) = of_kind.partition(|&i| reached[i]);
            facts.unreached[kind] = !others.is_empty();
            let first = |i: usize| all.iter().position(|node| *node == all[i]);
            let is_first = |&&i: &&usize| first(i) == Some(i);
            facts.in_all[kind] = applications.iter().chain(&others).filter(is_first).count();
            for &i in &applications {
                facts.arities[kind][arity(problem, all[i].1)] = true;
                facts.unreached_twin[kind] |= first(i).map_or(false, |first| !reached[first]);
            }
            facts.compare(problem, kind, &all, &applications);
        }
        facts
    }

    /// Notes what the applications of one kind have in common.
    fn compare(&mut self, problem: &[u8], kind: usize, all: &[Node], applications: &[usize]) {
        let mut distinct: Vec<usize> = Vec::new();
        for &i in applications {
            if let Some(first) = distinct.iter().position(|&first| all[first] == all[i]) {
                self.repeat[kind] = true;
                let has_arguments = arity(problem, all[i].1) > 0;
                self.far_repeat[kind] |= has_arguments && first + 1 < distinct.len();
                continue;
            }
            let same = distinct.iter().filter(|&&other| all[other].1 == all[i].1);
            let same: Vec<usize> = same.copied().collect();
            self.threefold[kind] |= same.len() >= 2;
            for &other in &same {
                let differs = |k: &usize| all[other].2[*k] != all[i].2[*k];
                let mut differing = (0..3).filter(differs);
                if let (Some(k), None) = (differing.next(), differing.next()) {
                    self.near_repeat[k] = true;
                }
            }
            distinct.push(i);
        }
        self.distinct[kind] = distinct.len();
    }

    /// Whether there are applications of arity 1 or more, of functions or of predicates.
    pub fn has_arguments(&self, kind: usize) -> bool {
        self.arities[kind][1..].contains(&true)
    }

    /// No walk has more places than this: those of a single component of all variables.
    pub fn most_places(&self) -> u128 {
        let [functions, predicates] = self.distinct;
        (1..=functions as u128).product::<u128>() << predicates
    }
}

fn congruence(problem: &[u8], all: &[Node], reached: &[bool]) -> [bool; 2] {
    let equations = || {
        let reached = all.iter().zip(reached).filter(|(_, reached)| **reached);
        reached
            .filter(|(node, _)| node.0 == 2)
            .map(|(node, _)| node.2)
    };
    let equated = |a: usize, b: usize| equations().any(|[c, d, _]| [a, b] == [c, d]);
    let mut found = [false; 2];
    for [left, right, _] in equations() {
        let (left, right) = (all[left], all[right]);
        if (left.0, left.1) == (right.0, right.1) && left.0 == 0 && left.2 != right.2 {
            let arity = arity(problem, left.1);
            let same = (0..arity).filter(|&k| equated(left.2[k], right.2[k]));
            let same = same.count();
            found[0] |= same == arity;
            found[1] |= 0 < same && same < arity;
        }
    }
    found
}

/// What can be wrong with a node, and with which operand.
#[derive(Clone, Copy, Debug, PartialEq, Eq)]
pub enum Flaw {
    /// There is no such op.
    Op,
    /// The symbol is not below the count.
    NoSymbol,
    /// A function for a predicate, or the other way round.
    OtherKind,
    /// A symbol where none belongs.
    SymbolUnused,
    /// The operand is not the number of an earlier node.
    Late(usize),
    /// The operand is a term for a formula, or the other way round.
    Sort(usize),
    /// An operand where none belongs.
    Unused(usize),
}

/// The one thing that is wrong with a node whose earlier nodes are good; `None` if there are
/// more, or none. What a node with a bad op or symbol should take is unknown.
pub fn only_flaw(problem: &[u8], at: usize) -> Option<Flaw> {
    let all: Vec<Node> = nodes(problem).take(at + 1).collect();
    let (op, symbol, operands) = all[at];
    let is_application = APPLICATIONS.contains(&op);
    let kinds = &problem[8..8 + usize::from(problem[5])];
    match kinds.get(usize::from(symbol)) {
        _ if op > 9 => return Some(Flaw::Op),
        None if is_application => return Some(Flaw::NoSymbol),
        Some(&kind) if is_application && (kind >= 16) != (op == 6) => return Some(Flaw::OtherKind),
        _ => {}
    }
    let takes = takes(problem, op, symbol);
    let mut flaws = Vec::new();
    if !is_application && symbol != 0 {
        flaws.push(Flaw::SymbolUnused);
    }
    for (k, &operand) in operands.iter().enumerate() {
        match takes.get(k) {
            None if operand != 0 => flaws.push(Flaw::Unused(k)),
            Some(_) if operand >= at => flaws.push(Flaw::Late(k)),
            Some(&term) if (all[operand].0 <= 1) != term => flaws.push(Flaw::Sort(k)),
            _ => {}
        }
    }
    match flaws[..] {
        [flaw] => Some(flaw),
        _ => None,
    }
}
