//! Well-formed problems of many kinds.

use eqp::problem::{Formula, Function, Predicate, Problem, Term};

use super::rng::Rng;
use crate::compared::replay::taken;

/// How large a problem may become.
#[derive(Clone, Copy)]
pub struct Shape {
    /// It grows until it has so many nodes, and a few more.
    pub nodes: usize,
    /// Most function applications.
    pub functions: usize,
    /// Most predicate applications.
    pub predicates: usize,
    /// Whether all are of one function and one predicate of arity 3, but for a variable.
    pub dense: bool,
}

impl Shape {
    /// A shape for short walks.
    pub fn small(rng: &mut Rng) -> Self {
        Self {
            nodes: rng.within(1, 30),
            functions: rng.within(1, 7),
            predicates: rng.below(4),
            dense: false,
        }
    }

    /// A shape for large tables.
    pub fn large(rng: &mut Rng) -> Self {
        Self {
            nodes: rng.within(60, 190),
            functions: rng.within(8, 24),
            predicates: rng.within(2, 16),
            dense: rng.once_in(3),
        }
    }
}

/// A problem of about this shape.
pub fn problem(rng: &mut Rng, shape: Shape) -> Problem {
    let mut growing = Growing::new(rng, shape);
    while growing.p.node_count() < shape.nodes {
        growing.step();
    }
    growing.finish();
    growing.p
}

/// From here on no more formulas are joined: a table has at most 256 nodes.
const ENOUGH: usize = 240;

/// A variable first, and as many of arity 0 as of the others.
fn function_arities(rng: &mut Rng, shape: Shape) -> Vec<usize> {
    if shape.dense {
        return vec![0, 3];
    }
    let others = rng.within(1, 3 + shape.functions / 2);
    let others = (0..others).map(|_| rng.within(1, 3) * rng.below(2));
    [0].into_iter().chain(others).collect()
}

fn predicate_arities(rng: &mut Rng, shape: Shape) -> Vec<usize> {
    if shape.dense {
        return vec![3];
    }
    let count = rng.within(1, 2 + shape.predicates / 2);
    (0..count).map(|_| rng.below(4)).collect()
}

/// A problem under growth.
pub struct Growing<'a> {
    rng: &'a mut Rng,
    pub p: Problem,
    shape: Shape,
    functions: Vec<(Function, usize)>,
    predicates: Vec<(Predicate, usize)>,
    applied: Vec<(Function, Vec<Term>)>,
    tested: Vec<(Predicate, Vec<Term>)>,
    terms: Vec<Term>,
    formulas: Vec<Formula>,
}

impl<'a> Growing<'a> {
    pub fn new(rng: &'a mut Rng, shape: Shape) -> Self {
        let mut p = Problem::new();
        let (mut functions, mut predicates) = (Vec::new(), Vec::new());
        for (i, arity) in function_arities(rng, shape).into_iter().enumerate() {
            functions.push((p.function(&format!("f{i}"), arity as u8), arity));
        }
        for (i, arity) in predicate_arities(rng, shape).into_iter().enumerate() {
            predicates.push((p.predicate(&format!("q{i}"), arity as u8), arity));
        }
        Self {
            rng,
            p,
            shape,
            functions,
            predicates,
            applied: Vec::new(),
            tested: Vec::new(),
            terms: Vec::new(),
            formulas: Vec::new(),
        }
    }

    /// Adds a node or a few.
    pub fn step(&mut self) {
        match self.rng.below(20) {
            0..=4 => self.apply(),
            5 | 6 => self.test(),
            7 | 8 => self.repeat(),
            9 if self.rng.once_in(2) => self.constant(),
            9..=11 if !self.formulas.is_empty() => self.connect(),
            12 | 13 => self.lemma(),
            _ if self.terms.len() < 2 => self.apply(),
            14 | 15 if !self.formulas.is_empty() => self.choose(),
            _ => self.equation(),
        }
    }

    /// Ends with a formula, and gives it: often one made of those there are, or else any, repeats
    /// too. It leaves much of the table unreached, unless all is gathered.
    pub fn finish(&mut self) -> Formula {
        if self.formulas.is_empty() {
            self.constant();
        }
        for _ in 0..self.rng.below(4) {
            self.connect();
        }
        match self.rng.below(16) {
            0 => self.constant(),
            1 if !self.terms.is_empty() => self.equation(),
            2 => self.test(),
            3 | 4 if !self.tested.is_empty() => self.repeat_test(),
            5..=8 => self.connect(),
            _ => {
                let (left, right) = (self.formula(), self.formula());
                self.formulas.push(self.p.or(left, right));
            }
        }
        if self.rng.once_in(2) {
            self.gather();
        }
        self.formulas[self.formulas.len() - 1]
    }

    /// A formula that reaches most of the table: it joins, one by one, the formulas that no node
    /// takes, and equations of the terms that no node takes.
    fn gather(&mut self) {
        let taken = taken(&self.p.bytes());
        let mut all = self.formulas[self.formulas.len() - 1];
        let formulas = self.formulas.clone().into_iter();
        for formula in formulas.filter(|formula| !taken[formula.node()]) {
            all = self.join(all, formula);
        }
        let terms = self.terms.clone().into_iter();
        let terms: Vec<Term> = terms.filter(|term| !taken[term.node()]).collect();
        for pair in terms.chunks(2) {
            let equation = self.p.equal(pair[0], pair[pair.len() - 1]);
            all = self.join(all, equation);
        }
        self.formulas.push(all);
    }

    /// A formula that takes both, while there is room.
    fn join(&mut self, all: Formula, next: Formula) -> Formula {
        match self.rng.below(4) {
            _ if self.p.node_count() > ENOUGH => all,
            0 => self.p.and(all, next),
            1 | 2 => self.p.or(next, all),
            _ => self.p.select(next, all, self.formulas[0]),
        }
    }

    fn term(&mut self) -> Term {
        *self.rng.pick_recent(&self.terms)
    }

    fn formula(&mut self) -> Formula {
        *self.rng.pick_recent(&self.formulas)
    }

    fn some_terms(&mut self, count: usize) -> Vec<Term> {
        (0..count).map(|_| self.term()).collect()
    }

    fn apply(&mut self) {
        let (function, arity) = *self.rng.pick(&self.functions);
        if arity == 0 || !self.terms.is_empty() {
            let arguments = self.some_terms(arity);
            self.apply_to(function, arguments);
        }
    }

    /// Applies a function, unless there are as many applications as may be.
    fn apply_to(&mut self, function: Function, arguments: Vec<Term>) -> Option<Term> {
        if self.applied.len() >= self.shape.functions {
            self.constant();
            return None;
        }
        let term = self.p.apply(function, &arguments);
        self.applied.push((function, arguments));
        self.terms.push(term);
        Some(term)
    }

    fn test(&mut self) {
        let (predicate, arity) = *self.rng.pick(&self.predicates);
        if self.tested.len() >= self.shape.predicates || arity > 0 && self.terms.is_empty() {
            return self.constant();
        }
        let arguments = self.some_terms(arity);
        self.formulas.push(self.p.test(predicate, &arguments));
        self.tested.push((predicate, arguments));
    }

    /// An application once more.
    fn repeat(&mut self) {
        if !self.tested.is_empty() && self.rng.once_in(2) {
            self.repeat_test();
        } else if !self.applied.is_empty() {
            let (function, arguments) = self.rng.pick(&self.applied).clone();
            self.terms.push(self.p.apply(function, &arguments));
        }
    }

    fn repeat_test(&mut self) {
        let (predicate, arguments) = self.rng.pick(&self.tested).clone();
        self.formulas.push(self.p.test(predicate, &arguments));
    }

    fn constant(&mut self) {
        let constant = match self.rng.below(2) {
            0 => self.p.yes(),
            _ => self.p.no(),
        };
        self.formulas.push(constant);
    }

    fn equation(&mut self) {
        let (left, right) = (self.term(), self.term());
        self.formulas.push(self.p.equal(left, right));
    }

    fn connect(&mut self) {
        let (first, second, third) = (self.formula(), self.formula(), self.formula());
        let made = match self.rng.below(6) {
            0 | 1 => self.p.not(first),
            2 => self.p.and(first, second),
            3 | 4 => self.p.or(first, second),
            _ => self.p.select(first, second, third),
        };
        self.formulas.push(made);
    }

    fn choose(&mut self) {
        let (condition, yes, no) = (self.formula(), self.term(), self.term());
        self.terms.push(self.p.choose(condition, yes, no));
    }

    /// A formula that holds everywhere, or nearly: it may want one of its conditions.
    fn lemma(&mut self) {
        if self.terms.len() < 2 {
            return self.apply();
        }
        let (function, arity) = *self.rng.pick(&self.functions);
        let pairs = (self.some_terms(arity.max(2)), self.some_terms(arity.max(2)));
        let (left, right) = match arity {
            0 => (pairs.0[0], pairs.1[1]),
            _ => {
                let left = self.apply_to(function, pairs.0[..arity].to_vec());
                let right = self.apply_to(function, pairs.1[..arity].to_vec());
                match (left, right) {
                    (Some(left), Some(right)) => (left, right),
                    _ => return,
                }
            }
        };
        let mut lemma = self.p.equal(left, right);
        let skipped = self.rng.below(8);
        for (i, (&a, &b)) in pairs.0.iter().zip(&pairs.1).enumerate() {
            if i != skipped {
                let same = self.p.equal(a, b);
                let apart = self.p.not(same);
                lemma = self.p.or(apart, lemma);
            }
        }
        self.formulas.push(lemma);
    }
}
