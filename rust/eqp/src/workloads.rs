//! The problems that the bench walks. All are valid, so that a walk ends at the budget or at the
//! last place and at nothing before.

pub mod texts;

use crate::problem::{Formula, Problem, Term};
use crate::samples::{ackermann, inlined_tap, row, variables};

/// How many variables a table has that is walked at several sizes.
const SIZED: usize = 10;

/// A problem to walk.
pub struct Workload {
    /// What it is.
    pub name: &'static str,
    /// Its bytes.
    pub problem: Vec<u8>,
    /// How many places to walk at most.
    pub budget: u64,
}

/// The tables of the bench.
pub fn tables() -> Vec<Workload> {
    let whole = u64::MAX;
    let table = |name, budget, problem: Problem| Workload {
        name,
        problem: problem.bytes(),
        budget,
    };
    vec![
        table("chain of 6 variables, whole", whole, chain(6)),
        table("chain of 19 variables", 200_000, chain(19)),
        table("f 4 and 7 times, whole", whole, powers(4, 7)),
        table("feedback tap, whole", whole, inlined_tap()),
        table("12 mixers of 3 inputs", 20_000, mixers()),
        table("12 predicates, whole", whole, predicates()),
        table("16 switches", 100_000, switches()),
        table("1,522 nodes", 5_000, large()),
    ]
}

/// One table at five sizes: always 32 nodes, and 6! to 10! places.
pub fn sizes() -> [Workload; 5] {
    [6, 7, 8, 9, SIZED].map(|count| Workload {
        name: "chain, and others alone",
        problem: partly_linked(count).bytes(),
        budget: u64::MAX,
    })
}

/// Small jobs of several kinds, in turn, each with an ample budget.
pub fn small_jobs(count: usize) -> Vec<Vec<u8>> {
    let rows = (1..=12).map(row);
    let others = [ackermann(), chain(3), chain(4), chain(5), powers(2, 3)];
    let kinds: Vec<_> = rows.chain(others).map(|problem| problem.bytes()).collect();
    kinds.iter().cycle().take(count).cloned().collect()
}

/// If x1 = x2, x2 = x3 and so on, then the first is the last.
pub fn chain(count: usize) -> Problem {
    let mut p = Problem::new();
    let x = variables(&mut p, "x", count);
    let links = all_equal(&mut p, &x);
    linked_ends(&mut p, links, &x);
    p
}

/// A chain of so many variables, and others up to ten, each equal to itself: the root reaches
/// them too, by as many equations, and they take one value.
fn partly_linked(count: usize) -> Problem {
    let mut p = Problem::new();
    let x = variables(&mut p, "x", SIZED);
    let (chain, others) = x.split_at(count);
    let mut links = all_equal(&mut p, chain);
    for &other in others {
        let equation = p.equal(other, other);
        links = p.and(links, equation);
    }
    linked_ends(&mut p, links, chain);
    p
}

/// If the links hold, then the first is the last.
fn linked_ends(p: &mut Problem, links: Formula, terms: &[Term]) {
    let ends = p.equal(terms[0], terms[terms.len() - 1]);
    implies(p, links, ends);
}

/// If f applied a times and f applied b times give x back, then so does f, for coprime a < b.
fn powers(a: usize, b: usize) -> Problem {
    let mut p = Problem::new();
    let x = variables(&mut p, "x", 1)[0];
    let f = p.function("f", 1);
    let mut terms = vec![x];
    for i in 0..b {
        terms.push(p.apply(f, &[terms[i]]));
    }
    let (back_a, back_b) = (p.equal(terms[a], x), p.equal(terms[b], x));
    let both = p.and(back_a, back_b);
    let back = p.equal(terms[1], x);
    implies(&mut p, both, back);
    p
}

/// Mixers whose inputs are equal have equal outputs.
fn mixers() -> Problem {
    let mut p = Problem::new();
    let x = variables(&mut p, "x", 4);
    let mix = p.function("mix", 3);
    let inputs = (0..12).map(|i| [x[i % 4], x[(i + 1 + i / 4) % 4], x[i / 4]]);
    let outputs: Vec<_> = inputs.map(|inputs| p.apply(mix, &inputs)).collect();
    let same = all_equal(&mut p, &x);
    let together = all_equal(&mut p, &outputs);
    implies(&mut p, same, together);
    p
}

/// A predicate has the same truth value wherever its arguments are equal.
fn predicates() -> Problem {
    let mut p = Problem::new();
    let x = variables(&mut p, "x", 4);
    let q = p.predicate("q", 2);
    let pairs = (0..12).map(|i| [x[i % 4], x[(i + 1 + i / 4) % 4]]);
    let tests: Vec<_> = pairs.map(|pair| p.test(q, &pair)).collect();
    let same = all_equal(&mut p, &x);
    let mut together = p.yes();
    for pair in tests.windows(2) {
        let other = p.not(pair[1]);
        let alike = p.select(pair[0], pair[1], other);
        together = p.and(together, alike);
    }
    implies(&mut p, same, together);
    p
}

/// A row of switches, and the same row with each switch turned round.
fn switches() -> Problem {
    let mut p = Problem::new();
    let x = variables(&mut p, "x", 9);
    let (mut left, mut right) = (x[0], x[0]);
    for i in 0..16 {
        let switch = p.predicate(&format!("p{i}"), 0);
        let on = p.test(switch, &[]);
        let off = p.not(on);
        let other = x[1 + i % 8];
        left = p.choose(on, left, other);
        right = p.choose(off, other, right);
    }
    p.equal(left, right);
    p
}

/// A table of 1,522 nodes: 256, and for each pair of the 14 applications of a function and of the
/// 16 of a predicate, all of arity 3, three equations, two conjunctions and a choice.
fn large() -> Problem {
    applications(4, 14)
}

/// As many table nodes as a problem can have, 2,494: 256 and, for each pair of 23 and of 16
/// applications, six. The 24 variables are one component, so the product is refused.
pub fn largest() -> Problem {
    applications(1, 23)
}

/// A problem of 256 nodes: some variables, so many applications of a function and 16 of a
/// predicate, all of arity 3 and distinct, and a disjunction of the tests and of equations.
fn applications(variable_count: usize, function_count: usize) -> Problem {
    let mut p = Problem::new();
    let mut terms = variables(&mut p, "x", variable_count);
    let (f, q) = (p.function("f", 3), p.predicate("q", 3));
    for i in 0..function_count {
        let inputs = arguments(&terms, variable_count, i);
        terms.push(p.apply(f, &inputs));
    }
    let mut root = p.equal(terms[0], terms[0]);
    for i in 0..16 {
        let test = p.test(q, &arguments(&terms, variable_count, i));
        root = p.or(root, test);
    }
    while p.node_count() + 2 <= 256 {
        let i = variable_count + p.node_count() % (function_count - 1);
        let equation = p.equal(terms[i], terms[i + 1]);
        root = p.or(root, equation);
    }
    if p.node_count() < 256 {
        p.or(root, root);
    }
    p
}

/// Distinct arguments for each i below 16, or for each there is: pairs of several variables, or
/// the applications of a single one.
fn arguments(terms: &[Term], variable_count: usize, i: usize) -> [Term; 3] {
    match variable_count {
        1 => [terms[i], terms[i / 2], terms[i / 3]],
        n => [terms[i % n], terms[i / n], terms[(i + i / n) % n]],
    }
}

fn all_equal(p: &mut Problem, terms: &[Term]) -> Formula {
    let mut all = p.yes();
    for pair in terms.windows(2) {
        let equation = p.equal(pair[0], pair[1]);
        all = p.and(all, equation);
    }
    all
}

fn implies(p: &mut Problem, condition: Formula, conclusion: Formula) {
    let fails = p.not(condition);
    p.or(fails, conclusion);
}
