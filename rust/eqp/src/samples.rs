//! Document 01's worked formulas, and the example files of the repository.

use crate::jobs::Jobs;
use crate::problem::{Formula, Function, Problem, Term};

/// Row 1 to 12 of document 01: nodes in order of first mention, arguments first.
///
/// # Panics
///
/// Where there is no such row.
pub fn row(number: usize) -> Problem {
    let mut p = Problem::new();
    match number {
        1 => {
            let x = p.function("x", 0);
            let x = p.apply(x, &[]);
            p.equal(x, x)
        }
        2..=6 | 12 => equality_row(&mut p, number),
        7..=9 => truth_row(&mut p, number),
        10 => p.yes(),
        11 => p.no(),
        _ => panic!("document 01 has no row {number}"),
    };
    p
}

fn equality_row(p: &mut Problem, number: usize) -> Formula {
    let (x, y) = (p.function("x", 0), p.function("y", 0));
    let (x, y) = (p.apply(x, &[]), p.apply(y, &[]));
    match number {
        2 => p.equal(x, y),
        3 => unequal(p, x, y),
        4 => {
            let apart = unequal(p, x, y);
            let images = equal_images(p, x, y);
            p.or(apart, images)
        }
        5 => {
            let images = equal_images(p, x, y);
            let apart = p.not(images);
            let same = p.equal(x, y);
            p.or(apart, same)
        }
        6 => equal_images(p, x, y),
        _ => {
            let same = p.equal(x, y);
            let images = equal_images(p, x, y);
            let both = p.and(same, images);
            p.not(both)
        }
    }
}

fn unequal(p: &mut Problem, x: Term, y: Term) -> Formula {
    let same = p.equal(x, y);
    p.not(same)
}

/// f(x) = f(y), for a new f.
fn equal_images(p: &mut Problem, x: Term, y: Term) -> Formula {
    let f = p.function("f", 1);
    let (fx, fy) = (p.apply(f, &[x]), p.apply(f, &[y]));
    p.equal(fx, fy)
}

fn truth_row(problem: &mut Problem, number: usize) -> Formula {
    let p = problem.predicate("p", 0);
    let p = problem.test(p, &[]);
    match number {
        7 => {
            let not = problem.not(p);
            problem.or(p, not)
        }
        8 => p,
        _ => {
            let (x, y) = (problem.function("x", 0), problem.function("y", 0));
            let (x, y) = (problem.apply(x, &[]), problem.apply(y, &[]));
            let choice = problem.choose(p, x, y);
            problem.equal(choice, x)
        }
    }
}

/// Document 004's example: not x1 = x2, or F(x1) = F(x2), or not F(x1) = F(x3).
pub fn ackermann() -> Problem {
    let mut p = Problem::new();
    let x = variables(&mut p, "x", 3);
    let f = p.function("F", 1);
    let apart = unequal(&mut p, x[0], x[1]);
    let (f0, f1) = (p.apply(f, &[x[0]]), p.apply(f, &[x[1]]));
    let images = p.equal(f0, f1);
    let left = p.or(apart, images);
    let (again, f2) = (p.apply(f, &[x[0]]), p.apply(f, &[x[2]]));
    let others = p.equal(again, f2);
    let right = p.not(others);
    p.or(left, right);
    p
}

/// Document 02's table of two departments: the voice group asks x = y, node 2, and the effects
/// group has appended z, f(z), f(x) and, asked by it, f(z) = f(x).
pub fn two_departments() -> Problem {
    let mut p = Problem::new();
    let [x, y, z] = ["x", "y", "z"].map(|name| p.function(name, 0));
    let f = p.function("f", 1);
    let (x, y) = (p.apply(x, &[]), p.apply(y, &[]));
    p.equal(x, y);
    let z = p.apply(z, &[]);
    let (fz, fx) = (p.apply(f, &[z]), p.apply(f, &[x]));
    p.equal(fz, fx);
    p
}

/// Three applications of a predicate of arity 3: q(x, y, x), or q(y, x, x), or q(x, x, y).
pub fn three_tests() -> Problem {
    let mut p = Problem::new();
    let x = variables(&mut p, "x", 2);
    let q = p.predicate("q", 3);
    let first = p.test(q, &[x[0], x[1], x[0]]);
    let second = p.test(q, &[x[1], x[0], x[0]]);
    let third = p.test(q, &[x[0], x[0], x[1]]);
    let either = p.or(first, second);
    p.or(either, third);
    p
}

/// New variables `name1` to `name{count}`, each as a term.
pub fn variables(p: &mut Problem, name: &str, count: usize) -> Vec<Term> {
    let symbols: Vec<Function> = (1..=count)
        .map(|i| p.function(&format!("{name}{i}"), 0))
        .collect();
    symbols.into_iter().map(|x| p.apply(x, &[])).collect()
}

/// `examples/sample-night.jobs`: document 01's sample night.
pub fn sample_night() -> Jobs {
    let mut jobs = Jobs::new();
    jobs.push(10, &row(2).bytes());
    jobs.push(3, &row(4).bytes());
    jobs.push(4, &row(4).bytes());
    jobs.push(5, &[]);
    jobs
}

/// `examples/feedback-tap.jobs`: a wrong rewrite of a feedback patch, then the right one.
pub fn feedback_tap() -> Jobs {
    let mut jobs = Jobs::new();
    jobs.push(1_000_000, &late_tap().bytes());
    jobs.push(1_000_000, &inlined_tap().bytes());
    jobs
}

/// The patch hears its own output of the block before, through a filter. This rewrite drops a
/// buffer and takes the tap one block late: out2 = mix(in2, filter(out0)).
pub fn late_tap() -> Problem {
    let mut p = Problem::new();
    let patch = Patch::new(&mut p);
    let rewritten = p.apply(patch.mix, &[patch.in2, patch.tap0]);
    patch.rewrite(&mut p, rewritten);
    p
}

/// The rewrite that inlines the block before:
/// out2 = mix(in2, filter(mix(in1, filter(out0)))).
pub fn inlined_tap() -> Problem {
    let mut p = Problem::new();
    let patch = Patch::new(&mut p);
    let before = p.apply(patch.mix, &[patch.in1, patch.tap0]);
    let tap = p.apply(patch.filter, &[before]);
    let rewritten = p.apply(patch.mix, &[patch.in2, tap]);
    patch.rewrite(&mut p, rewritten);
    p
}

/// Two blocks of the patch: out1 = mix(in1, filter(out0)) and out2 = mix(in2, filter(out1)).
struct Patch {
    in1: Term,
    in2: Term,
    out2: Term,
    tap0: Term,
    filter: Function,
    mix: Function,
    runs: Formula,
}

impl Patch {
    fn new(p: &mut Problem) -> Self {
        let inputs = variables(p, "in", 2);
        let outputs = ["out0", "out1", "out2"].map(|name| p.function(name, 0));
        let [out0, out1, out2] = outputs.map(|out| p.apply(out, &[]));
        let (filter, mix) = (p.function("filter", 1), p.function("mix", 2));
        let tap0 = p.apply(filter, &[out0]);
        let block1 = p.apply(mix, &[inputs[0], tap0]);
        let first = p.equal(out1, block1);
        let tap1 = p.apply(filter, &[out1]);
        let block2 = p.apply(mix, &[inputs[1], tap1]);
        let second = p.equal(out2, block2);
        let runs = p.and(first, second);
        let (in1, in2) = (inputs[0], inputs[1]);
        Self {
            in1,
            in2,
            out2,
            tap0,
            filter,
            mix,
            runs,
        }
    }

    /// Asks whether the rewritten term is the second block's output wherever the patch runs.
    fn rewrite(&self, p: &mut Problem, rewritten: Term) {
        let same = p.equal(self.out2, rewritten);
        let idle = p.not(self.runs);
        p.or(idle, same);
    }
}
