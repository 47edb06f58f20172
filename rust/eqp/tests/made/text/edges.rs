//! Texts on both sides of the limits: depth, symbols, nodes, distinct applications.

use super::grow::{bracket, Growing};
use super::names::Oddity;
use super::spell::Piece;
use super::Pieces;
use crate::made::rng::Rng;

const TERM: usize = 0;
const FORMULA: usize = 1;

/// A term of 60 to 70 levels, with another assert before it or behind it.
pub fn depth(rng: &mut Rng, oddity: Oddity) -> Pieces {
    let mut growing = Growing::new(rng, oddity);
    let x = growing.declare(TERM, 0);
    let p = growing.declare(FORMULA, 0);
    let f = growing.declare(TERM, 1);
    let levels = growing.rng.within(60, 70);
    let of_terms = growing.rng.below(8) * growing.rng.below(2);
    if growing.rng.once_in(3) {
        growing.assert_any(2);
    }
    let mut deep = vec![x.clone()];
    for _ in 0..of_terms {
        deep = bracket(f.clone(), &[deep]);
    }
    deep = bracket(Piece::symbol("="), &[deep, vec![x]]);
    let plain = growing.rng.once_in(4);
    for _ in of_terms + 1..levels {
        deep = match plain {
            true => bracket(Piece::symbol("not"), &[deep]),
            false => level(growing.rng, deep, &p),
        };
    }
    growing.assert(&deep);
    if growing.rng.once_in(3) {
        growing.assert_any(2);
    }
    growing.finish()
}

/// One level more around a formula.
fn level(rng: &mut Rng, deep: Pieces, p: &Piece) -> Pieces {
    let p = vec![p.clone()];
    match rng.below(8) {
        0 => bracket(Piece::symbol("and"), &[deep, p]),
        1 => bracket(Piece::symbol("or"), &[p, deep]),
        2 => bracket(Piece::symbol("=>"), &[deep, p]),
        3 => bracket(Piece::symbol("=>"), &[p.clone(), p, deep]),
        4 => bracket(Piece::symbol("ite"), &[p.clone(), deep, p]),
        _ => bracket(Piece::symbol("not"), &[deep]),
    }
}

/// 30 to 35 symbols, now and then some hundred, with asserts between them.
pub fn symbols(rng: &mut Rng) -> Pieces {
    let mut growing = Growing::new(rng, Oddity::Any);
    let count = match growing.rng.below(16) {
        0 => growing.rng.within(36, 150),
        _ => growing.rng.within(30, 35),
    };
    for _ in 0..count {
        growing.declare_any();
        if growing.rng.once_in(30) {
            growing.assert_any(2);
        }
    }
    if growing.rng.once_in(2) {
        growing.assert_any(2);
    }
    growing.finish()
}

/// Lists whose nodes are 240 to 262 in number, now and then far more.
pub fn nodes(rng: &mut Rng) -> Pieces {
    let mut growing = Growing::new(rng, Oddity::Any);
    let x = [growing.declare(TERM, 0), growing.declare(TERM, 0)];
    let p = [growing.declare(FORMULA, 0), growing.declare(FORMULA, 0)];
    let mut left = match growing.rng.below(16) {
        0 => growing.rng.within(263, 900),
        _ => growing.rng.within(240, 262),
    };
    while left > 0 {
        let part = growing.rng.within(1, left);
        let part = if growing.rng.once_in(2) { left } else { part };
        left -= part;
        let (head, items) = match growing.rng.below(5) {
            0 => ("=", &x),
            1 => ("=>", &p),
            2 => ("or", &p),
            _ => ("and", &p),
        };
        let mut item = || vec![growing.rng.pick(items).clone()];
        let list: Vec<Pieces> = (0..part.max(2)).map(|_| item()).collect();
        growing.assert(&bracket(Piece::symbol(head), &list));
    }
    growing.finish()
}

/// 22 to 27 distinct function applications, or 14 to 19 predicate applications, or both.
pub fn applications(rng: &mut Rng) -> Pieces {
    let mut growing = Growing::new(rng, Oddity::Any);
    let kind = growing.rng.below(3);
    let functions = if kind == 1 {
        5
    } else {
        growing.rng.within(22, 27)
    };
    let predicates = if kind == 0 {
        0
    } else {
        growing.rng.within(14, 19)
    };
    let constants = growing.rng.within(1, functions.min(10));
    let mut terms: Vec<Pieces> = Vec::new();
    for _ in 0..constants {
        terms.push(vec![growing.declare(TERM, 0)]);
    }
    let f = growing.declare(TERM, 1);
    for i in 0..functions - constants {
        terms.push(bracket(f.clone(), &[terms[i].clone()]));
    }
    growing.assert(&bracket(
        Piece::symbol("="),
        &[&terms[..], &terms[..1]].concat(),
    ));
    let tests = growing.declare(FORMULA, 2);
    for i in 0..predicates {
        let pair = [terms[i % 5 % terms.len()].clone(), terms[i / 5].clone()];
        growing.assert(&bracket(tests.clone(), &pair));
    }
    growing.finish()
}
