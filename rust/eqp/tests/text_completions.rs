//! Refusal 14 does not come too late: what stands before its place can be completed to a text of
//! the subset, token by token, where the reader itself tells which tokens go on.

mod compared;
mod made;

use compared::readers::HEAD;
use eqp::{reference, Reading, PROBLEM_LEN};
use made::rng::Rng;
use made::text::grow::{self, Shape};
use made::text::names::Oddity;
use made::text::spell::{self, Style};
use made::text::{damage, edges, Pieces};

/// What is tried first, in this order: what closes a list, then what needs the least behind it.
/// Then come the words that stand in the text, and a bracket last.
const FIRST: [&str; 13] = [
    ")",
    "check-sat",
    "set-logic",
    "declare-sort",
    "QF_UF",
    "0",
    "Bool",
    "true",
    "declare-fun",
    "assert",
    "not",
    "fresh",
    "ite",
];

/// No text needs more to be completed: each of 64 levels may want two arguments and a bracket.
const MOST_TOKENS: usize = 300;

/// Whether a text is whole, but for limits on its problem, and whether it may go on at its end.
fn standing(text: &[u8]) -> (bool, bool) {
    match reference::read(text, &mut [0; PROBLEM_LEN]) {
        Reading::Read { .. } => (true, false),
        Reading::Refused { number: 14, place } => (false, place == text.len() as u64),
        Reading::Refused { number, .. } => (matches!(number, 4 | 9 | 10), false),
    }
}

/// The words of a text, the last ones first.
fn words(text: &[u8]) -> Vec<String> {
    let text = String::from_utf8_lossy(text);
    let words = text.split(|c: char| !c.is_ascii_alphanumeric());
    let words = words.filter(|word| !word.is_empty());
    words.map(str::to_string).rev().collect()
}

/// Completes a text, and gives how many tokens that takes; panics where no token goes on.
fn complete(prefix: &[u8]) -> usize {
    let known = words(prefix);
    let known = || known.iter().map(|word| &word[..]);
    let candidates = || FIRST.into_iter().chain(known()).chain(["("]);
    let mut text = [prefix, b"\n"].concat();
    for count in 0..MOST_TOKENS {
        if standing(&text).0 {
            return count;
        }
        let with = |word: &str| [&text, word.as_bytes(), b" "].concat();
        let mut next = candidates().map(with).filter(|longer| {
            let (whole, goes_on) = standing(longer);
            whole || goes_on
        });
        text = match next.next() {
            Some(longer) => longer,
            None => panic!("nothing goes on: {}", String::from_utf8_lossy(&text)),
        };
    }
    panic!("it goes on and on: {}", String::from_utf8_lossy(&text))
}

/// A text with usual names, damaged.
fn damaged(rng: &mut Rng) -> Vec<u8> {
    let shape = Shape {
        commands: rng.within(1, 12),
        depth: 3,
        oddity: Oddity::Usual,
    };
    let mut pieces: Pieces = grow::text(rng, shape);
    match rng.below(4) {
        0 => damage::forget(rng, &mut pieces),
        _ => damage::pieces(rng, &mut pieces),
    }
    let style = Style::any(rng);
    spell::spell(rng, &pieces, style)
}

/// Of so many texts enough must be refused by this number, and what stands before its place goes
/// on.
fn expect_completed(number: u8, count: usize, make: fn(&mut Rng) -> Vec<u8>) {
    let mut rng = Rng::new(1);
    let mut completed = 0;
    for _ in 0..count {
        let text = make(&mut rng);
        match reference::read(&text, &mut [0; PROBLEM_LEN]) {
            Reading::Refused { number: by, place } if by == number => {
                complete(&text[..place as usize]);
                completed += 1;
            }
            _ => {}
        }
    }
    assert!(completed > count / 3, "{completed} of {count}");
}

#[test]
fn what_stands_before_a_refusal_goes_on() {
    expect_completed(14, 3_000, damaged);
}

#[test]
fn what_stands_before_level_65_goes_on() {
    expect_completed(15, 100, |rng| {
        let pieces = edges::depth(rng, Oddity::Usual);
        spell::spell(rng, &pieces, Style::Plain)
    });
}

/// An empty text takes the two first commands, then the last.
#[test]
fn completions() {
    assert_eq!(complete(b""), 4 + 5 + 3);
    assert_eq!(complete(HEAD.as_bytes()), 3);
    assert_eq!(complete(b"(set-logic QF_UF)(declare-sort U 0)(assert"), 5);
}

#[test]
#[should_panic(expected = "nothing goes on")]
fn no_completion() {
    complete(&[HEAD.as_bytes(), b"(check-sat))"].concat());
}
