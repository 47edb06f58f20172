//! What counts the generated calls is held against cases made by hand: the tallies, the calls and
//! the flaws of a node.

mod compared;
mod counted;
mod made;

use compared::lend::{Asked, Lengths};
use counted::calls::Call;
use counted::facts::{only_flaw, Flaw};
use counted::floors::CALLS;
use counted::lines::{Line, ENDS, LINES};
use counted::readings::READINGS;
use counted::tally::{Row, Tally};
use eqp::problem::{last_node, Problem};
use eqp::samples::row;
use eqp::Answer;
use made::budgets::WIDE;
use made::{fields, limits};

const PARITY: &[Row<u64>] = &[
    ("even", |n| n % 2 == 0, 2),
    ("odd", |n| n % 2 == 1, 2),
    ("over 9", |n| *n > 9, 1),
];

#[test]
fn counts_and_floors() {
    let mut tally = Tally::new(PARITY);
    assert_eq!(tally.short(), ["even", "odd", "over 9"]);
    tally.add(&2);
    tally.add(&3);
    assert_eq!(tally.counted(), ["even", "odd"]);
    assert_eq!(tally.short(), ["even", "odd", "over 9"]);
    let mut other = Tally::new(PARITY);
    other.add(&4);
    other.add(&10);
    tally.join(&other);
    assert_eq!(tally.short(), ["odd"]);
    tally.add(&5);
    tally.expect_enough();
}

#[test]
#[should_panic(expected = "too few of [\"odd\"]")]
fn a_count_under_its_floor() {
    let mut tally = Tally::new(PARITY);
    [2, 4, 10, 1].iter().for_each(|n| tally.add(n));
    tally.expect_enough();
}

/// No floor is 0.
#[test]
fn nothing_is_too_few() {
    assert_eq!(Tally::new(CALLS).short().len(), CALLS.len());
    assert_eq!(Tally::new(LINES).short().len(), LINES.len());
    assert_eq!(Tally::new(ENDS).short().len(), ENDS.len());
    assert_eq!(Tally::new(READINGS).short().len(), READINGS.len());
}

/// What is counted of a call with two truths for a problem, as plain as can be.
fn counted(budget: u64, answer: Option<Answer>, lengths: Lengths) -> Vec<&'static str> {
    counted_at((budget, 1), answer, lengths)
}

fn counted_at(asked: Asked, answer: Option<Answer>, lengths: Lengths) -> Vec<&'static str> {
    let mut p = Problem::new();
    p.yes();
    p.yes();
    let mut tally = Tally::new(CALLS);
    tally.add(&Call::new(asked, &p.bytes(), lengths, answer, &[]));
    tally.counted()
}

#[test]
fn plain_calls() {
    let (tried, product) = (1, 1);
    let valid = |budget| {
        counted(
            budget,
            Some(Answer::Valid { tried, product }),
            Lengths::EXACT,
        )
    };
    let plain = ["calls", "op 7, true", "no applications"];
    let with = |more: &[&'static str]| [&plain[..], more].concat();
    assert_eq!(valid(2), plain);
    assert_eq!(valid(1), plain);
    let bits = [
        "valid, not with 8 bits of the budget",
        "valid, not with 16 bits of the budget",
        "valid, not with 32 bits of the budget",
        "valid, not with 63 bits of the budget",
    ];
    assert_eq!(valid(1 << 8), with(&bits[..1]));
    assert_eq!(valid(1 << 16), with(&bits[..2]));
    assert_eq!(valid(1 << 32), with(&bits[..3]));
    assert_eq!(valid(1 << 63), with(&bits));
}

/// The first of the two truths asked; then roots that are refused, some of which are the number of
/// a node in their low bits alone.
#[test]
fn roots_of_calls() {
    let answered = |root, answer| counted_at((2, root), Some(answer), Lengths::EXACT);
    let (tried, product) = (1, 1);
    let first = answered(0, Answer::Valid { tried, product });
    let plain = ["calls", "op 7, true", "no applications"];
    assert_eq!(
        first,
        [&plain[..], &["a root before the last node"]].concat()
    );
    let (number, place) = (16, 0);
    let refused = |root| answered(root, Answer::Refused { number, place });
    let with = |more: &[&'static str]| [&["calls"], more, &["refusal 16"]].concat();
    assert_eq!(refused(1), with(&["refusal 16, a term"]));
    assert_eq!(refused(2), with(&["refusal 16, one past the last node"]));
    assert_eq!(refused(3), with(&[]));
    let bits = [
        "refusal 16, 8 bits are a node",
        "refusal 16, 16 bits are a node",
        "refusal 16, 32 bits are a node",
        "refusal 16, 63 bits are a node",
    ];
    assert_eq!(refused((1 << 8) + 1), with(&bits[..1]));
    assert_eq!(refused(1 << 16), with(&bits[..2]));
    assert_eq!(refused((1 << 32) + 1), with(&bits[..3]));
    assert_eq!(refused(1 << 63), with(&bits));
}

#[test]
fn calls_without_an_answer() {
    let short = Lengths {
        answer: 31,
        ..Lengths::EXACT
    };
    let none = ["calls", "no answer, the buffer is a byte short"];
    assert_eq!(counted(1, None, short), none);
}

/// Each wide budget is too small in some narrower kind of number, and all kinds have one.
#[test]
fn wide_budgets() {
    assert!(WIDE.iter().all(|&budget| budget > 255));
    for bits in [8, 16, 32, 63] {
        assert!(WIDE.iter().any(|budget| budget % (1 << bits) == 0));
        assert!(WIDE
            .iter()
            .any(|budget| *budget >= 1 << bits && budget % (1 << bits) <= 1));
    }
    for budget in [1 << 32, (1 << 32) + 1, 1 << 63, u64::MAX] {
        assert!(WIDE.contains(&budget));
    }
}

#[test]
fn lines_of_the_night_run() {
    let counted = |budget, length, line: &str| {
        let mut tally = Tally::new(LINES);
        tally.add(&Line::read(12, budget, length, line));
        tally.counted()
    };
    assert_eq!(counted(0, 75, "JOB 12 STOPPED 0 4"), ["lines", "stopped"]);
    assert_eq!(
        counted(1, 256, "JOB 12 FALSIFIED 1 2"),
        ["lines", "falsified", "problems over 255 bytes"]
    );
    assert_eq!(
        counted(1, 0, "JOB 12 REFUSED 10 0"),
        ["lines", "refusal 10"]
    );
    let wide = [
        "lines",
        "valid",
        "budgets of 2^32 and more",
        "valid, not with 8 bits of the budget",
    ];
    assert_eq!(counted(1 << 32, 75, "JOB 12 VALID 1 1")[..4], wide);
}

#[test]
#[should_panic(expected = "job 12 has the line")]
fn a_line_of_another_job() {
    Line::read(12, 0, 0, "JOB 13 VALID 1 1");
}

/// Rows 9 and 5 falsified: no rows coincide, f(1) and f(2) differ. In row 12 x = y at place 1, and both rows of f are f(1).
#[test]
fn coinciding_rows() {
    let coinciding = |number: usize, witness: &[u8]| {
        let answer = Some(Answer::Falsified {
            tried: 1,
            product: 4,
            witness_len: witness.len(),
        });
        let bytes = row(number).bytes();
        let asked = (1, last_node(&bytes));
        Call::new(asked, &bytes, Lengths::EXACT, answer, witness).coinciding
    };
    let nine = b"EQW\x01\x00\x03\0\0\0\0\0\x01\0\0\0\x01\x02\0\0\0\x02";
    assert_eq!(coinciding(9, nine), [None, None]);
    let five = b"EQW\x01\x00\x04\0\0\0\0\x01\x01\0\0\0\x02\x02\x01\0\0\x01\x02\x02\0\0\x01";
    assert_eq!(coinciding(5, five), [None, None]);
    let twelve = b"EQW\x01\x00\x04\0\0\0\0\x01\x01\0\0\0\x01\x02\x01\0\0\x01\x02\x01\0\0\x01";
    assert_eq!(coinciding(12, twelve), [Some(1), None]);
}

/// Every field case has one flaw. Of the 16 nodes 12, 9 and 4 use their operands; each of these
/// has a wrong sort and three late numbers, each of the others four values where none belongs.
#[test]
fn flaws_of_fields() {
    let cases = fields::cases();
    let flaws: Vec<_> = cases.iter().map(|(bytes, _)| only_flaw(bytes, 2)).collect();
    let count = |flaw| flaws.iter().filter(|&&other| other == flaw).count();
    assert_eq!(count(None), 16);
    for (k, used) in [12, 9, 4].into_iter().enumerate() {
        assert_eq!(count(Some(Flaw::Sort(k))), used);
        assert_eq!(count(Some(Flaw::Late(k))), 3 * used);
        assert_eq!(count(Some(Flaw::Unused(k))), 4 * (16 - used));
    }
    assert_eq!(count(Some(Flaw::NoSymbol)), 16);
    assert_eq!(count(Some(Flaw::OtherKind)), 16);
    assert_eq!(count(Some(Flaw::SymbolUnused)), 32);
    let mut two = cases[0].0.clone();
    let node = two.len() - 16;
    two[node + 2..node + 8].copy_from_slice(&[1, 0, 1, 0, 0, 0]);
    assert_eq!(only_flaw(&two, 2), None);
    let (_, nodes) = &limits::groups()[2];
    let op = |(bytes, _): &&limits::Case| only_flaw(bytes, 3) == Some(Flaw::Op);
    assert_eq!(nodes.iter().filter(op).count(), 246);
}
