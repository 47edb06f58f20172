//! The twelve texts that are worked by hand, with their bytes, refusals and verdicts.

mod compared;
mod made;

use compared::both::{call, valid, BOTH};
use compared::readers::{expect_nodes, expect_problem, expect_refused, text, CHECK, HEAD, READERS};
use eqp::{Answer, Reading, PROBLEM_LEN};

const TWO: &str = "(declare-fun x () U)(declare-fun y () U)(declare-fun f (U) U)\
    (assert (= x y))(assert (not (= (f x) (f y))))";
const THREE: &str = "(declare-fun x()U)(declare-fun y()U)(declare-fun p()Bool)\
    (declare-fun q()Bool)(assert (=> p q (= x y x)))";
const FOUR: &str = "(declare-fun p()Bool)(declare-fun q()Bool)(declare-fun r()Bool)\
    (assert p)(assert (or p q r))(assert (not p))";
const FIVE: &str = ";note\n(set-logic |QF_UF|)(declare-sort |a b| 0)(declare-fun |let|()|a b|)\
    (declare-fun y()|a b|)(declare-fun p()|Bool|)\
    (assert(|and|p|true|(=(ite |p||let|y)|y|)))(check-sat);end";

/// What every reader makes of a text, decided by the library and the reference.
fn expect_verdict(text: &str, wanted: fn(Answer) -> bool) {
    for (reader, read) in READERS {
        let mut problem = [0; PROBLEM_LEN];
        let length = match read(text.as_bytes(), &mut problem) {
            Reading::Read { length } => length,
            refused => panic!("{reader}: {refused:?}"),
        };
        for (name, decide) in BOTH {
            let answer = call(decide, u64::MAX, &problem[..length]).answer;
            assert!(wanted(answer), "{reader}, {name}: {answer:?}");
        }
    }
}

#[test]
fn no_assert() {
    let problem = [
        0x45, 0x51, 0x50, 0x01, 0x00, 0x00, 0x02, 0x00, //
        0x07, 0x00, 0x00, 0x00, 0x00, 0x00, 0x00, 0x00, //
        0x03, 0x00, 0x00, 0x00, 0x00, 0x00, 0x00, 0x00,
    ];
    expect_problem(text(""), &problem);
    expect_verdict(&text(""), |answer| {
        matches!(answer, Answer::Falsified { .. })
    });
}

#[test]
fn two_asserts() {
    let nodes = "0 0, 0 1, 2 0 0 1, 0 2 0, 0 2 1, 2 0 3 4, 3 0 5, 4 0 2 6, 3 0 7";
    expect_nodes(text(TWO), &[0, 0, 1], nodes);
    expect_verdict(&text(TWO), |answer| answer == valid(4));
}

/// 8 header bytes, 3 symbols and 9 nodes; 4 symbols and 12 nodes.
#[test]
fn lengths() {
    for (name, read) in READERS {
        let length = |text: &str| read(text.as_bytes(), &mut [0; PROBLEM_LEN]);
        assert_eq!(length(&text(TWO)), Reading::Read { length: 83 }, "{name}");
        assert_eq!(
            length(&text(THREE)),
            Reading::Read { length: 108 },
            "{name}"
        );
    }
}

#[test]
fn implications_and_chains() {
    let nodes = "6 2, 3 0 0, 6 3, 3 0 2, 0 0, 0 1, 2 0 4 5, 2 0 5 4, 4 0 6 7, 5 0 3 8, 5 0 1 9, \
        3 0 10";
    expect_nodes(text(THREE), &[0, 0, 16, 16], nodes);
}

#[test]
fn joins() {
    let nodes = "6 0, 6 1, 5 0 0 1, 6 2, 5 0 2 3, 3 0 0, 4 0 0 4, 4 0 6 5, 3 0 7";
    expect_nodes(text(FOUR), &[16, 16, 16], nodes);
    expect_verdict(&text(FOUR), |answer| answer == valid(8));
}

#[test]
fn bars_and_comments() {
    let nodes = "6 2, 7 0, 4 0 0 1, 0 0, 0 1, 1 0 0 3 4, 2 0 5 4, 4 0 2 6, 3 0 7";
    expect_nodes(FIVE, &[0, 0, 16], nodes);
}

#[test]
fn refused() {
    expect_refused(text("(declare-fun f (U U U U) U)"), 14, 57);
    expect_refused(text("(declare-fun p () Bool)(assert (and p))"), 14, 72);
    let mixed = "(declare-fun x () U)(declare-fun p () Bool)(assert (= (ite p x p) x))";
    expect_refused(text(mixed), 14, 98);
    expect_refused([HEAD, "(assert true)", CHECK, "(exit)"].concat(), 14, 59);
    let deep = [HEAD, "(declare-fun p () Bool)(assert ", &"(not ".repeat(65)];
    expect_refused(deep.concat(), 15, 386);
    let ended = [HEAD, "(declare-fun p () Bool)(assert p) ; no more\n"];
    expect_refused(ended.concat(), 14, 79);
    let constants = (0..33).map(|i| format!("(declare-fun x{i} () U)"));
    expect_refused(text(&constants.collect::<String>()), 4, 0);
}
