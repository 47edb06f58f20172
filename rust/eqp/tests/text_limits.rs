//! Texts on both sides of each limit: the depth, the counts of the problem, and the buffer.

mod compared;
mod made;

use compared::readers::{
    expect_counts, expect_refused, expect_refused_here, expect_refused_in, text, HEAD, READERS,
};
use eqp::{Reading, PROBLEM_LEN};

const SYMBOLS: &str = "(declare-fun x()U)(declare-fun p()Bool)(declare-fun f(U)U)";

/// So many constants, or others of these argument sorts and this result.
fn declared(name: &str, count: usize, rank: &str) -> String {
    let one = |i| format!("(declare-fun {name}{i} {rank})");
    (0..count).map(one).collect()
}

/// The names, each after a space.
fn names(name: &str, count: usize) -> String {
    (0..count).map(|i| format!(" {name}{i}")).collect()
}

/// A level of each head, and what closes it.
const LEVELS: [(&str, &str); 8] = [
    ("(not ", ")"),
    ("(and p ", ")"),
    ("(or ", " p)"),
    ("(=> p ", ")"),
    ("(=> ", " p)"),
    ("(ite ", " p p)"),
    ("(ite p p ", ")"),
    ("(and ", " (not p) p)"),
];

#[test]
fn depth() {
    for (open, close) in LEVELS {
        let deep = |levels: usize, within: &str| {
            let (open, close) = (open.repeat(levels), close.repeat(levels));
            text(&format!("{SYMBOLS}(assert {open}{within}{close})"))
        };
        let levels = if close.contains("(not p)") { 63 } else { 64 };
        expect_refused_here(&deep(64, "§(not p)"), 15);
        let taken = deep(levels, "p");
        for (name, read) in READERS {
            let reading = read(taken.as_bytes(), &mut [0; PROBLEM_LEN]);
            assert!(matches!(reading, Reading::Read { .. }), "{name}: {taken}");
        }
    }
    let terms = |levels: usize| {
        let (open, close) = ("(f ".repeat(levels - 1), ")".repeat(levels - 1));
        text(&format!("{SYMBOLS}(assert (= x {open}x{close}))"))
    };
    expect_refused(terms(25), 9, 0);
    expect_refused(terms(64), 9, 0);
    let place = HEAD.len() + SYMBOLS.len() + "(assert (= x ".len() + 3 * 63;
    expect_refused(terms(65), 15, place as u64);
    expect_refused(terms(66), 15, place as u64);
}

/// Brackets side by side open no level, and neither do those of commands.
#[test]
fn levels_are_left() {
    let deep = format!("{}p{}", "(not ".repeat(64), ")".repeat(64));
    let twice = format!("{SYMBOLS}(assert {deep})(assert {deep})");
    expect_counts(text(&twice), 3, 67);
    let side = "(and p p) ".repeat(100);
    expect_counts(text(&format!("{SYMBOLS}(assert (and {side}))")), 3, 102);
}

/// What is no term is 14, also where it would open level 65; what comes behind a 15 is not read.
#[test]
fn depth_and_other_refusals() {
    let deep = ["(assert ", &"(not ".repeat(64)].concat();
    let after = |marked: &str| [HEAD, SYMBOLS, &deep, marked].concat();
    expect_refused_here(&after("§(not ( %"), 15);
    expect_refused_here(&after("p §(not p)"), 14);
    expect_refused_here(&after("§\"(not p)"), 14);
    expect_refused_here(&after("§x(not p)"), 14);
    let one_less = ["(assert ", &"(not ".repeat(63)].concat();
    let after = |marked: &str| [HEAD, SYMBOLS, &one_less, marked].concat();
    expect_refused_here(&after("(§(not p)"), 14);
    expect_refused_here(&after("(not p §(not p)"), 14);
    expect_refused_here(&after("(not §("), 15);
}

#[test]
fn symbols() {
    expect_counts(text(&declared("x", 32, "() U")), 32, 2);
    expect_refused(text(&declared("x", 33, "() U")), 4, 0);
    expect_refused(text(&declared("p", 300, "(U) Bool")), 4, 0);
    let used = format!("{}(assert (= x32 x39))", declared("x", 40, "() U"));
    expect_refused(text(&used), 4, 0);
}

#[test]
fn nodes() {
    let list = |head: &str, count: usize| {
        let commands = format!("{SYMBOLS}(assert ({head}{}))", " p".repeat(count));
        text(&commands)
    };
    expect_counts(list("and", 255), 3, 256);
    expect_refused(list("and", 256), 4, 0);
    expect_counts(list("or", 255), 3, 256);
    expect_refused(list("or", 256), 4, 0);
    expect_counts(list("=>", 254), 3, 256);
    expect_refused(list("=>", 255), 4, 0);
    expect_refused(list("=>", 20_000), 4, 0);
    expect_refused(list("and", 70_000), 4, 0);
    let chain = |count: usize| text(&format!("{SYMBOLS}(assert (={}))", " x".repeat(count)));
    expect_counts(chain(255), 3, 256);
    expect_refused(chain(256), 4, 0);
    let asserts = |count: usize| text(&[SYMBOLS, &"(assert p)".repeat(count)].concat());
    expect_counts(asserts(255), 3, 256);
    expect_refused(asserts(256), 4, 0);
}

/// A later 14 or 15 wins over a count that is too large already.
#[test]
fn limits_come_last() {
    let many = [
        declared("x", 40, "() U"),
        format!("{SYMBOLS}(assert (and{}))", " p".repeat(300)),
        format!(
            "{}(assert (={}))",
            declared("x", 30, "() U"),
            names("x", 30)
        ),
    ];
    for before in &many {
        expect_refused_here(&format!("{HEAD}{before}(assert §)(check-sat)"), 14);
        expect_refused_here(&format!("{HEAD}{before}(check-sat)§x"), 14);
        let deep = "(not ".repeat(64);
        expect_refused_here(&format!("{HEAD}{before}(assert {deep}§(not"), 15);
    }
}

/// Every distinct application counts, of constants and truth variables too.
#[test]
fn applications() {
    let functions = |count: usize| {
        let declared = declared("x", count, "() U");
        format!("{declared}(assert (={}))", names("x", count))
    };
    let predicates = |count: usize| {
        let declared = declared("p", count, "() Bool");
        format!("{declared}(assert (and{}))", names("p", count))
    };
    let both = |f: usize, p: usize| text(&[functions(f), predicates(p)].concat());
    expect_counts(text(&functions(24)), 24, 24 + 23 + 22 + 1);
    expect_refused(text(&functions(25)), 9, 0);
    expect_counts(text(&predicates(16)), 16, 16 + 15 + 1);
    expect_refused(text(&predicates(17)), 10, 0);
    expect_refused(both(15, 17), 10, 0);
    expect_refused(both(24, 17), 4, 0);
    let tests = |f: usize, p: usize| {
        let tests: String = (0..p).map(|i| format!(" (q (f x{i}) x{i})")).collect();
        let head = "(declare-fun f(U)U)(declare-fun q(U U)Bool)";
        text(&format!(
            "{head}{}(assert (and{tests}))",
            declared("x", f, "() U")
        ))
    };
    expect_counts(tests(12, 12), 14, 12 + 12 + 12 + 11 + 1);
    expect_refused(tests(13, 13), 9, 0);
    expect_refused(tests(17, 17), 9, 0);
}

/// A buffer that is a byte short is refused before the text is looked at.
#[test]
fn buffer() {
    for text in [text(""), text(&declared("x", 33, "() U")), String::new()] {
        for room in [0, 1, 24, PROBLEM_LEN - 1] {
            expect_refused_in(room, &text, 23, 0);
        }
    }
    expect_refused_in(PROBLEM_LEN, "", 14, 0);
    expect_refused_in(PROBLEM_LEN + 1, "", 14, 0);
}
