//! Commands, terms and nodes by hand.

mod compared;
mod made;

use compared::readers::{expect_counts, expect_fourteen, expect_nodes, expect_refused_here, text};

/// Constants, truth variables, and functions and predicates of arity 1 to 3.
const SYMBOLS: &str = "(declare-fun x()U)(declare-fun y()U)(declare-fun p()Bool)\
    (declare-fun q()Bool)(declare-fun f(U)U)(declare-fun g(U U)U)(declare-fun h(U U U)U)\
    (declare-fun r(U)Bool)(declare-fun s(U U)Bool)(declare-fun t(U U U)Bool)";
const BYTES: [u8; 10] = [0, 0, 16, 16, 1, 2, 3, 17, 18, 19];

/// The nodes of these commands after the symbols.
fn expect(commands: &str, nodes: &str) {
    expect_nodes(text(&[SYMBOLS, commands].concat()), &BYTES, nodes);
}

/// Refusal 14 after the symbols, where `§` stands.
fn expect_here(marked: &str) {
    expect_fourteen(&[SYMBOLS, marked].concat());
}

/// Each must be refused where `§` stands.
fn expect_all_here(marked: &[&str]) {
    marked.iter().for_each(|marked| expect_here(marked));
}

#[test]
fn commands_in_order() {
    for marked in [
        "§set-logic",
        "§)",
        "(§declare-sort U 0)",
        "(§QF_UF)",
        "(§(",
        "(set-logic §QF_UFLIA)",
        "(set-logic §qf_uf)",
        "(set-logic §ALL)",
        "(set-logic QF_UF §QF_UF)",
        "(set-logic QF_UF)(§check-sat)",
        "(set-logic QF_UF)(§declare-fun p()Bool)",
        "(set-logic QF_UF)(§set-logic QF_UF)",
        "(set-logic QF_UF)(declare-sort §(",
        "(set-logic QF_UF)(declare-sort §Bool 0)",
        "(set-logic QF_UF)(declare-sort §|Bool| 0)",
        "(set-logic QF_UF)(declare-sort §@U 0)",
        "(set-logic QF_UF)(declare-sort §|.U| 0)",
    ] {
        expect_refused_here(marked, 14);
    }
    for marked in [
        "(§declare-sort V 0)",
        "(§declare-const x U)",
        "(§set-info :status sat)",
        "(§push 1)",
        "(§exit)",
        "(§p)",
        "§p",
        "(check-sat §true)",
        "(assert true §false)",
        "(assert§)",
        "(declare-fun§)",
    ] {
        expect_fourteen(marked);
    }
}

#[test]
fn declarations() {
    for marked in [
        "(declare-fun §() U)",
        "(declare-fun f §U)",
        "(declare-fun f (§Bool) U)",
        "(declare-fun f (U §V) U)",
        "(declare-fun f (U U U §U) U)",
        "(declare-fun f (U U U §Bool) U)",
        "(declare-fun f (U §(",
        "(declare-fun f () §V)",
        "(declare-fun f () §(",
        "(declare-fun f () U §U)",
        "(declare-fun f (U)§)",
        "(declare-fun f () §u)",
    ] {
        expect_fourteen(marked);
    }
    for name in "true false not => and or xor = distinct ite @ . @x .x .0".split(' ') {
        expect_fourteen(&format!("(declare-fun §{name} () U)"));
        expect_fourteen(&format!("(declare-fun §|{name}| (U) Bool)"));
    }
}

/// A name may be declared once, whatever its rank and its bars.
#[test]
fn declared_twice() {
    expect_all_here(&[
        "(declare-fun §x()U)",
        "(declare-fun §|x|()Bool)",
        "(declare-fun §f(U U)U)",
        "(declare-fun §|t|(U)Bool)",
    ]);
    let many: String = (0..300)
        .map(|i| format!("(declare-fun v{i} () U)"))
        .collect();
    for name in ["v0", "v31", "|v32|", "v299"] {
        expect_fourteen(&format!("{many}(declare-fun §{name} (U) Bool)"));
    }
}

/// Sorts and functions have names of their own; of sorts only Bool is taken.
#[test]
fn name_spaces() {
    expect_counts(
        text("(declare-fun U()U)(declare-fun Bool()Bool)(assert Bool)"),
        2,
        2,
    );
    expect_counts(text("(declare-fun U()U)(assert(= U U))"), 1, 3);
    for sort in "true and = xor let QF_UF x"
        .split(' ')
        .map(|name| format!("|{name}|"))
    {
        let head = format!("(set-logic QF_UF)(declare-sort {sort} 0)");
        let uses = format!("(declare-fun x({sort}){sort})(declare-fun y(){sort})(assert(=(x y)y))");
        expect_counts([&head, &uses, "(check-sat)"].concat(), 2, 4);
    }
}

#[test]
fn wanted_sorts() {
    expect_all_here(&[
        "(assert §x)",
        "(assert §f)",
        "(assert §r)",
        "(assert §z)",
        "(assert §and)",
        "(assert §U)",
        "(assert §let)",
        "(assert (= §p",
        "(assert (= §true",
        "(assert (= x §q",
        "(assert (= x y §false",
        "(assert (§f x)",
        "(assert (not §x",
        "(assert (and p §y",
        "(assert (or (§x",
        "(assert (=> p q §x",
        "(assert (ite §x",
        "(assert (ite p §x",
        "(assert (ite p q §x",
        "(assert (= (ite §x",
        "(assert (= (ite p §q",
        "(assert (= (ite p x §q",
        "(assert (r §p",
        "(assert (t x y §q",
        "(assert (= (h x y §true",
    ]);
}

#[test]
fn heads() {
    for head in "x p f z true false xor distinct 0 let U _ ! ( )".split(' ') {
        expect_here(&format!("(assert (§{head} "));
    }
    expect_here("(assert (§|and | p q))");
    for head in "x p r s t not and or => = true ( )".split(' ') {
        expect_here(&format!("(assert (= (§{head} "));
    }
}

#[test]
fn counts_of_arguments() {
    expect_all_here(&[
        "(assert (not§))",
        "(assert (not p §q))",
        "(assert (not p §(",
        "(assert (and§))",
        "(assert (and p§))",
        "(assert (or p§))",
        "(assert (=> p§))",
        "(assert (=§))",
        "(assert (= x§))",
        "(assert (ite p q§))",
        "(assert (ite p q p §q))",
        "(assert (= (ite p x§) x))",
        "(assert (= (ite p x y §y) x))",
        "(assert (r§))",
        "(assert (r x §x))",
        "(assert (s x§))",
        "(assert (s x y §y))",
        "(assert (t x y§))",
        "(assert (t x y x §y))",
        "(assert (= (f§) x))",
        "(assert (= (g x§) x))",
        "(assert (= (h x y x §(",
    ]);
}

/// While no constant of the sort is declared, no term of the sort exists, and what must have one
/// is refused at once.
#[test]
fn no_term_of_the_sort() {
    let empty = "(declare-fun f(U)U)(declare-fun r(U)Bool)(declare-fun p()Bool)";
    for marked in [
        "(assert (§= ",
        "(assert (§r ",
        "(assert (§f ",
        "(assert (not (and p (§= ",
        "(assert (ite (§r ",
        "(assert (ite p p (§= ",
        "(assert (§= (f f) f))(declare-fun x()U)",
    ] {
        expect_fourteen(&[empty, marked].concat());
    }
    let later = "(assert (=> p true (ite p p false)))(declare-fun x()U)(assert (r (f x)))";
    expect_counts(text(&[empty, later].concat()), 4, 13);
}

#[test]
fn shared_nodes() {
    expect("(assert (and p p))", "6 2, 4 0 0 0, 3 0 1");
    expect("(assert (= x x))", "0 0, 2 0 0 0, 3 0 1");
    let turned = "0 0, 0 1, 2 0 0 1, 2 0 1 0, 4 0 2 3, 3 0 4";
    expect("(assert (= x y))(assert (= y x))", turned);
    let pairs = "6 2, 6 3, 4 0 0 1, 4 0 2 0, 4 0 3 2, 3 0 4";
    expect("(assert (and p q p))(assert (and p q))", pairs);
    expect("(assert true)(assert true)", "7 0, 4 0 0 0, 3 0 1");
    expect("(assert (not (not false)))", "8 0, 3 0 0, 3 0 1, 3 0 2");
}

/// After all terms come the joins, and one that stands already is not written again.
#[test]
fn standing_joins() {
    let stands = "6 2, 6 3, 4 0 0 1, 4 0 2 2, 3 0 3";
    expect("(assert p)(assert q)(assert (and p q))", stands);
    let once = "6 2, 4 0 0 0, 4 0 1 0, 3 0 2";
    expect("(assert p)(assert p)(assert p)", once);
    let last = "6 2, 6 3, 5 0 0 1, 4 0 0 1, 4 0 3 2, 3 0 4";
    expect("(assert p)(assert q)(assert (or p q))", last);
}

#[test]
fn lists() {
    let three = "6 2, 3 0 0, 6 3, 3 0 2, 7 0, 5 0 3 4, 5 0 1 5, 3 0 6";
    expect("(assert (=> p q true))", three);
    let two = "6 2, 3 0 0, 6 3, 5 0 1 2, 3 0 3";
    expect("(assert (=> p q))", two);
    // The second condition is the first one's negation, so only its own negation is new.
    expect(
        "(assert (=> p (not p) p))",
        "6 2, 3 0 0, 3 0 1, 5 0 2 0, 5 0 1 3, 3 0 4",
    );
    let chain = "0 0, 0 1, 2 0 0 1, 2 0 1 1, 4 0 2 3, 2 0 1 0, 4 0 4 5, 3 0 6";
    expect("(assert (= x y y x))", chain);
    let or = "6 2, 6 3, 5 0 0 1, 7 0, 5 0 2 3, 8 0, 5 0 4 5, 3 0 6";
    expect("(assert (or p q true false))", or);
}

/// Every head, with its arguments first and from left to right.
#[test]
fn every_head() {
    let nodes = "0 1, 0 4 0, 0 0, 0 5 1 2, 0 6 3 1 0, 6 9 4 2 0, 3 0 5";
    expect("(assert (t (h (g (f y) x) (f y) y) x y))", nodes);
    expect("(assert (r x))", "0 0, 6 7 0, 3 0 1");
    expect("(assert (s y x))", "0 1, 0 0, 6 8 0 1, 3 0 2");
    expect(
        "(assert (ite p q false))",
        "6 2, 6 3, 8 0, 9 0 0 1 2, 3 0 3",
    );
    let choice = "0 0, 6 2, 0 1, 1 0 1 2 0, 2 0 0 3, 3 0 4";
    expect("(assert (= x (ite p y x)))", choice);
    let bars = "(assert (|ite| |p| |false| (|not| |q|)))";
    expect(bars, "6 2, 8 0, 6 3, 3 0 2, 9 0 0 1 3, 3 0 4");
}

/// Symbols stand in the order of declaration, used or not, wherever they are declared.
#[test]
fn symbols_in_order() {
    let mixed = "(declare-fun a(U U)Bool)(assert true)(declare-fun b()U)(declare-fun c(U U U)U)";
    expect_nodes(text(mixed), &[18, 0, 3], "7 0, 3 0 0");
}
