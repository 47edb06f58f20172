//! Tokens by hand: white space, comments, words, bars, numerals and reserved words.

mod compared;
mod made;

use compared::readers::{
    expect_counts, expect_fourteen, expect_nodes, expect_refused, expect_refused_here, text, CHECK,
    HEAD,
};

/// The reserved words and the command names of SMT-LIB 2.6.
const RESERVED: &str = "! _ as BINARY DECIMAL exists HEXADECIMAL forall let match NUMERAL par \
    STRING assert check-sat check-sat-assuming declare-const declare-datatype declare-datatypes \
    declare-fun declare-sort define-fun define-fun-rec define-funs-rec define-sort echo exit \
    get-assertions get-assignment get-info get-model get-option get-proof get-unsat-assumptions \
    get-unsat-core get-value pop push reset reset-assertions set-info set-logic set-option";

/// A text that declares a truth variable by this token and asserts it by that one.
fn asserted(declared: &[u8], used: &[u8]) -> Vec<u8> {
    let head = [HEAD.as_bytes(), b"(declare-fun ", declared].concat();
    [&head, &b" ()Bool)(assert "[..], used, b")(check-sat)"].concat()
}

/// Both tokens must name one symbol.
fn expect_named(declared: impl AsRef<[u8]>, used: impl AsRef<[u8]>) {
    let text = asserted(declared.as_ref(), used.as_ref());
    expect_nodes(text, &[16], "6 0, 3 0 0");
}

/// The token must be refused as the name of a function, at so many bytes from its start.
fn expect_no_name(token: impl AsRef<[u8]>, within: u64) {
    let place = (HEAD.len() + "(declare-fun ".len()) as u64;
    expect_refused(asserted(token.as_ref(), b"true"), 14, place + within);
}

#[test]
fn ends_of_texts() {
    expect_refused("", 14, 0);
    expect_refused(" \t\r\n", 14, 4);
    expect_refused(";", 14, 1);
    expect_refused("; (set-logic QF_UF)", 14, 19);
    expect_refused("(", 14, 1);
    expect_refused("(set-logic QF_UF", 14, 16);
    expect_refused(HEAD, 14, 35);
    expect_refused([HEAD, " ;\n "].concat(), 14, 39);
    expect_refused([HEAD, "(check-sat"].concat(), 14, 45);
    expect_refused([HEAD, "(check-sat  "].concat(), 14, 47);
    expect_fourteen("(assert §");
    expect_fourteen("(assert (and true   ;)\n§");
    expect_fourteen("(declare-fun f (U§");
}

#[test]
fn after_the_end() {
    let end = [HEAD, CHECK].concat();
    for rest in [" ", "\n", ";", ";no line feed", ";(\n;)\r\t "] {
        expect_counts([&end, rest].concat(), 0, 2);
    }
    for rest in [
        "§(",
        "§)",
        "§x",
        "§0",
        "§01",
        "§let",
        "§|",
        "§\"",
        " ;x\n §||",
    ] {
        expect_refused_here(&[&end, rest].concat(), 14);
    }
}

/// A comment ends at a line feed or a carriage return, and may hold any other byte.
#[test]
fn comments() {
    let tail = text("");
    let bytes: Vec<u8> = (0..=255).filter(|byte| !b"\n\r".contains(byte)).collect();
    for end in [b"\n", b"\r"] {
        let whole = [b";", &bytes[..], end, tail.as_bytes()].concat();
        expect_counts(&whole, 0, 2);
        let open = [b";", &bytes[..], tail.as_bytes()].concat();
        expect_refused(&open, 14, open.len() as u64);
    }
    expect_counts(text("(assert;(\n;)\r;\n true;\r)"), 0, 2);
    expect_fourteen("(assert §tr;\nue)");
}

#[test]
fn white_space() {
    expect_counts(
        "\t( set-logic\nQF_UF\r)(declare-sort\t U\r\n0 )\n( check-sat\n)\t",
        0,
        2,
    );
    for byte in (0..=255).filter(|byte| !b"\t\n\r ;".contains(byte)) {
        let text = [HEAD.as_bytes(), &[byte], CHECK.as_bytes()].concat();
        // An opening bracket is fine, and what comes behind it is refused.
        let place = if byte == b'(' { 36 } else { 35 };
        expect_refused(text, 14, place);
    }
}

#[test]
fn words() {
    for byte in *b"~!$%^&*_-+=<>?/" {
        let word = [byte, b'a'];
        expect_named(word, word);
        expect_named(word, [b'|', byte, b'a', b'|']);
    }
    for word in "~ <= a@ a.b Bool U QF_UF TRUE And lett -1 a1".split(' ') {
        expect_named(word, word);
    }
    for byte in *b"\"#',:[]`{}\\\x7f\x00\x80\xff" {
        expect_no_name([b'a', byte], 1);
        expect_no_name([byte, b'a'], 0);
    }
}

#[test]
fn bars() {
    for name in [
        "", " ", "\t\n\r", "(", ")", ";", "\"", "a b", "0", "01", "'", "é",
    ] {
        let barred = ["|", name, "|"].concat();
        expect_named(&barred, &barred);
    }
    expect_named("x", "|x|");
    expect_named("|x|", "x");
    let all: Vec<u8> = (0..=255).filter(|&byte| is_barred(byte)).collect();
    assert_eq!(all.len(), 3 + 95 - 2 + 128);
    let all = [b"|", &all[..], b"|"].concat();
    expect_named(&all, &all);
    for byte in (0..=255).filter(|&byte| byte != b'|' && !is_barred(byte)) {
        expect_no_name([b'|', b'a', byte, b'|'], 0);
    }
    expect_no_name("|x", 0);
    expect_no_name("x|x|", 1);
    expect_no_name("|x||", 3);
    expect_fourteen("(assert §|");
    expect_fourteen("(assert §|true");
}

fn is_barred(byte: u8) -> bool {
    matches!(byte, 9 | 10 | 13 | 32..=91 | 93..=123 | 125 | 126 | 128..=255)
}

/// Bytes are compared as they are: the case counts, and so does white space between bars.
#[test]
fn names_are_bytes() {
    for (declared, used) in [("x", "X"), ("|x|", "|x |"), ("|\n|", "|\r|"), ("||", "| |")] {
        let text = asserted(declared.as_bytes(), used.as_bytes());
        let place = HEAD.len() + "(declare-fun  ()Bool)(assert ".len() + declared.len();
        expect_refused(text, 14, place as u64);
    }
}

#[test]
fn numerals() {
    for word in ["00", "1", "0a", "0.0", "0x", "9-"] {
        let text = format!("(set-logic QF_UF)(declare-sort U §{word})(check-sat)");
        expect_refused_here(&text, 14);
        expect_no_name(word, 0);
    }
    expect_refused_here("(set-logic QF_UF)(declare-sort U §|0|)(check-sat)", 14);
    expect_refused_here("(set-logic QF_UF)(declare-sort §0 0)(check-sat)", 14);
    expect_refused_here("(set-logic QF_UF)(declare-sort U §)(check-sat)", 14);
    expect_refused_here("(set-logic QF_UF)(declare-sort U 0 §0)(check-sat)", 14);
    expect_no_name("0", 0);
    expect_fourteen("(assert §0)");
    expect_counts(
        "(set-logic QF_UF)(declare-sort|0|0)(declare-fun x()|0|)(check-sat)",
        1,
        2,
    );
}

#[test]
fn reserved_words() {
    assert_eq!(RESERVED.split(' ').count(), 13 + 30);
    for word in RESERVED.split(' ') {
        let barred = format!("|{word}|");
        expect_no_name(word, 0);
        expect_named(&barred, &barred);
        let place = (HEAD.len() + "(declare-fun || ()Bool)(assert ".len() + word.len()) as u64;
        expect_refused(asserted(barred.as_bytes(), word.as_bytes()), 14, place);
        let sort = |name: &str| format!("(set-logic QF_UF)(declare-sort {name} 0)(check-sat)");
        expect_counts(sort(&barred), 0, 2);
        expect_refused(sort(word), 14, 31);
    }
    for command in [
        "set-logic",
        "declare-sort",
        "declare-fun",
        "assert",
        "check-sat",
    ] {
        let barred = text("(declare-fun p()Bool)(assert p)");
        let barred = barred.replace(&format!("({command}"), &format!("(|{command}|"));
        let place = barred.find('|').expect("a bar");
        expect_refused(&barred, 14, place as u64);
    }
}
