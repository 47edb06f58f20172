//! The readers of texts, called alike.

use eqp::{host, reference, Reading, PROBLEM_LEN};

use super::both::{expect_start, FILL};

pub type Read = fn(&[u8], &mut [u8]) -> Reading;

pub const READERS: [(&str, Read); 2] = [("library", host::read), ("reference", reference::read)];

/// What most texts begin with, and what all end with.
pub const HEAD: &str = "(set-logic QF_UF)(declare-sort U 0)";
pub const CHECK: &str = "(check-sat)";

/// A text with these commands between the head and the end.
pub fn text(commands: &str) -> String {
    [HEAD, commands, CHECK].concat()
}

/// Every reader must read this problem, and leave the rest of its buffer as it was.
pub fn expect_problem(text: impl AsRef<[u8]>, wanted: &[u8]) {
    let text = text.as_ref();
    for (name, read) in READERS {
        let mut problem = vec![FILL; PROBLEM_LEN + 8];
        let length = wanted.len();
        let shown = String::from_utf8_lossy(text);
        let reading = read(text, &mut problem);
        assert_eq!(reading, Reading::Read { length }, "{name}: {shown}");
        expect_start(&problem, wanted, name);
    }
}

/// Every reader must read these symbols, and nodes written as "op symbol operands, ..".
pub fn expect_nodes(text: impl AsRef<[u8]>, symbols: &[u8], nodes: &str) {
    let nodes: Vec<[u8; 8]> = nodes.split(", ").map(node).collect();
    let counts = [symbols.len() as u8, nodes.len() as u8, 0];
    let head = [b"EQP\x01\x00", &counts[..], symbols].concat();
    expect_problem(text, &[head, nodes.concat()].concat());
}

/// A node's bytes; its numbers take one byte each.
fn node(words: &str) -> [u8; 8] {
    let mut bytes = [0; 8];
    for (word, at) in words.split(' ').zip([0, 1, 2, 4, 6]) {
        bytes[at] = word.parse().expect("a number of a byte");
    }
    bytes
}

/// Every reader must read a text, and so much for its counts of symbols and nodes.
pub fn expect_counts(text: impl AsRef<[u8]>, symbols: u8, nodes: u16) {
    let text = text.as_ref();
    for (name, read) in READERS {
        let mut problem = [0; PROBLEM_LEN];
        let length = 8 + usize::from(symbols) + 8 * usize::from(nodes);
        assert_eq!(read(text, &mut problem), Reading::Read { length }, "{name}");
        let counted = (problem[5], u16::from_le_bytes([problem[6], problem[7]]));
        assert_eq!(counted, (symbols, nodes), "{name}");
    }
}

/// Every reader must refuse a text so, and write nothing.
pub fn expect_refused(text: impl AsRef<[u8]>, number: u8, place: u64) {
    expect_refused_in(PROBLEM_LEN, text, number, place);
}

/// Every reader must refuse a text so for a buffer of this length, and write nothing.
pub fn expect_refused_in(room: usize, text: impl AsRef<[u8]>, number: u8, place: u64) {
    let text = text.as_ref();
    let wanted = Reading::Refused { number, place };
    for (name, read) in READERS {
        let mut problem = vec![FILL; room];
        let shown = String::from_utf8_lossy(text);
        assert_eq!(read(text, &mut problem), wanted, "{name}: {shown}");
        expect_start(&problem, &[], name);
    }
}

/// Every reader must refuse the text with this number where `§` stands; that is not in the text.
pub fn expect_refused_here(marked: &str, number: u8) {
    let place = marked.find('§').expect("a marked place");
    expect_refused(marked.replace('§', ""), number, place as u64);
}

/// Refusal 14 after the head of most texts, where `§` stands.
pub fn expect_fourteen(marked: &str) {
    expect_refused_here(&[HEAD, marked].concat(), 14);
}
