//! The generators of texts make all that they are for, and whole texts are texts of the subset.

mod compared;
mod counted;
mod made;

use counted::tally::{Row, Tally};
use eqp::{reference, Reading, PROBLEM_LEN};
use made::rng::Rng;
use made::text::grow::{self, Shape};
use made::text::names::Oddity;
use made::text::spell::{self, Piece, Style};
use made::text::{damage, edges, Pieces};

/// A text that was read.
struct Read {
    text: Vec<u8>,
    reading: Reading,
    problem: Vec<u8>,
}

impl Read {
    fn new(rng: &mut Rng, pieces: &[Piece]) -> Self {
        let style = Style::any(rng);
        Self::of(spell::spell(rng, pieces, style))
    }

    fn of(text: Vec<u8>) -> Self {
        let mut problem = vec![0; PROBLEM_LEN];
        let reading = reference::read(&text, &mut problem);
        Self {
            text,
            reading,
            problem,
        }
    }

    fn is_read(&self) -> bool {
        matches!(self.reading, Reading::Read { .. })
    }

    fn refused(&self, wanted: u8) -> bool {
        matches!(self.reading, Reading::Refused { number, .. } if number == wanted)
    }

    /// Refused with 14 at one of these bytes.
    fn at(&self, bytes: &[u8]) -> bool {
        match self.reading {
            Reading::Refused { number: 14, place } => {
                let byte = self.text.get(place as usize);
                byte.map_or(false, |byte| bytes.contains(byte))
            }
            _ => false,
        }
    }

    fn at_end(&self) -> bool {
        let place = self.text.len() as u64;
        self.reading == Reading::Refused { number: 14, place }
    }

    fn symbols(&self) -> u8 {
        self.problem[5]
    }

    fn nodes(&self) -> u16 {
        u16::from_le_bytes([self.problem[6], self.problem[7]])
    }

    /// How many nodes have this op.
    fn count(&self, op: u8) -> usize {
        let nodes = self.problem[8 + usize::from(self.symbols())..].chunks(8);
        let nodes = nodes.take(usize::from(self.nodes()));
        nodes.filter(|node| node[0] == op).count()
    }
}

/// 1,000 of each of the texts around a limit.
#[rustfmt::skip] // One row on a line.
const DEPTH: &[Row<Read>] = &[
    ("read", |r| r.is_read(), 200),
    ("refusal 15", |r| r.refused(15), 300),
];
#[rustfmt::skip]
const SYMBOLS: &[Row<Read>] = &[
    ("31 symbols, read", |r| r.is_read() && r.symbols() == 31, 50),
    ("32 symbols, read", |r| r.is_read() && r.symbols() == 32, 50),
    ("refusal 4", |r| r.refused(4), 300),
];
#[rustfmt::skip]
const NODES: &[Row<Read>] = &[
    ("255 nodes, read", |r| r.is_read() && r.nodes() == 255, 20),
    ("256 nodes, read", |r| r.is_read() && r.nodes() == 256, 20),
    ("refusal 4", |r| r.refused(4), 300),
];
#[rustfmt::skip]
const APPLICATIONS: &[Row<Read>] = &[
    ("24 functions, read", |r| r.is_read() && r.count(0) == 24, 50),
    ("16 predicates, read", |r| r.is_read() && r.count(6) == 16, 50),
    ("refusal 9", |r| r.refused(9), 200),
    ("refusal 10", |r| r.refused(10), 200),
];

fn expect_edges(rows: &'static [Row<Read>], make: fn(&mut Rng) -> Pieces) {
    let mut rng = Rng::new(1);
    let mut tally = Tally::new(rows);
    for _ in 0..1_000 {
        let pieces = make(&mut rng);
        let read = Read::new(&mut rng, &pieces);
        assert!(!read.refused(14), "{}", String::from_utf8_lossy(&read.text));
        tally.add(&read);
    }
    println!("{tally}");
    tally.expect_enough();
}

#[test]
fn edges() {
    expect_edges(DEPTH, |rng| edges::depth(rng, Oddity::Any));
    expect_edges(SYMBOLS, edges::symbols);
    expect_edges(NODES, edges::nodes);
    expect_edges(APPLICATIONS, edges::applications);
}

/// 5,000 whole texts.
#[rustfmt::skip] // One row on a line.
const WHOLE: &[Row<Read>] = &[
    ("read", |r| r.is_read(), 3_000),
    ("op 0, function applications", |r| r.count(0) > 0, 800),
    ("op 1, choices of terms", |r| r.count(1) > 0, 200),
    ("op 2, equations", |r| r.count(2) > 0, 800),
    ("op 3, not", |r| r.count(3) > 1, 800),
    ("op 4, and", |r| r.count(4) > 0, 1_000),
    ("op 5, or", |r| r.count(5) > 0, 800),
    ("op 6, predicate applications", |r| r.count(6) > 0, 800),
    ("op 7, true", |r| r.count(7) > 0, 800),
    ("op 8, false", |r| r.count(8) > 0, 500),
    ("op 9, choices of formulas", |r| r.count(9) > 0, 500),
    ("no assert", |r| r.is_read() && r.nodes() == 2 && r.count(7) == 1, 300),
    ("over 100 nodes", |r| r.is_read() && r.nodes() > 100, 50),
    ("bars", |r| r.text.contains(&b'|'), 2_000),
    ("empty bars", |r| r.text.windows(2).any(|two| two == b"||"), 200),
    ("comments", |r| r.text.contains(&b';'), 1_500),
    ("carriage returns", |r| r.text.contains(&b'\r'), 1_500),
    ("bytes over 127", |r| r.text.iter().any(|&byte| byte > 127), 1_000),
    ("a comment last", |r| r.is_read() && r.text.ends_with(b";end"), 200),
    ("no white space twice", |r| !r.text.windows(2).any(|two| two == b"  "), 1_000),
];

#[test]
fn whole() {
    let mut rng = Rng::new(1);
    let mut tally = Tally::new(WHOLE);
    for i in 0..5_000 {
        let shape = if i % 4 == 0 {
            Shape::LARGE
        } else {
            Shape::SMALL
        };
        let pieces = grow::text(&mut rng, shape);
        let read = Read::new(&mut rng, &pieces);
        let shown = String::from_utf8_lossy(&read.text);
        assert!(!read.refused(14) && !read.refused(15), "{shown}");
        tally.add(&read);
    }
    println!("{tally}");
    tally.expect_enough();
}

/// 5,000 texts, damaged.
#[rustfmt::skip] // One row on a line.
const DAMAGED: &[Row<Read>] = &[
    ("read all the same", |r| r.is_read(), 100),
    ("refusal 14", |r| r.refused(14), 3_000),
    ("at an opening bracket", |r| r.at(b"("), 100),
    ("at a closing bracket", |r| r.at(b")"), 80),
    ("at bars", |r| r.at(b"|"), 100),
    ("at a numeral", |r| r.at(b"0123456789"), 50),
    ("at a letter", |r| r.at(b"abcdefghijklmnopqrstuvwxyzABCDEFGHIJKLMNOPQRSTUVWXYZ"), 500),
    ("at a byte that starts no token", |r| r.at(b"\"#,:\\{}[]'`\x00\x7f\x80"), 20),
    ("at the end", |r| r.at_end(), 100),
    ("at the first byte", |r| r.reading == Reading::Refused { number: 14, place: 0 }, 6),
];

fn expect_damage(rows: &'static [Row<Read>], damaged: fn(&mut Rng, Pieces) -> Vec<u8>) {
    let mut rng = Rng::new(1);
    let mut tally = Tally::new(rows);
    for _ in 0..5_000 {
        let pieces = grow::text(&mut rng, Shape::SMALL);
        tally.add(&Read::of(damaged(&mut rng, pieces)));
    }
    println!("{tally}");
    tally.expect_enough();
}

#[test]
fn damaged_pieces() {
    let damaged = |rng: &mut Rng, mut pieces: Pieces| {
        damage::pieces(rng, &mut pieces);
        let style = Style::any(rng);
        spell::spell(rng, &pieces, style)
    };
    expect_damage(DAMAGED, damaged);
}

#[test]
fn damaged_bytes() {
    let damaged = |rng: &mut Rng, pieces: Pieces| {
        let style = Style::any(rng);
        let mut text = spell::spell(rng, &pieces, style);
        damage::bytes(rng, &mut text);
        text
    };
    expect_damage(DAMAGED, damaged);
}

/// 5,000 texts without some or all constants of the sort.
#[rustfmt::skip] // One row on a line.
const FORGOTTEN: &[Row<Read>] = &[
    ("read all the same", |r| r.is_read(), 1_000),
    ("refused at =", |r| r.at(b"="), 300),
    ("refused elsewhere", |r| r.refused(14) && !r.at(b"="), 150),
];

#[test]
fn forgotten_constants() {
    let damaged = |rng: &mut Rng, mut pieces: Pieces| {
        damage::forget(rng, &mut pieces);
        spell::spell(rng, &pieces, Style::Plain)
    };
    expect_damage(FORGOTTEN, damaged);
}
