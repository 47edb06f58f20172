//! The problems that are made to be refused have all the flaws that they are for, each often.

mod compared;
mod counted;
mod made;

use counted::facts::{only_flaw, Facts, Flaw};
use counted::tally::{Row, Tally};
use eqp::problem::last_node;
use made::generate::{self, Shape};
use made::refuse;
use made::rng::Rng;

/// An edit: the refusal's number, the problem before and after, and the place.
struct Edit {
    number: u8,
    whole: Vec<u8>,
    bytes: Vec<u8>,
    place: usize,
}

impl Edit {
    fn is(&self, number: u8) -> bool {
        self.number == number
    }

    /// Whether this byte of the header, and no other, was changed.
    fn changed(&self, at: usize) -> bool {
        let same = |i: &usize| self.whole[*i] == self.bytes[*i];
        (0..8).filter(|i| !same(i)).eq([at])
    }

    /// The counts that the header gives.
    fn counts(&self) -> (u8, u16) {
        (
            self.bytes[5],
            u16::from_le_bytes([self.bytes[6], self.bytes[7]]),
        )
    }

    fn longer(&self) -> bool {
        self.bytes.len() > self.whole.len()
    }

    fn shorter(&self) -> bool {
        self.bytes.len() < self.whole.len()
    }

    fn symbol(&self) -> u8 {
        self.bytes[8 + self.place]
    }

    fn flaw(&self) -> Option<Flaw> {
        only_flaw(&self.bytes, self.place)
    }
}

/// 3,000 edits for each of refusals 1 to 7 and 16.
#[rustfmt::skip] // One row on a line.
const EDITS: &[Row<Edit>] = &[
    ("1, no bytes", |e| e.is(1) && e.bytes.is_empty(), 100),
    ("1, a byte short", |e| e.is(1) && e.bytes.len() == 7, 100),
    ("2, the first letter", |e| e.is(2) && e.changed(0), 400),
    ("2, the second letter", |e| e.is(2) && e.changed(1), 400),
    ("2, the third letter", |e| e.is(2) && e.changed(2), 400),
    ("3, the low byte", |e| e.is(3) && e.changed(3), 600),
    ("3, the high byte", |e| e.is(3) && e.changed(4), 600),
    ("4, many symbols", |e| e.is(4) && e.counts().0 > 32, 300),
    ("4, no nodes", |e| e.is(4) && e.counts().1 == 0, 300),
    ("4, 257 nodes", |e| e.is(4) && e.counts().1 == 257, 300),
    ("4, many nodes", |e| e.is(4) && e.counts().1 > 257, 300),
    ("5, shorter", |e| e.is(5) && e.shorter(), 300),
    ("5, longer", |e| e.is(5) && e.longer(), 300),
    ("5, another count of symbols", |e| e.is(5) && e.changed(5), 300),
    ("5, another count of nodes", |e| e.is(5) && e.changed(6), 300),
    ("6, the first symbol", |e| e.is(6) && e.place == 0, 200),
    ("6, a later symbol", |e| e.is(6) && e.place > 0, 1_000),
    ("6, between functions and predicates", |e| e.is(6) && e.symbol() < 16, 600),
    ("6, past the predicates", |e| e.is(6) && e.symbol() > 19, 600),
    ("7, the first node", |e| e.is(7) && e.place == 0, 90),
    ("7, a later node", |e| e.is(7) && e.place > 0, 1_000),
    ("7, the op", |e| e.is(7) && e.flaw() == Some(Flaw::Op), 200),
    ("7, no such symbol", |e| e.is(7) && e.flaw() == Some(Flaw::NoSymbol), 70),
    ("7, the other kind", |e| e.is(7) && e.flaw() == Some(Flaw::OtherKind), 20),
    ("7, a symbol where none belongs", |e| e.is(7) && e.flaw() == Some(Flaw::SymbolUnused), 100),
    ("7, operand 1 is late", |e| e.is(7) && e.flaw() == Some(Flaw::Late(0)), 70),
    ("7, operand 2 is late", |e| e.is(7) && e.flaw() == Some(Flaw::Late(1)), 60),
    ("7, operand 3 is late", |e| e.is(7) && e.flaw() == Some(Flaw::Late(2)), 10),
    ("7, operand 1 is of the wrong sort", |e| e.is(7) && e.flaw() == Some(Flaw::Sort(0)), 30),
    ("7, operand 2 is of the wrong sort", |e| e.is(7) && e.flaw() == Some(Flaw::Sort(1)), 20),
    ("7, operand 3 is of the wrong sort", |e| e.is(7) && e.flaw() == Some(Flaw::Sort(2)), 6),
    ("7, operand 1 is not used", |e| e.is(7) && e.flaw() == Some(Flaw::Unused(0)), 90),
    ("7, operand 2 is not used", |e| e.is(7) && e.flaw() == Some(Flaw::Unused(1)), 100),
    ("7, operand 3 is not used", |e| e.is(7) && e.flaw() == Some(Flaw::Unused(2)), 200),
    ("16, a term asked", |e| e.is(16) && e.longer(), 1_000),
];

#[test]
fn edits() {
    let mut rng = Rng::new(1);
    let mut tally = Tally::new(EDITS);
    for number in refuse::EDITS {
        for _ in 0..3_000 {
            let shape = Shape::small(&mut rng);
            let whole = generate::problem(&mut rng, shape).bytes();
            let (bytes, place) = refuse::edit(&mut rng, number, &whole);
            let place = place as usize;
            tally.add(&Edit {
                number,
                whole,
                bytes,
                place,
            });
        }
    }
    println!("{tally}");
    tally.expect_enough();
}

/// 2,000 problems with too many functions, predicates or places, each.
#[rustfmt::skip] // One row on a line.
const MANY: &[Row<(u8, Facts)>] = &[
    ("25 functions", |(n, f)| *n == 9 && f.distinct[0] == 25, 10),
    ("over 30 functions", |(n, f)| *n == 9 && f.distinct[0] > 30, 700),
    ("too many predicates too", |(n, f)| *n == 9 && f.distinct[1] > 16, 400),
    ("functions in good number", |(n, f)| *n == 10 && f.distinct[0] <= 24, 900),
    ("17 predicates", |(n, f)| *n == 10 && f.distinct[1] == 17, 50),
    ("over 20 predicates", |(n, f)| *n == 10 && f.distinct[1] > 20, 600),
    ("20 variables and no more", |(n, f)| *n == 13 && f.distinct[0] == 20, 20),
    ("other functions too", |(n, f)| *n == 13 && f.distinct[0] > 20, 800),
    ("predicates too", |(n, f)| *n == 13 && f.distinct[1] > 0, 600),
    ("choices too", |(n, f)| *n == 13 && f.ops[1], 500),
];

#[test]
fn too_many() {
    let mut rng = Rng::new(1);
    let mut tally = Tally::new(MANY);
    for _ in 0..2_000 {
        let many = [
            (9, refuse::many_functions(&mut rng)),
            (10, refuse::many_predicates(&mut rng)),
            (13, refuse::many_places(&mut rng)),
        ];
        for (number, bytes) in many {
            tally.add(&(number, Facts::of(&bytes, last_node(&bytes))));
        }
    }
    println!("{tally}");
    tally.expect_enough();
}
