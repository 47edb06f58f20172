//! The texts that the bench reads: small ones as tools write them, and ones of 64 KB that are as
//! hard to read as we can make them.

/// A text to read.
pub struct Text {
    /// What it is.
    pub name: &'static str,
    /// Its bytes.
    pub bytes: Vec<u8>,
}

/// How long the long texts are: at most this, and less by no more than one repeated part.
pub const LONG: usize = 65_536;

const HEAD: &str = "(set-logic QF_UF)\n(declare-sort U 0)\n";
const END: &str = "(check-sat)";
const SYMBOLS: &str = "(declare-fun x () U)\n(declare-fun y () U)\n(declare-fun p () Bool)\n\
    (declare-fun q () Bool)\n(declare-fun f (U) U)\n(declare-fun g (U U) U)\n";

/// The commands of the small texts: a rewrite of a feedback patch, equal images, a chain,
/// switches, and a predicate.
const SMALL: [&str; 5] = [
    "(declare-fun in1 () U)\n(declare-fun in2 () U)\n(declare-fun out0 () U)\n\
     (declare-fun out1 () U)\n(declare-fun out2 () U)\n(declare-fun filter (U) U)\n\
     (declare-fun mix (U U) U)\n; two blocks of the patch\n\
     (assert (= out1 (mix in1 (filter out0))))\n(assert (= out2 (mix in2 (filter out1))))\n\
     ; the rewrite\n\
     (assert (not (= out2 (mix in2 (filter (mix in1 (filter out0)))))))\n",
    "(declare-fun x () U)\n(declare-fun y () U)\n(declare-fun f (U) U)\n\
     (assert (= x y))\n(assert (not (= (f x) (f y))))\n",
    "(declare-fun a () U)\n(declare-fun b () U)\n(declare-fun c () U)\n(declare-fun d () U)\n\
     (assert (= a b c d))\n(assert (not (= a d)))\n",
    "(declare-fun on () Bool)\n(declare-fun x () U)\n(declare-fun y () U)\n\
     (assert (not (= (ite on x y) (ite (not on) y x))))\n",
    "(declare-fun x () U)\n(declare-fun y () U)\n(declare-fun loud (U U) Bool)\n\
     (assert (=> (= x y) (loud x y) (not (loud y x))))\n(assert (loud x x))\n(assert (= y x))\n",
];

/// Small texts of several kinds, in turn.
pub fn small(count: usize) -> Vec<Vec<u8>> {
    let whole = |commands: &&str| [HEAD, commands, END].concat().into_bytes();
    SMALL.iter().cycle().take(count).map(whole).collect()
}

/// Texts of 64 KB. Those of lists and names are refused for their many nodes or symbols, but only
/// at their ends.
pub fn long() -> Vec<Text> {
    let listed = |head: &str, item: &str| filled(&format!("{SYMBOLS}(assert ({head}"), item, "))");
    let commands = |command: &str| filled(SYMBOLS, command, "");
    let deep = format!("(assert {}p{})\n", "(not ".repeat(64), ")".repeat(64));
    let long = "n".repeat(24);
    let list = format!("(assert (= {}))", "n0 ".repeat(10_000));
    let distinct = format!("(assert (= {}x{} y))\n", "(g x ".repeat(40), ")".repeat(40));
    let all = [
        ("the same terms again", commands(&shared_assert())),
        ("a comment", filled(";", "comment ", "\n")),
        ("many comments", filled("", ";\n", "")),
        ("white space", filled("", " \t\r\n", "")),
        ("64 levels, again and again", commands(&deep)),
        ("applications of applications", commands(&distinct)),
        ("and", listed("and", " p")),
        ("=>", listed("=>", " p")),
        ("=", listed("=", " x")),
        ("equations in a list", listed("or", " (= x y)")),
        ("bars", listed("and", "|p|")),
        ("many asserts", commands("(assert p)")),
        ("many symbols", filled(&declared("n", LONG - 200), " ", "")),
        ("many symbols, then the last", uses("n", LONG / 2, "", "z")),
        (
            "long names, then the last",
            uses(&long, LONG / 2, "", &format!("{long}z")),
        ),
        ("a late name behind a list", uses("n", 2_000, &list, "z")),
    ];
    let text = |(name, bytes): (_, String)| Text {
        name,
        bytes: bytes.into_bytes(),
    };
    all.into_iter().map(text).collect()
}

/// A text with a part repeated as often as there is room for.
fn filled(before: &str, part: &str, after: &str) -> String {
    let fixed = HEAD.len() + before.len() + after.len() + END.len();
    let part = part.repeat((LONG - fixed) / part.len());
    [HEAD, before, &part, after, END].concat()
}

/// An assert of some 500 bytes, as a compiler writes that does not share what is equal.
fn shared_assert() -> String {
    let mut term = String::from("x");
    for _ in 0..5 {
        term = format!("(g {term} (f {term}))");
    }
    format!("(assert (= {term} y))\n")
}

/// As many constants as have room in so many bytes, with names that begin like this.
fn declared(name: &str, room: usize) -> String {
    let one = |i: usize| format!("(declare-fun {name}{i}()U)");
    let fits = |text: &mut usize, one: String| {
        *text += one.len();
        (*text <= room).then_some(one)
    };
    (0..).map(one).scan(0, fits).collect()
}

/// Constants that take so many bytes, some commands, then a constant of this name, and a list of
/// it: each time it may have to be looked for behind all that stands before it.
fn uses(names: &str, room: usize, commands: &str, last: &str) -> String {
    let declared = declared(names, room);
    let before = format!("{declared}{commands}(declare-fun {last}()U)(assert (=");
    filled(&before, &format!(" {last}"), "))")
}

#[cfg(test)]
mod tests {
    use super::*;
    use crate::{reference, Reading, PROBLEM_LEN};

    fn read(text: &[u8]) -> Reading {
        reference::read(text, &mut [0; PROBLEM_LEN])
    }

    /// No text is refused before its end, so that all of it is read.
    #[test]
    fn read_to_the_end() {
        for text in small(5) {
            assert!(matches!(read(&text), Reading::Read { .. }));
        }
        for text in long() {
            assert!(
                (LONG - 700..=LONG).contains(&text.bytes.len()),
                "{}",
                text.name
            );
            match read(&text.bytes) {
                Reading::Read { .. } => {}
                Reading::Refused { number, .. } => {
                    assert!(matches!(number, 4 | 9), "{}: {number}", text.name);
                }
            }
        }
    }
}
