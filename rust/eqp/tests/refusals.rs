//! The refusals in the order of documents 01 and 02, and the lengths of the lent buffers, for the proved
//! library and for the reference alike.

mod compared;
mod made;

use compared::both::{falsified, refused, stopped, BOTH, FILL};
use compared::notice::notice;
use eqp::problem::{last_node, Problem};
use eqp::samples::{row, variables};
use eqp::{host, Answer, ANSWER_LEN, WITNESS_LEN, WORK_LEN};

/// What both sides answer for the last node and buffers of these lengths.
fn expect(problem: &[u8], work_len: usize, witness_len: usize, wanted: Answer) {
    expect_at(last_node(problem), problem, work_len, witness_len, wanted);
}

/// What both sides answer for a root; all refusals but 13 write nothing.
fn expect_at(root: usize, problem: &[u8], work_len: usize, witness_len: usize, wanted: Answer) {
    for (name, decide) in BOTH {
        let (mut work, mut witness) = (vec![FILL; work_len], vec![FILL; witness_len]);
        let answer = decide(9, root, problem, &mut work, &mut witness);
        assert_eq!(answer, wanted, "{name}");
        if matches!(answer, Answer::Refused { number, .. } if number != 13) {
            let mut all = work.iter().chain(&witness);
            assert!(all.all(|&byte| byte == FILL), "{name}");
        }
    }
}

/// A problem whose last node breaks 9, 10 and 13: x1 to x20 joined, 5 more functions, each equal
/// to itself, and 17 predicates. The edits leave out a function, a predicate, and an equation.
fn breaking(functions: usize, predicates: usize, joined: usize) -> Vec<u8> {
    let mut p = Problem::new();
    let x = variables(&mut p, "x", functions);
    let q = p.predicate("q", 1);
    let mut root = p.no();
    let alone = x[joined..].iter().map(|&x| (x, x));
    let pairs = x[..joined].windows(2).map(|pair| (pair[0], pair[1]));
    for (left, right) in pairs.chain(alone) {
        let equation = p.equal(left, right);
        root = p.or(root, equation);
    }
    for &x in &x[..predicates] {
        let test = p.test(q, &[x]);
        root = p.or(root, test);
    }
    p.bytes()
}

/// Everything is wrong at first, the root too; each step mends what the one before was refused
/// for.
#[test]
fn order() {
    let expect_before_16 = |problem: &[u8], wanted| {
        for root in [0, last_node(problem), 1 << 32, usize::MAX] {
            expect_at(root, problem, 0, 0, wanted);
        }
    };
    let mut bytes = breaking(25, 17, 20);
    let node = 8 + usize::from(bytes[5]) + 8;
    let good = bytes.clone();
    bytes[..8].copy_from_slice(b"EQX\x01\x01\x21\x00\x00");
    bytes[8] = 4;
    bytes[node + 2] = 1;
    let at = |number, place| Answer::Refused { number, place };
    expect_before_16(&bytes[..7], refused(1));
    expect_before_16(&bytes, refused(2));
    bytes[2] = b'P';
    expect_before_16(&bytes, refused(3));
    bytes[4] = 0;
    expect_before_16(&bytes, refused(4));
    bytes[5] = 32;
    expect_before_16(&bytes, refused(4));
    bytes[6] = 1;
    expect_before_16(&bytes, refused(5));
    bytes[5..8].copy_from_slice(&good[5..8]);
    expect_before_16(&bytes, at(6, 0));
    bytes[8] = 0;
    expect_before_16(&bytes, at(7, 1));
    bytes[node + 2] = 0;
    assert_eq!(bytes, good);
    for root in [0, 24, last_node(&bytes) + 1, 1 << 32, usize::MAX] {
        expect_at(root, &bytes, 0, 0, refused(16));
    }
    expect(&bytes, 0, 0, refused(9));
    expect(&breaking(24, 17, 20), 0, 0, refused(10));
    let last = breaking(24, 16, 20);
    expect(&last, WORK_LEN - 1, 0, refused(11));
    expect(&last, WORK_LEN, WITNESS_LEN - 1, refused(12));
    expect(&last, WORK_LEN, WITNESS_LEN, refused(13));
    let taken = breaking(24, 0, 19);
    let answer = stopped(9, 121_645_100_408_832_000);
    expect(&taken, WORK_LEN, WITNESS_LEN, answer);
}

/// Only a buffer that is too short is refused, in order, and nothing is written.
#[test]
fn short_buffers() {
    let five = row(5).bytes();
    expect(&five, WORK_LEN, WITNESS_LEN, falsified(2, 4, 4));
    expect(&five, WORK_LEN - 1, WITNESS_LEN, refused(11));
    expect(&five, WORK_LEN, WITNESS_LEN - 1, refused(12));
    expect(&five, 0, 0, refused(11));
    expect(&five, WORK_LEN, 0, refused(12));
}

/// Lengths whose low bits alone would be too short, or for a problem just right.
#[test]
fn long_buffers() {
    let five = row(5).bytes();
    for more in [1 << 8, 1 << 16] {
        expect(&five, WORK_LEN + more, WITNESS_LEN, falsified(2, 4, 4));
        expect(&five, more.max(1 << 15), WITNESS_LEN, falsified(2, 4, 4));
        expect(&five, WORK_LEN, more, falsified(2, 4, 4));
        let mut long = five.clone();
        long.resize(five.len() + more, 0);
        expect(&long, WORK_LEN, WITNESS_LEN, refused(5));
    }
}

/// The raw call's answer buffer: the bytes past the 32 stay, and a short one is not written.
#[test]
fn answer_buffers() {
    let five = row(5).bytes();
    let mut wanted = [0; ANSWER_LEN];
    for (at, byte) in [(0, 2), (6, 26), (16, 2), (24, 4)] {
        wanted[at] = byte;
    }
    for length in [0, 1, 31, 32, 33, 40, 255, 256, 65_536] {
        let (mut work, mut witness) = ([FILL; WORK_LEN], [FILL; WITNESS_LEN]);
        let mut answer = vec![FILL; length];
        let returned = host::raw_decide(9, 7, &five, &mut work, &mut witness, &mut answer);
        let written = if length < ANSWER_LEN { 0 } else { ANSWER_LEN };
        assert_eq!(returned, u32::from(written > 0), "{length}");
        assert_eq!(answer[..written], wanted[..written], "{length}");
        assert!(answer[written..].iter().all(|&byte| byte == FILL));
        assert_eq!(work[0] == FILL, written == 0, "{length}");
        assert_eq!(witness[0] == FILL, written == 0, "{length}");
    }
}

/// Lengths whose low 32 bits are 0, or for a problem just right. Memory that nothing touches
/// costs nothing, but some machines do not promise so much.
#[test]
fn lengths_over_32_bits() {
    let length: usize = 1 << 32;
    if Vec::<u8>::new().try_reserve_exact(length + 128).is_err() {
        return notice("skipped: no buffers of 4 GiB here");
    }
    let five = row(5).bytes();
    let mut long = vec![0; length + five.len()];
    for (name, decide) in BOTH {
        let (mut work, mut witness) = ([0; WORK_LEN], [0; WITNESS_LEN]);
        let wanted = falsified(2, 4, 4);
        let answer = decide(9, 7, &five, &mut long[..length], &mut witness);
        assert_eq!(answer, wanted, "{name}");
        let answer = decide(9, 7, &five, &mut work, &mut long[..length]);
        assert_eq!(answer, wanted, "{name}");
        long[..five.len()].copy_from_slice(&five);
        let answer = decide(9, 7, &long, &mut work, &mut witness);
        assert_eq!(answer, refused(5), "{name}");
    }
    let (mut work, mut witness) = ([0; WORK_LEN], [0; WITNESS_LEN]);
    let returned = host::raw_decide(9, 7, &five, &mut work, &mut witness, &mut long[..length]);
    assert_eq!(returned, 1);
}
