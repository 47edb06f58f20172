//! The builder: the bytes of every kind of node, witnesses in words, job files, and the panics
//! that are documented.

use eqp::jobs::Jobs;
use eqp::problem::{last_node, Problem, Term};
use eqp::samples::{row, variables};

/// Row 9 of document 01, with the bytes that docs/FORMAT.md works out.
#[test]
fn row_nine() {
    let header = [0x45, 0x51, 0x50, 1, 0, 3, 5, 0, 16, 0, 0];
    let nodes = [
        [6, 0, 0, 0, 0, 0, 0, 0],
        [0, 1, 0, 0, 0, 0, 0, 0],
        [0, 2, 0, 0, 0, 0, 0, 0],
        [1, 0, 0, 0, 1, 0, 2, 0],
        [2, 0, 3, 0, 1, 0, 0, 0],
    ];
    let wanted = [&header[..], &nodes.concat()].concat();
    assert_eq!(row(9).bytes(), wanted);
}

/// Functions and predicates of arity 0 to 3, named f0 to f3 and q0 to q3, and a node of each kind.
fn every_op() -> Problem {
    let mut p = Problem::new();
    let f = [0, 1, 2, 3].map(|arity| p.function(&format!("f{arity}"), arity));
    let q = [0, 1, 2, 3].map(|arity| p.predicate(&format!("q{arity}"), arity));
    let x = p.apply(f[0], &[]);
    let one = p.apply(f[1], &[x]);
    let two = p.apply(f[2], &[x, one]);
    let three = p.apply(f[3], &[two, one, x]);
    let none = p.test(q[0], &[]);
    let q1 = p.test(q[1], &[one]);
    let q2 = p.test(q[2], &[one, two]);
    let q3 = p.test(q[3], &[three, two, one]);
    let choice = p.choose(none, one, three);
    let equation = p.equal(choice, two);
    let not = p.not(equation);
    let and = p.and(not, q1);
    let or = p.or(q2, and);
    let (yes, no) = (p.yes(), p.no());
    let pick = p.select(q3, yes, or);
    p.select(pick, no, yes);
    p
}

#[test]
fn every_op_by_its_bytes() {
    let header = [0x45, 0x51, 0x50, 1, 0, 8, 17, 0, 0, 1, 2, 3, 16, 17, 18, 19];
    let nodes = [
        [0, 0, 0, 0, 0, 0, 0, 0],    //  0 f0
        [0, 1, 0, 0, 0, 0, 0, 0],    //  1 f1(0)
        [0, 2, 0, 0, 1, 0, 0, 0],    //  2 f2(0, 1)
        [0, 3, 2, 0, 1, 0, 0, 0],    //  3 f3(2, 1, 0)
        [6, 4, 0, 0, 0, 0, 0, 0],    //  4 q0
        [6, 5, 1, 0, 0, 0, 0, 0],    //  5 q1(1)
        [6, 6, 1, 0, 2, 0, 0, 0],    //  6 q2(1, 2)
        [6, 7, 3, 0, 2, 0, 1, 0],    //  7 q3(3, 2, 1)
        [1, 0, 4, 0, 1, 0, 3, 0],    //  8 1 if 4, else 3
        [2, 0, 8, 0, 2, 0, 0, 0],    //  9 8 = 2
        [3, 0, 9, 0, 0, 0, 0, 0],    // 10 not 9
        [4, 0, 10, 0, 5, 0, 0, 0],   // 11 10 and 5
        [5, 0, 6, 0, 11, 0, 0, 0],   // 12 6 or 11
        [7, 0, 0, 0, 0, 0, 0, 0],    // 13 true
        [8, 0, 0, 0, 0, 0, 0, 0],    // 14 false
        [9, 0, 7, 0, 13, 0, 12, 0],  // 15 13 if 7, else 12
        [9, 0, 15, 0, 14, 0, 13, 0], // 16 14 if 15, else 13
    ];
    let p = every_op();
    assert_eq!(p.bytes(), [&header[..], &nodes.concat()].concat());
    assert_eq!(p.node_count(), 17);
}

/// Numbers over 255 have a high byte: the count of 258 nodes, and the operand 256.
#[test]
fn high_bytes() {
    let mut p = Problem::new();
    let truths: Vec<_> = (0..257).map(|_| p.yes()).collect();
    p.select(truths[1], truths[256], truths[255]);
    let bytes = p.bytes();
    assert_eq!(bytes[..8], [0x45, 0x51, 0x50, 1, 0, 0, 2, 1]);
    assert_eq!(bytes[8 + 8 * 257..], [9, 0, 1, 0, 0, 1, 255, 0]);
}

/// A node's number is how many stand before it, and the last one's is read from the header, both
/// of its bytes; where there is no header or no node there is no last one to name.
#[test]
fn numbers_of_nodes() {
    let mut p = Problem::new();
    let x = p.function("x", 0);
    let x: Vec<Term> = (0..258).map(|_| p.apply(x, &[])).collect();
    let equation = p.equal(x[0], x[257]);
    assert_eq!((x[257].node(), equation.node()), (257, 258));
    assert_eq!(last_node(&p.bytes()), 258);
    assert_eq!(last_node(&row(9).bytes()), 4);
    assert_eq!(last_node(b"EQP\x01\x00\x00\xff\xff"), 65_534);
    for none in [&b"EQP\x01\x00\x03\x00\x00"[..], b"EQP\x01\x00\x03\x05", b""] {
        assert_eq!(last_node(none), 0);
    }
}

/// Rows of arity 0 to 3, functions and predicates, both truth values, a value over 9.
#[test]
fn words() {
    let witness = b"EQW\x01\x00\x08\
        \x00\x00\x00\x00\x01\
        \x01\x01\x00\x00\x02\
        \x02\x01\x02\x00\x03\
        \x03\x03\x02\x01\x18\
        \x04\x00\x00\x00\x01\
        \x05\x02\x00\x00\x00\
        \x06\x02\x03\x00\x01\
        \x07\x18\x03\x02\x00";
    let wanted = "f0 = 1, f1(1) = 2, f2(1, 2) = 3, f3(3, 2, 1) = 24, \
        q0 = true, q1(2) = false, q2(2, 3) = true, q3(24, 3, 2) = false";
    assert_eq!(every_op().explain(witness), wanted);
}

/// The most rows there can be; what stands past them is no part of the witness.
#[test]
fn words_of_forty_rows() {
    let mut p = Problem::new();
    variables(&mut p, "x", 24);
    for i in 1..=16 {
        p.predicate(&format!("q{i}"), 0);
    }
    let mut witness = b"EQW\x01\x00\x28".to_vec();
    let mut wanted = Vec::new();
    for i in 0..24 {
        witness.extend_from_slice(&[i, 0, 0, 0, i + 1]);
        wanted.push(format!("x{} = {}", i + 1, i + 1));
    }
    for i in 0..16 {
        witness.extend_from_slice(&[24 + i, 0, 0, 0, i % 2]);
        wanted.push(format!("q{} = {}", i + 1, i % 2 == 1));
    }
    assert_eq!(witness.len(), 206);
    assert_eq!(p.explain(&witness), wanted.join(", "));
    witness.extend_from_slice(&[0xaa; 10]);
    assert_eq!(p.explain(&witness), wanted.join(", "));
    assert_eq!(p.explain(b"EQW\x01\x00\x00\x00\x00\x00\x00\x01"), "");
}

#[test]
fn two_jobs() {
    let mut jobs = Jobs::new();
    assert_eq!(jobs.bytes(), []);
    jobs.push(0x0807_0605_0403_0201, b"EQ");
    jobs.push(5, b"");
    let first = [1, 2, 3, 4, 5, 6, 7, 8, 2, 0, b'E', b'Q'];
    let second = [5, 0, 0, 0, 0, 0, 0, 0, 0, 0];
    assert_eq!(jobs.bytes(), [&first[..], &second[..]].concat());
}

/// The longest job there can be, and one whose length has both bytes.
#[test]
fn long_jobs() {
    for (length, bytes) in [(0x0102, [2, 1]), (65_535, [255, 255])] {
        let mut jobs = Jobs::new();
        jobs.push(1, &vec![7; length]);
        assert_eq!(jobs.bytes()[8..10], bytes);
        assert_eq!(jobs.bytes()[10..], vec![7; length]);
    }
}

#[test]
#[should_panic(expected = "a job has at most 65,535 problem bytes")]
fn job_too_long() {
    Jobs::new().push(1, &[0; 65_536]);
}

#[test]
#[should_panic(expected = "f has an arity over 3")]
fn function_of_arity_4() {
    Problem::new().function("f", 4);
}

#[test]
#[should_panic(expected = "q has an arity over 3")]
fn predicate_of_arity_4() {
    Problem::new().predicate("q", 4);
}

/// Applies a function and a predicate of this arity to so many arguments.
fn apply(function: bool, arity: u8, arguments: usize) {
    let mut p = Problem::new();
    let x: Vec<Term> = variables(&mut p, "x", arguments);
    let (f, q) = (p.function("f", arity), p.predicate("q", arity));
    if function {
        p.apply(f, &x);
    } else {
        p.test(q, &x);
    }
}

#[test]
#[should_panic(expected = "the arity of f")]
fn too_few_arguments() {
    apply(true, 1, 0);
}

#[test]
#[should_panic(expected = "the arity of f")]
fn too_many_arguments() {
    apply(true, 2, 3);
}

#[test]
#[should_panic(expected = "the arity of q")]
fn too_few_arguments_of_a_predicate() {
    apply(false, 3, 2);
}

#[test]
#[should_panic(expected = "the arity of q")]
fn too_many_arguments_of_a_predicate() {
    apply(false, 0, 1);
}

fn symbols(count: usize) -> Problem {
    let mut p = Problem::new();
    for i in 0..count {
        p.function(&format!("x{i}"), 0);
    }
    p
}

/// The builder leaves the limits to the checker: 255 symbols and 65,535 nodes can be written.
#[test]
fn as_many_as_a_header_says() {
    let bytes = symbols(255).bytes();
    assert_eq!((bytes[5], bytes.len()), (255, 8 + 255));
    let bytes = nodes(65_535).bytes();
    assert_eq!((&bytes[6..8], bytes.len()), (&[255; 2][..], 8 + 8 * 65_535));
}

#[test]
#[should_panic(expected = "at most 255 symbols")]
fn more_symbols_than_a_header_says() {
    symbols(256).bytes();
}

#[test]
#[should_panic(expected = "at most 256 symbols")]
fn more_symbols_than_a_byte_says() {
    symbols(257);
}

fn nodes(count: usize) -> Problem {
    let mut p = Problem::new();
    for _ in 0..count {
        p.yes();
    }
    p
}

#[test]
#[should_panic(expected = "at most 65,535 nodes")]
fn more_nodes_than_a_header_says() {
    nodes(65_536).bytes();
}

#[test]
#[should_panic(expected = "at most 65,536 nodes")]
fn more_nodes_than_two_bytes_say() {
    nodes(65_537);
}

#[test]
#[should_panic(expected = "document 01 has no row 0")]
fn row_zero() {
    row(0);
}

#[test]
#[should_panic(expected = "document 01 has no row 13")]
fn row_thirteen() {
    row(13);
}

#[test]
#[should_panic(expected = "out of bounds")]
fn words_of_another_problem() {
    symbols(1).explain(b"EQW\x01\x00\x01\x01\x00\x00\x00\x01");
}

#[test]
#[should_panic(expected = "out of range")]
fn words_of_no_witness() {
    symbols(1).explain(b"EQW\x01\x00");
}
