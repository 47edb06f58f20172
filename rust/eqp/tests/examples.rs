//! The samples are document 01's formulas, node by node; the committed example files are what the
//! builder makes, and decide as they are said to.

use std::fs;
use std::path::Path;

use eqp::jobs::Jobs;
use eqp::problem::{last_node, Problem};
use eqp::{host, reference, samples, Answer, WITNESS_LEN, WORK_LEN};

fn expect_file(name: &str, jobs: &Jobs) {
    let examples = Path::new(env!("CARGO_MANIFEST_DIR")).join("../../examples");
    let file = fs::read(examples.join(name)).expect("the example is committed");
    assert_eq!(
        file,
        jobs.bytes(),
        "{name}: run `cargo run --bin make_examples`"
    );
}

#[test]
fn files() {
    expect_file("sample-night.jobs", &samples::sample_night());
    expect_file("feedback-tap.jobs", &samples::feedback_tap());
}

/// The answers of the library and of the reference, which are the same.
fn decide(problem: &Problem) -> Answer {
    let (mut work, mut witness) = (vec![0; WORK_LEN], vec![0; WITNESS_LEN]);
    let bytes = problem.bytes();
    let [library, reference] = [host::decide, reference::decide].map(|decide| {
        decide(
            1_000_000,
            last_node(&bytes),
            &bytes,
            &mut work,
            &mut witness,
        )
    });
    assert_eq!(library, reference);
    reference
}

/// Components by hand: {in1, in2}, the three outputs with the three mixes, and two filtered taps,
/// so 2 x 720 x 2 places. In the right rewrite there are three filtered taps: 2 x 720 x 6.
#[test]
fn feedback_tap() {
    match decide(&samples::late_tap()) {
        Answer::Falsified { product, .. } => assert_eq!(product, 2_880),
        other => panic!("the late tap is {other:?}"),
    }
    let valid = Answer::Valid {
        tried: 8_640,
        product: 8_640,
    };
    assert_eq!(decide(&samples::inlined_tap()), valid);
}

/// A problem's symbols, and its nodes with operands of one byte: op, symbol, operands.
type Written = (&'static [u8], &'static [[u8; 5]]);

/// The twelve rows, nodes in order of first mention.
const ROWS: [Written; 12] = [
    (&[0], &[[0, 0, 0, 0, 0], [2, 0, 0, 0, 0]]),
    (
        &[0, 0],
        &[[0, 0, 0, 0, 0], [0, 1, 0, 0, 0], [2, 0, 0, 1, 0]],
    ),
    (
        &[0, 0],
        &[
            [0, 0, 0, 0, 0],
            [0, 1, 0, 0, 0],
            [2, 0, 0, 1, 0],
            [3, 0, 2, 0, 0],
        ],
    ),
    (
        &[0, 0, 1],
        &[
            [0, 0, 0, 0, 0], // 0 x
            [0, 1, 0, 0, 0], // 1 y
            [2, 0, 0, 1, 0], // 2 x = y
            [3, 0, 2, 0, 0], // 3 not 2
            [0, 2, 0, 0, 0], // 4 f(x)
            [0, 2, 1, 0, 0], // 5 f(y)
            [2, 0, 4, 5, 0], // 6 f(x) = f(y)
            [5, 0, 3, 6, 0], // 7 3 or 6
        ],
    ),
    (
        &[0, 0, 1],
        &[
            [0, 0, 0, 0, 0], // 0 x
            [0, 1, 0, 0, 0], // 1 y
            [0, 2, 0, 0, 0], // 2 f(x)
            [0, 2, 1, 0, 0], // 3 f(y)
            [2, 0, 2, 3, 0], // 4 f(x) = f(y)
            [3, 0, 4, 0, 0], // 5 not 4
            [2, 0, 0, 1, 0], // 6 x = y
            [5, 0, 5, 6, 0], // 7 5 or 6
        ],
    ),
    (
        &[0, 0, 1],
        &[
            [0, 0, 0, 0, 0], // 0 x
            [0, 1, 0, 0, 0], // 1 y
            [0, 2, 0, 0, 0], // 2 f(x)
            [0, 2, 1, 0, 0], // 3 f(y)
            [2, 0, 2, 3, 0], // 4 f(x) = f(y)
        ],
    ),
    (&[16], &[[6, 0, 0, 0, 0], [3, 0, 0, 0, 0], [5, 0, 0, 1, 0]]),
    (&[16], &[[6, 0, 0, 0, 0]]),
    (
        &[16, 0, 0],
        &[
            [6, 0, 0, 0, 0], // 0 p
            [0, 1, 0, 0, 0], // 1 x
            [0, 2, 0, 0, 0], // 2 y
            [1, 0, 0, 1, 2], // 3 x if p, else y
            [2, 0, 3, 1, 0], // 4 3 = x
        ],
    ),
    (&[], &[[7, 0, 0, 0, 0]]),
    (&[], &[[8, 0, 0, 0, 0]]),
    (
        &[0, 0, 1],
        &[
            [0, 0, 0, 0, 0], // 0 x
            [0, 1, 0, 0, 0], // 1 y
            [2, 0, 0, 1, 0], // 2 x = y
            [0, 2, 0, 0, 0], // 3 f(x)
            [0, 2, 1, 0, 0], // 4 f(y)
            [2, 0, 3, 4, 0], // 5 f(x) = f(y)
            [4, 0, 2, 5, 0], // 6 2 and 5
            [3, 0, 6, 0, 0], // 7 not 6
        ],
    ),
];

#[test]
fn rows() {
    for (number, (symbols, nodes)) in (1..).zip(ROWS) {
        let counts = [symbols.len() as u8, nodes.len() as u8, 0];
        let mut wanted = [b"EQP\x01\x00", &counts[..], symbols].concat();
        for &[op, symbol, a, b, c] in nodes {
            wanted.extend_from_slice(&[op, symbol, a, 0, b, 0, c, 0]);
        }
        assert_eq!(samples::row(number).bytes(), wanted, "row {number}");
    }
}
