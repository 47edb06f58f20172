//! What document 01 says of the buffers after a call, and of the verdict's truth.

use eqp::Answer;

use super::lend::Done;
use super::replay;

/// Holds a call against document 01: the work buffer changes where the table goes and nowhere
/// else, the witness buffer where the witness goes; a witness makes the root false, and a valid
/// root is true wherever it is tried.
pub fn expect_effects(problem: &[u8], root: usize, done: &Done) {
    let (work, witness) = (done.work, done.witness);
    let table = match done.answer {
        None => 0,
        Some(Answer::Refused { number, .. }) if number != 13 => 0,
        Some(_) => 8 * replay::table_nodes(problem, root),
    };
    assert_eq!(work.0[table..], work.1[table..], "the work buffer's rest");
    let mut ops = work.1[..table].chunks(8).map(|node| node[0]);
    assert!(ops.all(|op| op <= 9), "the ops of the table");
    let written = match done.answer {
        Some(Answer::Falsified { witness_len, .. }) => witness_len,
        _ => 0,
    };
    let rest = (&witness.0[written..], &witness.1[written..]);
    assert_eq!(rest.0, rest.1, "the witness buffer's rest");
    match done.answer {
        Some(Answer::Falsified { .. }) => {
            let by_witness = replay::is_true_by(problem, root, &witness.1[..written]);
            assert!(!by_witness, "the witness makes the formula true");
        }
        Some(Answer::Valid { .. }) => {
            let is_true = |seed| replay::is_true_at_random(problem, root, seed, 1 + seed);
            let always = (1..=4).all(is_true);
            assert!(always, "a valid formula is false somewhere");
        }
        _ => {}
    }
}
