//! The comparison must notice a library that errs. The library is proved, so mistakes are put in
//! its place here, and into the buffers that document 01's effects are read from.

mod compared;
mod made;

use std::panic::{self, AssertUnwindSafe};

use compared::both::Decide;
use compared::effects::expect_effects;
use compared::lend::{Asked, Done, Lender, Lengths, Raw};
use eqp::problem::last_node;
use eqp::samples::row;
use eqp::{host, reference, Answer, ANSWER_LEN, WITNESS_LEN, WORK_LEN};
use made::rng::Rng;

/// Longer buffers than there need be.
const LONG: Lengths = Lengths {
    work: WORK_LEN + 9,
    witness: WITNESS_LEN + 9,
    answer: ANSWER_LEN + 9,
};

fn is_noticed(library: Raw, budget: u64, problem: &[u8], lengths: Lengths) -> bool {
    is_noticed_at(library, (budget, last_node(problem)), problem, lengths)
}

fn is_noticed_at(library: Raw, asked: Asked, problem: &[u8], lengths: Lengths) -> bool {
    both_are_noticed(reference::decide, library, asked, problem, lengths)
}

fn both_are_noticed(
    reference: Decide,
    library: Raw,
    asked: Asked,
    problem: &[u8],
    lengths: Lengths,
) -> bool {
    let mut rng = Rng::new(1);
    let mut lender = Lender::new(&mut rng, reference, library);
    let call = || {
        lender.call(&mut rng, asked, problem, lengths);
    };
    panic::catch_unwind(AssertUnwindSafe(call)).is_err()
}

/// A library that does as the proved one, and then something to the buffers.
macro_rules! mistake {
    ($work:ident, $witness:ident, $answer:ident: $mistake:expr) => {
        |budget, root, problem, $work, $witness, $answer| {
            let returned = host::raw_decide(budget, root, problem, $work, $witness, $answer);
            let _ = (&$work, &$witness, &$answer);
            $mistake;
            returned
        }
    };
}

#[test]
fn no_mistake() {
    for number in 1..=12 {
        assert!(!is_noticed(host::raw_decide, 9, &row(number).bytes(), LONG));
    }
}

#[test]
fn mistakes_in_the_buffers() {
    let mistakes: [Raw; 14] = [
        mistake!(work, witness, answer: work[0] ^= 1),
        mistake!(work, witness, answer: work[8 * 10 - 1] ^= 1),
        mistake!(work, witness, answer: work[8 * 10] ^= 1),
        mistake!(work, witness, answer: work[8 * 10..].fill(0)),
        mistake!(work, witness, answer: work[8 * 10..].fill(0xff)),
        mistake!(work, witness, answer: *work.last_mut().unwrap() ^= 1),
        mistake!(work, witness, answer: witness[6 + 4] ^= 1),
        mistake!(work, witness, answer: witness[6 + 5 * 4] ^= 1),
        mistake!(work, witness, answer: witness[6 + 5 * 4..].fill(0)),
        mistake!(work, witness, answer: *witness.last_mut().unwrap() ^= 1),
        mistake!(work, witness, answer: answer[16] ^= 1),
        mistake!(work, witness, answer: answer[ANSWER_LEN] ^= 1),
        mistake!(work, witness, answer: answer[ANSWER_LEN..].fill(0)),
        mistake!(work, witness, answer: *answer.last_mut().unwrap() ^= 1),
    ];
    let five = row(5).bytes();
    for (i, mistake) in mistakes.into_iter().enumerate() {
        assert!(is_noticed(mistake, 9, &five, LONG), "mistake {i}");
    }
}

/// The same mistake on both sides goes against document 01: here a byte past the table, then past
/// the witness.
#[test]
fn mistakes_on_both_sides() {
    let mistakes: [(Decide, Raw); 2] = [
        (
            |budget, root, problem, work, witness| {
                let answer = reference::decide(budget, root, problem, work, witness);
                work[8 * 10] ^= 1;
                answer
            },
            mistake!(work, witness, answer: work[8 * 10] ^= 1),
        ),
        (
            |budget, root, problem, work, witness| {
                let answer = reference::decide(budget, root, problem, work, witness);
                witness[6 + 5 * 4] ^= 1;
                answer
            },
            mistake!(work, witness, answer: witness[6 + 5 * 4] ^= 1),
        ),
    ];
    let five = row(5).bytes();
    for (reference, library) in mistakes {
        assert!(both_are_noticed(reference, library, (9, 7), &five, LONG));
    }
}

#[test]
fn mistakes_in_the_call() {
    let five = row(5).bytes();
    let cut: [Raw; 4] = [
        |b, r, p, w, v, a| host::raw_decide(u64::from(b as u32), r, p, w, v, a),
        |b, r, p, w, v, a| host::raw_decide(b, r, p, &mut w[1..], v, a),
        |b, r, p, w, v, a| host::raw_decide(b, r, p, w, &mut v[1..], a),
        |b, r, p, w, v, a| host::raw_decide(b, r, &p[..p.len() - 1], w, v, a),
    ];
    for (i, mistake) in cut.into_iter().enumerate() {
        assert!(
            is_noticed(mistake, 1 << 32, &five, Lengths::EXACT),
            "mistake {i}"
        );
    }
    let silent: Raw = |b, r, p, w, v, a| host::raw_decide(b, r, p, w, v, a) ^ 1;
    assert!(is_noticed(silent, 9, &five, LONG));
    let short = Lengths { answer: 31, ..LONG };
    assert!(!is_noticed(host::raw_decide, 9, &five, short));
    assert!(is_noticed(silent, 9, &five, short));
}

/// Row 5 asked for x = y, node 6, for a term, for no node, and for numbers whose low bits are a
/// formula's.
#[test]
fn mistakes_in_the_root() {
    let five = row(5).bytes();
    let noticed = |library, root| is_noticed_at(library, (9, root), &five, LONG);
    let last: Raw = |b, _, p, w, v, a| host::raw_decide(b, last_node(p), p, w, v, a);
    let nearest: Raw = |b, r, p, w, v, a| host::raw_decide(b, r.min(7), p, w, v, a);
    let byte: Raw = |b, r, p, w, v, a| host::raw_decide(b, r % (1 << 8), p, w, v, a);
    let narrow: Raw = |b, r, p, w, v, a| host::raw_decide(b, r % (1 << 16), p, w, v, a);
    let half: Raw = |b, r, p, w, v, a| host::raw_decide(b, r % (1 << 32), p, w, v, a);
    for root in [6, 0, 8, 256 + 7, (1 << 16) + 7, (1 << 32) + 7, usize::MAX] {
        assert!(!noticed(host::raw_decide, root) && noticed(last, root));
    }
    assert!(noticed(nearest, 8) && noticed(nearest, usize::MAX));
    assert!(noticed(byte, 256 + 7) && noticed(narrow, (1 << 16) + 7));
    assert!(noticed(half, (1 << 32) + 7));
}

/// Whether a wrong effect is noticed: the reference decides a row, then the answer or the buffers
/// are changed.
fn effect_is_noticed(number: usize, change: fn(&mut Option<Answer>, &mut [u8], &mut [u8])) -> bool {
    let problem = row(number).bytes();
    let before = (vec![0xaa; WORK_LEN], vec![0xaa; WITNESS_LEN]);
    let (mut work, mut witness) = before.clone();
    let root = last_node(&problem);
    let mut answer = Some(reference::decide(
        9,
        root,
        &problem,
        &mut work,
        &mut witness,
    ));
    change(&mut answer, &mut work, &mut witness);
    let done = Done {
        answer,
        work: (&before.0, &work),
        witness: (&before.1, &witness),
    };
    panic::catch_unwind(AssertUnwindSafe(|| expect_effects(&problem, root, &done))).is_err()
}

#[test]
fn wrong_effects() {
    for number in 1..=12 {
        assert!(!effect_is_noticed(number, |_, _, _| {}), "row {number}");
        let past = effect_is_noticed(number, |_, _, witness| witness[26] = 0);
        assert!(past, "row {number}");
    }
    assert!(effect_is_noticed(4, |_, work, _| work[8 * 10] = 0));
    assert!(effect_is_noticed(4, |_, work, _| work[8 * 9] = 10));
    assert!(effect_is_noticed(4, |_, _, witness| witness[0] = 0));
    // Row 2 with y = 1, where x = y holds.
    assert!(effect_is_noticed(2, |_, _, witness| witness[6 + 5 + 4] = 1));
    assert!(effect_is_noticed(10, |answer, _, _| *answer = None));
    assert!(effect_is_noticed(10, |answer, _, _| {
        let (number, place) = (12, 0);
        *answer = Some(Answer::Refused { number, place });
    }));
    assert!(!effect_is_noticed(10, |answer, _, _| {
        let (number, place) = (13, 0);
        *answer = Some(Answer::Refused { number, place });
    }));
    assert!(effect_is_noticed(11, |answer, _, witness| {
        witness[..6].fill(0xaa);
        let (tried, product) = (1, 1);
        *answer = Some(Answer::Valid { tried, product });
    }));
}
