//! The comparison of readings must notice a library that errs. The library is proved, so mistakes
//! are put in its place here, and into the buffer that document 02's effects are read from.

mod compared;
mod made;

use std::panic::{self, AssertUnwindSafe};

use compared::lend_text::{expect_problem, RawRead, TextLender, TextLengths};
use compared::readers::text;
use eqp::{host, reference, Reading, ANSWER_LEN, PROBLEM_LEN};
use made::rng::Rng;

/// Longer buffers than there need be.
const LONG: TextLengths = TextLengths {
    problem: PROBLEM_LEN + 9,
    answer: ANSWER_LEN + 9,
};

/// A text that is read to 25 bytes, and one that is refused at byte 43.
fn texts() -> [String; 2] {
    [text("(declare-fun p()Bool)(assert p)"), text("(assert ())")]
}

fn is_noticed(library: RawRead, text: &str, lengths: TextLengths) -> bool {
    let mut rng = Rng::new(1);
    let mut lender = TextLender::new(&mut rng, reference::read, library);
    let call = || {
        lender.call(&mut rng, text.as_bytes(), lengths);
    };
    panic::catch_unwind(AssertUnwindSafe(call)).is_err()
}

/// A library that does as the proved one, and then something to the buffers.
macro_rules! mistake {
    ($problem:ident, $answer:ident: $mistake:expr) => {
        |text, $problem, $answer| {
            let returned = host::raw_read(text, $problem, $answer);
            let _ = (&$problem, &$answer);
            $mistake;
            returned
        }
    };
}

#[test]
fn no_mistake() {
    for text in texts() {
        assert!(!is_noticed(host::raw_read, &text, LONG));
        for answer in [0, ANSWER_LEN - 1, ANSWER_LEN] {
            let lengths = TextLengths { answer, ..LONG };
            assert!(!is_noticed(host::raw_read, &text, lengths));
        }
    }
}

#[test]
fn mistakes_in_the_buffers() {
    let mistakes: [RawRead; 9] = [
        mistake!(problem, answer: problem[0] ^= 1),
        mistake!(problem, answer: problem[24] ^= 1),
        mistake!(problem, answer: problem[25] ^= 1),
        mistake!(problem, answer: problem[25..].fill(0)),
        mistake!(problem, answer: *problem.last_mut().unwrap() ^= 1),
        mistake!(problem, answer: answer[8] ^= 1),
        mistake!(problem, answer: answer[31] ^= 1),
        mistake!(problem, answer: answer[ANSWER_LEN] ^= 1),
        mistake!(problem, answer: *answer.last_mut().unwrap() ^= 1),
    ];
    for text in texts() {
        for (i, &mistake) in mistakes.iter().enumerate() {
            assert!(is_noticed(mistake, &text, LONG), "mistake {i}");
        }
    }
}

#[test]
fn mistakes_in_the_call() {
    let mistakes: [RawRead; 3] = [
        |text, problem, answer| host::raw_read(text, problem, answer) ^ 1,
        |text, problem, answer| host::raw_read(text, &mut problem[10..], answer),
        |text, problem, answer| host::raw_read(&text[..text.len() - 1], problem, answer),
    ];
    let [whole, _] = texts();
    for (i, mistake) in mistakes.into_iter().enumerate() {
        assert!(is_noticed(mistake, &whole, LONG), "mistake {i}");
    }
}

/// Whether a wrong problem is noticed, where both sides were to write it.
fn effect_is_noticed(change: fn(&mut Option<Reading>, &mut [u8])) -> bool {
    let before = vec![0xaa; PROBLEM_LEN];
    let mut after = before.clone();
    let [whole, _] = texts();
    let mut reading = Some(reference::read(whole.as_bytes(), &mut after));
    change(&mut reading, &mut after);
    let expect = || expect_problem(reading, &before, &after);
    panic::catch_unwind(AssertUnwindSafe(expect)).is_err()
}

#[test]
fn wrong_effects() {
    assert!(!effect_is_noticed(|_, _| {}));
    assert!(effect_is_noticed(|_, problem| problem[25] = 0));
    assert!(effect_is_noticed(|_, problem| problem[9] = 10));
    assert!(effect_is_noticed(|_, problem| problem[17] = 6));
    assert!(effect_is_noticed(
        |_, problem| problem[17..25].copy_from_slice(&[7, 0, 0, 0, 0, 0, 0, 0])
    ));
    assert!(effect_is_noticed(|reading, _| *reading = None));
    let refused = |reading: &mut Option<Reading>, _: &mut [u8]| {
        let (number, place) = (14, 0);
        *reading = Some(Reading::Refused { number, place });
    };
    assert!(effect_is_noticed(refused));
}
