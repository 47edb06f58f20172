//! The proved library and the reference, called alike.

use eqp::problem::{last_node, Problem};
use eqp::{host, reference, Answer, WITNESS_LEN, WORK_LEN};

pub type Decide = fn(u64, usize, &[u8], &mut [u8], &mut [u8]) -> Answer;

pub const BOTH: [(&str, Decide); 2] = [("library", host::decide), ("reference", reference::decide)];

/// What the buffers hold before a call, to see what stays.
pub const FILL: u8 = 0xaa;

/// A call with buffers that are longer than they need be.
#[derive(Debug, PartialEq, Eq)]
pub struct Call {
    pub answer: Answer,
    pub work: Vec<u8>,
    pub witness: Vec<u8>,
}

/// A call that names the last node, as the night run does.
pub fn call(decide: Decide, budget: u64, problem: &[u8]) -> Call {
    call_at(decide, budget, last_node(problem), problem)
}

/// A call that names this root.
pub fn call_at(decide: Decide, budget: u64, root: usize, problem: &[u8]) -> Call {
    let mut work = vec![FILL; WORK_LEN + 8];
    let mut witness = vec![FILL; WITNESS_LEN + 8];
    let answer = decide(budget, root, problem, &mut work, &mut witness);
    Call {
        answer,
        work,
        witness,
    }
}

/// Both sides must give this answer for the last node.
pub fn expect(problem: &Problem, budget: u64, wanted: Answer) {
    for (name, decide) in BOTH {
        let Call { answer, .. } = call(decide, budget, &problem.bytes());
        assert_eq!(answer, wanted, "{name}, budget {budget}");
    }
}

/// The work buffer must hold the table's bytes, and past them nothing changed; the witness
/// buffer must be as it was.
pub fn expect_table(problem: &Problem, budget: u64, wanted: &[[u8; 8]]) {
    for (name, decide) in BOTH {
        let Call { work, witness, .. } = call(decide, budget, &problem.bytes());
        expect_start(&work, &wanted.concat(), name);
        expect_start(&witness, &[], name);
    }
}

/// The witness buffer must hold these bytes, and past them nothing changed; in words they are
/// these.
pub fn expect_witness(problem: &Problem, wanted: &[u8], words: &str) {
    for (name, decide) in BOTH {
        let Call { witness, .. } = call(decide, u64::MAX, &problem.bytes());
        expect_start(&witness, wanted, name);
        assert_eq!(problem.explain(&witness), words, "{name}");
    }
}

/// A buffer must begin with these bytes, and past them nothing changed.
pub fn expect_start(buffer: &[u8], wanted: &[u8], name: &str) {
    let (written, rest) = buffer.split_at(wanted.len());
    assert_eq!(written, wanted, "{name}");
    assert!(rest.iter().all(|&byte| byte == FILL), "{name}");
}

pub fn valid(tried: u64) -> Answer {
    Answer::Valid {
        tried,
        product: tried,
    }
}

pub fn falsified(tried: u64, product: u64, rows: usize) -> Answer {
    Answer::Falsified {
        tried,
        product,
        witness_len: 6 + 5 * rows,
    }
}

pub fn stopped(tried: u64, product: u64) -> Answer {
    Answer::Stopped { tried, product }
}

pub fn refused(number: u8) -> Answer {
    Answer::Refused { number, place: 0 }
}
