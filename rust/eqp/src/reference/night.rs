//! The night run: a stream of jobs in, lines out.

use std::io::Write;

use super::decide;
use crate::problem::last_node;
use crate::{Answer, WITNESS_LEN, WORK_LEN};

/// The lines that the night run prints for an input. Every job asks its last node.
pub fn night(input: &[u8]) -> Vec<u8> {
    let mut lines = b"EQP NIGHT 1\n".to_vec();
    let (mut work, mut witness) = (vec![0; WORK_LEN], vec![0; WITNESS_LEN]);
    let mut rest = input;
    let mut count = 0_u64;
    while let Some((budget, problem, after)) = next_job(rest) {
        count += 1;
        rest = after;
        let root = last_node(problem);
        let answer = decide(budget, root, problem, &mut work, &mut witness);
        write_line(&mut lines, count, &answer);
    }
    let last = if rest.is_empty() { "END" } else { "CUT" };
    writeln!(lines, "{last} {count}").expect("writing to memory");
    lines
}

/// The budget and problem of the first job, and what follows it; `None` if it is not whole.
fn next_job(input: &[u8]) -> Option<(u64, &[u8], &[u8])> {
    let budget = input.get(..8)?.try_into().ok()?;
    let length = input.get(8..10)?.try_into().ok()?;
    let end = 10 + usize::from(u16::from_le_bytes(length));
    let problem = input.get(10..end)?;
    Some((u64::from_le_bytes(budget), problem, &input[end..]))
}

fn write_line(lines: &mut Vec<u8>, job: u64, answer: &Answer) {
    let (word, first, second) = match *answer {
        Answer::Refused { number, place } => ("REFUSED", u64::from(number), place),
        Answer::Valid { tried, product } => ("VALID", tried, product),
        Answer::Falsified { tried, product, .. } => ("FALSIFIED", tried, product),
        Answer::Stopped { tried, product } => ("STOPPED", tried, product),
    };
    writeln!(lines, "JOB {job} {word} {first} {second}").expect("writing to memory");
}
