//! The 32 bytes of an answer, as docs/FORMAT.md lays them out.

use crate::{Answer, Reading, ANSWER_LEN};

/// What byte 0 says of a text that was read.
const READ: u8 = 10;

/// The number in eight bytes from here on, the lowest first.
fn number(bytes: &[u8; ANSWER_LEN], at: usize) -> u64 {
    u64::from_le_bytes(std::array::from_fn(|i| bytes[at + i]))
}

/// The answer that 32 bytes stand for, if they stand for one.
pub fn decode(bytes: &[u8; ANSWER_LEN]) -> Option<Answer> {
    let [place, tried, product] = [8, 16, 24].map(|at| number(bytes, at));
    let witness_len = usize::from(u16::from_le_bytes([bytes[6], bytes[7]]));
    let answer = match bytes[0] {
        0 => Answer::Refused {
            number: bytes[1],
            place,
        },
        1 => Answer::Valid { tried, product },
        2 => Answer::Falsified {
            tried,
            product,
            witness_len,
        },
        3 => Answer::Stopped { tried, product },
        _ => return None,
    };
    (encode(&answer) == *bytes).then_some(answer)
}

/// The 32 bytes that stand for an answer.
///
/// # Panics
///
/// Where the witness is longer than two bytes can say.
pub fn encode(answer: &Answer) -> [u8; ANSWER_LEN] {
    let (verdict, refusal, witness_len, numbers) = match *answer {
        Answer::Refused { number, place } => (0, number, 0, [place, 0, 0]),
        Answer::Valid { tried, product } => (1, 0, 0, [0, tried, product]),
        Answer::Falsified {
            tried,
            product,
            witness_len,
        } => (2, 0, witness_len, [0, tried, product]),
        Answer::Stopped { tried, product } => (3, 0, 0, [0, tried, product]),
    };
    let witness_len = u16::try_from(witness_len).expect("a witness has at most 206 bytes");
    let mut bytes = [0; ANSWER_LEN];
    bytes[0] = verdict;
    bytes[1] = refusal;
    bytes[6..8].copy_from_slice(&witness_len.to_le_bytes());
    for (field, number) in bytes[8..].chunks_exact_mut(8).zip(numbers) {
        field.copy_from_slice(&number.to_le_bytes());
    }
    bytes
}

/// What 32 bytes say of a text, if they say anything.
pub fn decode_reading(bytes: &[u8; ANSWER_LEN]) -> Option<Reading> {
    let reading = match bytes[0] {
        0 => Reading::Refused {
            number: bytes[1],
            place: number(bytes, 8),
        },
        READ => Reading::Read {
            length: usize::try_from(number(bytes, 16)).ok()?,
        },
        _ => return None,
    };
    (encode_reading(&reading) == *bytes).then_some(reading)
}

/// The 32 bytes that say what came of a text.
pub fn encode_reading(reading: &Reading) -> [u8; ANSWER_LEN] {
    let (read, refusal, place, length) = match *reading {
        Reading::Refused { number, place } => (0, number, place, 0),
        Reading::Read { length } => (READ, 0, 0, length as u64),
    };
    let mut bytes = [0; ANSWER_LEN];
    bytes[0] = read;
    bytes[1] = refusal;
    bytes[8..16].copy_from_slice(&place.to_le_bytes());
    bytes[16..24].copy_from_slice(&length.to_le_bytes());
    bytes
}

#[cfg(test)]
mod tests {
    use super::*;

    /// 32 zeros but for these bytes.
    fn with(set: &[(usize, u8)]) -> [u8; ANSWER_LEN] {
        let mut bytes = [0; ANSWER_LEN];
        for &(at, byte) in set {
            bytes[at] = byte;
        }
        bytes
    }

    /// The answer stands for 32 zeros but for these bytes, and they for it.
    fn expect(answer: Answer, set: &[(usize, u8)]) {
        assert_eq!(encode(&answer), with(set));
        assert_eq!(decode(&with(set)), Some(answer));
    }

    /// The bytes of row 5's answer, from the table in docs/FORMAT.md.
    #[test]
    fn falsified_bytes() {
        let answer = Answer::Falsified {
            tried: 2,
            product: 4,
            witness_len: 26,
        };
        expect(answer, &[(0, 2), (6, 26), (16, 2), (24, 4)]);
    }

    /// Eight bytes from here on, the lowest first: 1 to 8 above the byte at the start.
    fn eight(at: usize, start: u8) -> Vec<(usize, u8)> {
        (0..8).map(|i| (at + i, start + 1 + i as u8)).collect()
    }

    /// Each byte of each number, whether or not the library can come to it.
    #[test]
    fn every_byte() {
        let tried = 0x1817_1615_1413_1211;
        let product = 0x2827_2625_2423_2221;
        let numbers = [eight(16, 0x10), eight(24, 0x20)].concat();
        let with = |more: &[(usize, u8)]| [&numbers, more].concat();
        expect(Answer::Valid { tried, product }, &with(&[(0, 1)]));
        expect(Answer::Stopped { tried, product }, &with(&[(0, 3)]));
        let falsified = Answer::Falsified {
            tried,
            product,
            witness_len: 0x0506,
        };
        expect(falsified, &with(&[(0, 2), (6, 6), (7, 5)]));
        let refused = Answer::Refused {
            number: 13,
            place: 0x3837_3635_3433_3231,
        };
        expect(refused, &[vec![(1, 13)], eight(8, 0x30)].concat());
    }

    /// A byte that an answer does not use must be 0, and there are four verdicts.
    #[test]
    fn bytes_outside_the_format() {
        let one = |verdict: u8, at: usize| {
            let mut bytes = [0; ANSWER_LEN];
            bytes[0] = verdict;
            bytes[at] = if at == 0 { verdict } else { 1 };
            decode(&bytes)
        };
        for verdict in 4..=255 {
            assert_eq!(one(verdict, 0), None);
        }
        let unused = [
            (0, [2, 3, 4, 5, 6, 7, 16, 24].as_slice()),
            (1, &[1, 2, 3, 4, 5, 6, 7, 8, 15]),
            (2, &[1, 2, 3, 4, 5, 8, 15]),
            (3, &[1, 2, 3, 4, 5, 6, 7, 8, 15]),
        ];
        for (verdict, places) in unused {
            assert!(one(verdict, 0).is_some());
            for &at in places {
                assert_eq!(one(verdict, at), None, "byte {at} of verdict {verdict}");
            }
        }
    }

    #[test]
    #[should_panic(expected = "a witness has at most 206 bytes")]
    fn no_such_witness() {
        encode(&Answer::Falsified {
            tried: 1,
            product: 1,
            witness_len: 65_536,
        });
    }

    fn expect_reading(reading: Reading, set: &[(usize, u8)]) {
        assert_eq!(encode_reading(&reading), with(set));
        assert_eq!(decode_reading(&with(set)), Some(reading));
    }

    /// The bytes of a text that is read, of one that is refused, and each byte of each number.
    #[test]
    fn bytes_of_readings() {
        expect_reading(Reading::Read { length: 83 }, &[(0, 10), (16, 83)]);
        let (number, place) = (14, 57);
        expect_reading(Reading::Refused { number, place }, &[(1, 14), (8, 57)]);
        let length = 0x1817_1615_1413_1211;
        let wide = [vec![(0, 10)], eight(16, 0x10)].concat();
        expect_reading(Reading::Read { length }, &wide);
        let (number, place) = (23, 0x3837_3635_3433_3231);
        let wide = [vec![(1, 23)], eight(8, 0x30)].concat();
        expect_reading(Reading::Refused { number, place }, &wide);
    }

    /// Byte 0 is 0 or 10, and a byte that a reading does not use must be 0.
    #[test]
    fn bytes_outside_readings() {
        for first in (1..=255).filter(|&first| first != 10) {
            assert_eq!(decode_reading(&with(&[(0, first)])), None);
        }
        for at in (1..16).chain(24..32) {
            let bytes = with(&[(0, 10), (16, 24), (at, 1)]);
            assert_eq!(
                decode_reading(&bytes),
                None,
                "byte {at} of a text that is read"
            );
        }
        for at in (2..8).chain(16..32) {
            let bytes = with(&[(1, 14), (at, 1)]);
            assert_eq!(decode_reading(&bytes), None, "byte {at} of a refusal");
        }
    }
}
