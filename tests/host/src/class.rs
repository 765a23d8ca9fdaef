//! A class of challenges under one session key, from document 02, request 2.

use crate::books::{answer, count, room, BookAnswer, Refusal};
use crate::hurdle;
use crate::taa1::{bl1_with, check_masks, chosen, exact, exp2};
use std::array::from_fn;

/// Bytes of a challenge.
const CHALLENGE: usize = 10;
/// Bytes of a record: response, then key.
const RECORD: usize = 14;

/// TA12 for each challenge of a list, in its order. The index of every refusal is 0.
pub fn ta12_class(
    session_key: &[u8],
    challenges: &[u8],
    response_mask: u16,
    key_mask: u16,
    out: &mut [u8],
) -> BookAnswer {
    let of_no_record = |refusal| -> Refusal { (refusal, 0) };
    answer(exact(session_key).map_err(of_no_record).and_then(|key| {
        let records = count(challenges.len(), CHALLENGE)?;
        let written = room(records, RECORD, out)?;
        check_masks(response_mask, key_mask).map_err(of_no_record)?;
        let schedule = hurdle::schedule(&key);
        let places = out.chunks_exact_mut(RECORD);
        for (challenge, record) in challenges.chunks_exact(CHALLENGE).zip(places) {
            let made = bl1_with(&schedule, &exp2(&from_fn(|i| challenge[i])));
            let (response, key) = record.split_at_mut(4);
            response.copy_from_slice(&chosen::<4>(&made, response_mask));
            key.copy_from_slice(&chosen::<10>(&made, key_mask));
        }
        Ok((records, written))
    }))
}

#[cfg(test)]
mod tests {
    use super::*;
    use crate::random::Random;
    use crate::taa1::ta12;

    const RESPONSE_MASK: u16 = 0x9240;
    const KEY_MASK: u16 = 0x6db6;

    #[test]
    fn classes_are_answered_one_by_one() {
        let mut random = Random::new(10);
        for records in [0, 1, 2, 3, 4, 5, 40, 1023, 1024] {
            let (key, mut challenges) = (random.bytes::<16>(), random.vec(CHALLENGE * records));
            if records > 2 {
                challenges.copy_within(..CHALLENGE, CHALLENGE * (records - 1));
            }
            let mut wanted = Vec::new();
            for challenge in challenges.chunks(CHALLENGE) {
                let one = ta12(&key, challenge, RESPONSE_MASK, KEY_MASK);
                wanted.extend(one.response);
                wanted.extend(one.key);
            }
            wanted.extend([0x55; 15]);
            let mut out = vec![0x55; wanted.len()];
            let accepted = BookAnswer {
                refusal: 0,
                index: records,
                written: RECORD * records,
            };
            let answer = ta12_class(&key, &challenges, RESPONSE_MASK, KEY_MASK, &mut out);
            assert_eq!((answer, out), (accepted, wanted));
        }
    }

    #[test]
    fn refusals_in_order() {
        let refused = |key, challenges, room, response_mask, key_mask| {
            let mut out = [0x77; 2 * RECORD];
            let (key, challenges) = (vec![1; key], vec![2; challenges]);
            let lent = &mut out[..room];
            let answer = ta12_class(&key, &challenges, response_mask, key_mask, lent);
            assert_eq!(out, [0x77; 2 * RECORD]);
            assert_eq!((answer.index, answer.written), (0, 0));
            answer.refusal
        };
        assert_eq!(refused(15, 10_241, 0, 0, 0), 11);
        assert_eq!(refused(17, 10_241, 0, 0, 0), 11);
        assert_eq!(refused(16, 10_241, 0, 0, 0), 1);
        assert_eq!(refused(16, 10_250, 0, 0, 0), 1);
        assert_eq!(refused(16, 10_239, 0, 0, 0), 2);
        assert_eq!(refused(16, 10_240, 28, 0, 0), 12);
        assert_eq!(refused(16, 20, 27, 0, 0), 12);
        assert_eq!(refused(16, 20, 28, 0xffff, 0xffff), 7);
        assert_eq!(refused(16, 20, 28, 0x000f, 0x03ff), 8);
        assert_eq!(refused(16, 0, 0, 0x0007, KEY_MASK), 7);
        assert_eq!(refused(16, 0, 28, 0x000f, 0x03ff), 8);
    }
}
