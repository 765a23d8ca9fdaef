//! Smudged key cards, from document 02, request 11.

use crate::taa1::{answer, exact, Answer};
use std::array::from_fn;

#[derive(Debug, Clone, Copy, PartialEq, Eq)]
pub struct Card {
    pub refusal: u32,
    pub key: [u8; 12],
    pub card: [u8; 16],
}

impl Answer for Card {
    fn refused(refusal: u32) -> Self {
        Card {
            refusal,
            key: [0; 12],
            card: [0; 16],
        }
    }
}

/// Whether four bytes are a group of a TB7 form.
fn is_group(group: &[u8; 4]) -> bool {
    group[3] == group[0] ^ group[1] ^ group[2]
}

/// The group with the byte at a place that makes it one, found by trying them all.
fn restored(mut group: [u8; 4], place: usize) -> [u8; 4] {
    let right = |&byte: &u8| {
        group[place] = byte;
        is_group(&group)
    };
    group[place] = (0..=255).find(right).expect("a byte that fits");
    group
}

/// The card whose readable bytes these are: bit i of the mask stands for byte Bi, and
/// B0 is rightmost.
pub fn restore_card(card: &[u8], unreadable: u16) -> Card {
    answer(|| {
        let card = exact::<16>(card)?;
        let lost = |group: usize| -> Vec<usize> {
            let number = |place: usize| 15 - (4 * group + place);
            let is_lost = |&place: &usize| unreadable >> number(place) & 1 == 1;
            (0..4).filter(is_lost).collect()
        };
        if (0..4).any(|group| lost(group).len() > 1) {
            return Err(18);
        }
        let mut groups: [[u8; 4]; 4] = from_fn(|group| from_fn(|i| card[4 * group + i]));
        for (number, group) in groups.iter_mut().enumerate() {
            match lost(number)[..] {
                [] if !is_group(group) => return Err(19),
                [] => {}
                [place, ..] => *group = restored(*group, place),
            }
        }
        Ok(Card {
            refusal: 0,
            key: from_fn(|i| groups[i / 3][i % 3]),
            card: from_fn(|i| groups[i / 4][i % 4]),
        })
    })
}

#[cfg(test)]
mod tests {
    use super::*;
    use crate::random::Random;
    use crate::taa1::tb7;

    /// Each byte unreadable, whatever stands there.
    #[test]
    fn one_byte_comes_back() {
        let mut random = Random::new(13);
        for _ in 0..50 {
            let key = random.bytes();
            let card = tb7(&key).bytes;
            let wanted = Card {
                refusal: 0,
                key,
                card,
            };
            assert_eq!(restore_card(&card, 0), wanted);
            for i in 0..16 {
                let mut smudged = card;
                smudged[15 - i] = random.number() as u8;
                assert_eq!(restore_card(&smudged, 1 << i), wanted);
            }
            let mut smudged = card;
            for i in [0, 5, 10, 15] {
                smudged[i] ^= 0xff;
            }
            assert_eq!(restore_card(&smudged, 0b1000_0100_0010_0001), wanted);
            assert_eq!(restore_card(&smudged, 0b1000_0100_0010_0000).refusal, 19);
        }
    }

    /// By the words of the request: how many TB7 forms agree with the readable bytes,
    /// for every mask of the second group.
    #[test]
    fn as_many_cards_as_it_says() {
        let key = Random::new(14).bytes::<12>();
        let right = tb7(&key).bytes;
        let mut wrong = right;
        wrong[5] ^= 3;
        for (card, mask) in [right, wrong]
            .into_iter()
            .flat_map(|card| (0..16).map(move |mask| (card, mask << 8)))
        {
            let is_lost = |at: usize| mask >> (15 - at) & 1 == 1;
            let agrees = |form: &[u8; 16]| (0..16).all(|at| is_lost(at) || form[at] == card[at]);
            let bytes = |at: usize| match is_lost(at) {
                true => 0..=255,
                false => card[at]..=card[at],
            };
            let threes =
                bytes(4).flat_map(|a| bytes(5).flat_map(move |b| bytes(6).map(move |c| [a, b, c])));
            let forms = threes.map(|three| {
                let mut key = key;
                key[3..6].copy_from_slice(&three);
                tb7(&key).bytes
            });
            let forms: Vec<[u8; 16]> = forms.filter(agrees).take(2).collect();
            let answer = restore_card(&card, mask);
            match forms[..] {
                [form] => assert_eq!((answer.refusal, answer.card), (0, form)),
                [] => assert_eq!(answer, Card::refused(19)),
                _ => assert_eq!(answer, Card::refused(18)),
            }
        }
    }

    #[test]
    fn refusals_in_order() {
        assert_eq!(restore_card(&[1; 15], 3).refusal, 11);
        let disagrees = [1, 0, 0, 0, 0, 0, 0, 0, 0, 0, 0, 0, 0, 0, 0, 0];
        assert_eq!(restore_card(&disagrees, 3), Card::refused(18));
        assert_eq!(restore_card(&disagrees, 1), Card::refused(19));
        assert_eq!(restore_card(&disagrees, 0x8000).card, [0; 16]);
        assert_eq!(restore_card(&disagrees, 0xffff).refusal, 18);
    }
}
