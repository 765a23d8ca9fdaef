//! Smudged key cards.

use crate::edges;
use host::cards::Card;
use host::compare;
use host::damaged::flipped;
use host::engine;
use host::random::Random;
use host::tally::{Group, Tally};
use std::array::from_fn;

const MASKS: std::ops::RangeInclusive<u16> = 0..=u16::MAX;

/// Whether the mask leaves more than one byte of a group unreadable.
fn many(unreadable: u16) -> bool {
    (0..4).any(|group| (unreadable >> (4 * group) & 15).count_ones() > 1)
}

/// Whether byte Bi, at 15 - i, is unreadable.
fn is_lost(unreadable: u16, i: usize) -> bool {
    unreadable >> i & 1 == 1
}

fn refused(refusal: u32) -> Card {
    Card {
        refusal,
        key: [0; 12],
        card: [0; 16],
    }
}

/// The card with other bytes where it is unreadable.
fn smudged(random: &mut Random, card: [u8; 16], unreadable: u16) -> [u8; 16] {
    let other = random.bytes::<16>();
    from_fn(|at| match is_lost(unreadable, 15 - at) {
        true => other[at],
        false => card[at],
    })
}

pub fn run(tally: &mut Tally, random: &mut Random) {
    tally.group("restore_card (every mask on right cards)", |group| {
        for _ in 0..3 {
            let key = random.bytes();
            for unreadable in MASKS {
                right(group, random, key, unreadable);
            }
        }
    });
    tally.group("restore_card (every mask beside one wrong byte)", |group| {
        let key = random.bytes();
        for unreadable in MASKS {
            one_wrong(group, random, key, unreadable);
        }
    });
    tally.group("restore_card (every mask on random cards)", |group| {
        for _ in 0..3 {
            for unreadable in MASKS {
                let card = random.bytes::<16>();
                compare!(group, restore_card([card], unreadable));
            }
        }
    });
    tally.group(
        "restore_card (unreadable bytes are not looked at)",
        |group| {
            for unreadable in MASKS {
                let card = random.bytes();
                let wanted = engine::restore_card(&card, unreadable);
                let card = smudged(random, card, unreadable);
                compare!(group, restore_card([card], unreadable), wanted);
            }
        },
    );
    tally.group("restore_card (zeros, ones, single bits)", |group| {
        for card in edges::strings::<16>() {
            for unreadable in (0..16).flat_map(|i| [1 << i, 0x1111 << (i % 4), 0, 3 << i]) {
                compare!(group, restore_card([card], unreadable));
            }
        }
    });
    tally.group("restore_card (lengths, beside wrong masks)", |group| {
        edges::lengths(random, [16], |[card]| {
            for unreadable in [0, 1, 0x8421, 3, 0xffff] {
                compare!(group, restore_card([card], unreadable));
            }
        });
    });
}

/// The key and its TB7 form come back, or two bytes of a group are missing.
fn right(group: &mut Group, random: &mut Random, key: [u8; 12], unreadable: u16) {
    let whole = engine::tb7(&key).bytes;
    let card = smudged(random, whole, unreadable);
    let wanted = match many(unreadable) {
        true => refused(18),
        false => Card {
            refusal: 0,
            key,
            card: whole,
        },
    };
    compare!(group, restore_card([card], unreadable), wanted);
}

/// A wrong byte shows only in a group that is all readable, and after 18.
fn one_wrong(group: &mut Group, random: &mut Random, key: [u8; 12], unreadable: u16) {
    let whole = engine::tb7(&key).bytes;
    for i in 0..16 {
        let bit = 8 * (15 - i) + random.below(8);
        let card = flipped(smudged(random, whole, unreadable), bit);
        let readable_group = unreadable >> (i / 4 * 4) & 15 == 0;
        if many(unreadable) {
            compare!(group, restore_card([card], unreadable), refused(18));
        } else if readable_group {
            compare!(group, restore_card([card], unreadable), refused(19));
        } else {
            compare!(group, restore_card([card], unreadable));
        }
    }
}
