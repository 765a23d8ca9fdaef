//! The ring recipe.

use crate::{edges, masks};
use host::compare;
use host::engine::{self, Authentication, RingMade};
use host::random::Random;
use host::taa1;
use host::tally::{Group, Tally};
use std::array::from_fn;

const TIMES: usize = 50_000;
const LENGTHS: [usize; 7] = [16, 10, 10, 10, 10, 10, 12];
/// Root, RS, RSO, RAND1, RAND2, C and the group key.
type Strings<'a> = [&'a [u8]; 7];
/// TA12 alone, TA22 alone, both.
const SIDES: [u64; 3] = [1, 2, 3];
/// Also such as have right numbers in their low bits.
const WRONG_SIDES: [u64; 5] = [0, 4, 259, (1 << 32) + 1, u64::MAX];
/// Which of the strings is the challenge of the side that does not run.
const IDLE: [(u64, usize); 2] = [(1, 4), (2, 3)];

pub fn run(tally: &mut Tally, random: &mut Random) {
    tally.group("ring (random)", |group| {
        for _ in 0..TIMES {
            let bytes = random.bytes();
            ring_each(group, parts(&bytes), random.masks());
        }
    });
    tally.group("ring (lengths, beside wrong sides and masks)", |group| {
        edges::lengths(random, LENGTHS, |strings| {
            for pair in masks::FEW {
                ring(group, strings, 0, pair);
                ring_each(group, strings, pair);
            }
        });
    });
    let bytes = random.bytes();
    tally.group("ring (numbers of sides, beside wrong masks)", |group| {
        let wide = (2..64).flat_map(|bit| (0..4).map(move |low| (1 << bit) + low));
        for sides in (0..=300).chain(wide).chain(WRONG_SIDES) {
            for pair in masks::FEW {
                ring(group, parts(&bytes), sides, pair);
            }
        }
    });
    tally.group("ring (faults alone and together)", |group| {
        faults(group, random);
    });
    tally.group("ring (beside the single calls)", |group| {
        for _ in 0..10_000 {
            let (bytes, pair) = (random.bytes(), random.masks());
            for sides in SIDES {
                let wanted = || composed(parts(&bytes), sides, pair);
                want(group, parts(&bytes), sides, pair, wanted);
            }
        }
    });
    tally.group("ring (challenges of the idle side)", |group| {
        let pair = random.masks();
        let others = (0..10_000).map(|_| random.bytes());
        for challenge in edges::strings().into_iter().chain(others) {
            idle(group, parts(&bytes), &challenge, pair);
        }
    });
    mask_groups(tally, random);
}

fn mask_groups(tally: &mut Tally, random: &mut Random) {
    let bytes = random.bytes();
    tally.group("ring (right pairs of masks)", |group| {
        for pair in masks::right().step_by(7) {
            ring_each(group, parts(&bytes), pair);
        }
    });
    tally.group("ring (every mask beside a right one)", |group| {
        for pair in masks::each_beside(random.masks()) {
            ring_each(group, parts(&bytes), pair);
        }
    });
    tally.group("ring (every pair of counts of ones)", |group| {
        for _ in 0..100 {
            for pair in masks::counts(random) {
                ring_each(group, parts(&bytes), pair);
            }
        }
    });
    tally.group("ring (one bit shared)", |group| {
        for _ in 0..100 {
            for pair in masks::one_shared(random.masks()) {
                ring_each(group, parts(&bytes), pair);
            }
        }
    });
}

/// The strings of a ring, one after the other.
fn parts(bytes: &[u8; 78]) -> Strings<'_> {
    let start = |i| LENGTHS[..i].iter().sum::<usize>();
    from_fn(|i| &bytes[start(i)..start(i + 1)])
}

/// Compares with the independent implementation, on each side and both.
fn ring_each(group: &mut Group, strings: Strings, pair: (u16, u16)) {
    for sides in SIDES {
        ring(group, strings, sides, pair);
    }
}

/// Compares with the independent implementation.
fn ring(group: &mut Group, strings: Strings, sides: u64, pair: (u16, u16)) {
    let wanted = || other(strings, sides, pair);
    want(group, strings, sides, pair, wanted);
}

fn want(
    group: &mut Group,
    strings: Strings,
    sides: u64,
    pair: (u16, u16),
    wanted: impl FnOnce() -> RingMade,
) {
    let [root, rs, rso, rand1, rand2, c, group_key] = strings;
    let (response_mask, key_mask) = pair;
    compare!(
        group,
        ring(
            [root],
            [rs],
            [rso],
            [rand1],
            [rand2],
            [c],
            [group_key],
            sides,
            response_mask,
            key_mask
        ),
        wanted()
    );
}

/// What the independent implementation answers.
fn other(strings: Strings, sides: u64, pair: (u16, u16)) -> RingMade {
    let [root, rs, rso, rand1, rand2, c, group_key] = strings;
    taa1::ring(
        root, rs, rso, rand1, rand2, c, group_key, sides, pair.0, pair.1,
    )
    .into()
}

/// What the recipe makes of the engine's single calls.
fn composed(strings: Strings, sides: u64, pair: (u16, u16)) -> RingMade {
    let [root, rs, rso, rand1, rand2, c, group_key] = strings;
    let idle = Authentication {
        refusal: 0,
        response: [0; 4],
        key: [0; 10],
    };
    let (mut first, mut second) = (idle, idle);
    if sides != 2 {
        first = engine::ta12(&engine::ta11(root, rs).bytes, rand1, pair.0, pair.1);
    }
    if sides != 1 {
        second = engine::ta22(&engine::ta21(root, rs).bytes, rand2, pair.0, pair.1);
    }
    let d = engine::tb4(&first.key, &second.key).bytes;
    let o = engine::ta41(root, rso).bytes;
    let g = engine::tb7(group_key).bytes;
    RingMade {
        refusal: 0,
        ring: [&d[..], &o, c, &g].concat().try_into().unwrap(),
        response1: first.response,
        response2: second.response,
    }
}

/// Another challenge of the side that does not run leaves the engine's answer as it is.
fn idle(group: &mut Group, strings: Strings, challenge: &[u8; 10], pair: (u16, u16)) {
    for (sides, at) in IDLE {
        let mut others = strings;
        others[at] = challenge;
        want(group, others, sides, pair, || {
            let [root, rs, rso, rand1, rand2, c, group_key] = strings;
            engine::ring(
                root, rs, rso, rand1, rand2, c, group_key, sides, pair.0, pair.1,
            )
        });
    }
}

/// The first of the refusals 11, 13, 7 and 8 that applies, and zeros beside it.
fn faults(group: &mut Group, random: &mut Random) {
    let bytes = LENGTHS.map(|length| random.vec(length + 1));
    let mut lengths = vec![(0, LENGTHS)];
    for (i, right) in LENGTHS.into_iter().enumerate() {
        for length in [right - 1, right + 1] {
            let mut wrong = LENGTHS;
            wrong[i] = length;
            lengths.push((11, wrong));
        }
    }
    let right = SIDES.map(|sides| (0, sides));
    let wrong = WRONG_SIDES.map(|sides| (13, sides));
    let all_sides = [&right[..], &wrong].concat();
    let pairs = [
        (0, (0x000f, 0xffc0)),
        (7, (0x0007, 0xffc0)),
        (7, (0x000f, 0xff80)),
        (7, (0xffff, 0xffff)),
        (8, (0x000f, 0x03ff)),
    ];
    for (wrong_length, lengths) in lengths {
        let strings = from_fn(|i| &bytes[i][..lengths[i]]);
        for &(wrong_sides, sides) in &all_sides {
            for (wrong_masks, pair) in pairs {
                let faults = [wrong_length, wrong_sides, wrong_masks];
                let first = faults.into_iter().find(|&refusal| refusal != 0);
                want(group, strings, sides, pair, || match first {
                    None => other(strings, sides, pair),
                    Some(refusal) => RingMade {
                        refusal,
                        ring: [0; taa1::RING],
                        response1: [0; 4],
                        response2: [0; 4],
                    },
                });
            }
        }
    }
}
