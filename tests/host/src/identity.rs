//! Identities: TA61 and its inverse.

use crate::edges;
use host::compare;
use host::engine::{self, Identity};
use host::random::Random;
use host::tally::{Group, Tally};

const TIMES: usize = 100_000;
const BITS: u64 = 24;

pub fn run(tally: &mut Tally, random: &mut Random) {
    tally.group("ta61 and its inverse (random)", |group| {
        for _ in 0..TIMES {
            both(group, &random.bytes::<10>(), random.number() >> (64 - BITS));
        }
    });
    tally.group("ta61 and its inverse (there and back)", |group| {
        for _ in 0..TIMES {
            there_and_back(group, random.bytes(), random.number() >> (64 - BITS));
        }
    });
    tally.group("ta61 and its inverse (identities)", |group| {
        for common_key in edges::strings::<10>() {
            for identity in edges::values(random, BITS) {
                both(group, &common_key, identity);
            }
        }
    });
    tally.group("ta61 and its inverse (lengths)", |group| {
        edges::lengths(random, [10], |[common_key]| {
            for identity in edges::few_values(BITS) {
                both(group, common_key, identity);
            }
        });
    });
}

fn both(group: &mut Group, common_key: &[u8], identity: u64) {
    compare!(group, ta61([common_key], identity));
    compare!(group, ta61_inverse([common_key], identity));
}

fn there_and_back(group: &mut Group, common_key: [u8; 10], identity: u64) {
    let wanted = Identity {
        refusal: 0,
        identity: identity as u32,
    };
    let there = u64::from(engine::ta61(&common_key, identity).identity);
    compare!(group, ta61_inverse([common_key], there), wanted);
    let there = u64::from(engine::ta61_inverse(&common_key, identity).identity);
    compare!(group, ta61([common_key], there), wanted);
}
