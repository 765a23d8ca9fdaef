//! Session keys, responses and derived keys: TA11, TA21, TA41, TA12, TA22,
//! TA71 and TA101.

use crate::{edges, masks};
use host::compare;
use host::random::Random;
use host::tally::{Group, Tally};

const TIMES: usize = 50_000;
const MNI_BITS: u64 = 24;

pub fn run(tally: &mut Tally, random: &mut Random) {
    tally.group("ta11, ta21, ta41 (random)", |group| {
        for _ in 0..TIMES {
            session_keys(group, &random.bytes::<16>(), &random.bytes::<10>());
        }
    });
    tally.group("ta11, ta21, ta41 (zeros, ones, single bits)", |group| {
        for root in edges::strings::<16>() {
            for seed in edges::strings::<10>() {
                session_keys(group, &root, &seed);
            }
        }
    });
    tally.group("ta11, ta21, ta41 (lengths)", |group| {
        edges::lengths(random, [16, 10], |[root, seed]| {
            session_keys(group, root, seed);
        });
    });
    authentication_groups(tally, random);
    tally.group("ta71 (random)", |group| {
        for _ in 0..TIMES {
            let (key1, key2) = (random.bytes::<10>(), random.bytes::<10>());
            compare!(group, ta71([key1], [key2]));
        }
    });
    tally.group("ta71 (zeros, ones, single bits)", |group| {
        for key1 in edges::strings::<10>() {
            for key2 in edges::strings::<10>() {
                compare!(group, ta71([key1], [key2]));
            }
        }
    });
    tally.group("ta71 (lengths)", |group| {
        edges::lengths(random, [10, 10], |[key1, key2]| {
            compare!(group, ta71([key1], [key2]));
        });
    });
    tally.group("ta101 (random)", |group| {
        for _ in 0..TIMES {
            let (ks, gck0) = (random.bytes::<16>(), random.bytes::<10>());
            let mni = random.number() >> (64 - MNI_BITS);
            compare!(group, ta101([ks], [gck0], mni));
        }
    });
    tally.group("ta101 (network identities)", |group| {
        for gck0 in edges::strings::<10>() {
            let ks = random.bytes::<16>();
            for mni in edges::values(random, MNI_BITS) {
                compare!(group, ta101([ks], [gck0], mni));
            }
        }
    });
    tally.group("ta101 (lengths)", |group| {
        edges::lengths(random, [16, 10], |[ks, gck0]| {
            for mni in edges::few_values(MNI_BITS) {
                compare!(group, ta101([ks], [gck0], mni));
            }
        });
    });
}

fn session_keys(group: &mut Group, root: &[u8], seed: &[u8]) {
    compare!(group, ta11([root], [seed]));
    compare!(group, ta21([root], [seed]));
    compare!(group, ta41([root], [seed]));
}

fn authentication_groups(tally: &mut Tally, random: &mut Random) {
    tally.group("ta12, ta22 (random)", |group| {
        for _ in 0..TIMES {
            let (key, challenge) = (random.bytes::<16>(), random.bytes::<10>());
            authentication(group, &key, &challenge, random.masks());
        }
    });
    tally.group("ta12, ta22 (lengths, beside wrong masks)", |group| {
        edges::lengths(random, [16, 10], |[key, challenge]| {
            for pair in masks::FEW {
                authentication(group, key, challenge, pair);
            }
        });
    });
    let (key, challenge) = (random.bytes::<16>(), random.bytes::<10>());
    tally.group("ta12, ta22 (every right pair of masks)", |group| {
        for pair in masks::right() {
            authentication(group, &key, &challenge, pair);
        }
    });
    tally.group("ta12, ta22 (every mask beside a right one)", |group| {
        for pair in masks::each_beside(random.masks()) {
            authentication(group, &key, &challenge, pair);
        }
    });
    tally.group("ta12, ta22 (every pair of counts of ones)", |group| {
        for _ in 0..100 {
            for pair in masks::counts(random) {
                authentication(group, &key, &challenge, pair);
            }
        }
    });
    tally.group("ta12, ta22 (one bit shared)", |group| {
        for _ in 0..100 {
            for pair in masks::one_shared(random.masks()) {
                authentication(group, &key, &challenge, pair);
            }
        }
    });
}

fn authentication(group: &mut Group, session_key: &[u8], challenge: &[u8], pair: (u16, u16)) {
    let (response_mask, key_mask) = pair;
    compare!(
        group,
        ta12([session_key], [challenge], response_mask, key_mask)
    );
    compare!(
        group,
        ta22([session_key], [challenge], response_mask, key_mask)
    );
}
