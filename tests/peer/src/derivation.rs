//! Session keys, responses and derived keys.

use host::both::{AUTHENTICATION, CHALLENGE};
use host::engine::{self, accepted, Authentication, BookAnswer};
use host::random::Random;
use host::tally::{Group, Tally};
use host::{class, taa1};
use peer::osmo;
use std::array::from_fn;

const TIMES: usize = 20_000;
/// How many challenges a class has.
const CLASS: usize = 10;

/// osmo-tetra's key has every byte but B15, B12, B9, B6, B3 and B0. Its
/// response is B15 xor B12, B9, B6, B3 xor B0, which no mask chooses; these two
/// have the bytes between them.
const KEY_MASK: u16 = 0x6db6;
const LEFT_MASK: u16 = 0x9240;
const RIGHT_MASK: u16 = 0x0249;

type Call = fn(&[u8], &[u8], u16, u16) -> Authentication;

const CALLS: [(&str, Call); 4] = [
    ("ta12", engine::ta12),
    ("ta22", engine::ta22),
    ("ta12, independent", |k, c, r, m| {
        taa1::ta12(k, c, r, m).into()
    }),
    ("ta22, independent", |k, c, r, m| {
        taa1::ta22(k, c, r, m).into()
    }),
];

type ClassCall = fn(&[u8], &[u8], u16, u16, &mut [u8]) -> BookAnswer;

const CLASS_CALLS: [(&str, ClassCall); 2] = [
    ("ta12_class", engine::ta12_class),
    ("ta12_class, independent", |k, c, r, m, out| {
        class::ta12_class(k, c, r, m, out).into()
    }),
];

pub fn run(tally: &mut Tally, random: &mut Random) {
    tally.group("ta11, ta41 beside osmo-tetra", |group| {
        for _ in 0..TIMES {
            let (root, seed) = (random.bytes(), random.bytes());
            let wanted = accepted(osmo::ta11_ta41(&root, &seed));
            compare_three!(group, ta11([root], [seed]), wanted);
            compare_three!(group, ta41([root], [seed]), wanted);
        }
    });
    tally.group("ta21 beside osmo-tetra", |group| {
        for _ in 0..TIMES {
            let (root, seed) = (random.bytes(), random.bytes());
            let wanted = accepted(osmo::ta21(&root, &seed));
            compare_three!(group, ta21([root], [seed]), wanted);
        }
    });
    tally.group("ta12, ta22 beside osmo-tetra, masks joined", |group| {
        for _ in 0..TIMES {
            let (session_key, challenge) = (random.bytes(), random.bytes());
            for (name, call) in CALLS {
                let both = [LEFT_MASK, RIGHT_MASK]
                    .map(|response_mask| call(&session_key, &challenge, response_mask, KEY_MASK));
                joined(group, name, &session_key, &challenge, both);
            }
        }
    });
    tally.group("ta12_class beside osmo-tetra, masks joined", |group| {
        for _ in 0..TIMES / CLASS {
            let session_key = random.bytes();
            let challenges: [[u8; CHALLENGE]; CLASS] = from_fn(|_| random.bytes());
            for (name, call) in CLASS_CALLS {
                let [left, right] = [LEFT_MASK, RIGHT_MASK]
                    .map(|response_mask| class_of(call, &session_key, &challenges, response_mask));
                for (i, challenge) in challenges.iter().enumerate() {
                    joined(group, name, &session_key, challenge, [left[i], right[i]]);
                }
            }
        }
    });
    tally.group("ta71 beside osmo-tetra", |group| {
        for _ in 0..TIMES {
            let (key1, key2) = (random.bytes(), random.bytes());
            let wanted = accepted(osmo::ta71(&key1, &key2));
            compare_three!(group, ta71([key1], [key2]), wanted);
        }
    });
}

/// The answers to the left and the right mask, put together as osmo-tetra's.
fn joined(
    group: &mut Group,
    name: &str,
    session_key: &[u8; 16],
    challenge: &[u8; CHALLENGE],
    [left, right]: [Authentication; 2],
) {
    let (response, key) = osmo::ta12_ta22(session_key, challenge);
    let [b15, b12, b9, b6] = left.response;
    let [_, _, b3, b0] = right.response;
    group.same(
        name,
        &[("session_key", session_key), ("challenge", challenge)],
        ([b15 ^ b12, b9, b6, b3 ^ b0], left.key, right.key),
        (response, key, key),
    );
}

/// The records that a class gives.
fn class_of(
    call: ClassCall,
    session_key: &[u8; 16],
    challenges: &[[u8; CHALLENGE]; CLASS],
    response_mask: u16,
) -> [Authentication; CLASS] {
    let mut out = [0; AUTHENTICATION * CLASS];
    let challenges = challenges.concat();
    let answer = call(session_key, &challenges, response_mask, KEY_MASK, &mut out);
    from_fn(|i| {
        let record = &out[AUTHENTICATION * i..];
        Authentication {
            refusal: answer.refusal,
            response: from_fn(|i| record[i]),
            key: from_fn(|i| record[4 + i]),
        }
    })
}
