//! HURDLE-II, with its round keys laid out and with one register: `taa1_encrypt`,
//! `taa1_decrypt`, `taa1_encrypt_register`, `taa1_decrypt_register` and
//! `taa1_register`.

use crate::edges;
use host::compare;
use host::engine::{self, accepted};
use host::random::Random;
use host::tally::{Group, Tally};

const PAIRS: usize = 100_000;

pub fn run(tally: &mut Tally, random: &mut Random) {
    tally.group("encrypt, decrypt (random)", |group| {
        for _ in 0..PAIRS {
            all(group, &random.bytes::<16>(), &random.bytes::<8>());
        }
    });
    tally.group("encrypt, decrypt (there and back)", |group| {
        for _ in 0..PAIRS {
            there_and_back(group, random.bytes(), random.bytes());
        }
    });
    tally.group("encrypt, decrypt (both forms)", |group| {
        for _ in 0..PAIRS {
            forms(group, random.bytes(), random.bytes());
        }
    });
    tally.group("encrypt, decrypt (zeros, ones, single bits)", |group| {
        for key in edges::strings::<16>() {
            for block in edges::strings::<8>() {
                all(group, &key, &block);
            }
        }
    });
    tally.group("encrypt, decrypt (lengths)", |group| {
        edges::lengths(random, [16, 8], |[key, block]| all(group, key, block));
    });
    tally.group("register (random)", |group| {
        for _ in 0..PAIRS {
            let (key, bits) = (random.bytes::<16>(), random.below(64));
            let steps = random.number() >> bits;
            compare!(group, register([key], steps));
        }
    });
    tally.group("register (steps)", |group| {
        for key in edges::strings::<16>() {
            for steps in steps() {
                compare!(group, register([key], steps));
            }
        }
    });
    tally.group("register (the key again)", |group| {
        for key in edges::strings::<16>() {
            for steps in steps().filter(|steps| steps % 16 == 0) {
                compare!(group, register([key], steps), accepted(key));
            }
        }
    });
    tally.group("register (lengths)", |group| {
        edges::lengths(random, [16], |[key]| {
            for steps in [0, 1, 15, 16, 1 << 32, u64::MAX] {
                compare!(group, register([key], steps));
            }
        });
    });
}

/// Numbers of steps: small ones, and around every power of two.
fn steps() -> impl Iterator<Item = u64> {
    let wide = (9..64).flat_map(|bit| (1 << bit) - 16..=(1 << bit) + 16);
    (0..=300).chain(wide).chain(u64::MAX - 32..=u64::MAX)
}

fn all(group: &mut Group, key: &[u8], block: &[u8]) {
    compare!(group, encrypt([key], [block]));
    compare!(group, decrypt([key], [block]));
    compare!(group, encrypt_register([key], [block]));
    compare!(group, decrypt_register([key], [block]));
}

fn there_and_back(group: &mut Group, key: [u8; 16], block: [u8; 8]) {
    let there = engine::encrypt(&key, &block).bytes;
    compare!(group, decrypt([key], [there]), accepted(block));
    compare!(group, decrypt_register([key], [there]), accepted(block));
    let there = engine::decrypt(&key, &block).bytes;
    compare!(group, encrypt([key], [there]), accepted(block));
    compare!(group, encrypt_register([key], [there]), accepted(block));
}

/// The engine's two forms agree.
fn forms(group: &mut Group, key: [u8; 16], block: [u8; 8]) {
    let wanted = engine::encrypt(&key, &block);
    compare!(group, encrypt_register([key], [block]), wanted);
    let wanted = engine::decrypt(&key, &block);
    compare!(group, decrypt_register([key], [block]), wanted);
}
