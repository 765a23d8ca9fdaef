//! HURDLE-II, the 64-bit block cipher of clause 6.
//!
//! A block or key as an array holds the leftmost byte first: byte 7 of a
//! block, or byte 15 of a key, stands at index 0.

use std::array::from_fn;
use std::cell::Cell;

/// Table 1: the byte permutation S.
#[rustfmt::skip]
pub const S: [u8; 256] = [
    0xf4, 0x65, 0x01, 0x00, 0xba, 0x7a, 0xa7, 0x47, 0x98, 0xdd, 0x9d, 0xad, 0x96, 0x5d, 0xaa, 0x3d,
    0x58, 0xc0, 0x72, 0xd8, 0x66, 0x4c, 0x3e, 0xe0, 0x80, 0x55, 0xde, 0x90, 0x2a, 0x4b, 0x83, 0xa0,
    0x51, 0x39, 0xed, 0x6c, 0x8a, 0x2c, 0x56, 0x60, 0x4a, 0x1f, 0xd0, 0x70, 0x6e, 0x33, 0x8b, 0x26,
    0x2e, 0x6f, 0x89, 0x48, 0x5e, 0x40, 0xc3, 0xa4, 0xa9, 0xcf, 0x22, 0x50, 0xe1, 0x15, 0x0c, 0xab,
    0xd5, 0xf8, 0x5f, 0x36, 0x04, 0xa6, 0x4e, 0x92, 0x1e, 0x2b, 0x88, 0x30, 0x93, 0x45, 0x67, 0x16,
    0x8c, 0x68, 0x23, 0x38, 0x61, 0x25, 0x1a, 0x81, 0x63, 0xcb, 0xc1, 0x13, 0x41, 0x37, 0x0e, 0x97,
    0x5b, 0xca, 0x57, 0x24, 0x4d, 0x17, 0xc4, 0xb9, 0xb3, 0xef, 0x8d, 0x52, 0x32, 0x2f, 0xec, 0x20,
    0xd9, 0x11, 0xd1, 0x28, 0x79, 0xda, 0xfb, 0xe9, 0xbb, 0x06, 0x77, 0xdb, 0xfc, 0xfe, 0xcd, 0x84,
    0x1d, 0xa1, 0x54, 0x1b, 0xb0, 0xe4, 0xcc, 0x7c, 0x2d, 0x27, 0x31, 0x49, 0xf5, 0x02, 0x69, 0x53,
    0x4f, 0x44, 0xdf, 0x18, 0x5c, 0x0f, 0xbc, 0x9b, 0x94, 0xbd, 0xdc, 0x0b, 0xa2, 0xc7, 0x09, 0xac,
    0xc6, 0x9f, 0x82, 0x1c, 0x05, 0x46, 0xc2, 0x34, 0x3c, 0x0d, 0x3b, 0xce, 0xb7, 0xbe, 0x08, 0x9c,
    0x6b, 0xee, 0xe5, 0x87, 0xaf, 0xbf, 0xf2, 0xeb, 0x7b, 0x07, 0x64, 0xc5, 0xb6, 0xae, 0x9a, 0x95,
    0x35, 0xa5, 0x59, 0x12, 0x9e, 0xa3, 0xb8, 0x8e, 0x5a, 0xf7, 0x62, 0xd2, 0x3a, 0xa8, 0x7d, 0x85,
    0xf6, 0xc8, 0x71, 0x29, 0xd6, 0xd7, 0x43, 0xf9, 0x78, 0x76, 0x73, 0x10, 0x91, 0x19, 0x0a, 0x99,
    0xf0, 0xe6, 0x3f, 0x14, 0xf1, 0xe2, 0xb1, 0x86, 0xb4, 0xf3, 0x74, 0xfa, 0x6a, 0xb2, 0x21, 0x6d,
    0xea, 0xb5, 0xe7, 0xe3, 0xc9, 0xd3, 0x8f, 0x03, 0x75, 0xe8, 0xd4, 0x42, 0xfd, 0x7e, 0xff, 0x7f,
];

/// Table 2: bit j of Y is bit PI[j] of U.
#[rustfmt::skip]
const PI: [usize; 32] = [
    0, 4,  8, 12, 16, 20, 24, 28,
    1, 5,  9, 13, 17, 21, 25, 29,
    2, 6, 10, 14, 18, 22, 26, 30,
    3, 7, 11, 15, 19, 23, 27, 31,
];

/// Clause 6.4.1: E_j is X_EXPANSION[j], here from E_0 up to E_11.
const EXPANSION: [usize; 12] = [0, 1, 2, 3, 0, 2, 1, 3, 2, 0, 3, 1];

/// Clause 6.5: the constant D (the text prints its byte 1e as "le").
const D: u128 = 0x3ca7ec25_7957dfc0_380a331e_f38cf4f7;

/// Clause 6.5: the byte rotations a_1 to a_16.
const A: [u32; 16] = [5, 5, 5, 5, 3, 7, 5, 5, 5, 5, 7, 3, 5, 5, 5, 5];

/// PI by nibbles: SPREAD[q][v] is Y for a U that holds nibble v at bits
/// 4q to 4q + 3 and is zero elsewhere.
const SPREAD: [[u32; 16]; 8] = {
    let mut spread = [[0; 16]; 8];
    let mut v = 0;
    while v < 16 {
        let mut j = 0;
        while j < 32 {
            spread[PI[j] / 4][v] |= ((v as u32 >> (PI[j] % 4)) & 1) << j;
            j += 1;
        }
        v += 1;
    }
    spread
};

/// S turned around.
pub fn inverse_s() -> [u8; 256] {
    let mut inverse = [0; 256];
    for (x, &y) in S.iter().enumerate() {
        inverse[y as usize] = x as u8;
    }
    inverse
}

/// The round keys K^1 to K^16; byte K_j of each stands at index j.
#[derive(Clone)]
pub struct Schedule([[u8; 12]; 16]);

/// Clause 6.5: from Q of a round, counted from 0, to the next.
fn step(q: u128, round: usize) -> u128 {
    q.rotate_left(8 * A[round]) ^ D
}

/// The step undone.
fn step_back(q: u128, round: usize) -> u128 {
    (q ^ D).rotate_right(8 * A[round])
}

/// Clause 6.5: the values Q^1 to Q^17.
fn q_values(key: &[u8; 16]) -> [u128; 17] {
    let mut q = [u128::from_be_bytes(*key); 17];
    for i in 1..17 {
        q[i] = step(q[i - 1], i - 1);
    }
    q
}

/// Clause 6.5: the round key is the low twelve bytes of Q.
fn round_key(q: u128) -> [u8; 12] {
    from_fn(|j| (q >> (8 * j)) as u8)
}

pub fn schedule(key: &[u8; 16]) -> Schedule {
    let q = q_values(key);
    Schedule(from_fn(|i| round_key(q[i])))
}

/// Clause 6.4: the function f.
fn f(x: u32, key: &[u8; 12]) -> u32 {
    let x = x.to_le_bytes(); // X_j at index j
    let mut t = 0u8;
    let mut y = 0;
    for j in 0..12 {
        t = S[(x[EXPANSION[j]].wrapping_add(key[j]) ^ t) as usize];
        if j >= 4 {
            y |= SPREAD[j - 4][(t & 15) as usize];
        }
    }
    y
}

thread_local! {
    static RUNS: Cell<usize> = const { Cell::new(0) };
}

/// How many blocks this thread has encrypted and decrypted so far.
pub fn runs() -> usize {
    RUNS.with(Cell::get)
}

/// Clause 6.2: sixteen rounds, then the swap of the halves.
fn rounds(keys: impl Iterator<Item = [u8; 12]>, block: &[u8; 8]) -> [u8; 8] {
    RUNS.with(|runs| runs.set(runs.get() + 1));
    let block = u64::from_be_bytes(*block);
    let (mut l, mut r) = ((block >> 32) as u32, block as u32);
    for key in keys {
        (l, r) = (r, l ^ f(r, &key));
    }
    (u64::from(r) << 32 | u64::from(l)).to_be_bytes()
}

/// Clause 6.2, with round keys made before.
pub fn encrypt_with(schedule: &Schedule, block: &[u8; 8]) -> [u8; 8] {
    rounds(schedule.0.iter().copied(), block)
}

/// Clause 6.3, with round keys made before: the same rounds, keys backwards.
pub fn decrypt_with(schedule: &Schedule, block: &[u8; 8]) -> [u8; 8] {
    rounds(schedule.0.iter().rev().copied(), block)
}

/// Clause 6.2.
pub fn encrypt(key: &[u8; 16], block: &[u8; 8]) -> [u8; 8] {
    encrypt_with(&schedule(key), block)
}

/// Clause 6.3.
pub fn decrypt(key: &[u8; 16], block: &[u8; 8]) -> [u8; 8] {
    decrypt_with(&schedule(key), block)
}

/// Encryption with one register (02, 7), which steps after each round.
pub fn encrypt_register(key: &[u8; 16], block: &[u8; 8]) -> [u8; 8] {
    let mut q = u128::from_be_bytes(*key);
    let keys = (0..16).map(|round| {
        let key = round_key(q);
        q = step(q, round);
        key
    });
    rounds(keys, block)
}

/// Decryption with one register (02, 7): it starts from the key, to which sixteen
/// steps lead, and steps back before each round.
pub fn decrypt_register(key: &[u8; 16], block: &[u8; 8]) -> [u8; 8] {
    let mut q = u128::from_be_bytes(*key);
    let keys = (0..16).rev().map(|round| {
        q = step_back(q, round);
        round_key(q)
    });
    rounds(keys, block)
}

/// The register after so many steps (02, 7), which begin anew after each sixteen.
pub fn register(key: &[u8; 16], steps: u64) -> [u8; 16] {
    let steps = (steps % 16) as usize;
    let q = (0..steps).fold(u128::from_be_bytes(*key), step);
    q.to_be_bytes()
}

#[cfg(test)]
mod tests {
    use super::*;
    use crate::random::Random;

    #[test]
    fn s_is_a_permutation() {
        let inverse = inverse_s();
        for x in 0..=255u8 {
            assert_eq!(inverse[S[x as usize] as usize], x);
            assert_eq!(S[inverse[x as usize] as usize], x);
        }
    }

    /// Clause 6.4.4 describes the permutation twice; both must agree.
    #[test]
    fn pi_is_as_its_compact_description() {
        let mut random = Random::new(1);
        for _ in 0..1000 {
            let u = random.number() as u32;
            let y = (0..8).fold(0, |y, q| y | SPREAD[q][(u >> (4 * q) & 15) as usize]);
            for (j, i) in PI.iter().enumerate() {
                assert_eq!(y >> j & 1, u >> i & 1);
            }
            for m in 0..8 {
                for n in 0..4 {
                    assert_eq!(y >> (8 * n + m) & 1, u >> (4 * m + n) & 1);
                }
            }
        }
    }

    #[test]
    fn f_of_zeros() {
        assert_eq!(f(0, &[0; 12]), 0x844a189c);
    }

    #[test]
    fn zero_key_comes_back_to_zero() {
        assert_eq!(q_values(&[0; 16])[16], 0);
        let k2 = [
            0xf7, 0xf4, 0x8c, 0xf3, 0x1e, 0x33, 0x0a, 0x38, 0xc0, 0xdf, 0x57, 0x79,
        ];
        assert_eq!(schedule(&[0; 16]).0[1], k2);
    }

    #[test]
    fn decrypt_undoes_encrypt() {
        let mut random = Random::new(2);
        for _ in 0..10_000 {
            let key = random.bytes();
            let block = random.number().to_be_bytes();
            let cipher = encrypt(&key, &block);
            assert_ne!(cipher, block);
            assert_eq!(decrypt(&key, &cipher), block);
            assert_eq!(encrypt(&key, &decrypt(&key, &block)), block);
        }
    }

    #[test]
    fn register_turns() {
        let mut random = Random::new(11);
        for _ in 0..100 {
            let (key, block) = (random.bytes(), random.bytes());
            let mut q = u128::from_be_bytes(key);
            for steps in 0..200 {
                assert_eq!(register(&key, steps), q.to_be_bytes());
                let round = (steps % 16) as usize;
                let next = step(q, round);
                assert_eq!(step_back(next, round), q);
                assert_eq!(step(step_back(q, round), round), q);
                q = next;
            }
            assert_eq!(register(&key, u64::MAX - 15), key);
            assert_eq!(encrypt_register(&key, &block), encrypt(&key, &block));
            assert_eq!(decrypt_register(&key, &block), decrypt(&key, &block));
        }
    }

    /// Byte j of Q moves to j + a, byte 0 being the rightmost.
    #[test]
    fn steps_by_bytes() {
        let key: [u8; 16] = from_fn(|i| i as u8);
        let d = D.to_be_bytes();
        for (round, a) in A.into_iter().enumerate() {
            let next = step(u128::from_be_bytes(key), round).to_be_bytes();
            for j in 0..16 {
                let to = (j + a as usize) % 16;
                assert_eq!(next[15 - to], key[15 - j] ^ d[15 - to]);
            }
        }
    }
}
