//! The time of one operation: the engine, osmo-tetra's C and the independent
//! implementation in Rust, in one run on the same inputs.

#[macro_use]
mod texts;
#[cfg(peer)]
mod osmo;
mod ours;
mod rust;

use host::both::{self, AUTHENTICATION, CHALLENGE, MOST, RING};
use host::random::Random;
use interface::{SHEET_RECORD_BYTES, SHEET_VALUE_BYTES};
use std::array::from_fn;
use std::hint::black_box;
use std::time::{Duration, Instant};

#[rustfmt::skip]
const ROWS: [&str; 24] = [
    "schedule", "block, keys laid out", "schedule and block",
    "register and block", "schedule, decrypted", "register, decrypted", FLIP_ROW,
    "TA11", "TA31", "TA32", "TA51", "TA52", "TA81", "TA82", "TA91", "TA92",
    "record sealed", "record opened", "record into columns", "record from columns",
    "TA12, one by one", "TA12, in a class",
    "TA11, one by one", "TA11, in a sheet",
];
/// Its steps are the flips of one tally.
const FLIP_ROW: &str = "flip in a tally";
const TALLY: usize = 32;
/// A key and a block.
const TALLY_RECORD: usize = 24;
/// The last rows, whose steps are the records of one book, class or sheet.
const LIST_ROWS: usize = 8;
const RECORDS: usize = MOST;
const STEPS: usize = 2_000;
const ROUNDS: usize = 300;
const VERSION: u16 = 0x0102;
const NUMBER: u16 = 3;
/// With this one the keys are osmo-tetra's too; its responses are not.
const KEY_MASK: u16 = 0x6db6;
const RESPONSE_MASK: u16 = 0x9240;

/// One round of a contender in one row: all its steps, and a block that depends
/// on each of them. None where the contender has no such operation.
type Round<'a> = Option<Box<dyn FnMut() -> [u8; 8] + 'a>>;
type Rounds<'a> = Vec<Round<'a>>;

struct Inputs {
    keys: Vec<[u8; 16]>,
    block: [u8; 8],
    text: [u8; 15],
    ring: [u8; RING],
    plain: Vec<u8>,
    sealed: Vec<u8>,
    /// Those of a class; its session key is the first key.
    challenges: Vec<u8>,
    /// A chain: the first key, a seed, and TA11 of the record before and the seed.
    sheet: Vec<u8>,
    /// Keys and blocks.
    tally: Vec<u8>,
}

/// A sheet's record of a given key.
fn given(key: &[u8]) -> Vec<u8> {
    let mut record = vec![0; SHEET_RECORD_BYTES];
    record[5] = key.len() as u8;
    record[6..6 + key.len()].copy_from_slice(key);
    record
}

/// Record i of a chain: TA11 of the key before it and the seed.
fn derived(i: usize) -> Vec<u8> {
    let mut record = vec![0; SHEET_RECORD_BYTES];
    record[0] = 1;
    let before = if i == 2 { 0 } else { i as u16 - 1 };
    record[1..3].copy_from_slice(&before.to_be_bytes());
    record[4] = 1;
    record
}

impl Inputs {
    /// One schedule after the other. Their layouts differ, so nothing is
    /// chained; each step keeps its result from being optimised away.
    fn schedules<'a>(&'a self, mut step: impl FnMut(&[u8; 16]) + 'a) -> Round<'a> {
        Some(Box::new(move || {
            for key in &self.keys {
                step(key);
            }
            self.block
        }))
    }

    /// Each block is the last one's result.
    fn blocks<'a>(&'a self, mut step: impl FnMut(&mut [u8; 8]) + 'a) -> Round<'a> {
        Some(Box::new(move || {
            let mut block = self.block;
            for _ in 0..STEPS {
                step(&mut block);
            }
            block
        }))
    }

    /// Each block is the last one's result, and half of the key is too.
    fn calls<'a>(&'a self, mut step: impl FnMut(&[u8; 16], &mut [u8; 8]) + 'a) -> Round<'a> {
        Some(Box::new(move || {
            let mut block = self.block;
            let mut key = self.keys[0];
            for _ in 0..STEPS {
                step(&key, &mut block);
                key[..8].copy_from_slice(&block);
            }
            block
        }))
    }

    /// Each step has the next key's index, and its data from the last result.
    fn texts<'a>(&'a self, mut step: impl FnMut(usize, &mut [u8; 15]) + 'a) -> Round<'a> {
        Some(Box::new(move || {
            let mut text = self.text;
            for i in 0..STEPS {
                step(i, &mut text);
            }
            from_fn(|i| text[i])
        }))
    }

    /// The flips of a tally, one block after the other: round keys once for a
    /// record, then its block and the block with each bit flipped.
    fn flips<'a, K>(
        &'a self,
        schedule: impl Fn(&[u8; 16]) -> K + 'a,
        encrypt: impl Fn(&mut K, [u8; 8]) -> [u8; 8] + 'a,
    ) -> Round<'a> {
        Some(Box::new(move || {
            let (mut total, mut least, mut greatest) = (0, 64, 0);
            for record in self.tally.chunks_exact(TALLY_RECORD) {
                let mut keys = schedule(&from_fn(|i| record[i]));
                let block: [u8; 8] = from_fn(|i| record[16 + i]);
                let output = u64::from_be_bytes(encrypt(&mut keys, block));
                for i in 0..64 {
                    let flipped = u64::from_be_bytes(block) ^ (1 << i);
                    let other = encrypt(&mut keys, flipped.to_be_bytes());
                    let change = (output ^ u64::from_be_bytes(other)).count_ones();
                    total += change;
                    least = change.min(least);
                    greatest = change.max(greatest);
                }
            }
            figures(total, least, greatest)
        }))
    }

    /// A book or class into records of this size. Identities and responses are not
    /// compared: osmo-tetra has no TA61, and other responses.
    fn book<'a>(&self, size: usize, mut step: impl FnMut(&mut [u8]) + 'a) -> Round<'a> {
        let mut out = vec![0; size * RECORDS];
        Some(Box::new(move || {
            step(&mut out);
            let mut block = [0; 8];
            for record in out.chunks_exact(size) {
                for i in 0..8 {
                    block[i] ^= record[6 + i].rotate_left(1) ^ record[size - 8 + i];
                }
            }
            block
        }))
    }

    /// A plain book rearranged. To look at each byte would take as long again.
    fn rearranged<'a>(&self, mut step: impl FnMut(&mut [u8]) + 'a) -> Round<'a> {
        let mut out = vec![0; self.plain.len()];
        Some(Box::new(move || {
            step(black_box(&mut out));
            std::array::from_fn(|i| out[i])
        }))
    }

    /// The challenges of the class one by one: each step gives a response and a key.
    fn challenges<'a>(
        &'a self,
        mut step: impl FnMut(&[u8]) -> ([u8; 4], [u8; 10]) + 'a,
    ) -> Round<'a> {
        self.book(AUTHENTICATION, move |out| {
            let challenges = self.challenges.chunks(CHALLENGE);
            for (challenge, record) in challenges.zip(out.chunks_mut(AUTHENTICATION)) {
                let (response, key) = step(challenge);
                record[..4].copy_from_slice(&response);
                record[4..].copy_from_slice(&key);
            }
        })
    }

    /// The chain of the sheet one by one: each step derives the next key from the
    /// last one and the seed.
    fn chain<'a>(&'a self, mut step: impl FnMut(&[u8], &[u8]) -> [u8; 16] + 'a) -> Round<'a> {
        let key = |i: usize| &self.sheet[SHEET_RECORD_BYTES * i + 6..SHEET_RECORD_BYTES * (i + 1)];
        self.book(SHEET_VALUE_BYTES, move |out| {
            let mut values = out.chunks_exact_mut(SHEET_VALUE_BYTES);
            let (root, seed) = (key(0), key(1));
            for given in [root, seed] {
                values.next().unwrap().copy_from_slice(given);
            }
            let mut last: [u8; 16] = root.try_into().unwrap();
            for value in values {
                last = step(&last, &seed[..10]);
                value.copy_from_slice(&last);
            }
        })
    }
}

/// A tally's sum and extremes as a block.
fn figures(total: u32, least: u32, greatest: u32) -> [u8; 8] {
    let [a, b, c, d] = total.to_be_bytes();
    [a, b, c, d, 0, 0, least as u8, greatest as u8]
}

/// Makes the next text of what an unseal gave. osmo-tetra tells of the checks only
/// whether one failed.
fn put(text: &mut [u8; 15], key: &[u8], number: u16, failed: bool) {
    text[..key.len()].copy_from_slice(key);
    text[13] ^= number as u8;
    text[14] ^= u8::from(failed);
}

#[cfg(peer)]
fn osmo_rounds(inputs: &Inputs) -> Rounds<'_> {
    osmo::rounds(inputs)
}

#[cfg(not(peer))]
fn osmo_rounds(_: &Inputs) -> Rounds<'_> {
    ROWS.map(|_| None).into()
}

/// The least time of a step for each contender. They take turns in short
/// rounds, so that noise hits all alike.
fn least(row: &str, steps: usize, mut contenders: [&mut Round; 3]) -> [Option<f64>; 3] {
    let mut least = [None::<Duration>; 3];
    let mut wanted = None;
    for _ in 0..ROUNDS {
        for (round, least) in contenders.iter_mut().zip(&mut least) {
            let round = match round {
                Some(round) => round,
                None => continue,
            };
            let start = Instant::now();
            let block = round();
            let time = start.elapsed();
            let agreed = *wanted.get_or_insert(block) == block;
            assert!(agreed, "{row}: the contenders differ");
            *least = Some(least.map_or(time, |least| least.min(time)));
        }
    }
    least.map(|time| Some(time?.as_secs_f64() * 1e9 / steps as f64))
}

fn main() {
    let mut random = Random::from_environment();
    let (ring, plain) = (random.bytes(), random.plain_book(RECORDS));
    let keys: Vec<[u8; 16]> = (0..STEPS).map(|_| random.bytes()).collect();
    let start = [given(&keys[0]), given(&random.bytes::<10>())];
    let inputs = Inputs {
        sheet: start
            .into_iter()
            .chain((2..RECORDS).map(derived))
            .flatten()
            .collect(),
        keys,
        block: random.bytes(),
        text: random.bytes(),
        sealed: both::sealed(&ring, &plain),
        ring,
        plain,
        challenges: random.vec(CHALLENGE * RECORDS),
        tally: random.vec(TALLY_RECORD * TALLY),
    };
    let mut ours = ours::rounds(&inputs);
    let mut osmo = osmo_rounds(&inputs);
    let mut rust = rust::rounds(&inputs);

    println!("ns for each operation, the least of {ROUNDS} rounds");
    println!(
        "{:20} {:>8} {:>12} {:>8} {:>16} {:>10}",
        "", "ours", "osmo-tetra", "Rust", "ours/osmo-tetra", "ours/Rust"
    );
    let mut times = [None; ROWS.len()];
    for (i, row) in ROWS.into_iter().enumerate() {
        let steps = match i {
            _ if row == FLIP_ROW => 64 * TALLY,
            _ if i >= ROWS.len() - LIST_ROWS => RECORDS,
            _ => STEPS,
        };
        let [a, b, c] = least(row, steps, [&mut ours[i], &mut osmo[i], &mut rust[i]]);
        let ratio = |x: Option<f64>| Some(a? / x?);
        println!(
            "{row:20} {:>8} {:>12} {:>8} {:>16} {:>10}",
            shown(a, 1),
            shown(b, 1),
            shown(c, 1),
            shown(ratio(b), 2),
            shown(ratio(c), 2),
        );
        times[i] = a;
    }
    if let [_, _, Some(laid), Some(turned), Some(laid_back), Some(turned_back), ..] = times {
        let (on, back) = (turned / laid, turned_back / laid_back);
        println!("ours: one register takes {on:.2} times the round keys, decrypting {back:.2}");
    }
    let time = |row| times[ROWS.iter().position(|&r| r == row)?];
    if let (Some(sealed), Some(filed)) = (time("record sealed"), time("record into columns")) {
        let ratio = shown(Some(sealed / filed), 0);
        println!("ours: a book of {RECORDS} is filed {ratio} times as fast as it is sealed");
    }
    let [.., challenge, class, derivation, sheet] = times;
    for (list, parts, all, one_by_one) in [
        ("class", "challenges", class, challenge),
        ("sheet", "derivations", sheet, derivation),
    ] {
        if let (Some(all), Some(one_by_one)) = (all, one_by_one) {
            let ratio = shown(Some(all / one_by_one), 2);
            println!("ours: a {list} of {RECORDS} takes {ratio} times its {parts} one by one");
        }
    }
}

fn shown(number: Option<f64>, places: usize) -> String {
    number.map_or("-".into(), |number| format!("{number:.places$}"))
}
