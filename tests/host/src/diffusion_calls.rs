//! The diffusion tally.

use crate::edges::{self, counts, list_lengths, long_lists};
use host::both::{Start, MOST};
use host::damaged::flipped;
use host::diffusion::{self, refused, Diffusion, RECORD};
use host::engine::{self, null};
use host::random::Random;
use host::tally::{Group, Tally};
use std::array::from_fn;

pub fn run(tally: &mut Tally, random: &mut Random) {
    let bytes = random.vec(RECORD * (MOST + 3));
    tally.group("diffusion (random)", |group| {
        for _ in 0..300 {
            let count = random.below(9);
            let records = random.vec(RECORD * count);
            compare(group, &records);
        }
    });
    tally.group("diffusion (numbers of records)", |group| {
        for count in counts() {
            compare(group, &bytes[..RECORD * count]);
        }
    });
    tally.group("diffusion (lengths)", |group| {
        for length in list_lengths(RECORD) {
            let refusal = match length {
                length if length > RECORD * MOST => 1,
                length if length % RECORD != 0 => 2,
                _ => 0,
            };
            match refusal {
                0 => compare(group, &bytes[..length]),
                _ => want(group, &bytes[..length], || refused(refusal)),
            }
        }
        long_lists(RECORD, |records| want(group, records, || refused(1)));
        want(group, null(), || refused(0));
    });
    tally.group("diffusion (beside single encryptions)", |group| {
        for count in (1..=9).chain([50, MOST]) {
            let records = &bytes[..RECORD * count];
            want(group, records, || counted(records));
        }
    });
    tally.group("diffusion (zeros, ones, single bits)", |group| {
        for record in edges::strings::<RECORD>() {
            compare(group, &record);
        }
        compare(group, &edges::strings::<RECORD>().concat());
    });
    // So the records with the least and the greatest change come to every place.
    tally.group("diffusion (each record at every place)", |group| {
        for count in 2..=9 {
            let mut records: Vec<&[u8]> = bytes.chunks(RECORD).take(count).collect();
            for _ in 0..count {
                records.rotate_left(1);
                compare(group, &records.concat());
            }
        }
    });
    tally.group("diffusion (repeated and reordered records)", |group| {
        for count in [2, 3, 4, 5, MOST] {
            let mut records: Vec<&[u8]> = bytes.chunks(RECORD).take(count).collect();
            let wanted = || diffusion::diffusion(&bytes[..RECORD * count]);
            for _ in 0..3 {
                random.shuffle(&mut records);
                want(group, &records.concat(), wanted);
            }
            compare(group, &bytes[..RECORD].repeat(count));
        }
    });
}

fn compare(group: &mut Group, records: &[u8]) {
    want(group, records, || diffusion::diffusion(records));
}

fn want(group: &mut Group, records: &[u8], wanted: impl FnOnce() -> Diffusion) {
    if group.turn() {
        let got = engine::diffusion(records);
        group.same("diffusion", &[("records", &Start(records))], got, wanted());
    }
}

/// What the engine's single encryptions give, bit after bit.
fn counted(records: &[u8]) -> Diffusion {
    let mut tally = Diffusion {
        least: u32::MAX,
        ..refused(0)
    };
    for record in records.chunks_exact(RECORD) {
        let (key, block) = record.split_at(16);
        let right = engine::encrypt(key, block).bytes;
        for bit in 0..64 {
            let other = flipped::<8>(from_fn(|i| block[i]), bit);
            let other = engine::encrypt(key, &other).bytes;
            let change = (0..8).map(|i| (right[i] ^ other[i]).count_ones()).sum();
            tally.flips += 1;
            tally.total += change;
            tally.least = tally.least.min(change);
            tally.greatest = tally.greatest.max(change);
        }
    }
    tally
}
