//! Inputs at their edges.

use host::both::MOST;
use host::damaged::flipped;
use host::engine::null;
use host::random::Random;
use std::array::from_fn;

const LONGEST: usize = 40;

/// Checks strings of right and wrong lengths: one at a time with every length
/// up to 40, with lengths whose low bits are right, and null; two at a time
/// with every pair of lengths up to 40; and all empty or null.
pub fn lengths<const N: usize>(
    random: &mut Random,
    right: [usize; N],
    mut check: impl FnMut([&[u8]; N]),
) {
    let bytes = right.map(|length| {
        let mut bytes = vec![0; 65_536 + length];
        random.fill(&mut bytes);
        bytes
    });
    let cut = |lengths: [usize; N]| from_fn(|i| &bytes[i][..lengths[i]]);
    for i in 0..N {
        let mut lengths = right;
        for length in (0..=LONGEST).chain([256 + right[i], 65_536 + right[i]]) {
            lengths[i] = length;
            check(cut(lengths));
        }
        let mut strings = cut(right);
        strings[i] = null();
        check(strings);
        for j in 0..i {
            let mut lengths = right;
            for pair in 0..(LONGEST + 1).pow(2) {
                lengths[i] = pair / (LONGEST + 1);
                lengths[j] = pair % (LONGEST + 1);
                check(cut(lengths));
            }
        }
    }
    check([&[]; N]);
    check([null(); N]);
}

/// Numbers of records: few, the most and some fewer, and one more. Books and classes
/// go four at a time, then the rest: every rest is there, after few and many.
pub fn counts() -> impl Iterator<Item = usize> {
    (0..=9).chain(MOST - 4..=MOST + 1)
}

/// Lengths of lists of records of so many bytes: short ones, and around the most
/// records.
pub fn list_lengths(size: usize) -> impl Iterator<Item = usize> {
    (0..=64).chain(size * MOST - 30..size * MOST + 30)
}

/// Lists of zeros that are too long, but whose low bits would be right.
pub fn long_lists(size: usize, mut check: impl FnMut(&[u8])) {
    let zeros = vec![0; (1 << 24) + size];
    for bits in [15, 16, 20, 24] {
        for length in [0, size] {
            check(&zeros[..(1 << bits) + length]);
        }
    }
}

/// Outputs: none, one byte short, exact, one byte longer, and much longer.
pub fn rooms(need: usize) -> [usize; 5] {
    [0, need.saturating_sub(1), need, need + 1, need + 50]
}

/// All zeros, all ones, and each single bit.
pub fn strings<const N: usize>() -> Vec<[u8; N]> {
    let singles = (0..8 * N).map(|bit| flipped([0; N], bit));
    [[0; N], [0xff; N]].into_iter().chain(singles).collect()
}

/// Values for a field of so many bits, below 64: around its limit, each single
/// bit of 64, all ones, and random ones that fit and that don't.
pub fn values(random: &mut Random, bits: u64) -> Vec<u64> {
    let limit = (1 << bits) - 1;
    let number = random.number();
    let few = [
        0,
        limit,
        limit + 2,
        !limit,
        u64::MAX,
        number & limit,
        number,
    ];
    few.into_iter().chain((0..64).map(|bit| 1 << bit)).collect()
}

/// A few of those, for calls that have other edges beside.
pub fn few_values(bits: u64) -> [u64; 4] {
    let limit = (1 << bits) - 1;
    [0, limit, limit + 1, u64::MAX]
}
