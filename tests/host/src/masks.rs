//! Pairs of a response mask and a key mask.

use host::random::Random;

/// Right ones, wrong counts, shared bits, and both faults at once.
pub const FEW: [(u16, u16); 11] = [
    (0x000f, 0xffc0),
    (0x9240, 0x6db6),
    (0x0007, 0xffc0),
    (0x001f, 0xffc0),
    (0x000f, 0xff80),
    (0x000f, 0xffe0),
    (0x000f, 0xffc8),
    (0x000f, 0x03ff),
    (0x00f8, 0xffc0),
    (0, 0),
    (0xffff, 0xffff),
];

fn with_ones(ones: u32) -> impl Iterator<Item = u16> {
    (0..=u16::MAX).filter(move |mask| mask.count_ones() == ones)
}

/// Every right pair.
pub fn right() -> impl Iterator<Item = (u16, u16)> {
    with_ones(4).flat_map(|response_mask| {
        with_ones(10)
            .filter(move |key_mask| response_mask & key_mask == 0)
            .map(move |key_mask| (response_mask, key_mask))
    })
}

/// Every mask beside a right one, on either side.
pub fn each_beside(pair: (u16, u16)) -> impl Iterator<Item = (u16, u16)> {
    let (response_mask, key_mask) = pair;
    (0..=u16::MAX).flat_map(move |mask| [(mask, key_mask), (response_mask, mask)])
}

/// Every pair of counts, shared bits or none as it falls out.
pub fn counts(random: &mut Random) -> impl Iterator<Item = (u16, u16)> + '_ {
    (0..=16)
        .flat_map(|first| (0..=16).map(move |second| (first, second)))
        .map(|(first, second)| (random.mask(first), random.mask(second)))
}

/// From a right pair: the right counts with exactly one bit shared, each way.
pub fn one_shared(pair: (u16, u16)) -> impl Iterator<Item = (u16, u16)> {
    let (response_mask, key_mask) = pair;
    let bits = |mask: u16| {
        (0..16)
            .map(|i| 1u16 << i)
            .filter(move |bit| mask & bit != 0)
    };
    bits(response_mask).flat_map(move |r| {
        bits(key_mask).flat_map(move |k| {
            [
                (response_mask, key_mask ^ r ^ k),
                (response_mask ^ r ^ k, key_mask),
            ]
        })
    })
}
