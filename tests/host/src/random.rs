//! Random inputs from a seed, the same on every run.

use crate::both::PLAIN;
use crate::settings;

/// Splitmix64.
pub struct Random(u64);

impl Random {
    pub fn new(seed: u64) -> Self {
        Random(seed)
    }

    /// The seed is the environment's `TAA1_SEED`, or 1; it is printed, so that
    /// a run can be repeated.
    pub fn from_environment() -> Self {
        let seed = settings::variable("TAA1_SEED", "a number", 1);
        println!("seed {seed}");
        Random::new(seed)
    }

    pub fn number(&mut self) -> u64 {
        self.0 = self.0.wrapping_add(0x9e37_79b9_7f4a_7c15);
        let mut z = self.0;
        z = (z ^ (z >> 30)).wrapping_mul(0xbf58_476d_1ce4_e5b9);
        z = (z ^ (z >> 27)).wrapping_mul(0x94d0_49bb_1331_11eb);
        z ^ (z >> 31)
    }

    pub fn fill(&mut self, bytes: &mut [u8]) {
        for part in bytes.chunks_mut(8) {
            part.copy_from_slice(&self.number().to_le_bytes()[..part.len()]);
        }
    }

    pub fn bytes<const N: usize>(&mut self) -> [u8; N] {
        let mut bytes = [0; N];
        self.fill(&mut bytes);
        bytes
    }

    /// A number from 0 up to and without the limit.
    pub fn below(&mut self, limit: usize) -> usize {
        (self.number() % limit as u64) as usize
    }

    pub fn vec(&mut self, length: usize) -> Vec<u8> {
        let mut bytes = vec![0; length];
        self.fill(&mut bytes);
        bytes
    }

    /// Puts a list into any order.
    pub fn shuffle<T>(&mut self, list: &mut [T]) {
        for i in 1..list.len() {
            list.swap(i, self.below(i + 1));
        }
    }

    /// A well-formed plain record of this kind.
    pub fn record(&mut self, kind: u8) -> [u8; PLAIN] {
        let mut record = self.bytes();
        record[0] = kind;
        match kind {
            1 => record[16..].fill(0),
            2 | 5 => (record[16], record[17]) = (0, record[17] % 32),
            _ => {}
        }
        record
    }

    /// A well-formed plain book of random kinds.
    pub fn plain_book(&mut self, records: usize) -> Vec<u8> {
        let record = |_| {
            let kind = 1 + self.below(6) as u8;
            self.record(kind)
        };
        (0..records).flat_map(record).collect()
    }

    /// A mask with so many ones.
    pub fn mask(&mut self, ones: u32) -> u16 {
        self.grown(0, ones)
    }

    /// A response mask and a key mask: four ones and ten, none shared.
    pub fn masks(&mut self) -> (u16, u16) {
        let key_mask = self.mask(10);
        let both = self.grown(key_mask, 14);
        (both ^ key_mask, key_mask)
    }

    fn grown(&mut self, mut mask: u16, ones: u32) -> u16 {
        while mask.count_ones() < ones {
            mask |= 1 << (self.number() % 16);
        }
        mask
    }
}
