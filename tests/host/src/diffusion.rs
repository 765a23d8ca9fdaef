//! The diffusion tally, from document 02, request 12.

use crate::books::count;
use crate::hurdle::{encrypt_with, schedule};
use std::array::from_fn;

/// Bytes of a record: key, then block.
pub const RECORD: usize = 24;

/// Answer of the tally.
#[derive(Debug, Clone, Copy, PartialEq, Eq)]
pub struct Diffusion {
    pub refusal: u32,
    pub flips: u32,
    pub total: u32,
    pub least: u32,
    pub greatest: u32,
}

/// A refusal's number, or 0 for no records, and four zeros.
pub fn refused(refusal: u32) -> Diffusion {
    Diffusion {
        refusal,
        flips: 0,
        total: 0,
        least: 0,
        greatest: 0,
    }
}

/// How many output bits change with each of the 64 block bits.
fn changes(record: &[u8]) -> Vec<u32> {
    let schedule = schedule(&from_fn(|i| record[i]));
    let block = u64::from_be_bytes(from_fn(|i| record[16 + i]));
    let encrypted = |block: u64| {
        let block = encrypt_with(&schedule, &block.to_be_bytes());
        u64::from_be_bytes(block)
    };
    let right = encrypted(block);
    let change = |bit: u64| (encrypted(block ^ 1 << bit) ^ right).count_ones();
    (0..64).map(change).collect()
}

/// Sums and extremes over the changes of all records, in one list.
pub fn diffusion(records: &[u8]) -> Diffusion {
    let refusal = count(records.len(), RECORD).map_or_else(|(refusal, _)| refusal, |_| 0);
    let list: Vec<u32> = match refusal {
        0 => records.chunks_exact(RECORD).flat_map(changes).collect(),
        _ => Vec::new(),
    };
    Diffusion {
        refusal,
        flips: list.len() as u32,
        total: list.iter().sum(),
        least: list.iter().min().copied().unwrap_or(0),
        greatest: list.iter().max().copied().unwrap_or(0),
    }
}

#[cfg(test)]
mod tests {
    use super::*;
    use crate::hurdle::encrypt;

    #[test]
    fn nothing_to_count() {
        assert_eq!(diffusion(&[]), refused(0));
        assert_eq!(diffusion(&[1; 1024 * RECORD + 1]), refused(1));
        assert_eq!(diffusion(&[1; 1025 * RECORD]), refused(1));
        assert_eq!(diffusion(&[1; 1024 * RECORD - 1]), refused(2));
        assert_eq!(diffusion(&[1; 23]), refused(2));
    }

    #[test]
    fn one_record_bit_by_bit() {
        let record: [u8; RECORD] = from_fn(|i| (i * i) as u8);
        let key = from_fn(|i| record[i]);
        let block: [u8; 8] = from_fn(|i| record[16 + i]);
        let (mut total, mut least, mut greatest) = (0, 64, 0);
        for bit in 0..64 {
            let mut other = block;
            other[bit / 8] ^= 0x80 >> (bit % 8);
            let (a, b) = (encrypt(&key, &block), encrypt(&key, &other));
            let change = (0..8).map(|i| (a[i] ^ b[i]).count_ones()).sum();
            total += change;
            least = least.min(change);
            greatest = greatest.max(change);
        }
        let wanted = Diffusion {
            refusal: 0,
            flips: 64,
            total,
            least,
            greatest,
        };
        assert_eq!(diffusion(&record), wanted);
        let twice = Diffusion {
            flips: 128,
            total: 2 * total,
            ..wanted
        };
        assert_eq!(diffusion(&record.repeat(2)), twice);
        assert!((1..=64).contains(&least) && (20 * 64..44 * 64).contains(&total));
    }
}
