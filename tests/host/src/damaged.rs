//! Texts that no seal gives, because their check bytes are wrong.

use crate::taa1;
use std::array::from_fn;

/// One bit flipped, counted from the left.
pub fn flipped<const N: usize>(mut bytes: [u8; N], bit: usize) -> [u8; N] {
    bytes[bit / 8] ^= 0x80 >> (bit % 8);
    bytes
}

/// A sealing key xor the version, written over and over.
pub fn under_version<const N: usize>(sealing_key: [u8; N], version: u16) -> [u8; N] {
    let version = version.to_be_bytes();
    from_fn(|i| sealing_key[i] ^ version[i % 2])
}

/// Fifteen bytes sealed as they are.
pub fn sealed(cipher_key: &[u8; 16], bytes: [u8; 15]) -> [u8; 15] {
    let block = from_fn(|i| if i < 15 { bytes[i] } else { 0 });
    let text = taa1::bl1(cipher_key, &block);
    from_fn(|i| text[if i < 7 { i } else { i + 1 }]) // byte 8 is left out
}
