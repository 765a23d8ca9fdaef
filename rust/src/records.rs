// SPDX-License-Identifier: MIT
//! One record of a book, plain or sealed, as its fields.

use crate::{
    check_plain, KeyNumber, Kind, Refusal, Version, CIPHER_KEY_BYTES, GROUP_KEY_BYTES,
    PLAIN_RECORD_BYTES, RECORD_IDENTITY_AT, RECORD_KEY_AT, RECORD_KIND_AT, RECORD_NUMBER_AT,
    RECORD_TEXT_AT, RECORD_VERSION_AT, SEALED_RECORD_BYTES, SEALED_TEXT_BYTES,
};
use std::array::from_fn;

/// The key of a plain entry by its kind, with the number that some kinds have.
#[derive(Clone, Copy, Debug, PartialEq, Eq)]
pub enum EntryKey {
    /// Kind 1.
    Ta31([u8; CIPHER_KEY_BYTES]),
    /// Kind 2; the number is 0 to 31.
    Ta51([u8; CIPHER_KEY_BYTES], KeyNumber),
    /// Kind 3.
    Ta81([u8; CIPHER_KEY_BYTES], KeyNumber),
    /// Kind 4.
    Ta91([u8; GROUP_KEY_BYTES]),
    /// Kind 5; the number is 0 to 31.
    Ta51G([u8; CIPHER_KEY_BYTES], KeyNumber),
    /// Kind 6.
    Ta81G([u8; CIPHER_KEY_BYTES], KeyNumber),
}

/// One entry of a plain book.
///
/// ```
/// use taa1::{EntryKey, KeyNumber, Kind, PlainEntry, Version};
///
/// let entry = PlainEntry {
///     identity: 0x123456,
///     version: Version(7),
///     key: EntryKey::Ta51([1; 10], KeyNumber(3)),
/// };
/// let bytes = entry.to_bytes()?;
/// assert_eq!(PlainEntry::from_bytes(&bytes)?, entry);
/// assert_eq!(entry.kind(), Kind::Ta51);
/// # Ok::<(), taa1::Refusal>(())
/// ```
#[derive(Clone, Copy, Debug, PartialEq, Eq)]
pub struct PlainEntry {
    /// 24 bits.
    pub identity: u32,
    /// The version under which the key is sealed.
    pub version: Version,
    /// The key, its kind, and its number where the kind has one.
    pub key: EntryKey,
}

/// One record of a sealed book.
#[derive(Clone, Copy, Debug, PartialEq, Eq)]
pub struct SealedRecord {
    /// By which call and under which key of the ring it is sealed.
    pub kind: Kind,
    /// The identity, encrypted by [`ta61`](crate::ta61): 24 bits.
    pub encrypted_identity: u32,
    /// The version under which the key is sealed.
    pub version: Version,
    /// The sealed text.
    pub text: [u8; SEALED_TEXT_BYTES],
}

impl EntryKey {
    /// Its kind.
    pub fn kind(&self) -> Kind {
        match self {
            EntryKey::Ta31(..) => Kind::Ta31,
            EntryKey::Ta51(..) => Kind::Ta51,
            EntryKey::Ta81(..) => Kind::Ta81,
            EntryKey::Ta91(..) => Kind::Ta91,
            EntryKey::Ta51G(..) => Kind::Ta51G,
            EntryKey::Ta81G(..) => Kind::Ta81G,
        }
    }

    /// The key's bytes, 10 or, of kind 4, 12.
    pub fn bytes(&self) -> &[u8] {
        match self {
            EntryKey::Ta31(key)
            | EntryKey::Ta51(key, _)
            | EntryKey::Ta81(key, _)
            | EntryKey::Ta51G(key, _)
            | EntryKey::Ta81G(key, _) => key,
            EntryKey::Ta91(key) => key,
        }
    }

    /// The number, if its kind has one.
    pub fn number(&self) -> Option<KeyNumber> {
        match self {
            EntryKey::Ta31(_) | EntryKey::Ta91(_) => None,
            EntryKey::Ta51(_, number)
            | EntryKey::Ta81(_, number)
            | EntryKey::Ta51G(_, number)
            | EntryKey::Ta81G(_, number) => Some(*number),
        }
    }
}

impl PlainEntry {
    /// Its kind.
    pub fn kind(&self) -> Kind {
        self.key.kind()
    }

    /// Its number, if its kind has one.
    pub fn number(&self) -> Option<KeyNumber> {
        self.key.number()
    }

    /// The record. Refuses an identity of more than 24 bits ([`Refusal::ValueWide`]), and
    /// what [`check_plain`] refuses: a number above 31 of kind 2 or 5.
    pub fn to_bytes(&self) -> Result<[u8; PLAIN_RECORD_BYTES], Refusal> {
        let mut record = [0; PLAIN_RECORD_BYTES];
        put_head(&mut record, self.kind(), self.identity, self.version)?;
        if let Some(KeyNumber(number)) = self.number() {
            let number = match self.kind() {
                // It has one byte, and a wider number is above 31 as well.
                Kind::Ta51 | Kind::Ta51G => number.min(u8::MAX.into()),
                _ => number,
            };
            record[RECORD_NUMBER_AT..].copy_from_slice(&number.to_be_bytes());
        }
        let key = self.key.bytes();
        record[RECORD_KEY_AT..RECORD_KEY_AT + key.len()].copy_from_slice(key);
        check_plain(&record)?;
        Ok(record)
    }

    /// The entry of a record. Refuses one that has not 18 bytes
    /// ([`Refusal::WrongLength`]), and what [`check_plain`] refuses: a byte that is no kind,
    /// one that has to be zero and is not, a number above 31 of kind 2 or 5.
    pub fn from_bytes(record: &[u8]) -> Result<Self, Refusal> {
        let (kind, identity, version) = head(record, PLAIN_RECORD_BYTES)?;
        check_plain(record)?;
        let key = from_fn(|i| record[RECORD_KEY_AT + i]);
        let number = KeyNumber(number(&record[RECORD_NUMBER_AT..]) as u16);
        let key = match kind {
            Kind::Ta31 => EntryKey::Ta31(key),
            Kind::Ta51 => EntryKey::Ta51(key, number),
            Kind::Ta81 => EntryKey::Ta81(key, number),
            Kind::Ta91 => EntryKey::Ta91(from_fn(|i| record[RECORD_KEY_AT + i])),
            Kind::Ta51G => EntryKey::Ta51G(key, number),
            Kind::Ta81G => EntryKey::Ta81G(key, number),
        };
        Ok(PlainEntry {
            identity,
            version,
            key,
        })
    }
}

impl SealedRecord {
    /// The record. Refuses an identity of more than 24 bits ([`Refusal::ValueWide`]).
    pub fn to_bytes(&self) -> Result<[u8; SEALED_RECORD_BYTES], Refusal> {
        let mut record = [0; SEALED_RECORD_BYTES];
        put_head(
            &mut record,
            self.kind,
            self.encrypted_identity,
            self.version,
        )?;
        record[RECORD_TEXT_AT..].copy_from_slice(&self.text);
        Ok(record)
    }

    /// The fields of a record. Refuses one that has not 21 bytes
    /// ([`Refusal::WrongLength`]) and a byte that is no kind ([`Refusal::WrongKind`]); it
    /// does not open the text.
    pub fn from_bytes(record: &[u8]) -> Result<Self, Refusal> {
        let (kind, encrypted_identity, version) = head(record, SEALED_RECORD_BYTES)?;
        Ok(SealedRecord {
            kind,
            encrypted_identity,
            version,
            text: from_fn(|i| record[RECORD_TEXT_AT + i]),
        })
    }
}

/// A number, the high byte first.
fn number(bytes: &[u8]) -> u32 {
    let next = |number: u32, byte: &u8| number << 8 | u32::from(*byte);
    bytes.iter().fold(0, next)
}

/// The parts that plain and sealed records have alike.
fn head(record: &[u8], length: usize) -> Result<(Kind, u32, Version), Refusal> {
    if record.len() != length {
        return Err(Refusal::WrongLength);
    }
    let kind = Kind::try_from(record[RECORD_KIND_AT])?;
    let identity = number(&record[RECORD_IDENTITY_AT..RECORD_VERSION_AT]);
    let version = number(&record[RECORD_VERSION_AT..RECORD_KEY_AT]);
    Ok((kind, identity, Version(version as u16)))
}

fn put_head(record: &mut [u8], kind: Kind, identity: u32, version: Version) -> Result<(), Refusal> {
    let [high, identity @ ..] = identity.to_be_bytes();
    if high != 0 {
        return Err(Refusal::ValueWide);
    }
    record[RECORD_KIND_AT] = kind.into();
    record[RECORD_IDENTITY_AT..RECORD_VERSION_AT].copy_from_slice(&identity);
    record[RECORD_VERSION_AT..RECORD_KEY_AT].copy_from_slice(&version.0.to_be_bytes());
    Ok(())
}
