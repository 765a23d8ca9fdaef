// SPDX-License-Identifier: MIT
//! The TAA1 engine for Rust hosts: safe functions over `libengine.a`.
//!
//! A byte string may have any length: the engine refuses a wrong one. The calls
//! share nothing, so any number of threads may make them at once. The first call panics if
//! the archive is of a release with another first number than this crate's [`VERSION`].
//!
//! **Not for operational keys**: the engine is made for examinations. It is not
//! constant-time, and it erases no key from memory.
//!
//! # Records
//!
//! A book is up to [`MOST_RECORDS`] records, one after the other; numbers have the high
//! byte first. A plain record has a kind (1 byte), an identity (3), a version (2) and a
//! body (12):
//!
//! | kind | body |
//! |---|---|
//! | 1 ([`ta31`] under D) | key of 10 bytes, two zero bytes |
//! | 2 ([`ta51`] under O), 5 (under G) | key of 10 bytes, a zero byte, a number of 0 to 31 |
//! | 3 ([`ta81`] under O), 6 (under G) | key of 10 bytes, a number of two bytes |
//! | 4 ([`ta91`] under O) | group key of 12 bytes |
//!
//! A sealed record has the kind, the identity encrypted by [`ta61`] under C, the version,
//! and the sealed text of 15 bytes. The ring is D (10 bytes), O (16), C (10) and G (16).
//!
//! **A book that opens need not be undamaged.** Opening does not notice an altered
//! identity (any three bytes are the encryption of one), kind 3 altered to 4 or 4 to 3
//! (they are sealed alike), nor that records are missing, repeated, in another order or
//! of another book under the same ring. Compare with the book that was sealed where that
//! matters.

#![warn(missing_docs)]

mod checks;
pub mod raw;
mod records;
mod refusal;

use std::array::from_fn;
use std::sync::atomic::{AtomicBool, Ordering::Relaxed};

pub use checks::FailedChecks;
pub use raw::Release;
pub use records::{EntryKey, PlainEntry, SealedRecord};
pub use refusal::{BookRefusal, CountedRefusal, Refusal};

/// The release of this crate: `major.minor.patch`.
pub const VERSION: &str = env!("CARGO_PKG_VERSION");

/// Bytes of a block of HURDLE-II.
pub const BLOCK_BYTES: usize = 8;
/// Bytes of a seed.
pub const SEED_BYTES: usize = 10;
/// Bytes of a cipher key, of the common key C, and of D, which seals kind 1.
pub const CIPHER_KEY_BYTES: usize = 10;
/// Bytes of a group key.
pub const GROUP_KEY_BYTES: usize = 12;
/// Bytes of a sealed text.
pub const SEALED_TEXT_BYTES: usize = 15;
/// Bytes of a session key, of a root, of the cipher's key, of O and of G.
pub const SESSION_KEY_BYTES: usize = 16;
/// Bytes of a ring.
pub const RING_BYTES: usize = 52;
/// Bytes of a plain record.
pub const PLAIN_RECORD_BYTES: usize = 18;
/// Bytes of a sealed record.
pub const SEALED_RECORD_BYTES: usize = 21;
/// Bytes of a challenge.
pub const CHALLENGE_BYTES: usize = 10;
/// Bytes of a response and a key.
pub const AUTHENTICATION_BYTES: usize = 14;
/// Bytes of a lineage sheet's record.
pub const SHEET_RECORD_BYTES: usize = 22;
/// Bytes of what [`lineage`] gives for a record.
pub const SHEET_VALUE_BYTES: usize = 16;
/// Bytes of a key and a block.
pub const TALLY_RECORD_BYTES: usize = 24;
/// The most records of a book, a sheet or a tally, and the most challenges of a class.
pub const MOST_RECORDS: usize = 1024;
/// Bytes of a file with what a ring is made from.
pub const SITTING_BYTES: usize = 83;

/// Where a record's kind is: one byte.
pub const RECORD_KIND_AT: usize = 0;
/// Where a record's identity begins: three bytes, of a sealed record encrypted.
pub const RECORD_IDENTITY_AT: usize = 1;
/// Where a record's version begins: two bytes.
pub const RECORD_VERSION_AT: usize = 4;
/// Where a plain record's key begins: ten bytes, of kind 4 twelve.
pub const RECORD_KEY_AT: usize = 6;
/// Where the number of a plain record of kind 2, 3, 5 or 6 begins: two bytes.
pub const RECORD_NUMBER_AT: usize = 16;
/// Where a sealed record's text begins: fifteen bytes.
pub const RECORD_TEXT_AT: usize = 6;

/// How many checks a text of [`ta32`] has.
pub const TA32_CHECKS: usize = 5;
/// How many checks a text of [`ta52`] has.
pub const TA52_CHECKS: usize = 5;
/// How many checks a text of [`ta82`] has.
pub const TA82_CHECKS: usize = 3;
/// How many checks a text of [`ta92`] has.
pub const TA92_CHECKS: usize = 3;

/// The kinds of a record, by the call that seals the key; the last two seal it
/// under G.
#[repr(u8)]
#[derive(Clone, Copy, Debug, PartialEq, Eq)]
pub enum Kind {
    /// A cipher key under D.
    Ta31 = 1,
    /// A cipher key with a number of 0 to 31 under O.
    Ta51 = 2,
    /// A cipher key with a number of sixteen bits under O.
    Ta81 = 3,
    /// A group key under O.
    Ta91 = 4,
    /// As [`Kind::Ta51`], under G.
    Ta51G = 5,
    /// As [`Kind::Ta81`], under G.
    Ta81G = 6,
}

impl Kind {
    /// All six, in the order of their numbers.
    pub const ALL: [Kind; 6] = [
        Kind::Ta31,
        Kind::Ta51,
        Kind::Ta81,
        Kind::Ta91,
        Kind::Ta51G,
        Kind::Ta81G,
    ];
}

/// A byte that is no kind is [`Refusal::WrongKind`].
impl TryFrom<u8> for Kind {
    type Error = Refusal;

    fn try_from(byte: u8) -> Result<Self, Refusal> {
        let mut all = Kind::ALL.into_iter();
        all.find(|kind| *kind as u8 == byte)
            .ok_or(Refusal::WrongKind)
    }
}

impl From<Kind> for u8 {
    fn from(kind: Kind) -> u8 {
        kind as u8
    }
}

/// A version. Not interchangeable with a key number.
#[repr(C)]
#[derive(Clone, Copy, Debug, PartialEq, Eq)]
pub struct Version(pub u16);

/// A key number. Not interchangeable with a version.
#[repr(C)]
#[derive(Clone, Copy, Debug, PartialEq, Eq)]
pub struct KeyNumber(pub u16);

impl From<u16> for Version {
    fn from(version: u16) -> Self {
        Version(version)
    }
}

impl From<u16> for KeyNumber {
    fn from(number: u16) -> Self {
        KeyNumber(number)
    }
}

/// What a ring is made from: a root of 16 bytes, five strings of 10, a group key
/// of 12, the number of sides, two masks.
#[derive(Clone, Copy, Debug)]
pub struct Sitting<'a> {
    /// The root key, 16 bytes.
    pub root: &'a [u8],
    /// The seed RS, 10 bytes.
    pub rs: &'a [u8],
    /// The seed RSO, 10 bytes.
    pub rso: &'a [u8],
    /// The challenge of TA12, 10 bytes.
    pub rand1: &'a [u8],
    /// The challenge of TA22, 10 bytes.
    pub rand2: &'a [u8],
    /// The common key C, 10 bytes.
    pub c: &'a [u8],
    /// The group key, 12 bytes.
    pub group_key: &'a [u8],
    /// 1 where TA12 runs, 2 where TA22 does, 3 where both do.
    pub sides: u64,
    /// Four ones: the bytes of a response.
    pub response_mask: u16,
    /// Ten ones: the bytes of a key.
    pub key_mask: u16,
}

/// A ring and both responses.
#[derive(Clone, Copy, Debug, PartialEq, Eq)]
pub struct RingMade {
    /// D, O, C and G.
    pub ring: [u8; RING_BYTES],
    /// The response of TA12, or zeros.
    pub response1: [u8; 4],
    /// The response of TA22, or zeros.
    pub response2: [u8; 4],
}

/// A response and a key.
#[derive(Clone, Copy, Debug, PartialEq, Eq)]
pub struct Authentication {
    /// The response.
    pub response: [u8; 4],
    /// The key.
    pub key: [u8; 10],
}

/// A cipher key of 10 bytes or a group key of 12, and the text's checks that fail.
#[derive(Clone, Copy, Debug, PartialEq, Eq)]
pub struct Unsealed<const N: usize> {
    /// The key.
    pub key: [u8; N],
    /// None fails if the text is what sealing gives.
    pub failed_checks: FailedChecks,
}

/// A cipher key and its number, and the text's checks that fail.
#[derive(Clone, Copy, Debug, PartialEq, Eq)]
pub struct UnsealedNumbered {
    /// The key.
    pub key: [u8; 10],
    /// Its number.
    pub number: KeyNumber,
    /// None fails if the text is what sealing gives.
    pub failed_checks: FailedChecks,
}

/// A location area of 14 bits, a carrier of 12, a colour code of 6.
#[derive(Clone, Copy, Debug, PartialEq, Eq)]
pub struct Cell {
    /// 14 bits.
    pub location_area: u32,
    /// 12 bits.
    pub carrier: u32,
    /// 6 bits.
    pub colour_code: u32,
}

/// A carrier of 12 bits and an identity of 24.
#[derive(Clone, Copy, Debug, PartialEq, Eq)]
pub struct CarrierIdentity {
    /// 12 bits.
    pub carrier: u32,
    /// 24 bits.
    pub identity: u32,
}

/// A group key, and the card that has it in its [`tb7`] form.
#[derive(Clone, Copy, Debug, PartialEq, Eq)]
pub struct Card {
    /// The group key.
    pub key: [u8; 12],
    /// The whole card.
    pub card: [u8; 16],
}

/// A book that the engine wrote, and the number of its records.
#[derive(Clone, Debug, PartialEq, Eq)]
pub struct Book {
    /// How many records it has.
    pub records: usize,
    /// The book.
    pub bytes: Vec<u8>,
}

/// A book that was sealed or opened, the number of its records, and the block
/// cipher runs that it took.
#[derive(Clone, Debug, PartialEq, Eq)]
pub struct CountedBook {
    /// How many records it has.
    pub records: usize,
    /// The book.
    pub bytes: Vec<u8>,
    /// The block cipher runs that it took.
    pub runs: usize,
}

/// The flips tried, the total of the output bits that changed, and the least and
/// the greatest change of one flip.
#[derive(Clone, Copy, Debug, PartialEq, Eq)]
pub struct Tally {
    /// The flips tried.
    pub flips: u32,
    /// The output bits that changed, in all.
    pub total: u32,
    /// The least change of one flip.
    pub least: u32,
    /// The greatest change of one flip.
    pub greatest: u32,
}

/// Before the first call: the archive has to be of a release with this crate's first number.
fn test_release() {
    static TESTED: AtomicBool = AtomicBool::new(false);
    if !TESTED.load(Relaxed) {
        let Release {
            major,
            minor,
            patch,
        } = release();
        assert!(
            VERSION.split('.').next() == Some(&major.to_string()),
            "the archive is of release {major}.{minor}.{patch}, which this crate, {VERSION}, cannot use"
        );
        TESTED.store(true, Relaxed);
    }
}

/// Calls the engine: `[name]` is a byte string and `{name}` an output.
macro_rules! call {
    ($call:ident($($([$bytes:ident])? $({$out:ident})? $($value:ident)?),*)) => {{
        test_release();
        // SAFETY: each pointer is that of a slice, with the slice's length, and
        // an output is borrowed alone.
        unsafe {
            raw::$call($(
                $($bytes.as_ptr(), $bytes.len(),)?
                $($out.as_mut_ptr(), $out.len(),)?
                $($value,)?
            )*)
        }
    }};
}

/// The release of the archive; [`VERSION`] is that of this crate.
pub fn release() -> Release {
    // SAFETY: the call takes nothing.
    unsafe { raw::release() }
}

/// HURDLE-II: a block of 8 bytes, encrypted under a key of 16.
pub fn encrypt(key: &[u8], block: &[u8]) -> Result<[u8; 8], Refusal> {
    bytes(call!(encrypt([key], [block])))
}

/// Undoes [`encrypt`] under the same key.
pub fn decrypt(key: &[u8], block: &[u8]) -> Result<[u8; 8], Refusal> {
    bytes(call!(decrypt([key], [block])))
}

/// As [`encrypt`], with the key schedule in one register of 16 bytes.
pub fn encrypt_register(key: &[u8], block: &[u8]) -> Result<[u8; 8], Refusal> {
    bytes(call!(encrypt_register([key], [block])))
}

/// As [`decrypt`], with that register, which steps back from the key.
pub fn decrypt_register(key: &[u8], block: &[u8]) -> Result<[u8; 8], Refusal> {
    bytes(call!(decrypt_register([key], [block])))
}

/// That register after so many steps; after each sixteen it is the key again.
pub fn register(key: &[u8], steps: u64) -> Result<[u8; 16], Refusal> {
    bytes(call!(register([key], steps)))
}

/// A diffusion tally over up to [`MOST_RECORDS`] records, which are a key and then
/// a block: each of the 64 block bits is flipped in turn, and the bits that change
/// in the encrypted block are counted.
pub fn diffusion(records: &[u8]) -> Result<Tally, Refusal> {
    let answer = call!(diffusion([records]));
    Refusal::test(answer.refusal)?;
    Ok(Tally {
        flips: answer.flips,
        total: answer.total,
        least: answer.least,
        greatest: answer.greatest,
    })
}

/// The session key for [`ta12`], from a root of 16 bytes and a seed of 10.
pub fn ta11(root: &[u8], seed: &[u8]) -> Result<[u8; 16], Refusal> {
    bytes(call!(ta11([root], [seed])))
}

/// The session key for [`ta22`].
pub fn ta21(root: &[u8], seed: &[u8]) -> Result<[u8; 16], Refusal> {
    bytes(call!(ta21([root], [seed])))
}

/// The session key that seals kinds 2 to 4: made as in [`ta11`].
pub fn ta41(root: &[u8], seed: &[u8]) -> Result<[u8; 16], Refusal> {
    bytes(call!(ta41([root], [seed])))
}

/// The response to a challenge of 10 bytes, and the key. Bit i of a mask chooses
/// byte i, where byte 0 is rightmost: four bytes for the response and ten others
/// for the key.
pub fn ta12(
    session_key: &[u8],
    challenge: &[u8],
    response_mask: u16,
    key_mask: u16,
) -> Result<Authentication, Refusal> {
    authentication(call!(ta12(
        [session_key],
        [challenge],
        response_mask,
        key_mask
    )))
}

/// As [`ta12`], for a session key from [`ta21`].
pub fn ta22(
    session_key: &[u8],
    challenge: &[u8],
    response_mask: u16,
    key_mask: u16,
) -> Result<Authentication, Refusal> {
    authentication(call!(ta22(
        [session_key],
        [challenge],
        response_mask,
        key_mask
    )))
}

/// What [`ta12`] answers to each of a class of up to [`MOST_RECORDS`] challenges,
/// which stand one after the other.
pub fn ta12_class(
    session_key: &[u8],
    challenges: &[u8],
    response_mask: u16,
    key_mask: u16,
) -> Result<Vec<Authentication>, BookRefusal> {
    let mut out = vec![0; challenges.len() / CHALLENGE_BYTES * AUTHENTICATION_BYTES];
    let answer = call!(ta12_class(
        [session_key],
        [challenges],
        response_mask,
        key_mask,
        { out }
    ));
    let class = book(answer, out)?.bytes;
    let one = |record: &[u8]| Authentication {
        response: from_fn(|i| record[i]),
        key: from_fn(|i| record[4 + i]),
    };
    Ok(class.chunks_exact(AUTHENTICATION_BYTES).map(one).collect())
}

/// A cipher key of 10 bytes, sealed under a key of 10.
pub fn ta31(cipher_key: &[u8], version: Version, sealing_key: &[u8]) -> Result<[u8; 15], Refusal> {
    bytes(call!(ta31([cipher_key], version, [sealing_key])))
}

/// The cipher key that a text of 15 bytes from [`ta31`] seals.
pub fn ta32(text: &[u8], sealing_key: &[u8], version: Version) -> Result<Unsealed<10>, Refusal> {
    unsealed(call!(ta32([text], [sealing_key], version)))
}

/// A cipher key of 10 bytes and a number of 0 to 31, sealed under a key of 16.
pub fn ta51(
    cipher_key: &[u8],
    version: Version,
    sealing_key: &[u8],
    number: KeyNumber,
) -> Result<[u8; 15], Refusal> {
    bytes(call!(ta51([cipher_key], version, [sealing_key], number)))
}

/// The cipher key and number that a text of 15 bytes from [`ta51`] seals.
pub fn ta52(
    text: &[u8],
    sealing_key: &[u8],
    version: Version,
) -> Result<UnsealedNumbered, Refusal> {
    numbered(call!(ta52([text], [sealing_key], version)))
}

/// An identity of 24 bits, encrypted under a key of 10 bytes.
pub fn ta61(common_key: &[u8], identity: u64) -> Result<u32, Refusal> {
    identified(call!(ta61([common_key], identity)))
}

/// Undoes [`ta61`] under the same key.
pub fn ta61_inverse(common_key: &[u8], encrypted_identity: u64) -> Result<u32, Refusal> {
    identified(call!(ta61_inverse([common_key], encrypted_identity)))
}

/// A cipher key from two of 10 bytes; their order matters.
pub fn ta71(key1: &[u8], key2: &[u8]) -> Result<[u8; 10], Refusal> {
    bytes(call!(ta71([key1], [key2])))
}

/// A cipher key of 10 bytes and any number, sealed under a key of 16.
pub fn ta81(
    cipher_key: &[u8],
    version: Version,
    sealing_key: &[u8],
    number: KeyNumber,
) -> Result<[u8; 15], Refusal> {
    bytes(call!(ta81([cipher_key], version, [sealing_key], number)))
}

/// The cipher key and number that a text of 15 bytes from [`ta81`] seals.
pub fn ta82(
    text: &[u8],
    sealing_key: &[u8],
    version: Version,
) -> Result<UnsealedNumbered, Refusal> {
    numbered(call!(ta82([text], [sealing_key], version)))
}

/// A group key of 12 bytes, sealed under a key of 16.
pub fn ta91(group_key: &[u8], version: Version, sealing_key: &[u8]) -> Result<[u8; 15], Refusal> {
    bytes(call!(ta91([group_key], version, [sealing_key])))
}

/// The group key that a text of 15 bytes from [`ta91`] seals.
pub fn ta92(text: &[u8], sealing_key: &[u8], version: Version) -> Result<Unsealed<12>, Refusal> {
    unsealed(call!(ta92([text], [sealing_key], version)))
}

/// A session key from KS of 16 bytes, GCK0 of 10 and a network identity of 24 bits.
pub fn ta101(ks: &[u8], gck0: &[u8], mni: u64) -> Result<[u8; 16], Refusal> {
    bytes(call!(ta101([ks], [gck0], mni)))
}

/// The value, of 16 to 32 bits, repeated from the left over 16 bytes.
pub fn tb1(value: u64, width: u64) -> Result<[u8; 16], Refusal> {
    bytes(call!(tb1(value, width)))
}

/// The input of 16 bytes itself.
pub fn tb2(input: &[u8]) -> Result<[u8; 16], Refusal> {
    bytes(call!(tb2([input])))
}

/// The input of 16 bytes, xor [`tb1`] of the value.
pub fn tb3(input: &[u8], value: u64, width: u64) -> Result<[u8; 16], Refusal> {
    bytes(call!(tb3([input], value, width)))
}

/// The xor of two inputs of 10 bytes.
pub fn tb4(input1: &[u8], input2: &[u8]) -> Result<[u8; 10], Refusal> {
    bytes(call!(tb4([input1], [input2])))
}

/// A cipher key of 10 bytes for one cell: 14 bits of location area, 12 of carrier,
/// 6 of colour code.
pub fn tb5(
    cipher_key: &[u8],
    location_area: u64,
    carrier: u64,
    colour_code: u64,
) -> Result<[u8; 10], Refusal> {
    bytes(call!(tb5(
        [cipher_key],
        location_area,
        carrier,
        colour_code
    )))
}

/// A cipher key of 10 bytes for one identity of 24 bits on a carrier of 12.
pub fn tb6(cipher_key: &[u8], carrier: u64, identity: u64) -> Result<[u8; 10], Refusal> {
    bytes(call!(tb6([cipher_key], carrier, identity)))
}

/// A group key of 12 bytes, with the xor of each three bytes after them.
pub fn tb7(group_key: &[u8]) -> Result<[u8; 16], Refusal> {
    bytes(call!(tb7([group_key])))
}

/// The only value of that width of which [`tb1`] makes the result of 16 bytes.
pub fn tb1_inverse(result: &[u8], width: u64) -> Result<u32, Refusal> {
    valued(call!(tb1_inverse([result], width)))
}

/// The only value of that width of which [`tb3`] makes the result of 16 bytes with
/// the input of 16.
pub fn tb3_inverse(input: &[u8], result: &[u8], width: u64) -> Result<u32, Refusal> {
    valued(call!(tb3_inverse([input], [result], width)))
}

/// The only cell for which [`tb5`] makes the result of 10 bytes of the cipher key.
pub fn tb5_inverse(cipher_key: &[u8], result: &[u8]) -> Result<Cell, Refusal> {
    let answer = call!(tb5_inverse([cipher_key], [result]));
    Refusal::test(answer.refusal)?;
    Ok(Cell {
        location_area: answer.location_area,
        carrier: answer.carrier,
        colour_code: answer.colour_code,
    })
}

/// The only carrier and identity for which [`tb6`] makes the result of 10 bytes of
/// the cipher key.
pub fn tb6_inverse(cipher_key: &[u8], result: &[u8]) -> Result<CarrierIdentity, Refusal> {
    let answer = call!(tb6_inverse([cipher_key], [result]));
    Refusal::test(answer.refusal)?;
    Ok(CarrierIdentity {
        carrier: answer.carrier,
        identity: answer.identity,
    })
}

/// The key and the whole card of 16 bytes, of which some are unreadable: bit i of
/// the mask is set where byte i is, and byte 0 is rightmost. Where a group of four
/// lacks one, the other three give it; what stands in its place is not looked at.
pub fn restore_card(card: &[u8], unreadable: u16) -> Result<Card, Refusal> {
    let answer = call!(restore_card([card], unreadable));
    Refusal::test(answer.refusal)?;
    Ok(Card {
        key: answer.key,
        card: answer.card,
    })
}

/// The ring of a sitting, and both responses. A side that does not run gives
/// zeros for its key and its response.
pub fn ring(sitting: &Sitting) -> Result<RingMade, Refusal> {
    let Sitting {
        root,
        rs,
        rso,
        rand1,
        rand2,
        c,
        group_key,
        sides,
        response_mask,
        key_mask,
    } = *sitting;
    let answer = call!(ring(
        [root],
        [rs],
        [rso],
        [rand1],
        [rand2],
        [c],
        [group_key],
        sides,
        response_mask,
        key_mask
    ));
    Refusal::test(answer.refusal)?;
    Ok(RingMade {
        ring: answer.ring,
        response1: answer.response1,
        response2: answer.response2,
    })
}

/// A plain book, sealed under a ring of [`RING_BYTES`]; the [crate](crate#records) has the
/// records' layout.
pub fn seal_book(ring: &[u8], plain: &[u8]) -> Result<CountedBook, CountedRefusal> {
    let mut out = vec![0; plain.len() / PLAIN_RECORD_BYTES * SEALED_RECORD_BYTES];
    let answer = call!(seal_book([ring], [plain], { out }));
    counted_book(answer, out)
}

/// The plain book of a sealed one. That it opens does not say that it is undamaged: see
/// the [crate](crate#records).
pub fn open_book(ring: &[u8], sealed: &[u8]) -> Result<CountedBook, CountedRefusal> {
    let mut out = vec![0; sealed.len() / SEALED_RECORD_BYTES * PLAIN_RECORD_BYTES];
    let answer = call!(open_book([ring], [sealed], { out }));
    counted_book(answer, out)
}

/// How many records a well-formed plain book has.
pub fn check_plain(plain: &[u8]) -> Result<usize, BookRefusal> {
    records(&call!(check_plain([plain])))
}

/// The key of each record of a lineage sheet of up to [`MOST_RECORDS`], with zeros
/// after one of 10 bytes.
pub fn lineage(sheet: &[u8]) -> Result<Vec<[u8; SHEET_VALUE_BYTES]>, BookRefusal> {
    let mut out = vec![0; sheet.len() / SHEET_RECORD_BYTES * SHEET_VALUE_BYTES];
    let answer = call!(lineage([sheet], { out }));
    let values = book(answer, out)?.bytes;
    let one = |value: &[u8]| from_fn(|i| value[i]);
    Ok(values.chunks_exact(SHEET_VALUE_BYTES).map(one).collect())
}

/// A plain book by column: byte 0 of each record, in their order, then byte 1 of
/// each, up to the last. The contents are not looked at.
pub fn plain_to_columns(plain: &[u8]) -> Result<Book, BookRefusal> {
    let mut out = vec![0; plain.len()];
    let answer = call!(plain_to_columns([plain], { out }));
    book(answer, out)
}

/// Undoes [`plain_to_columns`].
pub fn plain_from_columns(columns: &[u8]) -> Result<Book, BookRefusal> {
    let mut out = vec![0; columns.len()];
    let answer = call!(plain_from_columns([columns], { out }));
    book(answer, out)
}

/// As [`plain_to_columns`], for a sealed book.
pub fn sealed_to_columns(sealed: &[u8]) -> Result<Book, BookRefusal> {
    let mut out = vec![0; sealed.len()];
    let answer = call!(sealed_to_columns([sealed], { out }));
    book(answer, out)
}

/// Undoes [`sealed_to_columns`].
pub fn sealed_from_columns(columns: &[u8]) -> Result<Book, BookRefusal> {
    let mut out = vec![0; columns.len()];
    let answer = call!(sealed_from_columns([columns], { out }));
    book(answer, out)
}

fn bytes<const N: usize>(answer: raw::Bytes<N>) -> Result<[u8; N], Refusal> {
    Refusal::test(answer.refusal)?;
    Ok(answer.bytes)
}

fn authentication(answer: raw::Authentication) -> Result<Authentication, Refusal> {
    Refusal::test(answer.refusal)?;
    Ok(Authentication {
        response: answer.response,
        key: answer.key,
    })
}

fn unsealed<const N: usize>(answer: raw::Unsealed<N>) -> Result<Unsealed<N>, Refusal> {
    Refusal::test(answer.refusal)?;
    Ok(Unsealed {
        key: answer.key,
        failed_checks: FailedChecks(answer.failed_checks),
    })
}

fn numbered(answer: raw::UnsealedNumbered) -> Result<UnsealedNumbered, Refusal> {
    Refusal::test(answer.refusal)?;
    Ok(UnsealedNumbered {
        key: answer.key,
        number: KeyNumber(answer.number),
        failed_checks: FailedChecks(answer.failed_checks),
    })
}

fn identified(answer: raw::Identity) -> Result<u32, Refusal> {
    Refusal::test(answer.refusal)?;
    Ok(answer.identity)
}

fn valued(answer: raw::Value) -> Result<u32, Refusal> {
    Refusal::test(answer.refusal)?;
    Ok(answer.value)
}

fn records(answer: &raw::BookAnswer) -> Result<usize, BookRefusal> {
    let index = answer.index;
    match Refusal::test(answer.refusal) {
        Ok(()) => Ok(index),
        Err(refusal) => Err(BookRefusal { refusal, index }),
    }
}

fn book(answer: raw::BookAnswer, mut bytes: Vec<u8>) -> Result<Book, BookRefusal> {
    let records = records(&answer)?;
    bytes.truncate(answer.written);
    Ok(Book { records, bytes })
}

fn counted_book(
    answer: raw::CountedAnswer,
    mut bytes: Vec<u8>,
) -> Result<CountedBook, CountedRefusal> {
    let (index, runs) = (answer.index, answer.runs);
    Refusal::test(answer.refusal).map_err(|refusal| CountedRefusal {
        refusal,
        index,
        runs,
    })?;
    bytes.truncate(answer.written);
    Ok(CountedBook {
        records: index,
        bytes,
        runs,
    })
}

#[cfg(test)]
mod tests {
    use super::*;

    /// The functions above make room enough, so only these calls meet the refusal.
    #[test]
    fn short_outputs_are_refused() {
        let (ring, plain) = ([0; RING_BYTES], [4; PLAIN_RECORD_BYTES]);
        let mut out = vec![0; SEALED_RECORD_BYTES - 1];
        let (refusal, index) = (Refusal::OutputShort, 0);
        let answer = call!(seal_book([ring], [plain], { out }));
        let refused = CountedRefusal {
            refusal,
            index,
            runs: 0,
        };
        assert_eq!(counted_book(answer, out), Err(refused));
        let (key, challenge) = ([0; 16], [0; CHALLENGE_BYTES]);
        let mut out = vec![0; AUTHENTICATION_BYTES - 1];
        let (four, ten) = (0xf000, 0x0ffc);
        let answer = call!(ta12_class([key], [challenge], four, ten, { out }));
        assert_eq!(book(answer, out), Err(BookRefusal { refusal, index }));
        let (sheet, mut out) = ([0; SHEET_RECORD_BYTES], vec![0; SHEET_VALUE_BYTES - 1]);
        assert_eq!(
            book(call!(lineage([sheet], { out })), out),
            Err(BookRefusal { refusal, index })
        );
        let mut out = vec![0; PLAIN_RECORD_BYTES - 1];
        let answer = call!(plain_to_columns([plain], { out }));
        assert_eq!(book(answer, out), Err(BookRefusal { refusal, index }));
    }
}
