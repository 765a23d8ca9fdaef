// SPDX-License-Identifier: MIT
//! The calls as `include/taa1.h` declares them, for the functions of this package
//! and for hosts that need the calls themselves. A byte string is a pointer and a
//! length, never `&[u8]`: Rust's slices do not pass this way.

use crate::{KeyNumber, Version, RING_BYTES};

// begin answers, made by `contracts write`
/// `taa1_bytes8`, `taa1_bytes10`, `taa1_bytes15`, `taa1_bytes16` of the header.
#[repr(C)]
#[derive(Clone, Copy, Debug, PartialEq, Eq)]
pub struct Bytes<const N: usize> {
    /// 0, or the number of a refusal.
    pub refusal: u32,
    /// What the call makes.
    pub bytes: [u8; N],
}

/// `taa1_authentication` of the header.
#[repr(C)]
#[derive(Clone, Copy, Debug, PartialEq, Eq)]
pub struct Authentication {
    /// 0, or the number of a refusal.
    pub refusal: u32,
    /// The response.
    pub response: [u8; 4],
    /// The key.
    pub key: [u8; 10],
}

/// `taa1_identity` of the header.
#[repr(C)]
#[derive(Clone, Copy, Debug, PartialEq, Eq)]
pub struct Identity {
    /// 0, or the number of a refusal.
    pub refusal: u32,
    /// The identity.
    pub identity: u32,
}

/// `taa1_value` of the header.
#[repr(C)]
#[derive(Clone, Copy, Debug, PartialEq, Eq)]
pub struct Value {
    /// 0, or the number of a refusal.
    pub refusal: u32,
    /// The value.
    pub value: u32,
}

/// `taa1_cell` of the header.
#[repr(C)]
#[derive(Clone, Copy, Debug, PartialEq, Eq)]
pub struct Cell {
    /// 0, or the number of a refusal.
    pub refusal: u32,
    /// The location area.
    pub location_area: u32,
    /// The carrier.
    pub carrier: u32,
    /// The colour code.
    pub colour_code: u32,
}

/// `taa1_carrier_identity` of the header.
#[repr(C)]
#[derive(Clone, Copy, Debug, PartialEq, Eq)]
pub struct CarrierIdentity {
    /// 0, or the number of a refusal.
    pub refusal: u32,
    /// The carrier.
    pub carrier: u32,
    /// The identity.
    pub identity: u32,
}

/// `taa1_unsealed`, `taa1_unsealed_group` of the header.
#[repr(C)]
#[derive(Clone, Copy, Debug, PartialEq, Eq)]
pub struct Unsealed<const N: usize> {
    /// 0, or the number of a refusal.
    pub refusal: u32,
    /// The key.
    pub key: [u8; N],
    /// A bit for each check of the text that fails.
    pub failed_checks: u16,
}

/// `taa1_unsealed_numbered` of the header.
#[repr(C)]
#[derive(Clone, Copy, Debug, PartialEq, Eq)]
pub struct UnsealedNumbered {
    /// 0, or the number of a refusal.
    pub refusal: u32,
    /// The key.
    pub key: [u8; 10],
    /// The number.
    pub number: u16,
    /// A bit for each check of the text that fails.
    pub failed_checks: u16,
}

/// `taa1_ring_made` of the header.
#[repr(C)]
#[derive(Clone, Copy, Debug, PartialEq, Eq)]
pub struct RingMade {
    /// 0, or the number of a refusal.
    pub refusal: u32,
    /// The ring.
    pub ring: [u8; RING_BYTES],
    /// The response of TA12.
    pub response1: [u8; 4],
    /// The response of TA22.
    pub response2: [u8; 4],
}

/// `taa1_card` of the header.
#[repr(C)]
#[derive(Clone, Copy, Debug, PartialEq, Eq)]
pub struct Card {
    /// 0, or the number of a refusal.
    pub refusal: u32,
    /// The key.
    pub key: [u8; 12],
    /// The card.
    pub card: [u8; 16],
}

/// `taa1_book_answer` of the header.
#[repr(C)]
#[derive(Clone, Copy, Debug, PartialEq, Eq)]
pub struct BookAnswer {
    /// 0, or the number of a refusal.
    pub refusal: u32,
    /// How many records; of a refused list the first offending one, or 0.
    pub index: usize,
    /// The bytes written to the output.
    pub written: usize,
}

/// `taa1_counted_answer` of the header.
#[repr(C)]
#[derive(Clone, Copy, Debug, PartialEq, Eq)]
pub struct CountedAnswer {
    /// 0, or the number of a refusal.
    pub refusal: u32,
    /// How many records; of a refused list the first offending one, or 0.
    pub index: usize,
    /// The bytes written to the output.
    pub written: usize,
    /// The runs of the block cipher.
    pub runs: usize,
}

/// `taa1_tally` of the header.
#[repr(C)]
#[derive(Clone, Copy, Debug, PartialEq, Eq)]
pub struct Tally {
    /// 0, or the number of a refusal.
    pub refusal: u32,
    /// The flips tried.
    pub flips: u32,
    /// The output bits that changed, in all.
    pub total: u32,
    /// The least change of one flip.
    pub least: u32,
    /// The greatest change of one flip.
    pub greatest: u32,
}

/// `taa1_release_numbers` of the header.
#[repr(C)]
#[derive(Clone, Copy, Debug, PartialEq, Eq)]
pub struct Release {
    /// The major number.
    pub major: u32,
    /// The minor number.
    pub minor: u32,
    /// The patch number.
    pub patch: u32,
}
// end answers

/// Hands the declarations of all calls that take something to a macro: `[name]` is a
/// byte string and `{name}` an output, which are a pointer and a length each.
#[macro_export]
macro_rules! calls {
    ($macro:ident) => {
        $macro! {
            // begin calls, made by `contracts write`
            encrypt([key], [block]) -> Bytes<8>;
            decrypt([key], [block]) -> Bytes<8>;
            encrypt_register([key], [block]) -> Bytes<8>;
            decrypt_register([key], [block]) -> Bytes<8>;
            register([key], steps: u64) -> Bytes<16>;
            diffusion([records]) -> Tally;
            ta11([root], [seed]) -> Bytes<16>;
            ta21([root], [seed]) -> Bytes<16>;
            ta41([root], [seed]) -> Bytes<16>;
            ta12([session_key], [challenge], response_mask: u16, key_mask: u16) -> Authentication;
            ta22([session_key], [challenge], response_mask: u16, key_mask: u16) -> Authentication;
            ta12_class(
                [session_key], [challenges], response_mask: u16, key_mask: u16, {out}
            ) -> BookAnswer;
            ta31([cipher_key], version: Version, [sealing_key]) -> Bytes<15>;
            ta32([text], [sealing_key], version: Version) -> Unsealed<10>;
            ta51([cipher_key], version: Version, [sealing_key], number: KeyNumber) -> Bytes<15>;
            ta52([text], [sealing_key], version: Version) -> UnsealedNumbered;
            ta61([common_key], identity: u64) -> Identity;
            ta61_inverse([common_key], encrypted_identity: u64) -> Identity;
            ta71([key1], [key2]) -> Bytes<10>;
            ta81([cipher_key], version: Version, [sealing_key], number: KeyNumber) -> Bytes<15>;
            ta82([text], [sealing_key], version: Version) -> UnsealedNumbered;
            ta91([group_key], version: Version, [sealing_key]) -> Bytes<15>;
            ta92([text], [sealing_key], version: Version) -> Unsealed<12>;
            ta101([ks], [gck0], mni: u64) -> Bytes<16>;
            tb1(value: u64, width: u64) -> Bytes<16>;
            tb2([input]) -> Bytes<16>;
            tb3([input], value: u64, width: u64) -> Bytes<16>;
            tb4([input1], [input2]) -> Bytes<10>;
            tb5([cipher_key], location_area: u64, carrier: u64, colour_code: u64) -> Bytes<10>;
            tb6([cipher_key], carrier: u64, identity: u64) -> Bytes<10>;
            tb7([group_key]) -> Bytes<16>;
            restore_card([card], unreadable: u16) -> Card;
            tb1_inverse([result], width: u64) -> Value;
            tb3_inverse([input], [result], width: u64) -> Value;
            tb5_inverse([cipher_key], [result]) -> Cell;
            tb6_inverse([cipher_key], [result]) -> CarrierIdentity;
            ring(
                [root], [rs], [rso], [rand1], [rand2], [c], [group_key], sides: u64,
                response_mask: u16, key_mask: u16
            ) -> RingMade;
            seal_book([ring], [plain], {out}) -> CountedAnswer;
            open_book([ring], [sealed], {out}) -> CountedAnswer;
            check_plain([plain]) -> BookAnswer;
            lineage([sheet], {out}) -> BookAnswer;
            plain_to_columns([plain], {out}) -> BookAnswer;
            plain_from_columns([columns], {out}) -> BookAnswer;
            sealed_to_columns([sealed], {out}) -> BookAnswer;
            sealed_from_columns([columns], {out}) -> BookAnswer;
            // end calls
        }
    };
}

macro_rules! declare {
    ($($call:ident(
        $($([$bytes:ident])? $({$out:ident})? $($value:ident: $type:ty)?),*
    ) -> $answer:ty;)*) => {
        extern "C" {$(
            #[doc = concat!("`taa1_", stringify!($call), "` of the header.")]
            #[link_name = concat!("taa1_", stringify!($call))]
            pub fn $call(
                $(
                    $($bytes: *const u8, _: usize,)?
                    $($out: *mut u8, _: usize,)?
                    $($value: $type,)?
                )*
            ) -> $answer;
        )*}
    };
}

calls!(declare);

extern "C" {
    /// It takes nothing and refuses nothing.
    #[link_name = "taa1_release"]
    pub fn release() -> Release;
}
