//! The engine's calls, over slices.

use crate::other;
pub use interface::raw::*;
pub use interface::{KeyNumber, Version};

/// Hands the answers, each with its fields after the refusal, to a macro.
#[macro_export]
macro_rules! answers {
    ($macro:ident) => {
        $macro! {
            // begin answers, made by `contracts write`
            Bytes<N> { bytes }
            Authentication { response, key }
            Identity { identity }
            Value { value }
            Cell { location_area, carrier, colour_code }
            CarrierIdentity { carrier, identity }
            Unsealed<N> { key, failed_checks }
            UnsealedNumbered { key, number, failed_checks }
            RingMade { ring, response1, response2 }
            Card { key, card }
            BookAnswer { index, written }
            CountedAnswer { index, written, runs }
            Tally { flips, total, least, greatest }
            // end answers
        }
    };
}

/// The independent implementation's answers as the engine's, for comparison.
macro_rules! converted {
    ($($name:ident$(<$n:ident>)? { $($field:ident),* })*) => {$(
        impl$(<const $n: usize>)? From<other::$name$(<$n>)?> for $name$(<$n>)? {
            fn from(answer: other::$name$(<$n>)?) -> Self {
                $name {
                    refusal: answer.refusal,
                    $($field: answer.$field.into(),)*
                }
            }
        }
    )*};
}

answers!(converted);

/// The answer that has these bytes.
pub const fn accepted<const N: usize>(bytes: [u8; N]) -> Bytes<N> {
    Bytes { refusal: 0, bytes }
}

static PLACE: [u8; 1] = [0];

/// Stands for a null pointer with the length 0, which no slice can be. The
/// wrappers know it by its place.
pub fn null() -> &'static [u8] {
    &PLACE[..0]
}

/// The same for an output.
pub fn null_out() -> &'static mut [u8] {
    // SAFETY: there is no byte in it.
    unsafe { std::slice::from_raw_parts_mut(PLACE.as_ptr() as *mut u8, 0) }
}

fn pointer(bytes: &[u8]) -> *const u8 {
    if std::ptr::eq(bytes, null()) {
        std::ptr::null()
    } else {
        bytes.as_ptr()
    }
}

fn out_pointer(out: &mut [u8]) -> *mut u8 {
    if std::ptr::eq(out, null()) {
        std::ptr::null_mut()
    } else {
        out.as_mut_ptr()
    }
}

/// Wraps the calls: a byte string and an output are slices here.
macro_rules! wrap {
    ($($call:ident(
        $($([$bytes:ident])? $({$out:ident})? $($number:ident: $type:ty)?),*
    ) -> $answer:ty;)*) => {$(
        #[allow(clippy::too_many_arguments)]
        pub fn $call(
            $($($bytes: &[u8],)? $($out: &mut [u8],)? $($number: $type,)?)*
        ) -> $answer {
            // SAFETY: each pointer is good for its length, and no other
            // slice overlaps an output.
            unsafe {
                interface::raw::$call($(
                    $(pointer($bytes), $bytes.len(),)?
                    $(out_pointer($out), $out.len(),)?
                    $($number,)?
                )*)
            }
        }
    )*};
}

interface::calls!(wrap);
