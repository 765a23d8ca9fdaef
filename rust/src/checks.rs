// SPDX-License-Identifier: MIT
//! Which redundancy checks of an unsealed text fail.

/// The checks of an unsealed text that fail, a bit for each: bit 0 for the leftmost
/// inserted byte, and so on rightwards; with TA52 bit 4 for the three zero bits of
/// the number byte.
#[derive(Clone, Copy, Debug, PartialEq, Eq)]
pub struct FailedChecks(pub u16);

impl FailedChecks {
    /// Whether none fails: the standard's flag is clear, and the text is what
    /// sealing gives.
    pub fn is_clear(self) -> bool {
        self.0 == 0
    }

    /// The places of those that fail, leftmost first.
    pub fn places(self) -> impl Iterator<Item = u32> {
        (0..u16::BITS).filter(move |place| self.0 >> place & 1 == 1)
    }
}
