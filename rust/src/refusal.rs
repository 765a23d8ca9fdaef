// SPDX-License-Identifier: MIT
//! The nineteen refusals.

use std::error::Error;
use std::fmt;

const NOT_LISTED: &str = "not in the list";

/// Why the engine refuses a call.
#[non_exhaustive]
#[repr(u32)]
#[derive(Clone, Copy, Debug, PartialEq, Eq)]
pub enum Refusal {
    /// A list is longer than [`MOST_RECORDS`](crate::MOST_RECORDS) records.
    BookTooLong = 1,
    /// A list is not a whole number of records.
    BookNotWhole = 2,
    /// A kind is not 1 to 6.
    WrongKind = 3,
    /// A byte that fills up a body is not zero.
    NotZero = 4,
    /// A number of kind 2 or 5 is above 31.
    WrongNumber = 5,
    /// The flag is set while a book is opened: a text seals no key.
    FlagSet = 6,
    /// A mask has too few or too many ones.
    WrongMask = 7,
    /// The masks share a bit.
    SharedBit = 8,
    /// A width is not 16 to 32.
    WrongWidth = 9,
    /// A value is too wide for its field.
    ValueWide = 10,
    /// An input has another length than its call takes.
    WrongLength = 11,
    /// The output is shorter than the result; the functions of this crate make room enough.
    OutputShort = 12,
    /// The number of sides is not 1 to 3.
    WrongSides = 13,
    /// A sheet's operation is above 5, or its record wrongly filled.
    WrongFilling = 14,
    /// A parent's index is not below that of its own record.
    WrongParent = 15,
    /// A parent has another length than the operation takes.
    ParentLength = 16,
    /// No values that fit their fields give the result.
    NoInput = 17,
    /// Two bytes or more of a card's group are unreadable.
    GroupUnreadable = 18,
    /// A card's group is readable, and its xor is not zero.
    GroupDisagrees = 19,
    /// A number that this crate has no name for: the archive is of a later release.
    Unknown = u32::MAX,
}

impl Refusal {
    /// Those that have a number, in its order.
    pub const ALL: [Refusal; 19] = [
        Refusal::BookTooLong,
        Refusal::BookNotWhole,
        Refusal::WrongKind,
        Refusal::NotZero,
        Refusal::WrongNumber,
        Refusal::FlagSet,
        Refusal::WrongMask,
        Refusal::SharedBit,
        Refusal::WrongWidth,
        Refusal::ValueWide,
        Refusal::WrongLength,
        Refusal::OutputShort,
        Refusal::WrongSides,
        Refusal::WrongFilling,
        Refusal::WrongParent,
        Refusal::ParentLength,
        Refusal::NoInput,
        Refusal::GroupUnreadable,
        Refusal::GroupDisagrees,
    ];

    /// Its number in the header; that of `Unknown` is none of them.
    pub fn number(self) -> u32 {
        self as u32
    }

    /// What it means, in the words of the programs.
    pub fn name(self) -> &'static str {
        match self {
            Refusal::BookTooLong => "book longer than 1,024 records",
            Refusal::BookNotWhole => "book not a whole number of records",
            Refusal::WrongKind => "kind not 1 to 6",
            Refusal::NotZero => "body byte not zero",
            Refusal::WrongNumber => "kind 2 or 5 number above 31",
            Refusal::FlagSet => "flag set while opening a book",
            Refusal::WrongMask => "mask with a wrong number of ones",
            Refusal::SharedBit => "masks that share a bit",
            Refusal::WrongWidth => "width not 16 to 32",
            Refusal::ValueWide => "value too wide for its field",
            Refusal::WrongLength => "input of a wrong length",
            Refusal::OutputShort => "output shorter than the result",
            Refusal::WrongSides => "number of sides not 1 to 3",
            Refusal::WrongFilling => "operation above 5 or wrong filling",
            Refusal::WrongParent => "parent not before its record",
            Refusal::ParentLength => "parent of a wrong length",
            Refusal::NoInput => "no input gives this result",
            Refusal::GroupUnreadable => "two unreadable bytes in one group",
            Refusal::GroupDisagrees => "readable group that disagrees",
            Refusal::Unknown => NOT_LISTED,
        }
    }

    /// What the first field of an answer of `raw` means, as `taa1_refusal_text` says it
    /// in C.
    pub fn text(number: u32) -> &'static str {
        match number {
            0 => "accepted",
            _ => Refusal::of(number).name(),
        }
    }

    /// The refusal of a number.
    fn of(number: u32) -> Refusal {
        let mut all = Refusal::ALL.into_iter();
        all.find(|refusal| refusal.number() == number)
            .unwrap_or(Refusal::Unknown)
    }

    /// The refusal in an answer's first field, where 0 is none.
    pub(crate) fn test(number: u32) -> Result<(), Refusal> {
        match number {
            0 => Ok(()),
            _ => Err(Refusal::of(number)),
        }
    }
}

impl fmt::Display for Refusal {
    fn fmt(&self, f: &mut fmt::Formatter) -> fmt::Result {
        write!(f, "refused {} ({})", self.number(), self.name())
    }
}

impl Error for Refusal {}

/// Why the engine refuses a book, a class or a sheet, and the first offending record (0
/// where the refusal is of no one record).
#[derive(Clone, Copy, Debug, PartialEq, Eq)]
pub struct BookRefusal {
    /// Why.
    pub refusal: Refusal,
    /// The first offending record, or 0.
    pub index: usize,
}

/// Without the record.
impl From<BookRefusal> for Refusal {
    fn from(refused: BookRefusal) -> Self {
        refused.refusal
    }
}

/// Of no one record.
impl From<Refusal> for BookRefusal {
    fn from(refusal: Refusal) -> Self {
        BookRefusal { refusal, index: 0 }
    }
}

impl fmt::Display for BookRefusal {
    fn fmt(&self, f: &mut fmt::Formatter) -> fmt::Result {
        let BookRefusal { refusal, index } = self;
        write!(
            f,
            "refused {} at {index} ({})",
            refusal.number(),
            refusal.name()
        )
    }
}

impl Error for BookRefusal {}

/// Why the engine refuses to seal or open a book, and the block cipher runs that
/// it took by then.
#[derive(Clone, Copy, Debug, PartialEq, Eq)]
pub struct CountedRefusal {
    /// Why.
    pub refusal: Refusal,
    /// The first offending record, or 0.
    pub index: usize,
    /// The block cipher runs by then.
    pub runs: usize,
}

/// Without the runs.
impl From<CountedRefusal> for BookRefusal {
    fn from(refused: CountedRefusal) -> Self {
        let CountedRefusal { refusal, index, .. } = refused;
        BookRefusal { refusal, index }
    }
}

/// Without the record and the runs.
impl From<CountedRefusal> for Refusal {
    fn from(refused: CountedRefusal) -> Self {
        refused.refusal
    }
}

/// Before any run.
impl From<BookRefusal> for CountedRefusal {
    fn from(refused: BookRefusal) -> Self {
        let BookRefusal { refusal, index } = refused;
        let runs = 0;
        CountedRefusal {
            refusal,
            index,
            runs,
        }
    }
}

/// Of no one record, before any run.
impl From<Refusal> for CountedRefusal {
    fn from(refusal: Refusal) -> Self {
        BookRefusal::from(refusal).into()
    }
}

impl fmt::Display for CountedRefusal {
    fn fmt(&self, f: &mut fmt::Formatter) -> fmt::Result {
        let CountedRefusal {
            refusal,
            index,
            runs,
        } = *self;
        write!(f, "{}, {runs} runs", BookRefusal { refusal, index })
    }
}

impl Error for CountedRefusal {}

#[cfg(test)]
mod tests {
    use super::*;

    #[test]
    fn numbers_are_named() {
        for (i, refusal) in Refusal::ALL.into_iter().enumerate() {
            let number = i as u32 + 1;
            assert_eq!(refusal.number(), number);
            assert_eq!(Refusal::test(number), Err(refusal));
            assert_eq!(Refusal::text(number), refusal.name());
        }
        assert_eq!((Refusal::test(0), Refusal::text(0)), (Ok(()), "accepted"));
    }

    #[test]
    fn an_unknown_number_is_a_refusal() {
        for number in [20, 255, u32::MAX] {
            assert_eq!(Refusal::test(number), Err(Refusal::Unknown));
            assert_eq!(Refusal::text(number), "not in the list");
        }
        let shown = Refusal::Unknown.to_string();
        assert_eq!(shown, "refused 4294967295 (not in the list)");
    }
}
