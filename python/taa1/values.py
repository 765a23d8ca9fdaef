# SPDX-License-Identifier: MIT
"""What a host gives to the calls and gets from them: sizes, kinds, inputs and results."""

from __future__ import annotations

from dataclasses import dataclass
from enum import IntEnum
from typing import TYPE_CHECKING, Any, Iterator, NamedTuple, Union

# Any object with the buffer protocol and items of one byte will do: array, mmap and so on.
# Only a checker has a name for that.
if TYPE_CHECKING:
    from _typeshed import ReadableBuffer

    Bytes = ReadableBuffer
else:
    Bytes = Union[bytes, bytearray, memoryview]

BLOCK_BYTES = 8
SEED_BYTES = 10
CIPHER_KEY_BYTES = 10  # also of the common key C, and of D, which seals kind 1
GROUP_KEY_BYTES = 12
SEALED_TEXT_BYTES = 15
SESSION_KEY_BYTES = 16  # also of a root, of the cipher's key, of O and of G
RING_BYTES = 52
PLAIN_RECORD_BYTES = 18
SEALED_RECORD_BYTES = 21
CHALLENGE_BYTES = 10
AUTHENTICATION_BYTES = 14  # a response, then a key
SHEET_RECORD_BYTES = 22
SHEET_VALUE_BYTES = 16
TALLY_RECORD_BYTES = 24  # a key, then a block
MOST_RECORDS = 1024  # of a book, a sheet or a tally; of challenges in a class
SITTING_BYTES = 83  # of a file with what a ring is made from

# Where the parts of a record begin.
RECORD_KIND_AT = 0  # one byte
RECORD_IDENTITY_AT = 1  # three bytes; of a sealed record encrypted
RECORD_VERSION_AT = 4  # two bytes
RECORD_KEY_AT = 6  # of a plain record: ten bytes, of kind 4 twelve
RECORD_NUMBER_AT = 16  # of a plain record of kind 2, 3, 5 or 6: two bytes
RECORD_TEXT_AT = 6  # of a sealed record: fifteen bytes

# How many checks an unsealed text has.
TA32_CHECKS = 5
TA52_CHECKS = 5
TA82_CHECKS = 3
TA92_CHECKS = 3


class Kind(IntEnum):
    """The kinds of a record, by the call that seals the key; the last two under G."""

    TA31 = 1
    TA51 = 2
    TA81 = 3
    TA91 = 4
    TA51_G = 5
    TA81_G = 6


def expect(value: Any, *kinds: type) -> Any:
    """The value, which must be of one of these types."""
    if not isinstance(value, kinds):
        names = " or ".join(kind.__name__ for kind in kinds)
        raise TypeError(f"{names} expected, not {type(value).__name__}")
    return value


def fit(value: Any, bits: int) -> int:
    """The value, which must be an integer that fits so many bits."""
    number: int = expect(value, int)
    if number >> bits:
        width = number.bit_length()
        shown = f"{number:#x}" if width <= 128 else f"a number of {width:,} bits"
        raise OverflowError(f"{shown} does not fit {bits} bits")
    return number


@dataclass(frozen=True)
class _Sixteen:
    """A number of sixteen bits: the base of two types that are not interchangeable."""

    value: int

    def __post_init__(self) -> None:
        """Tests the number."""
        fit(self.value, 16)


class Version(_Sixteen):
    """A version of sixteen bits."""


class KeyNumber(_Sixteen):
    """A key number of sixteen bits."""


class Sitting(NamedTuple):
    """What a ring is made from.

    A root of 16 bytes, five strings of 10, a group key of 12, the number of sides (1
    where TA12 runs, 2 where TA22 does, 3 where both do) and two masks.
    """

    root: bytes
    rs: bytes
    rso: bytes
    rand1: bytes
    rand2: bytes
    c: bytes
    group_key: bytes
    sides: int
    response_mask: int
    key_mask: int


class RingMade(NamedTuple):
    """A ring and both responses."""

    ring: bytes
    response1: bytes
    response2: bytes


class Authentication(NamedTuple):
    """A response and a key."""

    response: bytes
    key: bytes


class FailedChecks(int):
    """The checks of an unsealed text that fail, a bit for each.

    Bit 0 stands for the leftmost inserted byte, and so on rightwards; with TA52 bit 4
    stands for the three zero bits of the number byte. 0 says that the standard's flag
    is clear: the text is what sealing gives.
    """

    def __iter__(self) -> Iterator[int]:
        """The places of those that fail, leftmost first."""
        return (place for place in range(self.bit_length()) if self >> place & 1)


class Unsealed(NamedTuple):
    """A cipher key or group key, and the text's checks that fail."""

    key: bytes
    failed_checks: FailedChecks


class UnsealedNumbered(NamedTuple):
    """A key and its number, and the text's checks that fail."""

    key: bytes
    number: KeyNumber
    failed_checks: FailedChecks


class Cell(NamedTuple):
    """A location area of 14 bits, a carrier of 12, a colour code of 6."""

    location_area: int
    carrier: int
    colour_code: int


class CarrierIdentity(NamedTuple):
    """A carrier of 12 bits and an identity of 24."""

    carrier: int
    identity: int


class Card(NamedTuple):
    """A group key, and the card that has it in its TB7 form."""

    key: bytes
    card: bytes


class Book(NamedTuple):
    """A book that the engine wrote, and the number of its records."""

    records: int
    content: bytes


class CountedBook(NamedTuple):
    """A book that was sealed or opened, its number of records, and its block cipher runs."""

    records: int
    content: bytes
    runs: int


class Release(NamedTuple):
    """The three numbers of a release. With another major, calls may take or answer other things."""

    major: int
    minor: int
    patch: int


class Tally(NamedTuple):
    """The flips tried, the total of bits changed, the least and greatest change of a flip."""

    flips: int
    total: int
    least: int
    greatest: int
