# SPDX-License-Identifier: MIT
"""One record of a book, plain or sealed, as its fields."""

from __future__ import annotations

from typing import NamedTuple, Optional

from .refusals import Refusal, Refused
from .values import (
    CIPHER_KEY_BYTES,
    GROUP_KEY_BYTES,
    PLAIN_RECORD_BYTES,
    RECORD_IDENTITY_AT,
    RECORD_KEY_AT,
    RECORD_KIND_AT,
    RECORD_NUMBER_AT,
    RECORD_TEXT_AT,
    RECORD_VERSION_AT,
    SEALED_RECORD_BYTES,
    SEALED_TEXT_BYTES,
    Bytes,
    KeyNumber,
    Kind,
    Version,
    expect,
    fit,
)

_NARROW = (Kind.TA51, Kind.TA51_G)  # whose number has one byte
_WIDE = (Kind.TA81, Kind.TA81_G)  # whose number has two
_MOST = 31  # the greatest number in one byte


def _taken(value: Bytes, length: int) -> bytes:
    """The bytes, which must be so many."""
    taken = memoryview(value).tobytes()
    if len(taken) != length:
        raise Refused(Refusal.WRONG_LENGTH)
    return taken


def _kind(value: int) -> Kind:
    try:
        return Kind(value)
    except ValueError:
        raise Refused(Refusal.WRONG_KIND) from None


def _head(record: bytes) -> tuple[Kind, int, Version]:
    """The parts that plain and sealed records have alike."""
    identity = record[RECORD_IDENTITY_AT:RECORD_VERSION_AT]
    version = record[RECORD_VERSION_AT:RECORD_KEY_AT]
    numbers = (int.from_bytes(part, "big") for part in (identity, version))
    return _kind(record[RECORD_KIND_AT]), next(numbers), Version(next(numbers))


def _head_bytes(kind: Kind, identity: int, version: Version) -> bytes:
    if fit(identity, 64) >> 24:
        raise Refused(Refusal.VALUE_WIDE)
    number: int = expect(version, Version).value
    return bytes([kind]) + identity.to_bytes(3, "big") + number.to_bytes(2, "big")


class PlainEntry(NamedTuple):
    """One entry of a plain book.

    The identity has 24 bits; the key has 10 bytes, of kind 4 (a group key) 12. Kinds 2 and 5
    have a number of 0 to 31, kinds 3 and 6 one of sixteen bits, kinds 1 and 4 none.
    """

    kind: Kind
    identity: int
    version: Version
    key: bytes
    number: Optional[KeyNumber] = None

    def to_bytes(self) -> bytes:
        """The record of 18 bytes.

        Raises Refused: 3 if the kind is none, 5 for a number above 31 of kind 2 or 5, 10 for
        an identity of more than 24 bits, 11 for a key of a wrong length. A number that the
        kind does not have, or lacks, is a TypeError.
        """
        kind = _kind(self.kind)
        head = _head_bytes(kind, self.identity, self.version)
        group = kind == Kind.TA91
        key = _taken(self.key, GROUP_KEY_BYTES if group else CIPHER_KEY_BYTES)
        number = 0
        if kind in _NARROW or kind in _WIDE:
            number = expect(self.number, KeyNumber).value
        else:
            expect(self.number, type(None))
        if kind in _NARROW and number > _MOST:
            raise Refused(Refusal.WRONG_NUMBER)
        return head + key + (b"" if group else number.to_bytes(2, "big"))

    @classmethod
    def from_bytes(cls, record: Bytes) -> PlainEntry:
        """The entry of a record.

        Raises Refused: 11 for another length than 18, then 3, 4 and 5 as `check_plain` does.
        """
        taken = _taken(record, PLAIN_RECORD_BYTES)
        kind, identity, version = _head(taken)
        body = taken[RECORD_KEY_AT:]
        if kind == Kind.TA91:
            return cls(kind, identity, version, body)
        key, last = body[:CIPHER_KEY_BYTES], taken[RECORD_NUMBER_AT:]
        number = int.from_bytes(last, "big")
        if kind == Kind.TA31 and number or kind in _NARROW and last[0]:
            raise Refused(Refusal.NOT_ZERO)
        if kind in _NARROW and number > _MOST:
            raise Refused(Refusal.WRONG_NUMBER)
        return cls(kind, identity, version, key, None if kind == Kind.TA31 else KeyNumber(number))


class SealedRecord(NamedTuple):
    """One record of a sealed book: the identity is encrypted, and the text has 15 bytes."""

    kind: Kind
    encrypted_identity: int
    version: Version
    text: bytes

    def to_bytes(self) -> bytes:
        """The record of 21 bytes.

        Raises Refused: 3 if the kind is none, 10 for an identity of more than 24 bits, 11 for
        a text of a wrong length.
        """
        head = _head_bytes(_kind(self.kind), self.encrypted_identity, self.version)
        return head + _taken(self.text, SEALED_TEXT_BYTES)

    @classmethod
    def from_bytes(cls, record: Bytes) -> SealedRecord:
        """The fields of a record; the text is not opened.

        Raises Refused: 11 for another length than 21, 3 if the kind is none.
        """
        taken = _taken(record, SEALED_RECORD_BYTES)
        return cls(*_head(taken), taken[RECORD_TEXT_AT:])
