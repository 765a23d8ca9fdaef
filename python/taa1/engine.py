# SPDX-License-Identifier: MIT
"""The TAA1 engine for Python hosts, over a shared object made from libengine.a."""

# What a call answers is worked from the table of calls, so a checker can't know its type.
# mypy: no-warn-return-any

from __future__ import annotations

import os
from typing import Any, Callable

from .binding import Binding
from .calls import CALLS
from .library import find
from .values import (
    AUTHENTICATION_BYTES,
    SHEET_VALUE_BYTES,
    Authentication,
    Book,
    Bytes,
    Card,
    CarrierIdentity,
    Cell,
    CountedBook,
    FailedChecks,
    KeyNumber,
    Release,
    RingMade,
    Sitting,
    Tally,
    Unsealed,
    UnsealedNumbered,
    Version,
    expect,
)


def _unsealed(key: bytes, failed_checks: int) -> Unsealed:
    return Unsealed(key, FailedChecks(failed_checks))


def _numbered(key: bytes, number: int, failed_checks: int) -> UnsealedNumbered:
    return UnsealedNumbered(key, KeyNumber(number), FailedChecks(failed_checks))


def _book(records: int, written: int, out: bytes = b"") -> Book:
    return Book(records, out)


def _counted(records: int, written: int, runs: int, out: bytes) -> CountedBook:
    return CountedBook(records, out, runs)


# What a host gets for each answer, made from its fields and what was written.
_RESULTS: dict[str, Callable[..., Any]] = {
    "bytes8": bytes,
    "bytes10": bytes,
    "bytes15": bytes,
    "bytes16": bytes,
    "authentication": Authentication,
    "identity": int,
    "unsealed": _unsealed,
    "unsealed_numbered": _numbered,
    "unsealed_group": _unsealed,
    "ring_made": RingMade,
    "book_answer": _book,
    "counted_answer": _counted,
    "cell": Cell,
    "carrier_identity": CarrierIdentity,
    "value": int,
    "card": Card,
    "tally": Tally,
}


def _split(content: bytes, size: int) -> list[bytes]:
    """The records of what a call wrote."""
    return [content[at : at + size] for at in range(0, len(content), size)]


class Engine:
    """The engine's calls. A refusal is raised as `Refused`.

    The calls share nothing, so any number of threads may make them at once.

    A byte string is any object with the buffer protocol of bytes. A value of a
    wrong type is a TypeError; a bool counts as an int. An integer that does not
    fit C's type, sixteen bits for a mask and sixty-four for any other, is an
    OverflowError. Both say which argument it is.
    """

    def __init__(self, path: str | os.PathLike[str] | None = None) -> None:
        """Loads the shared object at `path`, or the one that `library.find` finds.

        Raises LibraryError if there is none, it lacks a call, or the first number of its
        release is not that of this package.
        """
        self.path = find() if path is None else os.fspath(path)
        self.binding = Binding(self.path)

    def _call(self, name: str, *values: Any) -> Any:
        """The result of a call."""
        answer = self.binding.answer(name, *values)
        return _RESULTS[CALLS[name].answer](*answer.values())

    def release(self) -> Release:
        """The release of the shared object; `__version__` is that of this package."""
        return self.binding.release

    def encrypt(self, key: Bytes, block: Bytes) -> bytes:
        """HURDLE-II: a block of 8 bytes, encrypted under a key of 16."""
        return self._call("encrypt", key, block)

    def decrypt(self, key: Bytes, block: Bytes) -> bytes:
        """Undoes `encrypt` under the same key."""
        return self._call("decrypt", key, block)

    def encrypt_register(self, key: Bytes, block: Bytes) -> bytes:
        """As `encrypt`, with the key schedule in one register of 16 bytes."""
        return self._call("encrypt_register", key, block)

    def decrypt_register(self, key: Bytes, block: Bytes) -> bytes:
        """As `decrypt`, with that register, which steps back from the key."""
        return self._call("decrypt_register", key, block)

    def register(self, key: Bytes, steps: int) -> bytes:
        """That register after so many steps; after each sixteen it is the key again."""
        return self._call("register", key, steps)

    def diffusion(self, records: Bytes) -> Tally:
        """How many bits of an encrypted block change when one of the block is flipped.

        Up to MOST_RECORDS records, a key of 16 bytes and a block of 8 each; each of
        the 64 block bits is flipped in turn.
        """
        return self._call("diffusion", records)

    def ta11(self, root: Bytes, seed: Bytes) -> bytes:
        """The session key for `ta12`, from a root of 16 bytes and a seed of 10."""
        return self._call("ta11", root, seed)

    def ta21(self, root: Bytes, seed: Bytes) -> bytes:
        """The session key for `ta22`."""
        return self._call("ta21", root, seed)

    def ta41(self, root: Bytes, seed: Bytes) -> bytes:
        """The session key that seals kinds 2 to 4: made as in `ta11`."""
        return self._call("ta41", root, seed)

    def ta12(
        self, session_key: Bytes, challenge: Bytes, response_mask: int, key_mask: int
    ) -> Authentication:
        """The response to a challenge of 10 bytes, and the key.

        Bit i of a mask chooses byte i, where byte 0 is rightmost: four bytes for
        the response and ten others for the key.
        """
        return self._call("ta12", session_key, challenge, response_mask, key_mask)

    def ta22(
        self, session_key: Bytes, challenge: Bytes, response_mask: int, key_mask: int
    ) -> Authentication:
        """As `ta12`, for a session key from `ta21`."""
        return self._call("ta22", session_key, challenge, response_mask, key_mask)

    def ta12_class(
        self, session_key: Bytes, challenges: Bytes, response_mask: int, key_mask: int
    ) -> list[Authentication]:
        """What `ta12` answers to each of a class of challenges.

        Up to MOST_RECORDS of CHALLENGE_BYTES stand one after the other.
        """
        values = (session_key, challenges, response_mask, key_mask)
        content = self._call("ta12_class", *values).content
        records = _split(content, AUTHENTICATION_BYTES)
        return [Authentication(record[:4], record[4:]) for record in records]

    def ta31(self, cipher_key: Bytes, version: Version, sealing_key: Bytes) -> bytes:
        """A cipher key of 10 bytes, sealed under a key of 10."""
        return self._call("ta31", cipher_key, version, sealing_key)

    def ta32(self, text: Bytes, sealing_key: Bytes, version: Version) -> Unsealed:
        """The cipher key that a text of 15 bytes from `ta31` seals."""
        return self._call("ta32", text, sealing_key, version)

    def ta51(
        self, cipher_key: Bytes, version: Version, sealing_key: Bytes, number: KeyNumber
    ) -> bytes:
        """A cipher key of 10 bytes and a number of 0 to 31, sealed under a key of 16."""
        return self._call("ta51", cipher_key, version, sealing_key, number)

    def ta52(self, text: Bytes, sealing_key: Bytes, version: Version) -> UnsealedNumbered:
        """The cipher key and number that a text of 15 bytes from `ta51` seals."""
        return self._call("ta52", text, sealing_key, version)

    def ta61(self, common_key: Bytes, identity: int) -> int:
        """An identity of 24 bits, encrypted under a key of 10 bytes."""
        return self._call("ta61", common_key, identity)

    def ta61_inverse(self, common_key: Bytes, encrypted_identity: int) -> int:
        """Undoes `ta61` under the same key."""
        return self._call("ta61_inverse", common_key, encrypted_identity)

    def ta71(self, key1: Bytes, key2: Bytes) -> bytes:
        """A cipher key from two of 10 bytes; their order matters."""
        return self._call("ta71", key1, key2)

    def ta81(
        self, cipher_key: Bytes, version: Version, sealing_key: Bytes, number: KeyNumber
    ) -> bytes:
        """A cipher key of 10 bytes and any number, sealed under a key of 16."""
        return self._call("ta81", cipher_key, version, sealing_key, number)

    def ta82(self, text: Bytes, sealing_key: Bytes, version: Version) -> UnsealedNumbered:
        """The cipher key and number that a text of 15 bytes from `ta81` seals."""
        return self._call("ta82", text, sealing_key, version)

    def ta91(self, group_key: Bytes, version: Version, sealing_key: Bytes) -> bytes:
        """A group key of 12 bytes, sealed under a key of 16."""
        return self._call("ta91", group_key, version, sealing_key)

    def ta92(self, text: Bytes, sealing_key: Bytes, version: Version) -> Unsealed:
        """The group key that a text of 15 bytes from `ta91` seals."""
        return self._call("ta92", text, sealing_key, version)

    def ta101(self, ks: Bytes, gck0: Bytes, mni: int) -> bytes:
        """A session key from KS of 16 bytes, GCK0 of 10 and a network identity of 24 bits."""
        return self._call("ta101", ks, gck0, mni)

    def tb1(self, value: int, width: int) -> bytes:
        """The value, of 16 to 32 bits, repeated from the left over 16 bytes."""
        return self._call("tb1", value, width)

    def tb2(self, input: Bytes) -> bytes:
        """The input of 16 bytes itself."""
        return self._call("tb2", input)

    def tb3(self, input: Bytes, value: int, width: int) -> bytes:
        """The input of 16 bytes, xor `tb1` of the value."""
        return self._call("tb3", input, value, width)

    def tb4(self, input1: Bytes, input2: Bytes) -> bytes:
        """The xor of two inputs of 10 bytes."""
        return self._call("tb4", input1, input2)

    def tb5(self, cipher_key: Bytes, location_area: int, carrier: int, colour_code: int) -> bytes:
        """A cipher key of 10 bytes for one cell.

        The location area has 14 bits, the carrier 12, the colour code 6.
        """
        return self._call("tb5", cipher_key, location_area, carrier, colour_code)

    def tb6(self, cipher_key: Bytes, carrier: int, identity: int) -> bytes:
        """A cipher key of 10 bytes for one identity of 24 bits on a carrier of 12."""
        return self._call("tb6", cipher_key, carrier, identity)

    def tb7(self, group_key: Bytes) -> bytes:
        """A group key of 12 bytes, with the xor of each three bytes after them."""
        return self._call("tb7", group_key)

    def tb1_inverse(self, result: Bytes, width: int) -> int:
        """The only value of that width of which `tb1` makes the result of 16 bytes."""
        return self._call("tb1_inverse", result, width)

    def tb3_inverse(self, input: Bytes, result: Bytes, width: int) -> int:
        """The only value of that width of which `tb3` makes the result of 16 bytes."""
        return self._call("tb3_inverse", input, result, width)

    def tb5_inverse(self, cipher_key: Bytes, result: Bytes) -> Cell:
        """The only cell for which `tb5` makes the result of 10 bytes."""
        return self._call("tb5_inverse", cipher_key, result)

    def tb6_inverse(self, cipher_key: Bytes, result: Bytes) -> CarrierIdentity:
        """The only carrier and identity for which `tb6` makes the result of 10 bytes."""
        return self._call("tb6_inverse", cipher_key, result)

    def restore_card(self, card: Bytes, unreadable: int) -> Card:
        """The key and the whole card of 16 bytes, of which some are unreadable.

        Bit i of the mask is set where byte i is, and byte 0 is rightmost. Where a
        group of four lacks one, the other three give it; what stands in its place is
        not looked at.
        """
        return self._call("restore_card", card, unreadable)

    def ring(self, sitting: Sitting) -> RingMade:
        """The ring of a sitting, and both responses.

        A side that does not run gives zeros for its key and its response.
        """
        return self._call("ring", *expect(sitting, Sitting))

    def seal_book(self, ring: Bytes, plain: Bytes) -> CountedBook:
        """A plain book, sealed under a ring of RING_BYTES.

        The package's own docstring has the records' layout.
        """
        return self._call("seal_book", ring, plain)

    def open_book(self, ring: Bytes, sealed: Bytes) -> CountedBook:
        """The plain book of a sealed one.

        That it opens does not say that it is undamaged: an altered identity, kind 3 for 4,
        and missing, repeated or exchanged records are not noticed.
        """
        return self._call("open_book", ring, sealed)

    def check_plain(self, plain: Bytes) -> int:
        """The number of records of a well-formed plain book."""
        return self._call("check_plain", plain).records

    def lineage(self, sheet: Bytes) -> list[bytes]:
        """The key of each record of a lineage sheet, with zeros after one of 10 bytes."""
        return _split(self._call("lineage", sheet).content, SHEET_VALUE_BYTES)

    def plain_to_columns(self, plain: Bytes) -> Book:
        """A plain book by column, whose contents are not looked at.

        Byte 0 of each record, in their order, then byte 1 of each, up to the last.
        """
        return self._call("plain_to_columns", plain)

    def plain_from_columns(self, columns: Bytes) -> Book:
        """Undoes `plain_to_columns`."""
        return self._call("plain_from_columns", columns)

    def sealed_to_columns(self, sealed: Bytes) -> Book:
        """As `plain_to_columns`, for a sealed book."""
        return self._call("sealed_to_columns", sealed)

    def sealed_from_columns(self, columns: Bytes) -> Book:
        """Undoes `sealed_to_columns`."""
        return self._call("sealed_from_columns", columns)
