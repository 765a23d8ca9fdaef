# SPDX-License-Identifier: MIT
"""Plain and sealed records in names: kinds, fields, and where they stand."""

from __future__ import annotations

from typing import NamedTuple, Optional

from taa1 import PLAIN_RECORD_BYTES as PLAIN
from taa1 import RING_BYTES as RING
from taa1 import SEALED_RECORD_BYTES as SEALED

__all__ = ["KINDS", "PLAIN", "RING", "SEALED", "Entry", "Ring", "Shape", "split", "whole"]


class Shape(NamedTuple):
    """What a kind of record holds, and how the engine seals it."""

    seal: str
    unseal: str
    sealing_key: str  # the ring's key that seals it
    key: int  # bytes of its key
    number: int  # bytes that its number may fill, 0 if it has none
    checks: int  # of its redundancy


KINDS: dict[int, Shape] = {
    1: Shape("ta31", "ta32", "d", 10, 0, 5),
    2: Shape("ta51", "ta52", "o", 10, 1, 5),
    3: Shape("ta81", "ta82", "o", 10, 2, 3),
    4: Shape("ta91", "ta92", "o", 12, 0, 3),
    5: Shape("ta51", "ta52", "g", 10, 1, 5),
    6: Shape("ta81", "ta82", "g", 10, 2, 3),
}


class Ring(NamedTuple):
    """The keys of a ring."""

    d: bytes  # seals kind 1
    o: bytes  # seals kinds 2 to 4
    c: bytes  # encrypts identities
    g: bytes  # seals kinds 5 and 6

    @classmethod
    def of(cls, data: bytes) -> Ring:
        """The ring in its bytes."""
        return cls(data[:10], data[10:26], data[26:36], data[36:52])

    @property
    def data(self) -> bytes:
        """The ring's bytes."""
        return b"".join(self)


class Entry(NamedTuple):
    """A plain record."""

    kind: int
    identity: int
    version: int
    key: bytes
    number: Optional[int]

    @classmethod
    def of(cls, record: bytes) -> Entry:
        """The entry of a well-formed plain record."""
        kind = KINDS[record[0]]
        end = 6 + kind.key
        number = int.from_bytes(record[end:], "big") if kind.number else None
        return cls(record[0], whole(record[1:4]), whole(record[4:6]), record[6:end], number)

    @property
    def data(self) -> bytes:
        """The plain record."""
        start = bytes([self.kind]) + self.identity.to_bytes(3, "big")
        body = self.key
        if KINDS[self.kind].number:
            body += (self.number or 0).to_bytes(2, "big")
        return start + self.version.to_bytes(2, "big") + body.ljust(12, b"\0")

    @property
    def line(self) -> str:
        """As plainlist prints it, after the index."""
        number = "-" if self.number is None else self.number
        return (
            f"kind {self.kind} identity {self.identity:06x} version {self.version} "
            f"key {self.key.hex()} number {number}"
        )


def whole(data: bytes) -> int:
    """A number with the high byte first."""
    return int.from_bytes(data, "big")


def split(book: bytes, record: int) -> list[bytes]:
    """The whole records of a book."""
    return [book[at : at + record] for at in range(0, len(book) - record + 1, record)]
