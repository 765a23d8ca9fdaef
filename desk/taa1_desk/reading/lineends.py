# SPDX-License-Identifier: MIT
"""What copying a book as if it were text does to its bytes: line ends, 0a and 0d, are changed
or lost, and zero bytes are lost. It is named, and not undone."""

from __future__ import annotations

from typing import Iterable

DAMAGED = "a book that was damaged when it was copied (ask for it anew, best in hexadecimal)"
LINE_ENDS, ZEROS = "its line ends were changed", "each 00 is lost"
HEAD = 6  # bytes of a record that stand in front of the text or the key
VERSION = 4  # where the version stands in it
LEAST = 5  # bytes that are no chance
CHANGES = (  # bytes, and what they became
    (b"\n", b"\r\n", LINE_ENDS),
    (b"\n", b"\r", LINE_ENDS),
    (b"\n", b"", LINE_ENDS),
    (b"\r\n", b"\n", LINE_ENDS),
    (b"\r", b"\n", LINE_ENDS),
    (b"\r", b"", LINE_ENDS),
    (b"\0", b"", ZEROS),
)


class Copies:
    """What changes make of the records that are wanted."""

    def __init__(self, wanted: Iterable[bytes]) -> None:
        """Takes them whole, without what stands in front of the version, and their heads."""
        parts = [part for record in wanted for part in (record, record[VERSION:], record[:HEAD])]
        made = ((part, part.replace(old, new), old, new, said) for old, new, said in CHANGES for part in parts)
        self.made = [each for each in made if each[0] != each[1] and len(each[1]) >= LEAST]

    def damage(self, book: bytes) -> str:
        """What became of a book's bytes, if some of the records that are wanted, or parts of them,
        stand in it as a change makes them and not as they are, and none of the old bytes is left."""
        for part, now, old, new, said in self.made:
            if now in book and part not in book:
                if old not in (book.replace(new, b"") if old in new else book):
                    return said
        return ""
