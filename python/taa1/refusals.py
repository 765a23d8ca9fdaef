# SPDX-License-Identifier: MIT
"""Why the engine refuses a call: numbers, texts, and the exception."""

from __future__ import annotations

from enum import IntEnum


class Refusal(IntEnum):
    """Why the engine refuses a call."""

    BOOK_TOO_LONG = 1
    BOOK_NOT_WHOLE = 2
    WRONG_KIND = 3
    NOT_ZERO = 4
    WRONG_NUMBER = 5
    FLAG_SET = 6
    WRONG_MASK = 7
    SHARED_BIT = 8
    WRONG_WIDTH = 9
    VALUE_WIDE = 10
    WRONG_LENGTH = 11
    OUTPUT_SHORT = 12
    WRONG_SIDES = 13
    WRONG_FILLING = 14
    WRONG_PARENT = 15
    PARENT_LENGTH = 16
    NO_INPUT = 17
    GROUP_UNREADABLE = 18
    GROUP_DISAGREES = 19


NAMES: dict[int, str] = {
    Refusal.BOOK_TOO_LONG: "book longer than 1,024 records",
    Refusal.BOOK_NOT_WHOLE: "book not a whole number of records",
    Refusal.WRONG_KIND: "kind not 1 to 6",
    Refusal.NOT_ZERO: "body byte not zero",
    Refusal.WRONG_NUMBER: "kind 2 or 5 number above 31",
    Refusal.FLAG_SET: "flag set while opening a book",
    Refusal.WRONG_MASK: "mask with a wrong number of ones",
    Refusal.SHARED_BIT: "masks that share a bit",
    Refusal.WRONG_WIDTH: "width not 16 to 32",
    Refusal.VALUE_WIDE: "value too wide for its field",
    Refusal.WRONG_LENGTH: "input of a wrong length",
    Refusal.OUTPUT_SHORT: "output shorter than the result",
    Refusal.WRONG_SIDES: "number of sides not 1 to 3",
    Refusal.WRONG_FILLING: "operation above 5 or wrong filling",
    Refusal.WRONG_PARENT: "parent not before its record",
    Refusal.PARENT_LENGTH: "parent of a wrong length",
    Refusal.NO_INPUT: "no input gives this result",
    Refusal.GROUP_UNREADABLE: "two unreadable bytes in one group",
    Refusal.GROUP_DISAGREES: "readable group that disagrees",
}


class Refused(Exception):
    """A refusal: its number and name, and the record's index if a book was refused.

    Where a book was to be sealed or opened, also the block cipher runs by then.
    """

    def __init__(self, number: int, index: int | None = None, runs: int | None = None) -> None:
        """Takes a number of NAMES; one of a later release is "not in the list"."""
        super().__init__(number, index, runs)
        self.number = number
        self.name = NAMES.get(number, "not in the list")
        self.index = index
        self.runs = runs

    def __str__(self) -> str:
        """The text that every host prints."""
        place = "" if self.index is None else f" at {self.index}"
        count = "" if self.runs is None else f", {self.runs} runs"
        return f"refused {self.number}{place} ({self.name}){count}"
