# SPDX-License-Identifier: MIT
"""What an examination asks for: the values of the first two generations, and the book.

The question paper, the answer form and what reads a form that is filled in go by it.
"""

from __future__ import annotations

from typing import Iterator, NamedTuple

KEYS = (
    "session key 1", "session key 2", "response 1", "key 1", "response 2", "key 2",
    "D", "O", "C", "G",
)  # fmt: skip
BOTH = 3
# The keys of the first generations: name, how it is made, on which side.
MADE = (
    ("session key 1", "TA11 of root and RS", 1),
    ("session key 2", "TA21 of root and RS", 2),
    ("response 1", "TA12 of session key 1 and RAND1", 1),
    ("key 1", "TA12 of session key 1 and RAND1", 1),
    ("response 2", "TA22 of session key 2 and RAND2", 2),
    ("key 2", "TA22 of session key 2 and RAND2", 2),
    ("D", "TB4 of key 1 and key 2; seals kind 1", BOTH),
    ("O", "TA41 of root and RSO; seals kinds 2, 3 and 4", BOTH),
    ("C", "given; encrypts identities", BOTH),
    ("G", "TB7 of the group key; seals kinds 5 and 6", BOTH),
)
IDLE = "this side does not run"
LENGTHS = dict(zip(KEYS, (16, 16, 4, 10, 4, 10, 10, 16, 10, 16)))
GENERATIONS = (
    ("First generation: session keys", ("session key 1", "session key 2")),
    (
        "Second generation: responses, derived keys and the ring",
        ("response 1", "key 1", "response 2", "key 2", "D", "O", "G"),
    ),
)
THIRD = "Third generation: the sealed book"
RECORD = (("kind", 1), ("ESI", 3), ("version", 2), ("sealed text", 15))
ROW = ("row", "value", "bytes")  # of the form's values
ARGUMENT = "The argument"


class Asked(NamedTuple):
    """A value of the first two generations: its row of the form, its name, how many bytes it
    has, and how it is made."""

    row: int
    name: str
    length: int
    how: str


def asked(sides: int) -> Iterator[tuple[str, list[Asked]]]:
    """The values that are asked for, by generation; none of a side that does not run."""
    how = {name: (made, side) for name, made, side in MADE}
    row = 0
    for title, names in GENERATIONS:
        values = []
        for name in names:
            made, side = how[name]
            if sides & side:
                row += 1
                values.append(Asked(row, name, LENGTHS[name], made))
        yield title, values
