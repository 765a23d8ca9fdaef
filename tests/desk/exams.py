"""Three sittings with their model books, worked by the reference alone."""

from __future__ import annotations

import random
from dataclasses import dataclass
from functools import lru_cache
from typing import Iterable, List, Tuple

from mistakes import Remembering
from reference import Entry, Keys, Ring, Sitting, plain_book

RIGHT = Remembering()
SEALED = 21
MOST = 1024


@dataclass(frozen=True)
class Exam:
    """A sitting and its model book."""

    name: str
    sitting: Sitting
    entries: Tuple[Entry, ...]
    keys: Keys
    sealed: bytes

    @property
    def ring(self) -> Ring:
        """The right ring."""
        return self.keys.ring

    @property
    def plain(self) -> bytes:
        """The model's plain book."""
        return plain_book(self.entries)

    def sitting_text(self) -> str:
        """The sitting as a setter writes it."""
        values = self.sitting._asdict()
        for name, value in values.items():
            if isinstance(value, bytes):
                values[name] = value.hex()
            elif name.endswith("mask"):
                values[name] = f"{value:04x}"
        return "".join(f"{name} = {value}\n" for name, value in values.items())

    def model_text(self) -> str:
        """The model in lines."""
        return lines(self.entries)


def line(place: int, entry: Entry) -> str:
    """An entry's line, as in 01's listing."""
    number = "-" if entry.number is None else str(entry.number)
    return (
        f"entry {place} kind {entry.kind} identity {entry.identity:06x}"
        f" version {entry.version} key {entry.key.hex()} number {number}\n"
    )


def lines(entries: Iterable[Entry]) -> str:
    """The lines of a plain book."""
    made = [line(place, entry) for place, entry in enumerate(entries)]
    return "".join(made) + f"entries {len(made)}\n"


# Kind, version and number of the models' entries; identities and keys are drawn.
_BOTH = (
    (1, 1, None),
    (2, 513, 31),
    (3, 256, 4660),
    (5, 12, 0),
    (1, 0, None),
    (6, 300, 65535),
    (4, 10, None),
    (2, 7, 3),
    (5, 1026, 16),
    (1, 258, None),
    (3, 770, 9),
    (2, 257, 17),
    (6, 301, 1),
    (4, 65535, None),
    (3, 2570, 1023),
    (1, 40000, None),
    (5, 2, 31),
    (2, 3, 0),
    (6, 11, 258),
    (3, 5, 0),
)
_NETWORK = tuple(
    (kind, 19 * kind + 250 * turn, 5 * kind + turn) for turn in (0, 1) for kind in range(1, 7)
)
_RADIO = tuple((kind, 1000 * kind + 1, 5 * kind) for kind in (3, 1, 6, 2, 4, 5))


def drawn(draw: random.Random, length: int) -> bytes:
    """So many bytes."""
    return draw.getrandbits(8 * length).to_bytes(length, "big")


@lru_cache(maxsize=None)
def exam(name: str) -> Exam:
    """One of the three sittings: "both" sides, the "network" alone (1) or the "radio" alone (2)."""
    sides, model = {"both": (3, _BOTH), "network": (1, _NETWORK), "radio": (2, _RADIO)}[name]
    draw = random.Random(f"the sitting {name}")
    root, group_key = drawn(draw, 16), drawn(draw, 12)
    rs, rso, rand1, rand2, c = (drawn(draw, 10) for _ in range(5))
    bits = [1 << place for place in draw.sample(range(16), 14)]
    sitting = Sitting(
        root, rs, rso, rand1, rand2, c, group_key, sides, sum(bits[:4]), sum(bits[4:])
    )
    entries = tuple(
        Entry(
            kind,
            draw.getrandbits(24),
            version,
            drawn(draw, 12 if kind == 4 else 10),
            None if kind in (1, 4) else number,
        )
        for kind, version, number in model
    )
    keys = RIGHT.recipe(sitting)
    return Exam(name, sitting, entries, keys, RIGHT.sealed_book(keys.ring, entries))


def exams() -> List[Exam]:
    """The three sittings."""
    return [exam(name) for name in ("both", "network", "radio")]
