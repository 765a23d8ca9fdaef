# SPDX-License-Identifier: MIT
"""Sealed books with entries whose flag is set, for candidates to open."""

from __future__ import annotations

from typing import Any, Callable, NamedTuple, Optional

from ..engine import Engine
from ..marking.working import EXP3_GROUPS, FOURS, PAIRS, Steps
from ..problems import Problem
from ..records import KINDS, SEALED, Entry, Ring, split

ANOTHER = 0x5A  # what is ⊕ into a redundancy byte
ABOVE = 0x20  # what is put above a number's five bits
# For each algorithm that seals, the expansion and how many bytes it puts a ⊕ after.
EXPANSIONS = {
    "ta31": ("exp1", PAIRS),
    "ta51": ("exp3", EXP3_GROUPS),
    "ta81": ("x16", FOURS),
    "ta91": ("x16", FOURS),
}


class Damage(NamedTuple):
    """An entry to damage: a bit of its text, or one check that is to fail alone."""

    entry: int
    check: Optional[int] = None


def damaged(engine: Engine, ring: Ring, plain: list[Entry], sealed: bytes, wanted: list[Damage]) -> bytes:
    """The sealed book with these entries damaged; the engine says that their flags are set."""
    records = split(sealed, SEALED)
    for entry, check in wanted:
        if entry >= len(records):
            raise Problem(f"damage: entry {entry}, where the book has 0 to {len(records) - 1}")
        kind = KINDS[plain[entry].kind]
        if check is None:
            text = bytes([records[entry][6] ^ 0x80]) + records[entry][7:]
        elif check < kind.checks:
            text = _failing(engine, ring, plain[entry], check)
        else:
            last = kind.checks - 1
            raise Problem(f"damage: check {check} of entry {entry}, whose kind has 0 to {last}")
        sealing_key = getattr(ring, kind.sealing_key)
        failed = engine.call(kind.unseal, text, sealing_key, plain[entry].version)["failed_checks"]
        if not failed or check is not None and failed != 1 << check:
            raise Problem(f"damage: entry {entry}: its flag can't be set so")
        records[entry] = records[entry][:6] + text
    return b"".join(records)


def _failing(engine: Engine, ring: Ring, entry: Entry, check: int) -> bytes:
    """An entry's text of which one check fails: an inserted byte is another or, after the
    last one, a bit stands above the number's five."""
    expansion, sizes = EXPANSIONS[KINDS[entry.kind].seal]
    at = sum(sizes[: check + 1]) + check
    right: Callable[..., bytes] = getattr(Steps, expansion)

    def other(steps: Steps, data: bytes) -> bytes:
        made = right(steps, data)
        return made[:at] + bytes([made[at] ^ ANOTHER]) + made[at + 1 :]

    def above(steps: Steps, number: int) -> bytes:
        return bytes([ABOVE | number])

    altered: dict[str, Callable[..., Any]] = {expansion: other}
    if check == len(sizes):
        altered = {"number_byte": above}
    return Steps(engine, altered).text(entry, ring)
