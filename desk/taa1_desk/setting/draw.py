# SPDX-License-Identifier: MIT
"""Sittings and model books from the system's randomness."""

from __future__ import annotations

import secrets
from typing import Collection, Optional, Sequence

from ..names import KIND_NAMES
from ..reading.sittings import SITTING
from ..records import KINDS, Entry

RANDOM = secrets.SystemRandom()
ENTRIES = 2 * len(KINDS)  # of a book, unless it is said


def draw_sitting(sides: Optional[int]) -> bytes:
    """The bytes of a sitting, with this number of sides or any."""
    bits = RANDOM.sample(range(16), 14)
    numbers = {
        "sides": sides or RANDOM.randint(1, 3),
        "response_mask": sum(1 << bit for bit in bits[:4]),
        "key_mask": sum(1 << bit for bit in bits[4:]),
    }
    return b"".join(
        numbers[name.name].to_bytes(name.length, "big")
        if name.number
        else secrets.token_bytes(name.length)
        for name in SITTING
    )


def draw_kinds(entries: int) -> list[int]:
    """So many kinds in ascending order, each as often as the others or once more; which of them
    once more is drawn."""
    each, more = divmod(entries, len(KINDS))
    return sorted([*KINDS] * each + RANDOM.sample([*KINDS], more))


def draw_book(kinds: Sequence[int], without: Collection[int] = ()) -> bytes:
    """A plain book with an entry of each of these kinds; no two have the same identity, and none
    has one of those that are given."""
    drawn = RANDOM.sample(range(1 << 24), len(kinds) + len(without))
    taken = set(without)
    identities = [identity for identity in drawn if identity not in taken]
    return b"".join(
        Entry(
            kind,
            identity,
            RANDOM.randrange(1 << 16),
            secrets.token_bytes(KINDS[kind].key),
            RANDOM.randint(0, KIND_NAMES[kind].highest) if KIND_NAMES[kind].number else None,
        ).data
        for kind, identity in zip(kinds, identities)
    )
