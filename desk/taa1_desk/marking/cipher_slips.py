# SPDX-License-Identifier: MIT
"""The slips inside the cipher, each a name and the steps of `hurdle` that it alters: those in
halves and rounds, and in how bytes are numbered; those in f and in the schedule have tables
of their own.

They are what a program does whose writer has misread one line of 01 or of clause 6. Digits
that were miscopied from the clause's tables are in `cipher_tables`.
"""

from __future__ import annotations

from itertools import combinations
from typing import Iterator, NamedTuple

from ..words import listed
from .f_slips import BITS, CHAIN, EXPANSIONS, TABLES, Altered, number_sum
from .hurdle import A, D, HURDLE_STEPS, ROUNDS, Hurdle, xor
from .schedule_slips import SCHEDULE, in_words, rotated_by, window, with_d


class CipherSlip(NamedTuple):
    """A slip inside the cipher: its name, and what it makes of steps, by their methods."""

    name: str
    altered: Altered
    table: bytes = b""  # S as it was copied, where that is what is wrong: P takes it as well

    @property
    def step(self) -> tuple[str, str]:
        """The step at which it happens, and the clause."""
        return HURDLE_STEPS[next(iter(self.altered))]

    def cipher(self) -> Hurdle:
        """The cipher with it."""
        return Hurdle(self.altered)


# ---- halves and rounds (6.2, 6.3)


def _exchanged(cipher: Hurdle, block: bytes) -> tuple[bytes, bytes]:
    return block[4:], block[:4]


def _in_place(cipher: Hurdle, left: bytes, right: bytes) -> bytes:
    return left + right


def _added(cipher: Hurdle, left: bytes, result: bytes) -> bytes:
    return bytes((a + b) & 0xFF for a, b in zip(left, result))


def _r_overwritten(cipher: Hurdle, left: bytes, right: bytes, k: bytes) -> tuple[bytes, bytes]:
    made = xor(left, cipher.f(right, k))
    return made, made


HALVES: dict[str, Altered] = {
    "halves not exchanged at the end": {"output": _in_place},
    "halves exchanged at the start": {"halves": _exchanged},
    "halves exchanged at the start, and not at the end": {"halves": _exchanged, "output": _in_place},
    "f of L, not of R": {
        "round": lambda cipher, left, right, k: (right, xor(left, cipher.f(left, k)))
    },
    "L overwritten by R before it is joined with f": {
        "round": lambda cipher, left, right, k: (right, xor(right, cipher.f(right, k)))
    },
    "R overwritten before L takes it": {"round": _r_overwritten},
    "halves not exchanged in the rounds": {
        "round": lambda cipher, left, right, k: (xor(left, cipher.f(right, k)), right)
    },
    "f's result not joined with L": {"joined": lambda cipher, left, result: result},
    "f's result added to L, not ⊕": {"joined": _added},
    "f's result added to L as a number of 32 bits": {
        "joined": lambda cipher, left, result: number_sum(left, result)
    },
}


def _rounds(name: str, first: int, last: int) -> tuple[str, Altered]:
    """The rounds with the registers Qfirst to Qlast."""
    return name, {"rounds_run": lambda cipher, registers: registers[first - 1 : last]}


RUNS: dict[str, Altered] = dict(
    [
        _rounds("fifteen rounds, the last one left out", 1, 15),
        _rounds("fifteen rounds, the first one left out", 2, 16),
        _rounds("seventeen rounds, Q17 in the last", 1, 17),
        _rounds("schedule begun at Q2", 2, 17),
        _rounds("fourteen rounds", 1, 14),
        _rounds("twelve rounds", 1, 12),
        _rounds("eight rounds", 1, 8),
        _rounds("one round", 1, 1),
    ]
)
RUNS["seventeen rounds, Q1 in the first two"] = {
    "rounds_run": lambda cipher, registers: [registers[0], *registers[:ROUNDS]]
}
RUNS["seventeen rounds, Q16 in the last two"] = {
    "rounds_run": lambda cipher, registers: [*registers[:ROUNDS], registers[ROUNDS - 1]]
}
RUNS["thirty-two rounds, Q1 to Q16 twice"] = {
    "rounds_run": lambda cipher, registers: registers[:ROUNDS] * 2
}
RUNS["Q1's round key in each round"] = {
    "rounds_run": lambda cipher, registers: [registers[0]] * ROUNDS
}
RUNS["decryption's round keys for encryption's"] = {
    "in_order": lambda cipher, keys: keys[::-1],
    "in_reverse": lambda cipher, keys: keys,
}
# What opening alone shows.
BACK: dict[str, Altered] = {
    "encryption's round keys for decryption's": {"in_reverse": lambda cipher, keys: keys},
    "decryption's round keys of Q17 to Q2": {
        "in_reverse": lambda cipher, keys: keys[:0:-1],
        "in_order": lambda cipher, keys: keys[:ROUNDS],
        "rounds_run": lambda cipher, registers: registers,
    },
}


# ---- bytes numbered from the left

_FROM_LEFT: dict[str, Altered] = {
    "f's input": {"expanded": lambda cipher, x: Hurdle.expanded(cipher, x[::-1])},
    "f's output": {"transposed": lambda cipher, u: Hurdle.transposed(cipher, u)[::-1]},
    "the round key": {"added": lambda cipher, e, k: Hurdle.added(cipher, e, k[::-1])},
    "the register": window(0),
}


def _numbered() -> Iterator[tuple[str, Altered]]:
    """Bytes numbered from the left in some places, or in all."""
    for count in range(1, len(_FROM_LEFT) + 1):
        for names in combinations(_FROM_LEFT, count):
            if names != ("the register",):  # bytes 15 to 4, which has a name
                altered = {step: run for name in names for step, run in _FROM_LEFT[name].items()}
                yield f"bytes of {listed(names)} numbered from the left", altered
    mirrored: Altered = {
        "first_register": lambda cipher, key: key[::-1],
        "halves": lambda cipher, block: Hurdle.halves(cipher, block[::-1]),
        "output": lambda cipher, left, right: (right + left)[::-1],
    }
    block = {step: run for step, run in mirrored.items() if step != "first_register"}
    yield "bytes of the block numbered from the left", block
    yield "bytes of the input block numbered from the left", {"halves": block["halves"]}
    yield "bytes of the output block numbered from the left", {"output": block["output"]}
    yield "all bytes numbered from the left", mirrored
    yield "all bytes numbered from the left, D as it is printed", {**mirrored, **with_d(D[::-1])}
    back = rotated_by([-8 * a for a in A])
    name = "all bytes numbered from the left, registers rotated to the left all the same"
    yield name, {**mirrored, **back}
    yield f"{name}, D as it is printed", {**mirrored, **back, **with_d(D[::-1])}
    words: Altered = {
        "first_register": lambda cipher, key: in_words(key, 4),
        "halves": lambda cipher, block: Hurdle.halves(cipher, in_words(block, 4)),
        "output": lambda cipher, left, right: in_words(right + left, 4),
    }
    name = "bytes of key and block in the other order in each word of four"
    yield name, words
    yield f"{name}, D's too", {**words, **with_d(in_words(D, 4))}
    in_f = {step: run for name in list(_FROM_LEFT) for step, run in _FROM_LEFT[name].items()}
    name = "bytes in f and in the register numbered from the left"
    yield f"{name}, D's too", {**in_f, **with_d(D[::-1])}
    yield f"{name}, rotation to the right", {**in_f, **back}
    yield f"{name}, D's too, rotation to the right", {**in_f, **back, **with_d(D[::-1])}


CIPHER_SLIPS: tuple[CipherSlip, ...] = tuple(
    CipherSlip(name, altered)
    for name, altered in (
        *BACK.items(),
        *HALVES.items(),
        *RUNS.items(),
        *EXPANSIONS.items(),
        *CHAIN.items(),
        *TABLES.items(),
        *BITS.items(),
        *SCHEDULE.items(),
        *_numbered(),
    )
)
