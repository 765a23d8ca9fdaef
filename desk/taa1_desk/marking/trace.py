# SPDX-License-Identifier: MIT
"""The trace of a block through HURDLE-II, and the slips that give another output for it.

The rounds are `hurdle`'s; the engine's `encrypt` or `decrypt` confirms what comes out.
"""

from __future__ import annotations

from typing import NamedTuple

from ..engine import Engine
from ..problems import Problem
from .cipher_slips import CipherSlip
from .cipher_tables import find
from .hurdle import Hurdle, Round

NOT_AGREED = "the cipher, step by step, is not what the engine answers: no trace is written"


class Traced(NamedTuple):
    """A block, and what each round made of it."""

    key: bytes
    block: bytes
    decrypt: bool
    rounds: list[Round]
    output: bytes

    @property
    def mode(self) -> str:
        """The call that it is the trace of."""
        return "decrypt" if self.decrypt else "encrypt"

    def register(self, number: int) -> int:
        """The number of a round's register: decryption takes them in reverse order."""
        return 17 - number if self.decrypt else number


def traced(engine: Engine, key: bytes, block: bytes, decrypt: bool = False) -> Traced:
    """A block's trace, confirmed by the engine. Raises Refused."""
    output: bytes = engine.call("decrypt" if decrypt else "encrypt", key, block)["bytes"]
    cipher = Hurdle()
    rounds = cipher.rounds(key, block, decrypt)
    last = rounds[-1]
    if cipher.output(last.new_left, last.new_right) != output:
        raise Problem(NOT_AGREED)
    return Traced(key, block, decrypt, rounds, output)


class Search(NamedTuple):
    """Whether an output is the cipher's, and else the slips that give it."""

    right: bool
    slips: list[CipherSlip]


def search(engine: Engine, key: bytes, block: bytes, output: bytes, decrypt: bool = False) -> Search:
    """Which slips give an output for a block. Raises Refused."""
    right = traced(engine, key, block, decrypt).output == output
    return Search(right, [] if right else find(key, block, output, decrypt))
