# SPDX-License-Identifier: MIT
"""The random inputs: the same ones each time, and for each group by itself."""

from __future__ import annotations

import hashlib

SEED = "TAA1 vectors 1"


class Draw:
    """A stream of bytes: SHA-256 of `SEED/NAME/0`, then of `SEED/NAME/1` and so on, joined."""

    def __init__(self, name: str) -> None:
        """Begins the stream of a name."""
        self.name = name
        self.blocks = 0
        self.left = b""

    def bytes(self, length: int) -> bytes:
        """The next bytes of the stream."""
        while len(self.left) < length:
            block = f"{SEED}/{self.name}/{self.blocks}".encode()
            self.left += hashlib.sha256(block).digest()
            self.blocks += 1
        drawn, self.left = self.left[:length], self.left[length:]
        return drawn

    def number(self, bits: int) -> int:
        """A number of so many bits: the lowest ones of as many bytes as they need."""
        return int.from_bytes(self.bytes((bits + 7) // 8), "big") & ((1 << bits) - 1)

    def below(self, limit: int) -> int:
        """A number below a small limit."""
        return self.number(32) % limit

    def masks(self) -> tuple[int, int]:
        """A response mask of four ones and a key mask of ten others."""
        places = list(range(16))
        chosen = [1 << places.pop(self.below(len(places))) for _ in range(14)]
        return sum(chosen[:4]), sum(chosen[4:])
