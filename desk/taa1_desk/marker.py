# SPDX-License-Identifier: MIT
"""What marks hand-ins: the one protocol of both markers, of sealed and of opened books."""

from __future__ import annotations

from typing import Protocol, Sequence

from .handed import HandIn
from .sheet import Marks, Wanted


class Marker(Protocol):
    """Reads hand-ins beside one model, and marks them."""

    @property
    def wanted(self) -> Wanted:
        """What is wanted of each entry."""

    @property
    def asked(self) -> Sequence[str]:
        """The values that are asked for beside the book."""

    def mark(self, hand_in: HandIn) -> Marks:
        """What is found of a hand-in, and of the keys beside it."""

    def no_hand_in(self, data: bytes) -> str:
        """What a text is that can be no hand-in; nothing, if it may be one."""
