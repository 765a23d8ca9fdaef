# SPDX-License-Identifier: MIT
"""What marks come from: the programs that made them, when, and digests of what they read."""

from __future__ import annotations

from typing import NamedTuple

DIGITS = 12  # of a digest, where people read it


class Origin(NamedTuple):
    """The engine and the desk that ran, and SHA-256 of the model's and the scheme's text."""

    release: str  # the engine's
    library: str  # SHA-256 of the shared object
    desk: str  # its version
    made: str  # the moment, in UTC, as ISO 8601 has it
    model: str
    scheme: str


def brief(digest: str) -> str:
    """A digest's first digits."""
    return digest[:DIGITS]
