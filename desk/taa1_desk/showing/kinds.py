# SPDX-License-Identifier: MIT
"""The kinds and the keys with both names, as text."""

from __future__ import annotations

from typing import Sequence

from ..names import KEY_WORDS, KIND_HEADS, SIDES, TERMS, kind_rows
from .document import columns


def _table(rows: Sequence[Sequence[str]]) -> str:
    return "".join(f"  {line}\n" for line in columns(rows))


def kinds_text() -> str:
    """The kinds and the keys with both names, for `taa1 help kinds`."""
    terms = [("name", "field", "what"), *TERMS.values()]
    keys = [(name, words) for name, words in KEY_WORDS.items()]
    return (
        "The kinds of entries. A sealed text has 15 bytes; a version is 0 to 65535.\n\n"
        + _table([KIND_HEADS, *kind_rows()])
        + "\n"
        + _table(keys)
        + "\nThe values of a sitting and of its working: the desk's name, and the field's.\n\n"
        + _table(terms)
        + "\nThe number of sides.\n\n"
        + _table([(str(sides), what) for sides, what in SIDES.items()])
    )
