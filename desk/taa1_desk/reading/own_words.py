# SPDX-License-Identifier: MIT
"""A setter's own words for the question paper: time, aids, how to hand in."""

from __future__ import annotations

from itertools import groupby

from ..problems import Problem

MOST_LETTERS = 4000  # about a page


def paragraphs(text: str, where: str) -> tuple[str, ...]:
    """The paragraphs of a text, between which lines are blank; the other ends of lines are spaces."""
    lines = text.split("\n")
    for number, line in enumerate(lines, 1):
        for letter in line:
            if not (letter.isprintable() or letter.isspace()):
                raise Problem(f"{where}, line {number}: {letter!r} can't be printed: take it out")
    found = groupby(lines, lambda line: bool(line.strip()))
    made = tuple(" ".join(" ".join(part).split()) for said, part in found if said)
    letters = sum(map(len, made))
    if not made:
        raise Problem(f"{where}: no words in it")
    if letters > MOST_LETTERS:
        raise Problem(f"{where}: {letters:,} letters, where the paper has room for {MOST_LETTERS:,}")
    return made
