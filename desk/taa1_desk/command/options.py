# SPDX-License-Identifier: MIT
"""Values on the command line."""

from __future__ import annotations

import argparse
from collections import Counter
from typing import Callable

from taa1 import MOST_RECORDS

from ..problems import Problem, shown
from ..reading import decoding
from ..records import KINDS
from ..setting.damage import Damage
from ..values import hexadecimal, without_0x
from . import files


def number(text: str) -> int:
    """A number, decimal or with 0x in hexadecimal."""
    digits = without_0x(text)
    try:
        if len(text) <= 40 and digits.isascii() and digits.isalnum():
            return int(digits, 10 if digits is text else 16)
    except ValueError:
        pass
    raise argparse.ArgumentTypeError(f"{text[:40]!r} is no decimal number, nor one in 0x..")


def digits(count: int) -> Callable[[str], int]:
    """A number of so many hexadecimal digits."""

    def take(text: str) -> int:
        try:
            return hexadecimal(text, count)
        except ValueError as error:
            raise argparse.ArgumentTypeError(str(error)) from None

    return take


def bytes_of(text: str) -> bytes:
    """Bytes in hexadecimal, or those of the file after an @."""
    if text.startswith("@"):
        return files.read_bytes(text[1:])
    try:
        return decoding.from_hex(text, "the value")
    except Problem as problem:
        raise argparse.ArgumentTypeError(str(problem)) from None


def words(text: str) -> str:
    """Words for a line of a sitting's text."""
    if text.strip() and text.isprintable() and "#" not in text:
        return text.strip()
    raise argparse.ArgumentTypeError(f"{shown(text)!r} is no line of words without #")


def sentence(text: str) -> str:
    """Words in a line."""
    if text.strip() and text.isprintable():
        return text.strip()
    raise argparse.ArgumentTypeError(f"{shown(text)!r} is no line of words")


def kinds(text: str) -> list[int]:
    """A list of kinds."""
    words = text.split(",")
    bad = [word for word in words if word.strip() not in map(str, KINDS)]
    if bad or len(words) > MOST_RECORDS:
        raise argparse.ArgumentTypeError(
            f"a kind is 1 to {max(KINDS)}, not {bad[0][:20]!r}" if bad
            else f"{len(words):,} kinds, where a book has at most {MOST_RECORDS:,} entries"
        )
    return [int(word) for word in words]


def entries(text: str) -> int:
    """A number of entries that has room for every kind."""
    count = number(text)
    if len(KINDS) <= count <= MOST_RECORDS:
        return count
    raise argparse.ArgumentTypeError(
        f"{count} entries: with every kind in it a book has {len(KINDS)} to {MOST_RECORDS:,};"
        " --kinds draws others"
    )


def damages(text: str) -> list[Damage]:
    """Entries to damage: I or I:CHECK, with commas between."""
    wanted = []
    for word in text.split(","):
        entry, colon, check = word.strip().partition(":")
        if not entry.isdecimal() or colon and not check.isdecimal():
            raise argparse.ArgumentTypeError(f"{word!r} is no entry I nor I:CHECK, as in 3,5:4")
        wanted.append(Damage(int(entry[:9]), int(check[:9]) if colon else None))
    often = Counter(each.entry for each in wanted).most_common(1)[0]
    if often[1] > 1:
        raise argparse.ArgumentTypeError(f"entry {often[0]} for the second time")
    return wanted
