# SPDX-License-Identifier: MIT
"""What each part of the question is worth by a scheme, as the paper and the form say it."""

from __future__ import annotations

from fractions import Fraction
from typing import NamedTuple, Optional, Sequence

from ..argument import IN_ITS_PLACE, ONE_ENTRY
from ..asked import ARGUMENT, GENERATIONS, THIRD
from ..points import said
from ..reading.schemes import ASKED, IDENTITY, PASS_SHARE, SHARE, TEXT, Scheme, needed
from ..records import KINDS
from .claims import PARTS
from .document import Block, Head, Table, Words
from .html import Number

NONE = Fraction(0)
# The parts of the question, in a word or two.
SHORT = {
    **{title: title.partition(":")[0].lower() for title, _ in GENERATIONS},
    THIRD: "sealed book",
    ARGUMENT: "argument",
}


def points(number: Fraction) -> str:
    """So many points."""
    return f"{said(number)} point{'s' * (not 0 < number <= 1)}"


class Worth(NamedTuple):
    """A scheme, and what is asked for: the values by name, and an entry of each of these kinds."""

    scheme: Scheme
    values: Sequence[str]
    kinds: Sequence[int]

    def value(self, name: str) -> Fraction:
        """The points of a value of the first two generations."""
        return self.scheme.get(name.rstrip(" 12"), NONE)

    @property
    def book(self) -> Fraction:
        """The points of the sealed book."""
        checks = sum(KINDS[kind].checks for kind in self.kinds)
        return self.scheme["entry"] * len(self.kinds) + self.scheme["redundancy byte"] * checks

    @property
    def argument(self) -> list[tuple[str, Fraction]]:
        """The questions of the argument with their points, in the order in which they are asked."""
        worth = {part.name: self.scheme[part.name] for part in PARTS}
        worth[ONE_ENTRY] = max(worth[ONE_ENTRY], worth.pop(IN_ITS_PLACE))
        asks = {part.name: part.asks for part in PARTS}
        names = sorted(worth, key=lambda name: name != ONE_ENTRY)
        return [(asks[name], worth[name]) for name in names if worth[name]]

    @property
    def no_argument(self) -> bool:
        """Whether the scheme says that there is none: all of its parts are worth nothing."""
        return not self.argument

    @property
    def parts(self) -> dict[str, Fraction]:
        """The parts of the question."""
        made = {
            title: sum((self.value(name) for name in names if name in self.values), NONE)
            for title, names in GENERATIONS
        }
        made[THIRD] = self.book
        if self.argument:
            made[ARGUMENT] = sum((worth for _, worth in self.argument), NONE)
        return made

    @property
    def needed(self) -> Optional[tuple[str, Fraction]]:
        """What is needed to pass, and how that is called, if the scheme says it."""
        least = needed(self.scheme, sum(self.parts.values(), NONE))
        share = f" ({said(self.scheme[PASS_SHARE])}%)" if PASS_SHARE in self.scheme else ""
        return None if least is None else (f"needed to pass{share}", least)


def argument_table(worth: Worth) -> list[Block]:
    """The questions of the argument, each with its points."""
    rows = [(asks, Number(said(each))) for asks, each in worth.argument]
    return [Table(("asked", "points"), rows, "worth")] if rows else []


def _of_entries(worth: Worth) -> list[str]:
    """What entries win that are right, in part, or wrong."""
    scheme = worth.scheme
    rules = [f"An entry has {points(scheme['entry'])} if its record is right in every byte."]
    has = ((TEXT, "kind, version and sealed text"), (IDENTITY, "the ESI"))
    won = [f"{points(scheme[part])} for {what}" for part, what in has if scheme[part]]
    if won:
        rules.append(f"A wrong record has {', and '.join(won)} of an entry without a right one.")
    check = scheme["redundancy byte"]
    if check:
        rules.append(f"Each redundancy byte that is right has {points(check)}, also in a wrong entry.")
    return rules


def _rules(worth: Worth) -> list[str]:
    """What is won in part, and what is charged."""
    scheme = worth.scheme
    rules = _of_entries(worth)
    share = scheme[SHARE]
    if share:
        what = "all" if share == 1 else said(share)
        rules.append(f"What is wrong, but right by your own earlier values, has {what} of its points.")
    if scheme[ASKED]:
        rules.append("A row that is left blank has none.")
    else:
        rules.append("A row that is left blank costs nothing: its points are not in what can be reached.")
    entries = "the first" if len(worth.kinds) == 1 else str(len(worth.kinds))
    costs = [
        (scheme["extra"], f"each record beyond {entries} costs"),
        (scheme["order"], "each entry out of the order of this paper costs"),
    ]
    charged = [f"{what} {points(-cost)}" for cost, what in costs if cost]
    if charged:
        words = ", and ".join(charged)
        rules.append(f"{words[:1].upper()}{words[1:]}; the sum is never below 0.")
    return rules


def summary(worth: Worth) -> list[Block]:
    """The points of each part, their sum, what is needed to pass, and the rules."""
    cells = {SHORT[part]: each for part, each in worth.parts.items()}
    cells["in all"] = sum(worth.parts.values(), NONE)
    cells.update([worth.needed] if worth.needed else [])
    row = [Number(said(each)) for each in cells.values()]
    return [Head("Points"), Table(list(cells), [row], "worth"), Words(" ".join(_rules(worth)))]
