# SPDX-License-Identifier: MIT
"""Points, in exact fractions, and how they are said."""

from __future__ import annotations

import re
from fractions import Fraction
from typing import NamedTuple, Optional


BLANK, NOT_HANDED_IN = "left blank", "not handed in"  # why a value is lost


class Lost(NamedTuple):
    """An entry of the model, or a value, that gave less than it could, and why."""

    what: str  # entry 7, or the value's name
    why: str


class Item(NamedTuple):
    """A line of the scheme: what it gives or costs in a hand-in."""

    what: str
    points: Fraction
    most: Optional[Fraction] = None  # its share of what could be reached; None of what is given in the place of that
    lost: tuple[Lost, ...] = ()


class Points(NamedTuple):
    """The points of a hand-in."""

    items: tuple[Item, ...]
    most: Fraction  # with everything right that is handed in or asked for, and no entry missing

    @property
    def sum(self) -> Fraction:
        """Their sum, never below 0."""
        return max(Fraction(0), sum((item.points for item in self.items), Fraction(0)))

    @property
    def share(self) -> Fraction:
        """Their share of what could be reached."""
        return self.sum / self.most if self.most else Fraction(0)

    @property
    def whole(self) -> bool:
        """Whether nothing that counts was lost."""
        return not any(item.lost for item in self.items)

    @property
    def not_handed_in(self) -> list[Lost]:
        """The values that count and were not handed in, rows of a form that are blank among them."""
        return [each for item in self.items for each in item.lost if each.why in (BLANK, NOT_HANDED_IN)]

    def of(self, what: str) -> Fraction:
        """The points of an item; 0 of one that gives or costs none."""
        return next((item.points for item in self.items if item.what == what), Fraction(0))


def said(points: Fraction) -> str:
    """Points as they are said: 13 1/2."""
    return re.sub("^(-?)0 ", r"\1", written(points))


def written(points: Fraction) -> str:
    """Points for a spreadsheet: 13 1/2, and 0 1/2, which is no date."""
    whole, rest = divmod(abs(points), 1)
    return "-" * (points < 0) + f"{whole}" + f" {rest}" * bool(rest)
