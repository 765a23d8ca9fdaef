# SPDX-License-Identifier: MIT
"""The argument's points by the parts of its rubric, and what a candidate has in all."""

from __future__ import annotations

from fractions import Fraction
from typing import NamedTuple, Optional

# The names of the rubric's parts, as in docs/ARGUMENT.md.
PARTS = ("given", "one entry", "one result", "properties", "without it", "was sealed")
ONE_ENTRY, IN_ITS_PLACE = PARTS[1:3]  # the second counts where the first gets nothing


class Part(NamedTuple):
    """A part of the rubric, and of how many its points are."""

    name: str
    of: Fraction
    points: Optional[Fraction] = None  # None: not marked, or only the sum of all is given


class Argument(NamedTuple):
    """A candidate's argument: the parts that a scheme has points for, and what was given."""

    parts: tuple[Part, ...]
    alone: Optional[Fraction] = None  # the sum, where no part's points are given

    @property
    def most(self) -> Fraction:
        """What could be reached: of two parts of which one stands in the other's place, the greater."""
        of = {part.name: part.of for part in self.parts}
        either = min(of.get(ONE_ENTRY, Fraction(0)), of.get(IN_ITS_PLACE, Fraction(0)))
        return sum(of.values(), Fraction(0)) - either

    @property
    def by_parts(self) -> bool:
        """Whether any part has its points."""
        return any(part.points is not None for part in self.parts)

    @property
    def blank(self) -> list[str]:
        """The parts that are still to be marked."""
        return [] if self.alone is not None else [part.name for part in self.parts if part.points is None]

    @property
    def points(self) -> Optional[Fraction]:
        """The sum; None: it is not yet marked, or not in all parts."""
        if self.alone is not None or self.blank:
            return self.alone
        return sum((part.points for part in self.parts if part.points), Fraction(0))


class Total(NamedTuple):
    """What a candidate has in all, book, keys and argument."""

    points: Fraction
    most: Fraction
    unmarked: tuple[str, ...] = ()  # of book and argument, what counts 0 until it is marked
    open: Fraction = Fraction(0)  # what that may add
    needed: Optional[Fraction] = None  # to pass; None: nothing is said of passing

    @property
    def passed(self) -> Optional[bool]:
        """Whether it is passed, as far as it is decided whatever else is marked."""
        if self.needed is None or self.points < self.needed <= self.points + self.open:
            return None
        return self.points >= self.needed
