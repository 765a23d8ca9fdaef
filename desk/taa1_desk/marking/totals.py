# SPDX-License-Identifier: MIT
"""What a candidate has in all, by a scheme: book, keys and argument."""

from __future__ import annotations

from fractions import Fraction
from statistics import mean, median
from typing import NamedTuple, Optional, Sequence

from ..argument import Argument, Total
from ..points import Points
from ..reading.schemes import Scheme, needed
from ..sheet import Sheet


def total(scheme: Scheme, points: Points, argument: Optional[Argument], marked: bool = True) -> Optional[Total]:
    """The points in all; None where nothing is to be added to the book's, nor said of passing.

    A book or an argument that is not marked counts 0 until it is, and leaves open what it may add.
    """
    most = points.most + (argument.most if argument else 0)
    border = needed(scheme, most)
    if argument is None and border is None:
        return None
    unmarked, open_ = [], Fraction(0)
    given = argument.points if argument else Fraction(0)
    if not marked:
        unmarked.append("book")
        open_ += points.most - points.sum
    if argument and given is None:
        unmarked.append("argument")
        open_ += argument.most
    return Total(points.sum + (given or 0), most, tuple(unmarked), open_, border)


class Totals(NamedTuple):
    """The totals of a class, of those whose argument is marked; in percent of what each could
    reach, where that is not the same for all."""

    candidates: int
    unmarked: int  # of them, whose book is not marked and counts 0
    mean: Fraction
    median: Fraction
    most: Fraction
    shares: bool


def totals(sheets: Sequence[Sheet]) -> Optional[Totals]:
    """The totals, if there are any."""
    whole = [sheet.total for sheet in sheets if sheet.total and "argument" not in sheet.total.unmarked]
    if not whole:
        return None
    shares = len({each.most for each in whole}) > 1
    values = [100 * each.points / each.most if shares else each.points for each in whole]
    most = Fraction(100) if shares else whole[0].most
    unmarked = sum("book" in each.unmarked for each in whole)
    return Totals(len(whole), unmarked, mean(values), Fraction(median(values)), most, shares)


class Passing(NamedTuple):
    """How many of a class have passed."""

    passed: int
    not_passed: int
    not_yet_known: int


def passing(sheets: Sequence[Sheet]) -> Optional[Passing]:
    """How many have passed; None where nothing is said of it."""
    passed = [sheet.total.passed for sheet in sheets if sheet.total and sheet.total.needed is not None]
    if not passed:
        return None
    return Passing(passed.count(True), passed.count(False), passed.count(None))
