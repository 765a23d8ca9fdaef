# SPDX-License-Identifier: MIT
"""A hand-in's entries counted, and a class in numbers."""

from __future__ import annotations

from collections import Counter
from fractions import Fraction
from statistics import mean, median
from typing import Iterable, NamedTuple, Optional, Sequence

from ..sheet import Marked, Sheet, Summary


class Counts(NamedTuple):
    """The model's entries, each counted as one of five things, and records beyond them."""

    right: int
    wrong: int  # no check of their redundancy fails
    failing: int  # wrong, and a check fails
    missing: int
    unmarked: int
    extra: int


# What the counts are called.
COUNTED = ("right", "wrong", "fails a check", "missing", "not marked", "extra")


WRONG, FAILS, MISSING = COUNTED[1:4]


def _fails(entry: Marked) -> bool:
    """Whether a check of its redundancy fails."""
    return bool(entry.opened and entry.opened.failed)


def counts(sheet: Sheet) -> Counts:
    """A hand-in's entries, counted."""
    wrong = [entry for entry in sheet.entries if entry.state == "wrong"]
    failing = sum(map(_fails, wrong))
    missing = 0 if sheet.problem else len(sheet.missing)
    marked = sheet.right + len(wrong) + missing
    return Counts(
        sheet.right, len(wrong) - failing, failing, missing, sheet.size - marked, sheet.extra
    )


def wrong_by_entry(sheets: Iterable[Sheet]) -> dict[str, Counter[int]]:
    """For each way to be wrong, how many candidates have each of the model's entries so."""
    made: dict[str, Counter[int]] = {WRONG: Counter(), FAILS: Counter(), MISSING: Counter()}
    for sheet in sheets:
        if not sheet.problem:
            made[MISSING].update(sheet.missing)
            for entry in sheet.entries:
                if entry.state == "wrong" and entry.model is not None:
                    made[FAILS if _fails(entry) else WRONG][entry.model] += 1
    return made


class Average(NamedTuple):
    """The points of a class, of each candidate; or, if what could be reached is not the same
    for all, the shares of that in percent. And the most that there are, and the means."""

    values: list[Fraction]
    most: Fraction
    mean: Fraction
    median: Fraction
    shares: bool
    unmarked: int  # of them, which count 0 for the book


def average(sheets: Iterable[Sheet]) -> Optional[Average]:
    """The points of a class, if any hand-in is marked."""
    scored = [sheet for sheet in sheets if sheet.points]
    points = [sheet.points for sheet in scored if sheet.points]
    if not points:
        return None
    unmarked = sum(bool(sheet.problem) for sheet in scored)
    shares = len({each.most for each in points}) > 1
    values = [100 * each.share if shares else each.sum for each in points]
    most = Fraction(100) if shares else points[0].most
    return Average(values, most, mean(values), Fraction(median(values)), shares, unmarked)


def summary(sheets: Sequence[Sheet]) -> Summary:
    """The class in numbers."""
    slips: dict[str, int] = {}
    checks: dict[tuple[int, int], int] = {}
    opened_books = any(sheet.flags for sheet in sheets)
    for sheet in sheets:
        for slip in sheet.slips:
            slips[slip.name] = slips.get(slip.name, 0) + 1
        wrong = [entry.opened for entry in sheet.entries if entry.state == "wrong"]
        for opened in filter(None, wrong):
            for check in opened.failed:
                at = (opened.kind, check)
                checks[at] = checks.get(at, 0) + 1
    return Summary(
        len(sheets),
        sum(sheet.perfect for sheet in sheets),
        sum(sheet.problem is not None for sheet in sheets),
        sum(bool(sheet.keys.unread) for sheet in sheets),
        None if opened_books else sum(sheet.refused is not None for sheet in sheets),
        tuple(sorted(slips.items(), key=lambda item: (-item[1], item[0]))),
        tuple((kind, check, count) for (kind, check), count in sorted(checks.items())),
    )
