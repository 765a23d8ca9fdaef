# SPDX-License-Identifier: MIT
"""A candidate's result in a sentence."""

from __future__ import annotations

from typing import Sequence

from ..marking.counting import counts
from ..names import both
from ..points import Points, said
from ..sheet import Explained, KeyMark, Sheet
from ..words import listed, plural
from .argued import in_a_sentence
from .phrases import UNTIL, reason

WORDS = {1: "One", 2: "Two", 3: "Three", 4: "Four", 5: "Five"}


def result(sheet: Sheet) -> str:
    """A candidate's result in a sentence or two."""
    if sheet.problem:
        points = _points(sheet)
        return f"{points}{UNTIL[:1].upper()}{UNTIL[1:]}: {reason(sheet)}.{_explained(sheet, 0)}"
    of = counts(sheet)
    wrong = of.wrong + of.failing
    parts = [f"{of.right} of {sheet.size} entries right"]
    if of.right == sheet.size:
        parts = [f"All {sheet.size} entries right" if sheet.size > 1 else "The entry is right"]
    for count, what in (
        (wrong, "wrong"), (of.missing, "missing"), (of.unmarked, "not marked"), (of.extra, "extra")
    ):  # fmt: skip
        parts += [f"{count} {what}"] if count else []
    own = f"; {sheet.following} of the wrong are right under own keys" if sheet.following else ""
    points = _points(sheet)
    states = [mark.state for mark in sheet.keys.marks if mark.state != "idle"]
    bad = len(states) - states.count("right")
    keys = f"; {bad} of {len(states)} keys wrong" if bad else ""
    absent = len(sheet.points.not_handed_in) if sheet.points else 0
    keys += f"; {plural(absent, 'key')} not handed in" if absent else ""
    keys += "; the file of keys can't be read" if sheet.keys.unread else ""
    return f"{points}{', '.join(parts)}{own}{keys}.{_explained(sheet, wrong)}"


def _points(sheet: Sheet) -> str:
    """The points, in all where there is a total, in a sentence."""
    return in_a_sentence(sheet) or (f"{sum_of(sheet.points)}. " if sheet.points else "")


def sum_of(points: Points) -> str:
    """A sum of points, and of how many."""
    return f"{said(points.sum)} of {said(points.most)} points"


def key_result(mark: KeyMark) -> str:
    """What a key that was handed in is."""
    if mark.state == "follows":
        return f"wrong, but right under the candidate's own {listed(mark.under)}"
    if mark.state == "idle" or mark.wants is None:
        return "not asked for: this side does not run"
    if mark.state == "right":
        return "right"
    if not mark.has:
        return "wrong: not to be read"
    length = f": {len(mark.has)} bytes, not {len(mark.wants)}" * (len(mark.has) != len(mark.wants))
    also = f"it is {both(mark.also)}" if mark.also else ""
    return f"wrong{length}" + "".join(f": {said}" for said in (also, mark.note) if said)


def _explained(sheet: Sheet, wrong: int) -> str:
    """What the slips explain, in a sentence each for entries and for keys."""
    said = ""
    of_entries = [slip for slip in sheet.slips if slip.entries]
    entries = {entry for slip in of_entries for entry in slip.entries}
    if entries:
        much = f"{len(entries)} of the {wrong} wrong entries"
        if len(entries) == wrong:
            much = {1: "the one wrong entry", 2: "both wrong entries"}.get(
                wrong, f"all {wrong} wrong entries"
            )
        said += _explain(of_entries, much)
    elif wrong > sheet.following:
        said += " No slip that the desk knows explains what is wrong in the entries."
    of_keys = [slip for slip in sheet.slips if slip.keys and not slip.entries]
    if of_keys:
        said += _explain(of_keys, listed([key for slip in of_keys for key in slip.keys]))
    return said


def _explain(slips: Sequence[Explained], much: str) -> str:
    """That slips explain so much."""
    number = len(slips)
    verb = "slip explains" if number == 1 else "slips explain"
    return f" {WORDS.get(number, number)} {verb} {much}: {'; '.join(slip.name for slip in slips)}."
