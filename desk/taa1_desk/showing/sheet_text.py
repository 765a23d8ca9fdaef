# SPDX-License-Identifier: MIT
"""Mark sheets and a class's summary as lines of text."""

from __future__ import annotations

from typing import Sequence

from ..marking.totals import passing
from ..sheet import Sheet, Summary
from .argued import lines_said
from .phrases import UNTIL, explanation, faults, keys_said, not_handed_in, others, sum_said, too_many, verdict


def sheet_text(sheet: Sheet, named: bool = False) -> str:
    """A mark sheet as lines of text, under the file's name, or the candidate's as well."""
    name = f"{sheet.candidate} ({sheet.name})" if named else sheet.name
    lines = [f"{name}: {verdict(sheet)}"]
    said = too_many(sheet) + keys_said(sheet.keys) + not_handed_in(sheet) + faults(sheet) + others(sheet)
    lines += [f"  {line}" for line in said]
    lines += [f"  slip: {explanation(slip, sheet)}" for slip in sheet.slips]
    until = f": {UNTIL}" if sheet.problem else ""
    lines += [f"  {sum_said(sheet.points)}{until}"] if sheet.points else []
    lines += [f"  {line}" for line in lines_said(sheet)]
    return "\n".join(lines) + "\n"


def class_numbers(of: Summary) -> str:
    """How many candidates there are, and how they did."""
    unopened = ""
    if of.unopened is not None:
        unopened = f"{of.unopened} {'does' if of.unopened == 1 else 'do'} not open, "
    keys = f", keys not read {of.unread_keys}" if of.unread_keys else ""
    return f"{of.perfect} all right, {unopened}{of.unreadable} not marked{keys}"


def passing_numbers(sheets: Sequence[Sheet]) -> str:
    """How many have passed; nothing where nothing is said of it."""
    of = passing(sheets)
    if of is None:
        return ""
    return f"{of.passed} passed, {of.not_passed} not passed" + f", {of.not_yet_known} not yet known" * bool(of.not_yet_known)


def summary_text(of: Summary, sheets: Sequence[Sheet] = ()) -> str:
    """The class in lines of text."""
    lines = [f"candidates {of.candidates}: {class_numbers(of)}"]
    lines += [f"  {passing_numbers(sheets)}"] if passing(sheets) else []
    lines += [f"  slip: {name}: {count}" for name, count in of.slips]
    return "\n".join(lines) + "\n"
