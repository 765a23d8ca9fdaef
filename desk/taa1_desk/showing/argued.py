# SPDX-License-Identifier: MIT
"""What is said of an argument's points, of the total and of passing."""

from __future__ import annotations

from fractions import Fraction
from typing import Optional, Sequence

from ..argument import IN_ITS_PLACE, ONE_ENTRY, Argument, Part, Total
from ..points import said
from ..sheet import Argued, Sheet
from ..words import listed
from .html import Html, Number, table, text

PASSED = {True: "passed", False: "not passed", None: "not yet known whether passed"}
YES_OR_NO = {True: "yes", False: "no", None: "not yet known"}  # in a column `passed`
STYLE = """
.argument, .argument .number { width: auto; }
.argument td:last-child { font-weight: bold; }
@media screen and (max-width: 40em) { .argument td.number { display: inline-block; padding-right: .8em; } }
"""


def argument_said(argument: Argument) -> str:
    """An argument's points, of how many, or that it is not yet marked."""
    if argument.points is None:
        blank = f" in {listed(argument.blank)}" if argument.by_parts else ""
        return f"argument not yet marked{blank}, of {said(argument.most)}"
    parts = "; ".join(f"{part.name}: {said(part.points or Fraction(0))}" for part in _shown(argument))
    return f"argument {said(argument.points)} of {said(argument.most)}" + f" ({parts})" * argument.by_parts


def lines_said(sheet: Sheet) -> list[str]:
    """What a sheet's lines say of the argument and the total."""
    said_ = [argument_said(sheet.argument)] if sheet.argument else []
    said_ += [total_said(sheet.total)] if sheet.total else []
    unmarked = sheet.argument is not None and sheet.argument.points is None
    return ["; ".join(said_)] if unmarked else said_


def total_said(total: Total) -> str:
    """The points in all, what counts 0 in them, and whether it is passed."""
    so_far = " so far" * ("argument" in total.unmarked) + ", with 0 for the book" * ("book" in total.unmarked)
    words = f"total {said(total.points)} of {said(total.most)}{so_far}"
    return f"{words}: {passing(total)}" if total.needed is not None else words


def passing(total: Total) -> str:
    """Whether it is passed, what is needed for it, and what it still depends on."""
    rest = listed(total.unmarked) if total.unmarked else ""
    several = len(total.unmarked) > 1
    depends = f", and the {rest} {'are' if several else 'is'} not marked" if rest and total.passed is None else ""
    words = f"{PASSED[total.passed]} ({said(total.needed or total.most)} needed{depends})"
    return f"{words}, whatever the {rest} {'get' if several else 'gets'}" if rest and not depends else words


def alone_said(of: Argued) -> str:
    """What is said of an argument without a hand-in that is marked."""
    total = f"; {total_said(of.total)}" if of.total else ""
    return f"no hand-in of {of.candidate} is marked: {argument_said(of.argument)}{total}"


def not_yet_marked(sheets: Sequence[Sheet]) -> list[str]:
    """The candidates whose argument is not yet marked, where others' are."""
    argued = {sheet.candidate: sheet.argument.points for sheet in sheets if sheet.argument}
    blank = [name for name, points in argued.items() if points is None]
    return blank if len(blank) < len(argued) else []


def yes_or_no(total: Optional[Total]) -> str:
    """Whether it is passed, in a word; nothing where nothing is said of it."""
    return YES_OR_NO[total.passed] if total and total.needed is not None else ""


def in_a_sentence(sheet: Sheet) -> str:
    """The total and what it is made of, before what is said of the book; nothing where there is
    no total."""
    total, argument, points = sheet.total, sheet.argument, sheet.points
    if total is None or points is None:
        return ""
    if argument and argument.points is None:
        book = f"{said(points.sum)} of {said(points.most)} points for book and keys"
        return f"{book}; {argument_said(argument)}. {_capital(total_said(total))}. "
    words = f"{said(total.points)} of {said(total.most)} points in all"
    words += f": {passing(total)}" if total.needed is not None else ""
    book = f" {said(points.sum)} of {said(points.most)} for book and keys, " if argument else ""
    return f"{words}.{book}{argument_said(argument).partition(' (')[0] + '.' if argument else ''} "


def _capital(words: str) -> str:
    return words[:1].upper() + words[1:]


def section(sheet: Sheet) -> list[Html]:
    """The argument on a candidate's page: its parts, or its sum alone. The total stands above."""
    argument = sheet.argument
    if argument is None:
        return []
    made = [text("h2", "Argument")]
    of = f"{said(argument.most)} points"
    if argument.by_parts:
        blank = f"Not yet marked: {listed(argument.blank)}." if argument.blank else ""
        made += [text("p", blank)] if blank else []
        parts = [*_shown(argument), Part("sum", argument.most, argument.points)]
        points = (None if part.points is None else Number(said(part.points)) for part in parts)
        rows = [("points", *points), ("of", *(Number(said(part.of)) for part in parts))]
        made.append(table(("part", *(part.name for part in parts)), rows, "argument"))
    elif argument.points is None:
        made.append(text("p", f"Not yet marked, of {of}: {_parts(argument)}."))
    else:
        made.append(text("p", f"{said(argument.points)} of {of}, given without its parts ({_parts(argument)})."))
    return made


def _shown(argument: Argument) -> list[Part]:
    """The parts, without the one that stands in another's place unless it has points."""
    return [part for part in argument.parts if part.name != IN_ITS_PLACE or part.points or _alone(argument)]


def _alone(argument: Argument) -> bool:
    """Whether a part stands in no other's place."""
    return ONE_ENTRY not in [part.name for part in argument.parts]


def _parts(argument: Argument) -> str:
    """The parts, and of how many points each is."""
    said_ = []
    for part in argument.parts:
        in_place = f" in the place of '{ONE_ENTRY}'" * (part.name == IN_ITS_PLACE and not _alone(argument))
        said_.append(f"{part.name} {said(part.of)}{in_place}")
    return ", ".join(said_)


def to_write(sheet: Sheet) -> tuple[str, ...]:
    """Places on a printed page for what is not yet marked."""
    argument, total = sheet.argument, sheet.total
    if argument is None or total is None or argument.points is not None:
        return ()
    return f"Argument, of {said(argument.most)}", f"Total, of {said(total.most)}"
