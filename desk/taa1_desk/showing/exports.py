# SPDX-License-Identifier: MIT
"""A class for other programs: JSON, and comma-separated values for a spreadsheet.

docs/desk.md describes both forms. A change that a reader of the JSON would notice gives
it the next number.
"""

from __future__ import annotations

import csv
import io
import re
from fractions import Fraction
from typing import Any, Iterable, Optional

from ..argument import Argument, Total
from ..marking.counting import COUNTED, average, counts, wrong_by_entry
from ..marking.totals import passing, totals
from ..points import written
from ..reading.sittings import Heading
from ..sheet import Argued, Class, Marked, Sheet
from .argued import yes_or_no
from .phrases import to_look_at

FORM, VERSION = "taa1 mark", 4
HEADS = (
    "candidate", "file", "entries", *COUNTED, "points", "of points", "argument", "of argument",
    "total", "of total", "passed", "opens", "slips", "read as", "problem",
)  # fmt: skip
NOTHING = "nothing was handed in"
NO_BOOK = "no hand-in is marked, so the book counts 0"
# What begins a formula in a spreadsheet; full-width signs are taken for the plain ones.
FORMULA = ("=", "+", "-", "@", "\t", "\r", "\n", "＝", "＋", "－", "＠")


def is_marks(start: bytes) -> bool:
    """Whether a file that begins so is what the desk wrote of marks: text, JSON or a table."""
    text = start.decode("utf-8", "replace")
    line = text.partition("\n")[0]
    words = r".*: (\d+ of \d+ entries right|not marked: |read as )|candidates \d+: \d+ all right"
    return (
        f'"form": "{FORM}"' in text or line.startswith(",".join(HEADS)) or bool(re.match(words, line))
    )


def _cell(value: Any) -> Any:
    """A cell; a text that a spreadsheet would work out has an apostrophe in front."""
    return f"'{value}" if isinstance(value, str) and value.startswith(FORMULA) else value


def _row(sheet: Sheet) -> Iterable[Any]:
    opens = "" if sheet.problem else "no" if sheet.refused else "yes"
    slips = "; ".join(slip.name for slip in sheet.slips)
    read_as = "" if sheet.problem else sheet.read_as or "bytes"
    points = map(written, (sheet.points.sum, sheet.points.most)) if sheet.points else ("", "")
    argued = _argued(sheet.argument, sheet.total)
    start = (sheet.candidate, sheet.name, sheet.size, *counts(sheet), *points, *argued)
    return map(_cell, (*start, opens, slips, read_as, "; ".join(to_look_at(sheet))))


def _argued(argument: Optional[Argument], total: Optional[Total]) -> tuple[str, ...]:
    """The argument, the total once the argument is marked, and whether it is passed."""
    points = argument.points if argument else None
    marked = total is not None and "argument" not in total.unmarked
    return (
        "" if points is None else written(points),
        written(argument.most) if argument else "",
        written(total.points) if total and marked else "",
        written(total.most) if total else "",
        yes_or_no(total),
    )


def class_json(of: Class, heading: Heading) -> dict[str, Any]:
    """The class for programs."""
    sheets, whole = of.sheets, of.summary
    wrong, points = wrong_by_entry(sheets), average(sheets)
    whole_, passed = totals(sheets), passing(sheets)
    entries = sorted({entry for counted in wrong.values() for entry in counted})
    return {
        "form": FORM,
        "version": VERSION,
        **heading._asdict(),
        "class": {
            **whole._asdict(),
            "absent": [*of.absent, *(each.candidate for each in of.unmarked)],
            "left_out": [{"name": each.candidate, "file": each.file, "why": each.why} for each in of.left_out],
            "points": points
            and {
                "mean": str(points.mean),
                "median": str(points.median),
                "of": str(points.most),
                "in_percent": points.shares,
                "candidates": len(points.values),
                "not_marked": points.unmarked,
            },
            "arguments_not_marked": sum(bool(s.argument and s.argument.points is None) for s in sheets),
            "totals": whole_
            and {
                "mean": str(whole_.mean),
                "median": str(whole_.median),
                "of": str(whole_.most),
                "in_percent": whole_.shares,
                "candidates": whole_.candidates,
                "not_marked": whole_.unmarked,
            },
            "passing": passed and passed._asdict(),
            "arguments_alone": [
                {"name": each.candidate, **_argued_json(each.argument, each.total)} for each in of.argued
            ],
            "slips": [{"slip": name, "candidates": count} for name, count in whole.slips],
            "checks": [
                {"kind": kind, "check": check, "entries": count} for kind, check, count in whole.checks
            ],
            "wrong_entries": [
                {"entry": entry, **{_key(name): counted[entry] for name, counted in wrong.items()}}
                for entry in entries
            ],
        },
        "sheets": [
            {
                **sheet_json(sheet),
                "name": sheet.candidate,
                "counts": {_key(name): count for name, count in zip(COUNTED, counts(sheet))},
            }
            for sheet in sheets
        ],
    }


def _argued_json(argument: Optional[Argument], total: Optional[Total]) -> dict[str, Any]:
    """The argument and the total for programs."""

    def exact(points: Optional[Fraction]) -> Optional[str]:
        return None if points is None else str(points)

    return {
        "argument": argument
        and {
            "points": exact(argument.points),
            "of": str(argument.most),
            "parts": [
                {"part": part.name, "points": exact(part.points), "of": str(part.of)} for part in argument.parts
            ],
        },
        "total": total
        and {
            "points": str(total.points),
            "of": str(total.most),
            "counts_0": list(total.unmarked),
            "needed": exact(total.needed),
            "passed": total.passed,
        },
    }


def _key(name: str) -> str:
    return name.replace(" ", "_")


def _absent(name: str, file: str = "", why: str = NOTHING) -> Iterable[Any]:
    """The row of a candidate who handed nothing in, or of a file that was left out."""
    cells = dict.fromkeys(HEADS, "")
    cells.update(candidate=name, file=file, problem=why)
    return map(_cell, cells.values())


def _argued_row(of: Argued) -> Iterable[Any]:
    """The row of a candidate without a hand-in that is marked, whose argument is."""
    cells = dict(zip(HEADS, _absent(of.candidate, why=NO_BOOK)))
    cells.update(zip(HEADS[HEADS.index("argument") :], _argued(of.argument, of.total)))
    return cells.values()


def csv_text(of: Class) -> str:
    """The class, a row for each candidate: first files that were left out and books that are not
    marked, since somebody has to see to them; who handed nothing in stands last."""
    text = io.StringIO()
    argued = {each.candidate for each in of.argued}
    writer = csv.writer(text, lineterminator="\n")
    writer.writerow(HEADS)
    writer.writerows(_absent(*each) for each in of.left_out)
    writer.writerows(map(_row, sorted(of.sheets, key=lambda sheet: not sheet.problem)))
    writer.writerows(map(_absent, (name for name in of.absent if name not in argued)))
    writer.writerows(map(_argued_row, of.argued))
    return text.getvalue()


def sheet_json(sheet: Sheet) -> dict[str, Any]:
    """A mark sheet for programs."""
    return {
        "candidate": sheet.name,
        "problem": sheet.problem,
        "read_as": None if sheet.problem else sheet.read_as or "bytes",
        "opens": None if sheet.flags else sheet.problem is None and sheet.refused is None,
        "refusal": sheet.refused.number if sheet.refused else 0,
        "refused_at": sheet.refused.index if sheet.refused else None,
        "right": sheet.right,
        "of": sheet.size,
        "extra": sheet.extra,
        "points": sheet.points
        and {
            "sum": str(sheet.points.sum),
            "of": str(sheet.points.most),
            "items": [
                {
                    "for": item.what,
                    "points": str(item.points),
                    "of": None if item.most is None else str(item.most),
                    "lost": [each._asdict() for each in item.lost],
                }
                for item in sheet.points.items
            ],
        },
        **_argued_json(sheet.argument, sheet.total),
        "keys": [
            {
                "name": mark.name,
                "state": mark.state,
                "has": mark.has,
                "wants": mark.wants,
                "right_under_own": list(mark.under),
            }
            for mark in sheet.keys.marks
        ],
        "entries": [_entry_json(entry) for entry in sheet.entries],
        "missing": list(sheet.missing),
        "not_read": list(sheet.unread),
        "blank": list(sheet.blank),
        "unlisted": sheet.unlisted,
        "flags": sheet.flags._asdict() if sheet.flags else None,
        "lines_not_read": [*sheet.keys.problems, *sheet.problems],
        "bytes_left": sheet.left,
        "slips": [
            {
                "slip": s.name,
                "step": s.step[0],
                "clause": s.step[1],
                "explains": list(s.entries),
                "part": s.part or None,
                "keys": list(s.keys),
                "under_own_keys": s.own,
                "or": list(s.others),
            }
            for s in sheet.slips
        ],
    }


def _entry_json(entry: Marked) -> dict[str, Any]:
    return {
        "entry": entry.index,
        "state": entry.state,
        "model": entry.model,
        "moved": entry.moved,
        "failed_checks": list(entry.opened.failed) if entry.opened else [],
        "differences": [difference._asdict() for difference in entry.differences],
        "of_other_entries": dict(entry.borrowed),
        "note": entry.note or None,
        "right_under_own": entry.follows or None,
        "slip": entry.slip,
    }
