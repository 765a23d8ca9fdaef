# SPDX-License-Identifier: MIT
"""The rows of a table of candidates, for a screen: who needs a decision first."""

from __future__ import annotations

import os
from typing import Mapping, NamedTuple, Optional, Sequence

from ..points import said
from ..problems import place, shown
from ..sheet import Class, Sheet
from .phrases import UNTIL, reason, to_look_at, verdict, was_read

NOTHING, NOT_MARKED = "nothing was handed in", "not marked: "


class Row(NamedTuple):
    """A candidate, or a file that was left out."""

    key: str  # the hand-in's file, as from the folder of hand-ins; or whatever tells it from others
    name: str
    file: str
    read: str  # how it was read, or why not
    says: tuple[str, ...]  # all that is to be said of it
    look: bool = False  # somebody has to decide something
    page: str = ""  # the name of the candidate's page, where there is one
    sheet: Optional[Sheet] = None
    form: str = ""  # in which it is to be read

    @property
    def owner(self) -> str:
        """What a list names the hand-in by: its file, or the candidate's folder that it lies in."""
        return self.key.partition(os.sep)[0]

    @property
    def given(self) -> dict[str, str]:
        """The points of the argument by parts, as they are typed."""
        parts = self.sheet.argument.parts if self.sheet and self.sheet.argument else ()
        return {part.name: "" if part.points is None else said(part.points) for part in parts}

    @property
    def cells(self) -> dict[str, str]:
        """What the table shows."""
        cells = dict(name=self.name, file=self.file, read=self.read)
        if self.sheet and self.sheet.points:
            argument, total = self.sheet.argument, self.sheet.total
            cells["points"] = said(self.sheet.points.sum)
            cells["argument"] = "" if argument is None or argument.points is None else said(argument.points)
            cells["total"] = said(total.points) if total and "argument" not in total.unmarked else ""
            cells["passed"] = "" if total is None or total.passed is None else "yes" if total.passed else "no"
        return cells


def rows(of: Class, files: Sequence[str], pages: Sequence[str], folder: str, forms: Mapping[str, str]) -> list[Row]:
    """The rows of a class whose hand-ins lie in a folder: files that were left out and what
    somebody has to look at, the others, and who is absent. For each hand-in its file and its page
    are given, and the forms in which some are to be read, by their files as from the folder."""
    inside = os.path.join(place(folder), "")
    left = [
        Row(f"/{each.file}", each.candidate, each.file.removeprefix(inside), each.why, (each.why,), True)
        for each in of.left_out
    ]
    made = []
    for name, page, sheet in zip(files, pages, of.sheets):
        key = os.path.relpath(name, folder)
        read = f"{NOT_MARKED}{reason(sheet)}" if sheet.problem else was_read(sheet)
        first = f"{UNTIL}: {reason(sheet)}" if sheet.problem else verdict(sheet)
        says = (first, *to_look_at(sheet)[bool(sheet.problem) :])
        made.append(Row(key, sheet.candidate, shown(key), read, says, sheet.has_unread, page, sheet, forms.get(key, "")))
    absent = [Row(f"//{name}", name, "", NOTHING, (NOTHING,)) for name in of.absent]
    return [*left, *sorted(made, key=lambda row: (not row.read.startswith(NOT_MARKED), not row.look)), *absent]
