# SPDX-License-Identifier: MIT
"""The day as the window's pages need it, without a widget.

All that is typed goes into the folder's files, in the forms of the command line, and each step is
a command line.
"""

from __future__ import annotations

from dataclasses import replace
from typing import Mapping, Optional

from ..command import day as at
from ..marking.totals import total
from ..problems import Problem
from ..reading import argument_points, candidates
from ..showing.sheet_text import summary_text
from ..words import listed
from ..showing.rows import Row, rows
from ..command.beside import Done
from ..command.job import Outcome

AS_IT_LOOKS = "as it looks"  # of a hand-in: no form is given
Command = list[str]  # arguments of the command line


class Day(at.Folder):
    """A day's folder, and what was marked of it in this window."""

    def __init__(self, folder: str) -> None:
        """Takes the folder; "" is none yet."""
        super().__init__(folder)
        self.rows: list[Row] = []
        self.outcome: Optional[Outcome] = None
        self._seen: Optional[at.Stamp] = None  # by the last marking
        self._reads: at.Stamp = {}  # by the one under way

    def missing(self, page: int) -> str:
        """What is missing for the next step of a page, counted from 1; or what that is."""
        if lacks := self.lacks():
            return lacks
        if page == 1:
            return "Sitting and model book are there. Next: mark what was handed in (page 2)."
        if self._seen is None:
            return "Missing for the class and the record: the marks. Mark what was handed in (page 2, F5)."
        looks, sheets = sum(row.look for row in self.rows), [row.sheet for row in self.rows if row.sheet]
        blank = sum(bool(sheet.argument and sheet.argument.points is None) for sheet in sheets)
        open_ = [f"{looks} to decide on (they stand first)"] if looks else []
        open_ += [f"{blank} whose argument is not marked"] if blank else []
        still = f"Of {len(self.rows)} rows there are still {listed(open_)}. " if open_ else ""
        still = f"{self.changed()} {still}".lstrip() if page == 3 else still
        if not self.has(at.RECORD):
            return f"{still}Next: write the record (page 3)."
        return f"{still}The record is kept: verify it, or compare with it after an appeal (page 3)."

    def changed(self) -> str:
        """What changed in the folder since the last marking."""
        told = "; ".join(at.changes(self._seen, self.stamp())) if self._seen is not None else ""
        return f"Since the last marking {told}. Mark again (F5)." if told else ""

    def mark(self) -> list[Command]:
        """What marks the hand-ins, and writes the pages and the table; those of a record stay."""
        return [self._mark(*([] if self.records() else [*self.pages(), "--clean"]))]

    def _mark(self, *more: str) -> Command:
        self.drop_gone()
        self._reads = self.stamp()
        return ["mark", f"--day={self.folder}", *more]

    def marked(self, done: Done) -> tuple[str, ...]:
        """Takes what was marked; what is to be said above the table."""
        made = done.outcome
        if made is None:
            return done.said
        self._seen, self.outcome = self._reads, made
        self.rows = rows(made.of, made.found.names, made.pages, self.path(at.HAND_INS), self.values(at.AS))
        kept = [f"{self.records()[-1]} is kept: pages and table stay as they are (page 3)"] if self.records() else []
        return (*summary_text(made.of.summary).splitlines()[:1], *kept)

    def _replace(self, row: Row, other: Row) -> None:
        self.rows = [other if each.key == row.key else each for each in self.rows]

    def set_name(self, row: Row, name: str) -> None:
        """Keeps a candidate's name. A list begins with all that are marked, since who is not on a list
        is said to be none of it."""
        if name.strip():
            if not self.has(at.NAMES):
                known = [each for each in self.rows if each.sheet and at.nameable(each.owner)]
                self.write(at.NAMES, "".join(f"{each.owner} = {each.name}\n" for each in known))
            self.put(at.NAMES, candidates.key_of(row.owner, self.values(at.NAMES)) or row.owner, name)
            self._replace(row, row._replace(name=" ".join(name.split())))

    def set_form(self, row: Row, form: str) -> None:
        """Keeps the form that a hand-in is to be read in."""
        self.put(at.AS, row.key, "" if form == AS_IT_LOOKS else form)
        self._replace(row, row._replace(form=form, read=f"to be read {'' if form == AS_IT_LOOKS else 'as '}{form}: mark again"))

    def set_argument(self, row: Row, given: Mapping[str, str]) -> None:
        """Keeps the points of a candidate's argument; the sums follow."""
        if row.sheet is None or row.sheet.points is None or dict(given) == row.given:
            return
        typed = {part: points.strip() or argument_points.BLANK for part, points in given.items()}
        value = ", ".join(f"{part} {points}" for part, points in typed.items()) if "".join(given.values()).strip() else ""
        self.put(at.ARGUMENTS, row.owner, value)
        argument = argument_points.argument(value, self.parts())
        in_all = total(self.scheme(), row.sheet.points, argument, not row.sheet.problem)
        self._replace(row, row._replace(sheet=replace(row.sheet, argument=argument, total=in_all)))

    def record(self) -> list[Command]:
        """What marks, and keeps the record."""
        if self.records():
            raise Problem(f"{self.records()[-1]}: a record is kept already: after an appeal, give the reason below")
        return [self._mark(*self.pages(), "--clean", f"--record={self.path(at.RECORD)}")]

    def appeal(self, reason: str) -> list[Command]:
        """What marks again, says what changed since the last record, and keeps another beside it."""
        before = self.records()
        if not before:
            raise Problem(f"{at.RECORD}: not there yet: after an appeal, marks are compared with a record")
        against = f"--against={self.path(before[-1])}", f"--reason={reason.strip()}"
        return [self._mark(*self.pages(), f"--record={self.path(at.record_name(len(before)))}", *against)]
