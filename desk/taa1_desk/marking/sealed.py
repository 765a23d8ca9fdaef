# SPDX-License-Identifier: MIT
"""Marks sealed books: how a hand-in is read, what its records are, and whether it is this sitting's."""

from __future__ import annotations

import shlex
from collections import Counter
from dataclasses import replace
from typing import Optional, Sequence

from taa1 import Refused, Sitting

from ..engine import Engine
from ..handed import HandIn, KeyFile
from ..problems import Problem, place
from ..reading import answerform
from ..reading.forms import BYTES
from ..reading.handin import Reader, Reading
from ..records import KINDS, SEALED, Ring
from ..sheet import Explained, KeySheet, Marked, Marks, Wanted
from ..words import plural
from .book import BookMarker, BookMarks
from .keys import KeyMarker


class SealedMarker:
    """Marks sealed books beside one model."""

    def __init__(self, engine: Engine, sitting: Sitting, ring: Ring, plain: bytes) -> None:
        """Takes the sitting's ring. Works the model, and every slip, once."""
        self.keys = KeyMarker(engine, sitting, ring)
        self.book = BookMarker(engine, self.keys, plain)
        self.entries, self.model = self.book.entries, self.book.model
        self.reader = Reader(engine, self.entries, self.model, sitting.sides)
        self.kinds = tuple(entry.kind for entry in self.entries)
        self.identities = {entry.identity for entry in self.entries}
        self.entry_keys = {entry.key for entry in self.entries}

    @property
    def wanted(self) -> Wanted:
        """What is wanted of each entry."""
        return Wanted(self.model, self.entries)

    @property
    def asked(self) -> Sequence[str]:
        """The values that the sitting asks for, of the sides that run."""
        return self.keys.asked

    def no_hand_in(self, data: bytes) -> str:
        """What a text is that can be no hand-in; nothing, if it may be one."""
        return self.reader.no_hand_in(data)

    def mark(self, hand_in: HandIn) -> Marks:
        """The marks of a hand-in; a form that is given is not questioned."""
        name, data, file, form = hand_in
        if isinstance(data, Problem):
            return self._unmarked(str(data).removeprefix(f"{place(name)}: "), file)
        reading = self.reader.forced(data, form) if form else self.reader.read(data)
        file = answerform.both(reading.keys, file) if reading.keys else file
        problem, many = reading.problem, self.reader.too_many(reading.book)
        if many:
            return self._unmarked(f"{many}: ask for the book alone", file)
        if problem is None:
            keys = self._keys(file)
            found = self.book.marked(reading.book, keys)
            strange = self._strange(found) if reading.book and not form else ""
            said = self.reader.other_shows(data, form, reading) if form else []
            if not strange or self.reader.is_ours(reading.book):  # who got nothing right has a number, too
                blank = file.blank if file else ()
                return self._marks(reading, found, keys, [*said, *[strange] * bool(strange)], blank)
            problem = strange
        if not form and not reading.hopeless:
            problem += f"; --as {shlex.quote(name)}={reading.form or BYTES} marks it all the same"
        return self._unmarked(problem, file)

    def _keys(self, file: Optional[KeyFile]) -> KeySheet:
        return self.keys.mark(file) if file else KeySheet()

    def _unmarked(self, problem: str, file: Optional[KeyFile]) -> Marks:
        """The marks of a hand-in that can't be read; keys beside it are marked all the same, and
        their slips named."""
        size, keys = len(self.model), self._keys(file)
        missing, slips = tuple(range(size)), self.book.of_keys_alone(keys)
        blank = file.blank if file else ()
        return Marks(
            size, self.kinds, problem, missing=missing, slips=slips, keys=keys, blank=blank, wanted=self.model
        )

    def _marks(
        self, reading: Reading, found: BookMarks, keys: KeySheet, said: Sequence[str], blank: Sequence[str]
    ) -> Marks:
        """The marks of a book, and how it was read. An entry whose record may stand in a line that
        can't be read is not said to be missing. Where the hand-in numbers its records, these
        have its numbers."""
        rows = reading.rows or range(len(found.entries))
        unread = {at for at in found.missing if reading.lost or at in reading.unread}
        refused = found.refused
        if refused and refused.index is not None and reading.rows:
            refused = Refused(refused.number, rows[refused.index])
        return Marks(
            len(self.model),
            self.kinds,
            None,
            refused,
            tuple(replace(entry, index=rows[entry.index]) for entry in found.entries) if reading.rows else found.entries,
            tuple(at for at in found.missing if at not in unread),
            found.left,
            tuple(_numbered(slip, rows) for slip in found.slips),
            reading.how,
            problems=(*reading.problems, *said),
            keys=keys,
            unread=tuple(sorted(unread)),
            blank=(*reading.blank, *blank),
            wanted=self.model,
        )

    def _strange(self, found: BookMarks) -> str:
        """What a marked book looks like that has nothing in common with the model."""
        size = len(found.entries)
        shared = sum(map(self._is_shared, found.entries))
        if shared and (not found.left or 2 * shared >= size):
            return ""
        kinds = sum(e.opened is None or e.opened.kind in KINDS for e in found.entries)
        if found.left and not 2 * kinds >= size > 0:
            length = plural(SEALED * size + found.left, "byte")
            return f"this looks like no sealed book: {length}, where a record has {SEALED}"
        if 2 * kinds < size:
            return f"this looks like no sealed book: {kinds} of {size} records begin with a kind"
        heads = Counter((e.opened.kind, e.opened.version) for e in found.entries if e.opened)
        said = "no entry and no identity is the model's"
        if heads == Counter((entry.kind, entry.version) for entry in self.entries):
            other = "another sitting's book, or one worked by a wrong cipher"
            return f"this looks like {other}: {said}, though kinds and versions are"
        return f"this looks like another sitting's book: {said}"

    def _is_shared(self, entry: Marked) -> bool:
        """Whether an entry, an identity or a key is the model's, or a slip explains it."""
        opened = entry.opened
        if opened is None or entry.slip or entry.state == "doubled":
            return True
        return opened.identity in self.identities or opened.key in self.entry_keys


def _numbered(slip: Explained, rows: Sequence[int]) -> Explained:
    """A slip, with the numbers of the rows in which its records stand."""
    return slip._replace(entries=tuple(rows[index] for index in slip.entries))
