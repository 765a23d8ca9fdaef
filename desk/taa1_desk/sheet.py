# SPDX-License-Identifier: MIT
"""Mark sheets: what was found of what each candidate handed in; and the class."""

from __future__ import annotations

from dataclasses import dataclass
from typing import Mapping, NamedTuple, Optional, Sequence, Union

from taa1 import Refused

from .argument import Argument, Total
from .handed import LeftOut
from .points import Points
from .records import Entry, Ring


class Opened(NamedTuple):
    """What a sealed record says: the entry, and which of its checks fail."""

    kind: int
    identity: int
    version: int
    key: Optional[bytes]  # None where the kind is none, or a check fails
    number: Optional[int]
    failed: tuple[int, ...]


class Difference(NamedTuple):
    """A field of an entry that is not the model's."""

    field: str
    has: str
    wants: str


@dataclass(frozen=True)
class Marked:
    """One record of a candidate's book."""

    index: int
    state: str  # right, wrong, doubled, further (an attempt) or extra; of what was opened, also unsaid
    model: Optional[int]  # the model's entry that it is, repeats, tries again or is most like
    moved: bool = False  # it stands in another order than the model's
    opened: Optional[Opened] = None
    differences: tuple[Difference, ...] = ()
    slip: Optional[str] = None
    borrowed: tuple[tuple[str, int], ...] = ()  # fields that are another entry's, and whose
    note: str = ""  # what else is wrong
    record: bytes = b""  # as it was handed in
    follows: str = ""  # the candidate's own key under which it is right


class Flags(NamedTuple):
    """Entries of a book that was opened: whose flag is set, and of these or others, which
    flag the hand-in misses, invents, leaves out with the entry or, being bytes, can't say."""

    set: tuple[int, ...]
    missed: tuple[int, ...]
    invented: tuple[int, ...]
    left_out: tuple[int, ...]
    unsaid: tuple[int, ...]


class Wanted(NamedTuple):
    """What is wanted of each entry: the sealed record, unless entries were to be opened,
    and the plain one."""

    sealed: Sequence[bytes]
    plain: Sequence[Entry]


class Explained(NamedTuple):
    """A slip, the entries that it explains, and other slips that give the same."""

    name: str
    entries: tuple[int, ...]
    others: tuple[str, ...]
    part: str = ""  # of entries that have more wrong: identities, texts or flags
    step: tuple[str, str] = ("", "")  # at which it happens, and the clause
    keys: tuple[str, ...] = ()  # that it explains as well
    own: bool = False  # under the candidate's own keys


class KeyMark(NamedTuple):
    """One value of a candidate."""

    name: str
    state: str  # right; wrong; follows: right under own keys; idle: this side does not run
    has: bytes
    wants: Optional[bytes]
    under: tuple[str, ...] = ()  # own values that are wrong, from which it follows
    also: str = ""  # the model's value that it is instead
    note: str = ""  # that digits of it were miscopied


class KeySheet(NamedTuple):
    """A candidate's values, marked."""

    marks: tuple[KeyMark, ...] = ()
    problems: tuple[str, ...] = ()
    own: Mapping[str, bytes] = {}  # those that can be worked with
    ring: Optional[Ring] = None  # of them, where it is not the model's
    unread: str = ""  # why no value can be read

    @property
    def wrong(self) -> dict[str, bytes]:
        """The values that are not the model's."""
        states = ("wrong", "follows")
        return {mark.name: mark.has for mark in self.marks if mark.state in states and mark.has}

    @property
    def right(self) -> list[str]:
        """The values that are the model's."""
        return [mark.name for mark in self.marks if mark.state == "right"]

    @property
    def worked_rightly(self) -> list[str]:
        """The values that are the model's, or right under the candidate's own."""
        return [mark.name for mark in self.marks if mark.state in ("right", "follows")]


@dataclass(frozen=True)
class Marks:
    """What marking finds of one hand-in."""

    size: int  # entries of the model
    kinds: tuple[int, ...] = ()  # of the model's entries
    problem: Optional[str] = None  # why there is no book to mark
    refused: Optional[Refused] = None  # why the book does not open
    entries: tuple[Marked, ...] = ()
    missing: tuple[int, ...] = ()
    left: int = 0  # bytes after the last whole record
    slips: tuple[Explained, ...] = ()
    read_as: str = ""  # the hand-in's form, but for bytes as they are
    again: int = 0  # further answers, about entries that have one or that there are none of
    problems: tuple[str, ...] = ()  # of lines that can't be read
    flags: Optional[Flags] = None  # of a book that was opened
    keys: KeySheet = KeySheet()  # handed in beside it
    unread: tuple[int, ...] = ()  # entries without a record that may be in a line that can't be read
    blank: tuple[str, ...] = ()  # rows of a form that are left blank
    wanted: Sequence[bytes] = ()  # the model's sealed records; none of a book that was to be opened

    @property
    def right(self) -> int:
        """How many entries are right."""
        return sum(entry.state == "right" for entry in self.entries)

    @property
    def following(self) -> int:
        """How many wrong entries are right under the candidate's own keys."""
        return sum(bool(entry.follows) for entry in self.entries)

    @property
    def failing(self) -> int:
        """How many entries fail a check of their redundancy."""
        return sum(bool(entry.opened and entry.opened.failed) for entry in self.entries)

    @property
    def extra(self) -> int:
        """How many records, or answers, there are beyond the number of the model's entries."""
        return max(0, len(self.entries) + self.again - self.size)

    @property
    def has_problems(self) -> bool:
        """Whether it is not marked, or something of it is named that could not be read."""
        lines = bool(self.problems or self.keys.problems or self.keys.unread)
        lines |= any(entry.note.startswith("line ") for entry in self.entries)
        return bool(self.problem or lines or self.left)

    @property
    def perfect(self) -> bool:
        """Whether the book is the model, in whatever order, and every key that was handed
        in is right."""
        lacks = self.missing or self.unread or self.left or self.again
        whole_book = not (self.problem or self.refused or lacks)
        keys = not self.keys.problems and all(m.state in ("right", "idle") for m in self.keys.marks)
        return whole_book and keys and all(entry.state == "right" for entry in self.entries)


@dataclass(frozen=True)
class Sheet(Marks):
    """The mark sheet of one candidate: the marks, whose they are, and the points."""

    name: str = ""  # the file's, as messages have it
    candidate: str = ""  # the name, from a list or from the file's
    points: Optional[Points] = None
    unlisted: bool = False  # there is a list of candidates, and this is none of it
    argument: Optional[Argument] = None  # None: the examination has none
    total: Optional[Total] = None  # None: it is the points, and nothing is said of passing

    @classmethod
    def of(
        cls,
        marks: Marks,
        name: str,
        candidate: str = "",
        points: Optional[Points] = None,
        unlisted: bool = False,
        argument: Optional[Argument] = None,
        total: Optional[Total] = None,
    ) -> Sheet:
        """The sheet of marks."""
        return cls(
            **vars(marks),
            name=name,
            candidate=candidate,
            points=points,
            unlisted=unlisted,
            argument=argument,
            total=total,
        )

    @property
    def perfect(self) -> bool:
        """Whether the candidate has all that counts, keys that are asked for among it."""
        return super().perfect and (self.points is None or self.points.whole)

    @property
    def has_unread(self) -> bool:
        """Whether somebody has to look at it, be it since the list has no such candidate."""
        return self.has_problems or self.unlisted


class Summary(NamedTuple):
    """What a class's sheets come to."""

    candidates: int
    perfect: int
    unreadable: int
    unread_keys: int  # files of keys
    unopened: Optional[int]  # None: they are opened books
    slips: tuple[tuple[str, int], ...]  # and how many candidates made each
    checks: tuple[tuple[int, int, int], ...]  # kind, check, entries that fail it


class Argued(NamedTuple):
    """A listed candidate of whom no hand-in is marked, and whose argument has its points."""

    candidate: str
    argument: Argument
    total: Optional[Total]


class Class(NamedTuple):
    """A class, marked."""

    sheets: tuple[Sheet, ...]
    summary: Summary
    wanted: Wanted
    absent: tuple[str, ...] = ()  # listed candidates who handed nothing in
    unmarked: tuple[LeftOut, ...] = ()  # listed candidates whose files were all left out
    left_out: tuple[LeftOut, ...] = ()  # every file that was left out and may be somebody's work
    argued: tuple[Argued, ...] = ()  # of those without a hand-in that is marked, whose argument is

    @property
    def has_unread(self) -> bool:
        """Whether somebody has to look at something."""
        return bool(self.left_out) or any(sheet.has_unread for sheet in self.sheets)


def differences(has: Union[Opened, Entry], entry: Entry) -> tuple[Difference, ...]:
    """The fields of a record that are not the model's."""
    pairs = [
        ("kind", has.kind, entry.kind),
        ("identity", f"{has.identity:06x}", f"{entry.identity:06x}"),
        ("version", has.version, entry.version),
    ]
    if has.key is not None:
        pairs.append(("key", has.key.hex(), entry.key.hex()))
        pairs.append(("number", _dash(has.number), _dash(entry.number)))
    return tuple(Difference(f, str(has), str(wants)) for f, has, wants in pairs if has != wants)


def _dash(number: Optional[int]) -> str:
    return "-" if number is None else str(number)
