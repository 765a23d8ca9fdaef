# SPDX-License-Identifier: MIT
"""What a hand-in says of entries that were opened: lines, or a plain book's bytes.

Lines are about the entries that they name. Bytes name none, so their records are paired
with the entries, by equal bytes first.
"""

from __future__ import annotations

from collections import defaultdict
from typing import Mapping, NamedTuple, Sequence

from ..problems import Problem
from ..reading import answerform
from ..reading.answers import Answer, Line, answer_of, is_answer, words_of
from ..reading.decoding import decoded
from ..reading.forms import BYTES, FORMS, is_meant
from ..reading.limits import too_many
from ..reading.lineends import DAMAGED, Copies
from ..reading.lines import lines_of
from ..records import KINDS, PLAIN, Entry, split
from ..sheet import differences
from ..words import spans
from .pairing import pair
from .working import Opened

Own = Mapping[bytes, list[int]]  # by plain records, the entries that are these under own keys
NONE: Own = {}


class Read(NamedTuple):
    """A hand-in as it was read."""

    answers: dict[int, Answer]
    extra: int = 0  # further answers, about entries that have one or that there are none of
    problems: tuple[str, ...] = ()  # of lines about no entry
    how: str = ""
    in_bytes: bool = False  # which can't say a flag


class _Plain:
    """What plain records show of the entries that are wanted."""

    def __init__(self, truth: Sequence[Opened]) -> None:
        """Takes what the entries open to."""
        self.model = [entry_of(opened).data for opened in truth]
        self.places: dict[bytes, list[int]] = defaultdict(list)
        self.signs: dict[bytes, list[int]] = defaultdict(list)
        for index, record in enumerate(self.model):
            self.places[record].append(index)
            for part in (record[1:4], record[6:]):
                self.signs[part].append(index)

    def signs_of(self, record: bytes) -> dict[int, int]:
        """The entries whose identity or key it has."""
        return {i: 1 for part in (record[1:4], record[6:]) for i in self.signs.get(part, ())}

    def alike(self, record: bytes, place: int) -> int:
        """Whether it has an entry's kind, and its version."""
        model = self.model[place]
        return (record[0] == model[0]) + (record[4:6] == model[4:6])

    def head(self, record: bytes) -> tuple[int, ...]:
        """None: what was opened has no further attempts."""
        return ()

    repeats = tells = head


class OpenedReader:
    """Reads what was opened from one sealed book."""

    def __init__(self, sealed: bytes, truth: Sequence[Opened]) -> None:
        """Takes the book, and what its entries open to."""
        self.sealed, self.truth = sealed, truth
        self.plain = _Plain(truth)
        self.copies = Copies(self.plain.model)

    def read(self, data: bytes, form: str = "", own: Own = NONE) -> Read:
        """What a hand-in says. Raises ValueError where it can't be read."""
        if not data.strip():
            raise ValueError("the file is empty")
        text, code = decoded(data) or (None, "")
        if form == BYTES or text is None:
            return self._plain(data, "", own)
        if answerform.is_form(text):
            said = f"{answerform.WHAT} with a sealed book, where what was opened is wanted"
            raise ValueError(f"this looks like {said}: lines, or a plain book's bytes")
        if not form and any(is_answer(line) for _, line in lines_of(text)):
            return self._lines(text, f"lines{code}", own)
        if form:
            return self._plain(FORMS[form].read(text), FORMS[form].what, own)
        readings = []
        for each in FORMS.values():
            try:
                readings.append((each.read(text), each.what + code))
            except (Problem, ValueError, SyntaxError):
                pass
        heads = {(opened.kind, opened.version) for opened in self.truth}
        plain, how = max(
            readings,
            key=lambda reading: sum((e.kind, e.version) in heads for e in _entries(reading[0])),
            default=(b"", ""),
        )
        if not plain:
            raise ValueError(
                "this looks like text that is neither lines of entries nor hexadecimal (a line is "
                "`entry I kind K identity I version V key HEX number N`, or `entry I flag`)"
            )
        return self._plain(plain, how, own)

    def no_hand_in(self, data: bytes) -> str:
        """What a text is that can be no hand-in; nothing, if it may be one."""
        try:
            self.read(data)
        except (Problem, ValueError, SyntaxError) as error:
            text = decoded(data)
            form = text is not None and answerform.is_form(text[0])
            return "" if form or is_meant(data) else str(error).lstrip(", :")
        return ""

    def other_shows(self, data: bytes, form: str, read: Read) -> list[str]:
        """That the form which was given shows nothing of what is wanted, where another does."""
        try:
            other = self.read(data)
        except (Problem, ValueError, SyntaxError):
            return []
        if self.likeness(read.answers)[0] or not self.likeness(other.answers)[0]:
            return []
        how = other.how or BYTES
        return [f"as {form}, which --as or --bytes gave, nothing is right; as {how} something is: mark it without"]

    def _plain(self, data: bytes, how: str, own: Own) -> Read:
        """A plain book's bytes, whose records are paired with the entries."""
        if data == self.sealed:
            raise ValueError("this is the sealed book that was handed out, not an opened one")
        damage = self.copies.damage(data)
        if damage:
            raise ValueError(f"this looks like {DAMAGED}: {damage}")
        if not data or len(data) % PLAIN:
            raise ValueError(
                f"this looks like no plain book: {len(data)} bytes, where a record has {PLAIN}"
            )
        records = split(data, PLAIN)
        self._not_too_many(len(records))
        answers = {}
        for index, at in self._paired(records, own).items():
            known = records[index][0] in KINDS
            entry = Entry.of(records[index]) if known else None
            problem = "" if known or self.truth[at].failed else "there is no such kind"
            answers[at] = Answer(None, entry, problem)
        return Read(answers, len(records) - len(answers), how=how, in_bytes=True)

    def _not_too_many(self, records: int) -> None:
        """Raises ValueError where there are many times the entries to pair."""
        many = too_many(records, len(self.truth))
        if many:
            raise ValueError(f"{many}: ask for what was opened alone")

    def _paired(self, records: list[bytes], own: Own) -> dict[int, int]:
        """For each plain record the entry that it is, or is most like."""
        return pair(records, self.plain.model, self.plain.places, own, self.plain).entries

    def _lines(self, text: str, how: str, own: Own) -> Read:
        """Lines of entries and flags, which are about the entries that they name, or about
        those that they are most like: whichever makes more of them right."""
        lines: list[Line] = []
        numbers: list[int] = []
        problems: list[str] = []
        for number, line in lines_of(text):
            words = words_of(line)
            index = None
            if is_answer(line) and words[0].isdecimal():  # the number alone
                words = ["entry", *words]
            if words[:1] == ["entry"] and words[1:] and words[1].isdecimal() and len(words[1]) < 10:
                index, words = int(words[1]), words[2:]
            elif words[:1] == ["entry"]:
                problems.append(f"line {number}: no number after entry")
                continue
            elif not is_answer(line):
                if words[:1] != ["entries"]:
                    problems.append(f"line {number}: it is about no entry, and is not read")
                continue
            lines.append(Line(index, answer_of(words, number)))
            numbers.append(number)
            self._not_too_many(len(lines))
        readings = [
            Read(self._numbered(lines, 0), how=how),
            Read(self._numbered(lines, 1), how=how + ", whose entries are counted from 1"),
            Read(self._matched(lines, own), how=how + ", each taken for the entry that it is most like"),
        ]
        best = max(readings, key=lambda reading: self.likeness(reading.answers))
        taken = set(map(id, best.answers.values()))
        left = [number for number, line in zip(numbers, lines) if id(line.answer) not in taken]
        if left:
            said = "not marked: another line is the answer about the entry, or there is no such entry"
            problems.append(f"line{'s' * (len(left) > 1)} {spans(left)}: {said}")
        return best._replace(extra=len(lines) - len(best.answers), problems=tuple(problems))

    def _numbered(self, lines: list[Line], start: int) -> dict[int, Answer]:
        """Lines about the entries that they name, counted from here. One that names none is
        about the next entry."""
        answers: dict[int, Answer] = {}
        last = -1
        for index, answer in lines:
            last = last + 1 if index is None else index - start
            if 0 <= last < len(self.truth):
                answers.setdefault(last, answer)
        return answers

    def _matched(self, lines: list[Line], own: Own) -> dict[int, Answer]:
        """Lines about the entries that their fields are most like. One without fields is
        about the entry that it names, or about the next one."""
        full = [at for at, line in enumerate(lines) if line.answer.entry]
        records = [entry.data for at in full for entry in [lines[at].answer.entry] if entry]
        about = {full[index]: place for index, place in self._paired(records, own).items()}
        answers = {place: lines[at].answer for at, place in about.items()}
        last = -1
        for at, (index, answer) in enumerate(lines):
            if at in about:
                last = about[at]
            elif not answer.entry:
                last = last + 1 if index is None else index
                if last < len(self.truth):
                    answers.setdefault(last, answer)
        return answers

    def likeness(self, answers: dict[int, Answer]) -> tuple[int, int]:
        """How many answers are right, and how many fields."""
        right = fields = 0
        for index, answer in answers.items():
            truth = self.truth[index]
            right += state_of(truth, answer) == "right"
            if answer.entry:
                fields += len(Entry._fields) - len(differences(answer.entry, entry_of(truth)))
        return right, fields


def state_of(truth: Opened, answer: Answer) -> str:
    """Right, wrong, or unsaid: a flag that bytes can't say."""
    if truth.failed and not (answer.flag is None and answer.problem):
        return {True: "right", False: "wrong", None: "unsaid"}[answer.flag]
    return "right" if not answer.flag and answer.entry == entry_of(truth) else "wrong"


def _entries(plain: bytes) -> list[Entry]:
    """The entries of plain records that have a kind."""
    return [Entry.of(record) for record in split(plain, PLAIN) if record[0] in KINDS]


def entry_of(opened: Opened) -> Entry:
    """The entry that was opened."""
    return Entry(*opened[:5])
