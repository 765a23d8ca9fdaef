# SPDX-License-Identifier: MIT
"""How a hand-in is recognised and read.

A hand-in should be a sealed book in bytes. Files come in other forms, too (`forms`), and
a form is never guessed: each that fits is tried, and a reading is certain if records of it
show what the model shows in clear, a kind with its version or an encrypted identity. What
is not certain is not marked, and it is said what it looks like.
"""

from __future__ import annotations

import re
from collections import Counter
from typing import NamedTuple, Optional, Sequence

from taa1 import Refused

from ..engine import Engine
from ..handed import KeyFile
from ..problems import Problem
from ..records import KINDS, PLAIN, SEALED, Entry, split
from ..words import plural
from . import answerform
from .decoding import FILES, ODD, decoded
from .forms import BYTES, FORMS, hexadecimal, is_meant, record_rows, rows, table
from .limits import too_many
from .lineends import DAMAGED, Copies
from .lines import is_lines

FORM = "form"  # the name of the answer form among the forms of hand-ins
READ_AS = (BYTES, *FORMS, FORM)
MOST_IN_FRONT = 1024  # bytes of a header
HEAD = 200  # letters at the start of a line, where what it is can be told
STARTS = (  # by what a text begins with, in small letters
    ("{\\rtf", "a document in rich text"),
    ("<html", "a page of HTML"),
    ("<!doctype html", "a page of HTML"),
)
DUMP = (
    "a dump of bytes, but in no form that is known, or with lines lost or doubled "
    "(od -An -v -tx1 makes one that is read)"
)
PAPERS = (
    ("question paper", "the question paper, with no answer in it"),
    ("worked solution", "the worked solution, which is no candidate's"),
)
VALUES = "names and values (keys lie in NAME.keys beside a hand-in NAME.book)"
ADDRESS = re.compile(r"(?:0{6,16}|[0-7]{7}):?(?:\s|$)")  # the first one of a dump


def looks_like(text: str) -> str:
    """What a text is that is no book, if its first lines tell. No pattern goes over more than
    the start of a line: a candidate may hand in whatever there is, and it must not take long."""
    lines = [line[:HEAD].strip() for line in text[: 64 * HEAD].splitlines() if line.strip()][:6]
    first = lines[0] if lines else ""
    for start, what in STARTS:
        if first.lower().startswith(start):
            return what
    if any(ADDRESS.match(line) for line in lines):
        return DUMP
    for start, what in PAPERS:
        if first.lower().startswith(start):
            return what
    name, equals, _ = first.partition("=")
    words = name.replace("_", " ").replace("'", " ").split()
    if equals and words and words[0][0].isalpha() and all(word.isalnum() for word in words):
        return VALUES
    return ""


LOST = "\ufffd".encode()  # what stands for bytes that are no UTF-8
WANTED = ", where a sealed one is wanted (mark --opened marks what was opened)"


# ---- readings


class Reading(NamedTuple):
    """How a hand-in is read."""

    book: bytes
    how: str = ""  # but for bytes as they are
    form: str = ""  # the form's name
    problem: Optional[str] = None  # why it is not marked
    problems: tuple[str, ...] = ()  # of lines that hold no record
    hopeless: bool = False  # no form makes a book of it
    keys: Optional[KeyFile] = None  # that are in it, too
    rows: tuple[int, ...] = ()  # the entries of the records, where the hand-in numbers them
    unread: tuple[int, ...] = ()  # entries whose rows can't be read
    lost: int = 0  # lines with records that can't be read, of entries that are not known
    blank: tuple[str, ...] = ()  # rows that are left blank


class Reader:
    """Reads hand-ins beside one model."""

    def __init__(self, engine: Engine, entries: Sequence[Entry], model: Sequence[bytes], sides: int) -> None:
        """Takes the model's entries and sealed records, and what they show in clear."""
        self.engine, self.model = engine, model
        self.records = set(model)
        plain = [entry.data for entry in entries]
        self.heads = {record[:1] + record[4:6] for record in plain}
        self.names = {PLAIN: {record[1:4] for record in plain}}
        self.sealed_names = {record[1:4] for record in model}
        self.copies = Copies(model)
        self.form_rows = answerform.asked_rows(sides)

    def no_hand_in(self, data: bytes) -> str:
        """What a text is that can be no hand-in; nothing, if it may be one."""
        reading = self.read(data)
        form = reading.problem == answerform.NOTHING
        return "" if reading.problem is None or form or is_meant(data) else reading.problem

    def is_ours(self, book: bytes) -> bool:
        """Whether a book is this sitting's: at least half of its records have a kind and version
        of the model's, each as often as the model has it."""
        heads = Counter(record[:1] + record[4:6] for record in split(book, SEALED))
        wanted = Counter(record[:1] + record[4:6] for record in self.model)
        return bool(heads) and 2 * sum((heads & wanted).values()) >= sum(heads.values())

    def other_shows(self, data: bytes, form: str, reading: Reading) -> list[str]:
        """That the form which was given shows nothing of the model, where another shows much."""
        if self.common(reading.book):
            return []
        other = self.read(data)
        if other.problem or other.form == form or not self.is_ours(other.book):
            return []
        how = other.how or BYTES
        return [f"as {form}, which --as or --bytes gave, it shows nothing of the model; as {how} it does: mark it without"]

    def common(self, book: bytes, size: int = SEALED) -> int:
        """How much is the model's: records, and kinds with versions or identities."""
        names = self.names.get(size, self.sealed_names)
        return sum(
            (r in self.records) + (r[:1] + r[4:6] in self.heads or r[1:4] in names)
            for r in split(book, size)
        )

    def too_many(self, book: bytes) -> str:
        """That a book has many times the model's records, if it has."""
        return too_many(len(book) // SEALED, len(self.model))

    def forced(self, data: bytes, form: str) -> Reading:
        """A file read in a form."""
        if form == BYTES:
            return Reading(data)
        text = decoded(data)
        try:
            if text is None:
                raise ValueError("it is no text")
            if form == FORM and not answerform.is_form(text[0]):
                raise ValueError("it has no table of the answer form")
            if form == FORM:
                return self._form(*text)
            return Reading(FORMS[form].read(text[0]), FORMS[form].what)
        except (Problem, ValueError) as error:
            return Reading(b"", problem=f"it can't be read as {form}: {_said(error)}")

    def read(self, data: bytes) -> Reading:
        """How a file is read, or why it is not."""
        if not data.strip():
            return Reading(b"", problem="the file is empty", hopeless=True)
        for start, what in FILES:
            if data.startswith(start):
                return Reading(b"", problem=f"this looks like {what}", hopeless=True)
        text = decoded(data)
        if text is not None:
            return self._read_text(*text)
        return self._look(Reading(data, "", BYTES))

    def _read_text(self, text: str, code: str) -> Reading:
        """How a text is read: in the form that shows most of the model."""
        if answerform.is_form(text):
            return self._form(text, code)
        readings, why = [], ""
        for name, form in FORMS.items():
            try:
                readings.append(Reading(form.read(text), form.what + code, name))
            except (Problem, ValueError) as error:
                why = why or _said(error)
        readings += self._odd(text, code) if why.startswith(ODD) else []
        best = max(readings, key=lambda each: self.common(each.book), default=Reading(b""))
        by_rows = self._rows(text, code, best)
        if by_rows is not None:
            return by_rows
        if self.common(best.book):
            return self._look(best)
        look = looks_like(text)
        if is_lines(text) and not look:
            return Reading(b"", problem=f"this looks like a plain book in lines{WANTED}")
        # nothing is proved: digits are taken for what they seem to be
        seem = [each for each in readings if each.form in ("hex", "dump", "words")]
        seem.sort(key=lambda each: len(each.book) % SEALED > 0)
        if look and not (seem and len(seem[0].book) % SEALED == 0):
            return Reading(b"", problem=f"this looks like {look}")
        if not seem:
            what = why if why.startswith(ODD) else f"text that is no hexadecimal: {why}"
            wanted = f"a record is wanted in {2 * SEALED} digits"
            return Reading(b"", problem=f"this looks like {what} ({wanted})")
        if not seem[0].book:
            return Reading(b"", problem="this looks like a text without a digit")
        return self._look(seem[0])

    def _odd(self, text: str, code: str) -> list[Reading]:
        """Hexadecimal that lacks its last digit, if every whole record shows the model."""
        try:
            book = hexadecimal(text.rstrip()[:-1])
        except (Problem, ValueError):
            return []
        whole = split(book, SEALED)
        if not whole or not len(book) % SEALED or not all(map(self.common, whole)):
            return []
        said = ("the last byte has one digit, and is not read",)
        return [Reading(book, FORMS["hex"].what + code, "hex", problems=said)]

    def _form(self, text: str, code: str) -> Reading:
        """An answer form that is filled in."""
        filled = answerform.read(text, self.form_rows)
        if filled.is_blank:
            return Reading(b"", problem=answerform.NOTHING, hopeless=True)
        how = answerform.WHAT + code + ", its versions in decimal" * filled.decimal
        return Reading(
            filled.book,
            how,
            FORM,
            problems=filled.problems,
            keys=filled.keys,
            rows=filled.rows,
            unread=filled.unread,
            blank=filled.blank,
        )

    def _rows(self, text: str, code: str, best: Reading) -> Optional[Reading]:
        """A text with a record in each line, or in each row of a table, but for a few that can't be
        read, if that shows more of the model than its digits as they follow each other."""
        tables = FORMS["table"].what + code
        readings = [
            (rows(text), "hex", f"{FORMS['hex'].what}{code}, a record in each line"),
            (record_rows(text), "records", FORMS["records"].what + code),
            (table(text), "table", tables),
            (table(text, decimal=True), "table", f"{tables}, its versions in decimal"),
        ]
        made, form, how = max(readings, key=lambda each: (self.common(each[0].book), -len(each[0].problems)))
        whole = len(made.book) // SEALED
        if whole <= len(made.problems) or self.common(made.book) <= self.common(best.book):
            return None
        return Reading(made.book, how, form, problems=made.problems, lost=made.lost)

    def _look(self, reading: Reading) -> Reading:
        """What the bytes look like that were read."""
        book = reading.book
        if self.too_many(book):  # it is said where it is marked
            return reading
        found, (whole, left) = self.common(book), divmod(len(book), SEALED)
        if found == 2 * whole and not left:
            return reading
        problem = self._other(book, found)
        problem = problem or self._between(reading)
        front = 0 if problem or not left else self._in_front(book, found)
        if front and (len(book) - front) // SEALED >= len(self.model):
            how = f"{reading.how or BYTES}, but for {plural(front, 'byte')} in front"
            return reading._replace(book=book[front:], how=how)
        if front:
            problem = f"a book after {plural(front, 'byte')}, or one whose first record is cut short"
        problem = problem or self._other_size(book, found)
        if not problem and found and left and whole + 1 < len(self.model):
            problem = f"a book that was cut short (ask for it anew): {plural(whole, 'record')} and {plural(left, 'byte')}"
        if problem and self.is_ours(book):
            return reading._replace(problems=(*reading.problems, f"this looks like {problem}"))
        return reading._replace(problem=f"this looks like {problem}") if problem else reading

    def _between(self, reading: Reading) -> str:
        """That bytes were lost or added within a book, if records at its start and at its
        end show the model, and others don't fit between them."""
        book = reading.book
        left = len(book) % SEALED
        starts = [self.common(record) > 0 for record in split(book, SEALED)]
        ends = [self.common(record) > 0 for record in split(book[left:], SEALED)][::-1]
        first, last = ([*shown, False].index(False) for shown in (starts, ends))
        if not (left and first and last):
            return ""
        what = f"{DAMAGED}: bytes were lost or added within it"
        if reading.form != BYTES:
            what = "a book with bytes lost or added within it"
        return f"{what}; records in place: {first} counted from the start, {last} counted from the end"

    def _in_front(self, book: bytes, found: int) -> int:
        """How many bytes stand in front of a book of whole records, if that shows more."""
        for front in range(len(book) % SEALED, min(len(book), MOST_IN_FRONT), SEALED):
            rest = split(book[front:], SEALED)
            if self.common(book[front:]) > found and all(record[0] in KINDS for record in rest):
                return front
        return 0

    def _other_size(self, book: bytes, found: int) -> str:
        """What the bytes are as records of another size, if that shows more."""
        sizes = [size for size in range(SEALED - 3, SEALED + 4) if len(book) % size == 0]
        best = max(sizes, key=lambda size: self.common(book, size), default=SEALED)
        shown = self.common(book, best)
        if shown <= found or 4 * shown < len(book) // best:  # a few are chance
            return ""
        return f"records of {best} bytes, where a sealed one has {SEALED}{self._mended(book, best)}"

    def _mended(self, book: bytes, size: int) -> str:
        """Why records have another size, where that shows: most are the model's without it."""
        records = split(book, size)
        if size == SEALED + 1 and 2 * sum(r[:13] + r[14:] in self.records for r in records) > len(records):
            return ": byte 8 of BL1's output is still in each text"
        return ""

    def _other(self, book: bytes, found: int) -> str:
        """What else a book is, plain or by columns or damaged, if that shows more."""
        engine = self.engine
        try:
            engine.call("check_plain", book)
            if self.common(book, PLAIN) >= found:
                return f"a plain book{WANTED}"
        except Refused:
            pass
        try:
            if self.common(engine.call("sealed_from_columns", book)["out"]) > found:
                return "a book filed by columns (taa1 columns sealed --back puts it back)"
        except Refused:
            pass
        damage = self.copies.damage(book)
        if damage:
            return f"{DAMAGED}: {damage}"
        try:
            if self.common(book.decode().encode("latin-1")) > found:
                return f"{DAMAGED}: it was converted to UTF-8, and each byte above 7f is two now"
        except ValueError:
            pass
        kinds = sum(record[0] in KINDS for record in split(book, SEALED))
        if len(book) >= 3 * SEALED and max(book) < 0x80 and 2 * SEALED * kinds >= len(book):
            return f"{DAMAGED}: no byte is above 7f"
        if book.count(LOST) >= 3:
            return f"{DAMAGED}: it was converted to UTF-8, and bytes are lost (each is ef bf bd now)"
        return ""


def _said(error: Exception) -> str:
    """A problem's words, without the name of a file."""
    return str(error).lstrip(", :")
