# SPDX-License-Identifier: MIT
"""The answer form that `paper` prints, filled in and handed in as text."""

from __future__ import annotations

import re
from typing import Iterator, NamedTuple, Optional, Sequence

from ..asked import ARGUMENT, GENERATIONS, LENGTHS, RECORD, ROW, THIRD, asked
from ..handed import KeyFile
from ..problems import quoted
from ..records import SEALED
from .keyfile import MOST_WORDS, SHORT, short

WHAT = "an answer form"
TEXT = 2 * dict(RECORD)["sealed text"]  # digits
NOTHING = "this is an answer form, and no box of it is filled in"


class Filled(NamedTuple):
    """What is filled in: the records of the book by the numbers of their rows, these numbers,
    the values of the first two generations, rows of the book that can't be read, in words and
    by their numbers, rows that are left blank, and whether versions are decimal."""

    book: bytes
    rows: tuple[int, ...]
    keys: KeyFile
    problems: tuple[str, ...]
    unread: tuple[int, ...] = ()
    blank: tuple[str, ...] = ()
    decimal: bool = False

    @property
    def is_blank(self) -> bool:
        """Whether nothing is filled in."""
        return not (self.book or self.keys.values or self.keys.problems or self.problems)


class _Row(NamedTuple):
    """A row of boxes: its line, what it is for, how many bytes it has, what stands there."""

    line: int
    name: str
    size: int
    boxes: list[str]

    @property
    def entry(self) -> Optional[int]:
        """The entry whose record it is, if it is one."""
        return int(self.name.split()[1]) if self.name.startswith("entry ") else None

    def bytes(self, decimal: bool = False) -> Optional[bytes]:
        """The bytes, if each box has one; a zero in front may be left out of a box, and a
        version of one word may be decimal."""
        digits = "".join(self.boxes)
        parts = self._parts() if self.entry is not None else None
        if len(self.boxes) == self.size and all(len(box) < 3 for box in self.boxes):
            digits = "".join(box.rjust(2, "0") for box in self.boxes)
        elif parts and (decimal or len(parts[1]) == 4):
            start, version, text = parts
            if decimal and version.isdecimal() and int(version) < 1 << 16:
                version = f"{int(version):04x}"
            digits = start.rjust(8, "0") + version + text
        elif any(len(box) % 2 for box in self.boxes):
            return None
        whole = len(digits) == 2 * self.size and re.fullmatch("[0-9a-fA-F]+", digits)
        return bytes.fromhex(digits) if whole else None

    @property
    def has_decimal(self) -> bool:
        """Whether its version is one decimal word: two bytes have four digits, and a box that
        is alone may lack its neighbour."""
        parts = self._parts() if self.entry is not None else None
        return bool(parts and parts[1].isdecimal() and len(parts[1]) in (3, 5))

    def _parts(self) -> Optional[tuple[str, str, str]]:
        """Kind and identity, a version of one word, and the text, if that is how they stand."""
        start, end, boxes = "", "", list(self.boxes)
        while boxes and len(start) < 7:
            start += boxes.pop(0)
        while boxes and len(end) < TEXT:
            end = boxes.pop() + end
        fits = len(boxes) == 1 and len(start) in (7, 8) and len(end) == TEXT
        return (start, boxes[0], end) if fits else None

    @property
    def is_blank(self) -> bool:
        """Whether no box is filled in."""
        return not "".join(self.boxes).strip("_")

    @property
    def wants_more(self) -> bool:
        """Whether the next line may have the rest of it."""
        return 0 < sum(map(len, self.boxes)) < 2 * self.size and not self.is_blank

    @property
    def problem(self) -> str:
        """Why the boxes can't be read."""
        digits = "".join(self.boxes)
        bad = re.search("[^0-9a-fA-F_]", digits)
        said = f"{len(digits)} hexadecimal digits, not {2 * self.size}"
        if bad:
            said = f"{bad[0]!r} is no hexadecimal digit"
        elif "_" in digits:
            filled = sum("_" not in box for box in self.boxes)
            said = f"{filled} of {self.size} boxes are filled in"
        return f"line {self.line}, {self.name}: {said}"


def _head(*words: str, more: str = "") -> re.Pattern[str]:
    """A table's head, however its words are set apart; one more word may stand after them."""
    last = rf"(?:\W+{more})?" if more else ""
    return re.compile(r"\W*" + r"\W+".join(map(re.escape, words)) + last + r"\W*$", re.I)


_KEYS = _head(*ROW, more="points")
_BOOK = _head("entry", *(word for name, _ in RECORD for word in name.split()))
_END = _head(*ARGUMENT.split())
_TITLES = {short(title) for title in (THIRD, *(title for title, _ in GENERATIONS))}
# Points that the form prints, after a title and at the end of a row.
_WORTH = re.compile(r"(?:, [\d/ ]{1,24}points?|\bof [\d/ ]{1,24})\W{0,4}$", re.I)
_RULE = frozenset("-=_*~+| \t")  # what lines are drawn of
_NUMBER = "#.:)(*-"  # what may stand around a row's number
MOST_ROWS = 9  # digits of a row's number


def is_form(text: str) -> bool:
    """Whether a text has the tables of the answer form."""
    words = text.lower()
    if "sealed" not in words and "value" not in words:  # as most texts
        return False
    return any(_KEYS.match(line) or _BOOK.match(line) for line in text.splitlines())


def asked_rows(sides: int) -> list[str]:
    """The values that a form asks for, in the order of their rows."""
    return [value.name for _, values in asked(sides) for value in values]


def _boxes(text: str) -> list[str]:
    """What stands in boxes."""
    return re.sub(r"\b0[xX]|[|,;:=\"\[\]]", " ", text).split()


def _number(word: str) -> Optional[int]:
    """The number that a row begins with."""
    digits = word.strip(_NUMBER)
    return int(digits) if digits.isdecimal() and len(digits) <= MOST_ROWS else None


def _names(words: list[str]) -> Iterator[tuple[str, list[str]]]:
    """The values that the first words are names of, and the words after them: after both names
    of a value first, then after one, since a byte may look like a name (d, as 0d)."""
    for count in range(min(MOST_WORDS, len(words)), 0, -1):
        name = SHORT.get(short(" ".join(words[:count])))
        if name:
            for more in range(min(MOST_WORDS, len(words) - count), 0, -1):
                if SHORT.get(short(" ".join(words[count : count + more]))) == name:
                    yield name, words[count + more :]
            yield name, words[count:]


def _value_row(line: int, said: str, rows_asked: Sequence[str]) -> _Row:
    """A row of a value: in front of its boxes stand the row's number, either of its names, or
    all of these."""
    words = _boxes(re.sub("[()]", " ", said))
    words = words[1:] if words and words[0].lower() == "row" else words
    number = _number(words[0]) if words else None
    by_number = rows_asked[number - 1] if number and number <= len(rows_asked) else ""
    found = [*_names(words[1:]), *[(by_number, words[1:])] * bool(by_number)] if number else []
    rows = [_Row(line, name, LENGTHS[name], boxes) for name, boxes in (*found, *_names(words))]
    unknown = _Row(line, " ".join(words), 0, words)
    return next((row for row in rows if row.bytes() is not None), (rows or [unknown])[0])


def _entry_row(line: int, said: str) -> _Row:
    """A row of the book, after its entry's number."""
    words = _boxes(said)
    words = words[1:] if words and words[0].lower() in ("entry", "row") else words
    number = _number(words[0]) if words else None
    if number is None:
        return _Row(line, "", SEALED, words)
    return _Row(line, f"entry {number}", SEALED, words[1:])


def _rows(text: str, rows_asked: Sequence[str]) -> list[_Row]:
    """The rows of both tables; one that was broken in two is joined again."""
    table: Optional[re.Pattern[str]] = None
    rows: list[_Row] = []
    for number, whole in enumerate(text.splitlines(), 1):
        line = _WORTH.sub("", whole)
        head = next((each for each in (_KEYS, _BOOK, _END) if each.match(line)), None)
        if head:
            table = head
            continue
        if table not in (_KEYS, _BOOK) or _RULE.issuperset(line) or short(line) in _TITLES:
            continue
        if rows and rows[-1].wants_more and rows[-1].bytes() is None:
            joined = rows[-1]._replace(boxes=rows[-1].boxes + _boxes(line))
            if joined.bytes() is not None:
                rows[-1] = joined
                continue
        rows.append(_value_row(number, line, rows_asked) if table is _KEYS else _entry_row(number, line))
    return rows


def read(text: str, rows_asked: Sequence[str] = ()) -> Filled:
    """What is filled in; the values that are asked for are known by the numbers of their rows,
    too."""
    every = _rows(text, rows_asked)
    rows = [row for row in every if not row.is_blank]
    decimal = any(row.has_decimal for row in rows)
    records, problems, unread = [], [], []
    values: dict[str, bytes] = {}
    bad = []
    for row in rows:
        made = row.bytes(decimal)
        if row.entry is not None:
            records += [(row.entry, made)] if made else []
            problems += [] if made else [row.problem]
            unread += [] if made else [row.entry]
        elif not row.name:
            problems.append(f"line {row.line}: no entry's number in front, so it is not read")
        elif not row.size:
            bad.append(f"line {row.line}: the form asks for no value {quoted(row.name)}")
        elif values.get(row.name):
            bad.append(f"line {row.line}: {row.name} for the second time; the first one counts")
        else:
            values[row.name] = made or b""
            bad += [] if made else [row.problem]
    records.sort(key=lambda record: record[0])
    return Filled(
        b"".join(record for _, record in records),
        tuple(entry for entry, _ in records),
        KeyFile(values, tuple(bad)),
        tuple(problems),
        tuple(unread),
        tuple(row.name for row in every if row.is_blank and row.name),
        decimal,
    )


def both(form: KeyFile, file: Optional[KeyFile]) -> KeyFile:
    """The values of a form and of NAME.keys beside it, whose values count first."""
    if file is None:
        return form
    names = [name for name, value in file.values.items() if form.values.get(name, value) != value]
    said = [f"{name}: NAME.keys and the answer form differ; that of NAME.keys counts" for name in names]
    values = {**form.values, **file.values}
    blank = tuple(name for name in (*form.blank, *file.blank) if name not in values)
    return KeyFile(values, (*file.problems, *form.problems, *said), file.unread, blank)
