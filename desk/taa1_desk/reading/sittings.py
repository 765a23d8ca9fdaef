# SPDX-License-Identifier: MIT
"""Sittings and rings as text that can be written in an editor, and in bytes."""

from __future__ import annotations

from typing import Any, NamedTuple, Optional

from taa1 import Refusal, Refused, Sitting
from taa1.calls import CALLS

from ..engine import Engine, RefusedFile
from ..problems import Problem
from ..records import RING, Ring, whole
from ..values import MASK, decimal, hexadecimal, string
from .decoding import from_hex, lines_text, setters_text
from .lines import BOOK_LINES, is_lines, lines_of, named_values


class Name(NamedTuple):
    """A name of a text: a string of so many bytes, or a number that fills them; or words,
    which may be missing."""

    name: str
    length: int
    number: bool = False
    words: bool = False


class Heading(NamedTuple):
    """What a sitting is called, and its date, in its setter's words."""

    title: str = ""
    date: str = ""

    @property
    def line(self) -> str:
        """Both in a line."""
        return ", ".join(filter(None, self))


_NUMBERS = {"value": 1, "mask": 2}  # bytes in a sitting's file
SITTING = tuple(
    Name(p.name, p.length or _NUMBERS[p.kind], p.kind in _NUMBERS) for p in CALLS["ring"].parameters
)
SITTING_BYTES = sum(name.length for name in SITTING)
HEADING = tuple(Name(name, 0, words=True) for name in Heading._fields)
RING_NAMES = (Name("d", 10), Name("o", 16), Name("c", 10), Name("g", 16))
RESPONSES = (Name("response1", 4), Name("response2", 4))
RING_MADE_BYTES = RING + 8


def _value(name: Name, text: str) -> bytes:
    """The bytes that a line gives to a name. Raises ValueError."""
    if name.words:
        if not text.strip():
            raise ValueError("no words")
        return text.strip().encode()
    if not name.number:
        return string(text.split(), name.length)
    digits = "".join(text.split())
    number = hexadecimal(digits, MASK) if name.length == 2 else decimal(digits, 255)
    return number.to_bytes(name.length, "big")


def parse_names(text: str, wanted: tuple[Name, ...], where: str) -> dict[str, bytes]:
    """The values of a text with a line `name = hexadecimal` for each wanted name, or
    `name = words`."""
    names = {name.name: name for name in wanted}
    found: dict[str, bytes] = {}
    at: set[str] = set()
    wrong: list[str] = []
    known = {name: name for name in names}
    for said in named_values(text, "name = hexadecimal", known, lambda name: name.strip().lower()):
        problem = said.problem or said.again
        at.add(said.name)
        if not problem:
            try:
                found[said.name] = _value(names[said.name], said.value)
            except ValueError as error:
                problem = f"{said.name}: {error}"
        wrong += [f"{where}, line {said.number}: {problem}"] if problem else []
    wrong += [f"{where}: no line for {n.name}" for n in wanted if n.name not in at and not n.words]
    if wrong:
        raise Problem(*wrong)
    return found


def format_names(wanted: tuple[Name, ...], data: bytes) -> str:
    """The text of the values that stand one after the other."""
    wide = max(len(name.name) for name in wanted)
    lines = []
    for name in wanted:
        value, data = data[: name.length], data[name.length :]
        digits = str(value[0]) if name.number and name.length == 1 else value.hex()
        lines.append(f"{name.name:{wide}} = {digits}\n")
    return "".join(lines)


# ---- sittings and rings


def sitting_of(data: bytes) -> Sitting:
    """The sitting in the bytes that makering reads."""
    values: list[Any] = []
    for name in SITTING:
        value, data = data[: name.length], data[name.length :]
        values.append(whole(value) if name.number else value)
    return Sitting(*values)


def sitting_bytes(sitting: Sitting) -> bytes:
    """The bytes that makering reads."""
    values: tuple[Any, ...] = sitting
    return b"".join(
        value.to_bytes(name.length, "big") if isinstance(value, int) else value
        for name, value in zip(SITTING, values)
    )


def format_sitting(data: bytes, heading: Heading = Heading()) -> str:
    """The text of a sitting in bytes, with its heading in front."""
    wide = max(len(name.name) for name in SITTING)
    words = [f"{name:{wide}} = {said}\n" for name, said in heading._asdict().items() if said]
    return "".join(words) + format_names(SITTING, data)


def _bytes_or_names(data: bytes, where: str, wanted: str) -> tuple[bytes, Optional[str]]:
    """A file's bytes, also from hexadecimal; or the text beside them, if it has names."""
    text = setters_text(data)
    if text and is_lines(text) and not is_names(text):
        raise Problem(f"{where}: {BOOK_LINES}, where {wanted} is wanted")
    if text and "=" not in text:
        return from_hex(text, where), None
    return data, text


def parse_sitting(data: bytes, where: str) -> tuple[Sitting, Heading]:
    """The sitting in a file's content, and its heading: names, or the bytes that makering
    reads, also in hexadecimal, which have no heading."""
    data, text = _bytes_or_names(data, where, "a sitting")
    if len(data) == SITTING_BYTES and not text:
        return sitting_of(data), Heading()
    if b"=" not in data:
        raise Problem(f"{where}: {len(data)} bytes, where a sitting has {SITTING_BYTES} or names")
    values = parse_names(lines_text(data, where), SITTING + HEADING, where)
    words = (values.get(name.name, b"").decode() for name in HEADING)
    return sitting_of(b"".join(values[name.name] for name in SITTING)), Heading(*words)


def parse_ring(engine: Engine, data: bytes, where: str) -> Ring:
    """The ring in a file's content, or that of the sitting in it.

    A ring is 52 bytes, or the 60 that makering writes, in bytes or hexadecimal; or
    its names, d, o, c and g.
    """
    data, text = _bytes_or_names(data, where, "a ring or a sitting")
    if len(data) in (RING, RING_MADE_BYTES) and not text:
        return Ring.of(data)
    if text:
        lines = [line for _, line in lines_of(lines_text(data, where))]
        names = {line.partition("=")[0].strip().lower() for line in lines}
        if "d" in names:
            wanted = RING_NAMES + RESPONSES if "response1" in names else RING_NAMES
            values = parse_names(text, wanted, where)
            return Ring(*(values[key.name] for key in RING_NAMES))
    elif len(data) != SITTING_BYTES and b"=" not in data:
        lengths = f"a ring has {RING} or {RING_MADE_BYTES}, a sitting {SITTING_BYTES} or names"
        raise Problem(f"{where}: {len(data)} bytes, where {lengths}")
    return sitting_ring(engine, parse_sitting(data, where)[0], where)


def make_ring(engine: Engine, sitting: Sitting, where: str) -> dict[str, bytes]:
    """The ring of a sitting, and both responses."""
    try:
        return engine.call("ring", *sitting)
    except Refused as refused:
        raise RefusedFile(where, refused, _masks_said(refused, sitting)) from None


def sitting_ring(engine: Engine, sitting: Sitting, where: str) -> Ring:
    """The keys of a sitting's ring."""
    return Ring.of(make_ring(engine, sitting, where)["ring"])


def _masks_said(refused: Refused, sitting: Sitting) -> str:
    """What is wrong with the masks, where they were refused."""
    masks = {"response_mask": 4, "key_mask": 10}  # the ones that each is to have
    if refused.number == Refusal.WRONG_MASK:
        ones = {name: f"{getattr(sitting, name):b}".count("1") for name in masks}
        wrong = [(name, most) for name, most in masks.items() if ones[name] != most]
        return "; ".join(f"{name} has {ones[name]}, not {most}" for name, most in wrong)
    if refused.number == Refusal.SHARED_BIT:
        both = sitting.response_mask & sitting.key_mask
        shared = ", ".join(str(bit) for bit in range(15, -1, -1) if both >> bit & 1)
        return f"response_mask and key_mask both have bit {shared}"
    return ""


NAMES = "this has the names of a sitting or a ring"


def is_names(text: str) -> bool:
    """Whether a text is a sitting's or a ring's names and values."""
    name, equals, _ = next((line for _, line in lines_of(text)), "").partition("=")
    known = {each.name for each in (*SITTING, *HEADING, *RING_NAMES)}
    return bool(equals) and name.strip().lower() in known
