# SPDX-License-Identifier: MIT
"""Books as lines that can be written in an editor, and in bytes."""

from __future__ import annotations

import re
from typing import Optional

from taa1 import MOST_RECORDS, Refused

from ..engine import Engine, refusals
from ..names import KIND_NAMES
from ..problems import Problem, quoted
from ..records import KINDS, PLAIN, SEALED, Entry, split
from ..values import IDENTITY, decimal, hexadecimal, of_name, string
from .decoding import from_hex, hex_or_bytes, lines_text, setters_text
from .lines import BOOK_LINES, WORDS, is_lines, lines_of
from .sittings import NAMES, is_names

_FORM = "an entry is `kind K identity I version V key HEX number N`, in any order"


def _fields(words: list[str]) -> dict[str, list[str]]:
    """What stands after each word of a line; a key may have spaces. Raises ValueError."""
    fields: dict[str, list[str]] = {}
    last = ""
    for word in words:
        name = word.lower()
        if name in ("entry", *WORDS):
            if name in fields:
                raise ValueError(f"{name} for the second time")
            fields[name] = []
            last = name
        elif not last or (fields[last] and last != "key"):
            raise ValueError(f"{quoted(word)} is no word of an entry: {_FORM}")
        else:
            fields[last].append(word)
    return fields


def _entry(fields: dict[str, list[str]], any_number: bool = False) -> Entry:
    """The entry of a line's fields. Raises ValueError."""

    def word(name: str, wanted: str) -> str:
        if not fields.get(name):
            raise ValueError(f"no {name}: wanted {wanted}; {_FORM}")
        return fields[name][0]

    number = of_name("kind", decimal, word("kind", f"1 to {max(KINDS)}"), 255)
    if number not in KINDS:
        raise ValueError(f"kind {number}: wanted 1 to {max(KINDS)}")
    kind, names = KINDS[number], KIND_NAMES[number]
    identity = of_name(
        "identity", hexadecimal, word("identity", f"{IDENTITY} hexadecimal digits"), IDENTITY
    )
    version = of_name("version", decimal, word("version", "a decimal number"), 0xFFFF)
    word("key", f"{2 * kind.key} hexadecimal digits")
    key = of_name(f"key of kind {number}:", string, fields["key"], kind.key)
    key_number: Optional[int] = None
    if kind.number:
        highest = 0xFFFF if any_number else names.highest
        wanted = f"a decimal number up to {highest}"
        key_number = of_name("number", decimal, word("number", wanted), highest)
    elif fields.get("number", ["-"]) != ["-"]:
        raise ValueError(f"number {quoted(fields['number'][0])}: kind {number} has none: leave it out")
    return Entry(number, identity, version, key, key_number)


def entry_of(words: list[str]) -> Entry:
    """The entry of a line's words after the index, in any order, as a candidate may write
    it: its number may be too high for its kind. Raises ValueError."""
    return _entry(_fields(words), any_number=True)


def has_fields(words: list[str]) -> bool:
    """Whether words begin with a field of an entry."""
    return bool(words) and words[0].lower() in WORDS


def parse_lines(engine: Engine, text: str, where: str) -> bytes:
    """The plain book of a text in plainlist's lines.

    `entry` and the index may be left out, and so may the last line with the count;
    where they stand, they must be right. The engine checks each entry by itself.
    """
    records: list[bytes] = []
    wrong: list[str] = []
    count: Optional[int] = None
    behind = 0  # how far the lines' own numbers are behind, once that is said
    for number, line in lines_of(text):
        words = line.split()
        try:
            if count is not None:
                raise ValueError("a line after the count of entries")
            if words[0].lower() == "entries":
                count = of_name("entries", decimal, " ".join(words[1:]), MOST_RECORDS)
                if count != len(records):
                    raise ValueError(f"entries {count}, where there are {len(records)}")
                continue
            if {"entry", *WORDS}.isdisjoint(map(str.lower, words)):
                raise ValueError(f"{quoted(words[0])} is no word of an entry: {_FORM}")
            records.append(b"")
            fields = _fields(words)
            wanted = str(len(records) - 1 + behind)
            index = " ".join(fields.pop("entry", [wanted]))
            if index != wanted:
                behind += int(index[:9]) - int(wanted) if re.fullmatch("[0-9]+", index) else 0
                raise ValueError(f"entry {quoted(index)}, where entry {wanted} stands")
            record = _entry(fields).data
            engine.call("check_plain", record)
            records[-1] = record
        except Refused as refused:
            wrong.append(f"{where}, line {number}: refused {refused.number} ({refused.name})")
        except ValueError as error:
            wrong.append(f"{where}, line {number}: {error}")
    if not records and count is None and not wrong:
        wrong.append(f"{where}: no entry in it: {_FORM}")
    if wrong:
        raise Problem(*wrong)
    return b"".join(records)


def format_lines(plain: bytes) -> str:
    """The listing of a well-formed plain book, as plainlist prints it."""
    records = split(plain, PLAIN)
    lines = [f"entry {i} {Entry.of(record).line}\n" for i, record in enumerate(records)]
    return "".join(lines) + f"entries {len(records)}\n"


def seems_sealed(data: bytes) -> bool:
    """Whether bytes that are no plain book are a sealed one by their length and kinds."""
    return bool(data) and len(data) % SEALED == 0 and all(kind in KINDS for kind in data[::SEALED])


def parse_plain(engine: Engine, data: bytes, where: str, raw: bool = False) -> bytes:
    """A well-formed plain book, in lines, hexadecimal or bytes."""
    text = None if raw else setters_text(data)
    if text and is_names(text):
        raise Problem(f"{where}: {NAMES}, where a plain book is wanted")
    if text and (is_lines(text) or not any(lines_of(text))):
        data = parse_lines(engine, lines_text(data, where), where)
    elif text:
        data = from_hex(text, where)
    with refusals(where):
        try:
            engine.call("check_plain", data)
        except Refused:
            if seems_sealed(data):
                raise Problem(f"{where}: this looks like a sealed book, where the plain one is wanted") from None
            raise
    return data


def parse_sealed(data: bytes, where: str, raw: bool = False) -> bytes:
    """A sealed book's bytes, in hexadecimal or as they are."""
    text = None if raw else setters_text(data)
    if text and (is_lines(text) or is_names(text)):
        what = NAMES if is_names(text) else BOOK_LINES
        raise Problem(f"{where}: {what}, where a sealed book is wanted")
    return hex_or_bytes(data, where, raw)
