# SPDX-License-Identifier: MIT
"""The forms that a hand-in's bytes may have as text: hexadecimal, dumps, and others."""

from __future__ import annotations

import ast
import base64
import re
from typing import Callable, NamedTuple, Optional, Union

from taa1 import MOST_RECORDS

from ..problems import quoted
from ..records import SEALED
from ..values import DIGITS, without_0x
from .decoding import MOST_BYTES, from_hex, decoded

BYTES = "bytes"  # the form of a file that is no text
MOST_FOUND = 16 * MOST_RECORDS  # rows of a table, more than are compared with any model


def is_meant(data: bytes) -> bool:
    """Whether what can't be read is meant for a hand-in all the same: bytes, or a text that is
    mostly hexadecimal digits."""
    text = decoded(data)
    said = "".join(text[0].split()) if text else ""
    digits = sum(letter in DIGITS for letter in said)
    return text is None or digits >= 2 * SEALED and 5 * digits >= 3 * len(said)


# Each of these turns a text into bytes, or raises Problem or ValueError.


def hexadecimal(text: str) -> bytes:
    """Digits with anything between them that separates: spaces, commas, 0x, comments."""
    listed = re.search(r"\{([^{}]*)\}", text)  # as xxd -i writes it
    if listed:
        text = listed[1]
    text = re.sub(r"#.*|//.*|[-,;:\[\]()'\"]|\\x", _blank, _without_blocks(text))
    words = [word.lower().removeprefix("0x") for word in text.split()]
    if {len(word) for word in words} == {1, 2}:  # bytes, some without the zero in front
        text = " ".join(word.rjust(2, "0") for word in words)
    return from_hex(text, "")


def _blank(found: re.Match[str]) -> str:
    return " " * len(found[0])


def _without_blocks(text: str) -> str:
    """Text without comments as C has them, but with their lines."""
    kept, end = [], 0
    while (start := text.find("/*", end)) >= 0 and (stop := text.find("*/", start + 2)) >= 0:
        kept += [text[end:start], "\n" * text.count("\n", start, stop)]
        end = stop + 2
    return "".join([*kept, text[end:]])


def _word(word: str) -> bytes:
    if len(word) not in (4, 8, 16):
        raise ValueError(f"{quoted(word)} is no word of two, four or eight bytes")
    return bytes.fromhex(word)[::-1]


def _decimal(word: str) -> bytes:
    return bytes([int(word, 10)])


ADDRESSED = re.compile(r"([0-9a-fA-F]{6,16})(:?)(?:\s(.*))?$")


def dumped(text: str, value: Callable[[str], bytes]) -> bytes:
    """The bytes of a dump, whose lines have an address in front or none.

    With addresses, octal, hexadecimal or decimal, each line must begin where the one
    before it ends; a last one alone is the length, and a line `*` stands for repeated ones.
    """
    lines = [line.strip() for line in text.splitlines() if line.strip()]
    try:
        for base in (8, 16, 10):
            made = _addressed(lines, value, base)
            if made is not None:
                return made
        return b"".join(value(word) for line in lines for word in line.split())
    except (ValueError, KeyError, OverflowError):
        raise ValueError("this is no dump of bytes") from None


def _addressed(lines: list[str], value: Callable[[str], bytes], base: int) -> Optional[bytes]:
    """The bytes of a dump with addresses to a base; None if they don't agree."""
    made, last, repeated = bytearray(), b"", False
    for line in lines:
        if line == "*":
            repeated = True
            continue
        found = ADDRESSED.match(line)
        try:
            address = int(found[1], base) if found else -1
        except ValueError:
            return None
        if found is None or address > MOST_BYTES:
            return None
        while repeated and last and len(made) < address:
            made += last
        repeated = False
        rest = (found[3] or "").lstrip()
        if not rest:  # the length: a last word may have been filled up
            return bytes(made[:address]) if 0 <= len(made) - address < 8 else None
        if len(made) != address:
            return None
        # the bytes as letters stand after two spaces, or between | or >
        values = rest.partition("  ")[0] if found[2] else re.split(r"[|>]", rest)[0]
        last = b"".join(map(value, values.split()))
        made += last
    return bytes(made)


class Rows(NamedTuple):
    """The records of a text with one in each line, the lines that hold none, and of how many of
    these the record can't be read."""

    book: bytes
    problems: tuple[str, ...]
    lost: int = 0


def _other_letter(digits: str) -> str:
    """The first letter that is no hexadecimal digit, of what is meant for digits."""
    return next((letter for letter in digits if letter not in DIGITS), "")


def record_rows(text: str) -> Rows:
    """The records of lines that have one each, in 42 digits, beside whatever else. A word of as
    many letters, three of four of them digits, is meant for one."""
    found, problems = [], []
    for number, line in enumerate(text.splitlines(), 1):
        for word in map(without_0x, re.findall("[0-9a-zA-Z]{16,}", line)):
            other = _other_letter(word)
            if other and 4 * sum(letter in DIGITS for letter in word) < 3 * len(word):
                continue
            if other:
                problems.append(f"line {number}: {other!r} is no hexadecimal digit, so it is not read")
            elif len(word) != 2 * SEALED:
                problems.append(f"line {number} has {len(word)} digits, not {2 * SEALED}")
            else:
                found.append(bytes.fromhex(word))
        if len(problems) > MOST_RECORDS:  # no book has so many lines
            break
    return Rows(b"".join(found), tuple(problems), len(problems))


def records(text: str) -> bytes:
    """The records of lines that have one each, in 42 digits, beside whatever else."""
    book, problems, _ = record_rows(text)
    if problems:
        raise ValueError(problems[0])
    if not book:
        raise ValueError(f"no {2 * SEALED} hexadecimal digits stand together")
    return book


# What fields are called in the heads of a table, and in front of them.
LABELS = {
    "entry": "entry", "row": "entry", "record": "entry", "no": "entry", "kind": "kind",
    "esi": "identity", "identity": "identity", "encrypted": "identity", "version": "version",
    "text": "text", "sealed": "text",
}  # fmt: skip
COLUMNS = ["kind", "identity", "version", "text"]
MOST_LINE = 2000  # letters of a line with a record; of a longer one, the rest counts for nothing


def table(text: str, decimal: bool = False) -> Rows:
    """The records of a table, as a spreadsheet saves it, with heads or none, or of fields after
    their names. A version is hexadecimal, or decimal."""
    found: list[tuple[int, dict[str, str]]] = []
    heads = COLUMNS
    for number, whole in enumerate(text.splitlines(), 1):
        line = whole[:MOST_LINE].split("#")[0]
        words = re.sub("[]\\[,;|:=\"'().\t]", " ", line).split()
        labels = [LABELS.get(word.lower(), "") for word in words]
        if words and all(labels):
            heads = list(dict.fromkeys(labels))
        elif any(labels):
            _labelled(found, number, words, labels)
        elif words:
            cells = [cell.strip(" \"'") for cell in re.split("[,;|\t]", line)]
            columns = ["entry", *heads] if len(cells) == 5 and heads == COLUMNS else heads
            if len(cells) >= len(columns):
                last = len(columns) - 1
                found.append((number, dict(zip(columns, [*cells[:last], " ".join(cells[last:])]))))
        if len(found) > MOST_FOUND:
            break
    made = [(number, _record(fields, decimal)) for number, fields in found if fields.keys() - {"entry"}]
    bad = tuple(f"line {number}: {said}, so it is not read" for number, said in made if isinstance(said, str))
    return Rows(b"".join(each for _, each in made if isinstance(each, bytes)), bad, len(bad))


def _labelled(
    found: list[tuple[int, dict[str, str]]], number: int, words: list[str], labels: list[str]
) -> None:
    """Takes the fields of a line after their names; a name that is there already, or that of an
    entry, begins the next record."""
    last = ""
    for word, label in zip(words, labels):
        if label and label != last:
            if not found or label == "entry" or label in found[-1][1]:
                found.append((number, {}))
            found[-1][1][label] = ""
            last = label
        elif last and not label:
            found[-1][1][last] += word


def _record(fields: dict[str, str], decimal: bool) -> Union[bytes, str]:
    """The record of fields, or what is wrong with them."""
    given = {name: without_0x("".join(fields.get(name, "").split())) for name in COLUMNS}
    for name, digits in given.items():
        other = _other_letter(digits)
        if not digits:
            return f"no {name}"
        if other:
            return f"{name}: {other!r} is no hexadecimal digit"
    if len(given["text"]) != 30 or len(given["kind"]) > 2 or len(given["identity"]) > 6:
        return "no kind, identity, version and text"
    version = given["version"]
    if not (version.isdecimal() and len(version) < 6 and int(version) < 1 << 16 if decimal else len(version) < 5):
        return f"version {quoted(version)} is none"
    start = given["kind"].rjust(2, "0") + given["identity"].rjust(6, "0")
    return bytes.fromhex(f"{start}{int(version, 10 if decimal else 16):04x}{given['text']}")


def _whole_table(text: str) -> bytes:
    """The records of a table of which every row can be read."""
    made = table(text)
    made = made if not made.problems else table(text, decimal=True)
    if made.problems or not made.book:
        raise ValueError(made.problems[0] if made.problems else "there is no row of a table")
    return made.book


def fields(text: str) -> bytes:
    """The records of lines of four fields: kind and version in decimal, identity and text in
    hexadecimal; the entry's number may stand in front."""
    found = []
    for number, line in enumerate(text.splitlines(), 1):
        if line.startswith("#"):
            continue
        words = re.sub(r"#.*|//.*|\b0[xX]|[,;|]|\b[A-Za-z]+[:=]", " ", line).split()
        numbered = len(words) > 4 and len(words[1]) != 6  # the identity is the third word
        kind, identity, version, *digits = words[numbered:] if len(words) > 3 else ("", "", "")
        sealed = "".join(digits)
        if words and not (
            re.fullmatch("0?[0-9]", kind)
            and re.fullmatch("[0-9a-fA-F]{6}", identity)
            and re.fullmatch("[0-9]{1,5}", version)
            and re.fullmatch("[0-9a-fA-F]{30}", sealed)
            and int(version) < 1 << 16
        ):
            raise ValueError(f"line {number} is no kind, identity, version and text")
        if words:
            start = int(kind).to_bytes(1, "big") + bytes.fromhex(identity)
            found.append(start + int(version).to_bytes(2, "big") + bytes.fromhex(sealed))
    return b"".join(found)


def rows(text: str) -> Rows:
    """The records of lines of digits, of which some have too few or too many, or others."""
    found: list[bytes] = []
    problems: list[str] = []
    lost = 0
    for number, line in enumerate(text.splitlines(), 1):
        if len(problems) > MOST_RECORDS:  # no book has so many lines
            return Rows(b"", tuple(problems))
        head, colon, rest = line[:MOST_LINE].partition(":")
        if colon and LABELS.get(head.split(" ")[0].lower()) == "entry":
            line = rest
        digits = re.sub(r"\s|#.*|//.*|[-,;:\[\]()'\"]|\\x|\b0[xX]", "", line)
        other, count = _other_letter(digits), sum(letter in DIGITS for letter in digits)
        meant = count >= SEALED
        lost += meant and (bool(other) or count != 2 * SEALED)
        if other and meant:
            problems.append(f"line {number}: {other!r} is no hexadecimal digit, so it is not read")
        elif other:
            problems.append(f"line {number} has other than hexadecimal digits, and is not read")
        elif len(digits) == 2 * SEALED:
            found.append(bytes.fromhex(digits))
        elif digits:
            problems.append(f"line {number} has {len(digits)} digits, not {2 * SEALED}")
    return Rows(b"".join(found), tuple(problems), lost)


def _base64(text: str) -> bytes:
    return base64.b64decode("".join(text.split()), validate=True)


def _literal(text: str) -> bytes:
    letter = r"""[ !#-&(-\[\]-~]|\\x[0-9a-f]{2}|\\[\\nrt'"]"""
    found = re.search(f"""\\bb(?:'(?:{letter}|")*'|"(?:{letter}|')*")""", text)
    if not found:
        raise ValueError("there is no b'..'")
    return bytes(ast.literal_eval(found[0]))


class Form(NamedTuple):
    """A form of hand-ins: its words, and what reads it."""

    what: str
    read: Callable[[str], bytes]


FORMS: dict[str, Form] = {
    "hex": Form("hexadecimal", hexadecimal),
    "dump": Form(
        "a dump in hexadecimal (xxd, od -tx1, hexdump -C)", lambda text: dumped(text, bytes.fromhex)
    ),
    "words": Form(
        "a dump in words, their low byte first (od -x)", lambda text: dumped(text, _word)
    ),
    "decimal": Form(
        "bytes in decimal", lambda text: dumped(re.sub(r"[,;\[\]()]", " ", text), _decimal)
    ),
    "records": Form("lines with a record of 42 digits in each", records),
    "fields": Form("lines of kind, identity, version and text, two of them decimal", fields),
    "table": Form("a table, or named fields, of kind, identity, version and text", _whole_table),
    "base64": Form("base64", _base64),
    "literal": Form("Python's b'..'", _literal),
}
