# SPDX-License-Identifier: MIT
"""Lineage sheets as lines: how each key is made from others."""

from __future__ import annotations

from ..problems import Problem, quoted
from ..records import split, whole
from ..values import of_name, string, without_0x
from .lines import named_values

OPERATIONS = ("given", "ta11", "ta21", "ta41", "tb4", "ta71")
VALUE = 16  # bytes of a sheet's value


def parse_sheet(text: str, where: str) -> tuple[list[str], bytes]:
    """The names and the sheet of a text with a line for each key.

    `NAME = given HEXADECIMAL`, or `NAME = OPERATION PARENT PARENT` with the
    names of two keys. What parents an operation may have is the engine's to say.
    """
    rows: list[tuple[int, str, list[str]]] = []
    wrong: list[str] = []
    index: dict[str, int] = {}
    form = "NAME = OPERATION .."
    for line in named_values(text, form):
        words = line.value.split()
        problem = line.problem or line.again
        if not words or len(line.name.split()) > 1:
            problem = problem or f"no line of the form {form}"
        if problem:
            wrong.append(f"{where}, line {line.number}: {problem}")
            continue
        index[line.name] = len(rows)
        rows.append((line.number, words[0], words[1:]))
    records = b""
    for number, operation, words in rows:
        try:
            records += _sheet_record(operation, words, index)
        except ValueError as error:
            wrong.append(f"{where}, line {number}: {error}")
    if wrong:
        raise Problem(*wrong)
    return list(index), records


def _sheet_record(operation: str, words: list[str], index: dict[str, int]) -> bytes:
    """A record of a sheet. Raises ValueError."""
    if operation not in OPERATIONS:
        raise ValueError(f"no operation {quoted(operation)}: they are {', '.join(OPERATIONS)}")
    code = OPERATIONS.index(operation)
    if code == 0:
        digits = "".join(map(without_0x, words))
        value: bytes = of_name("the key given:", string, [digits], 10 if len(digits) < 32 else 16)
        return bytes(5) + bytes([len(value)]) + value.ljust(VALUE, b"\0")
    if len(words) != 2:
        raise ValueError(f"{operation} takes two parents, not {len(words)}")
    missing = [word for word in words if word not in index]
    if missing:
        raise ValueError(f"no key {quoted(missing[0])}")
    # With an index of more than two bytes, the sheet is too long for the engine anyway.
    parents = b"".join(min(index[word], 0xFFFF).to_bytes(2, "big") for word in words)
    return bytes([code]) + parents + bytes(1 + VALUE)


def format_sheet(names: list[str], sheet: bytes, values: bytes) -> str:
    """A worked sheet: each key's name, how it is made, and its value."""
    lines = []
    for name, record, value in zip(names, split(sheet, 22), split(values, VALUE)):
        operation = OPERATIONS[record[0]]
        length = record[5] if record[0] == 0 else 16 if record[0] <= 3 else 10
        parents = [names[whole(record[1:3])], names[whole(record[3:5])]] if record[0] else []
        lines.append(f"{name} = {value[:length].hex()}  # {' '.join([operation, *parents])}\n")
    return "".join(lines)
