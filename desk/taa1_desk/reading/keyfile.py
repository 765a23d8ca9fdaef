# SPDX-License-Identifier: MIT
"""The file of keys that a candidate hands in beside a book: NAME.keys, names and values."""

from __future__ import annotations

import re

from ..asked import KEYS, LENGTHS
from ..handed import KeyFile
from ..names import field
from ..values import DIGITS, without_0x
from .decoding import FILES, decoded
from .lines import named_values

MOST_WORDS = 3  # of a value's name


def short(name: str) -> str:
    """A name as it is compared: without spaces, in small letters, with one apostrophe."""
    return re.sub("[\u2018\u2019\u201b\u2032\u00b4`\uff07]", "'", re.sub(r"[\s_-]", "", name)).lower()


SHORT = {short(each): name for name in KEYS for each in (field(name), name)}


def unread(where: str, why: str) -> KeyFile:
    """A file of keys of which nothing can be read."""
    said = f"{where}: {why}, where lines of keys are wanted (NAME = HEXADECIMAL)"
    return KeyFile({}, (said,), said)


def read(where: str, data: bytes) -> KeyFile:
    """What a file of keys says."""
    if not data.strip():
        return unread(where, "the file is empty")
    for start, what in FILES:
        if data.startswith(start):
            return unread(where, f"this looks like {what}")
    text = decoded(data)
    if text is None:
        return unread(where, "it is no text")
    file = parse(text.text)
    if file.values:
        return file
    none = unread(where, "no value in it")
    return none._replace(problems=(*none.problems, *file.problems))


def is_keys(data: bytes) -> bool:
    """Whether a file is one of keys by its content: a text of which most lines give a value."""
    text = None if any(data.startswith(start) for start, _ in FILES) else decoded(data)
    file = parse(text.text) if text else KeyFile({})
    return len(file.values) > len(file.problems)


def _parted(line: str) -> tuple[str, str, str]:
    """A line's name, what stands after it, and the value; the = may be missing where a
    name and a value of its length are all that there is."""
    left, equals, right = re.sub(r"[=:]", "=", line, count=1).partition("=")
    words = line.split()
    for at in range(1, 0 if equals else min(len(words), MOST_WORDS + 1)):
        name, digits = SHORT.get(short(" ".join(words[:at]))), "".join(map(without_0x, words[at:]))
        if name and len(digits) == 2 * LENGTHS[name] and DIGITS.issuperset(digits):
            return name, "=", digits
    return left, equals, right


def parse(text: str) -> KeyFile:
    """The values in a text of lines NAME = HEXADECIMAL; any may be missing."""
    values: dict[str, bytes] = {}
    problems: list[str] = []
    lines = "\n".join(text.splitlines())
    for said in named_values(lines, "NAME = HEXADECIMAL", SHORT, short, _parted):
        name, digits = said.name, "".join(map(without_0x, said.value.split()))
        bad = sorted(set(digits) - DIGITS)
        problem = said.problem
        if not problem and not said.value.strip():  # left blank: not handed in
            continue
        if not problem and values.get(name):
            problem = f"{name} for the second time; the first one counts"
        elif not problem:
            values[name] = b""
            if bad:
                problem = f"{name}: {bad[0]!r} is no hexadecimal digit"
            elif len(digits) % 2 or not digits:
                problem = f"{name}: {len(digits)} hexadecimal digits, not {2 * LENGTHS[name]}"
            else:
                values[name] = bytes.fromhex(digits)
        if problem:
            problems.append(f"keys, line {said.number}: {problem}")
    return KeyFile(values, tuple(problems))
