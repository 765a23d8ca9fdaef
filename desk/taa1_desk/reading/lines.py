# SPDX-License-Identifier: MIT
"""Lines of text: which say something, those of the form NAME = VALUE, and books in lines.

Blank lines count for nothing, nor does what stands after a #.
"""

from __future__ import annotations

from typing import Callable, Iterator, Mapping, NamedTuple, Optional

from ..problems import quoted

WORDS = ("kind", "identity", "version", "key", "number")  # of an entry's line
BOOK_LINES = "this is a plain book in lines"


def lines_of(text: str) -> Iterator[tuple[int, str]]:
    """The lines that say something, with their numbers."""
    for number, line in enumerate(text.split("\n"), 1):
        said = line.split("#", 1)[0].strip()
        if said:
            yield number, said


class NamedValue(NamedTuple):
    """A line NAME = VALUE, or what is wrong with it."""

    number: int
    name: str
    value: str
    before: int = 0  # the line that has the same name, if one has
    problem: str = ""

    @property
    def again(self) -> str:
        """What is said of a name that another line has."""
        return f"{self.name} for the second time, after line {self.before}" if self.before else ""


def _at_equals(line: str) -> tuple[str, str, str]:
    return line.partition("=")


def named_values(
    text: str,
    form: str,
    known: Optional[Mapping[str, str]] = None,
    key: Callable[[str], str] = str.strip,
    part: Callable[[str], tuple[str, str, str]] = _at_equals,
) -> Iterator[NamedValue]:
    """The lines of a text, each a name and a value with = between them; a form of such a line is
    given for messages. Names are found among those that are known by what a key makes of them;
    any is taken where none is."""
    at: dict[str, int] = {}
    for number, line in lines_of(text):
        left, equals, value = part(line)
        name = left.strip() if known is None else known.get(key(left), "")
        if not (left.strip() and equals):
            yield NamedValue(number, "", line, problem=f"no line of the form {form}")
        elif known is not None and not name:
            names = ", ".join(dict.fromkeys(known.values()))
            yield NamedValue(number, "", line, problem=f"no name {quoted(left.strip())}: the names are {names}")
        else:
            yield NamedValue(number, name, value.strip(), at.get(name, 0))
            at.setdefault(name, number)


def is_lines(text: str) -> bool:
    """Whether a text is a book in lines."""
    first = next((line for _, line in lines_of(text)), "")
    return not {"entry", "entries", *WORDS}.isdisjoint(first.lower().split())


def with_line(text: str, name: str, value: str) -> str:
    """A text with a line NAME = VALUE set, or without it where the value is empty; all else, also
    what stands after a # in that line, is as it was."""
    made, line = [], f"{name} = {value}" if value else ""
    for old in text.splitlines():
        said, hash_, comment = old.partition("#")
        if "=" not in said or said.partition("=")[0].strip() != name:
            made.append(old)
        elif line:
            made.append(f"{line}  {hash_}{comment}" if hash_ else line)
            line = ""
    return "".join(f"{each}\n" for each in [*made, *([line] if line else [])])
