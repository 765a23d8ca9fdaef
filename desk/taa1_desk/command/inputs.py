# SPDX-License-Identifier: MIT
"""Sittings, rings, books, schemes, lists of candidates and arguments' points in files."""

from __future__ import annotations

from typing import Callable, Optional, Sequence

from taa1 import Sitting

from ..argument import Part
from ..engine import Engine
from ..problems import STANDARD, Problem, place
from ..reading import argument_points, candidates, schemes
from ..reading.books import parse_plain, parse_sealed
from ..reading.decoding import lines_text
from ..reading.handin import READ_AS
from ..reading.lines import named_values
from ..reading.own_words import paragraphs
from ..reading.sittings import Heading, parse_ring, parse_sitting
from ..records import Ring
from .files import read as read_file

Read = Callable[[str], bytes]  # gives a file's bytes
FROM_FILE = "@"  # in front of a file's name, where an option takes what stands in it


def once(*names: str) -> None:
    """Standard input can be read once only."""
    if sum(name == STANDARD for name in names) > 1:
        raise Problem("standard input: it can stand for one file only")


def read_sitting(name: str) -> Sitting:
    """The sitting in a file."""
    return read_headed(name)[0]


def read_headed(name: str, read: Read = read_file) -> tuple[Sitting, Heading]:
    """The sitting in a file, and its heading."""
    return parse_sitting(read(name), place(name))


def read_ring(engine: Engine, name: str) -> Ring:
    """The ring in a file, or that of the sitting in it."""
    return parse_ring(engine, read_file(name), place(name))


def read_plain(engine: Engine, name: str, raw: bool = False, read: Read = read_file) -> bytes:
    """A well-formed plain book, in lines, hexadecimal or bytes."""
    return parse_plain(engine, read(name), place(name), raw)


def read_model(engine: Engine, name: str, raw: bool, else_: str, read: Read = read_file) -> bytes:
    """The model, a plain book with entries in it; what it means else is given."""
    plain = read_plain(engine, name, raw, read)
    if not plain:
        raise Problem(f"{place(name)}: no entry in it, so {else_}")
    return plain


def read_sealed(name: str, raw: bool = False, read: Read = read_file) -> bytes:
    """A sealed book's bytes, in hexadecimal or as they are."""
    return parse_sealed(read(name), place(name), raw)


def read_scheme(name: Optional[str], read: Read = read_file) -> schemes.Scheme:
    """The scheme in a file, or the default."""
    if name is None:
        return schemes.parse(schemes.DEFAULT, "the default")
    return schemes.parse(lines_text(read(name), place(name)), place(name))


def read_list(name: Optional[str], read: Read = read_file) -> dict[str, str]:
    """The candidates' names in a list, by their files."""
    return candidates.parse_list(lines_text(read(name), place(name)), place(name)) if name else {}


def read_arguments(name: Optional[str], parts: Sequence[Part], read: Read = read_file) -> list[argument_points.Line]:
    """The points of arguments in a file, by the parts that the scheme has points for."""
    if name is None:
        return []
    if not parts:
        raise Problem(f"{place(name)}: the scheme has no points for an argument, so it takes no --arguments")
    return argument_points.parse(lines_text(read(name), place(name)), place(name), parts)


def read_words(name: Optional[str], read: Read = read_file) -> tuple[str, ...]:
    """A setter's own words for the paper, in paragraphs."""
    return paragraphs(lines_text(read(name), place(name)), place(name)) if name else ()


def read_forms(given: Sequence[str]) -> list[str]:
    """The forms that --as gives, FORM or FILE=FORM, and those of a text of lines FILE = FORM: @FILE."""
    made: list[str] = []
    for each in given:
        if not each.startswith(FROM_FILE):
            made.append(each)
            continue
        name, wrong = each[len(FROM_FILE) :], []
        where = place(name)
        for line in named_values(lines_text(read_file(name), where), "FILE = FORM"):
            problem = line.problem or line.again
            problem = problem or ("" if line.value in READ_AS else no_form(line.value))
            made.append(f"{line.name}={line.value}")
            wrong += [f"{where}, line {line.number}: {problem}"] if problem else []
        if wrong:
            raise Problem(*wrong)
    return made


def no_form(form: str) -> str:
    """What is said of a form that there is none of."""
    return f"no form {form!r}: they are {', '.join(READ_AS)}"
