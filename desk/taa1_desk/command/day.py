# SPDX-License-Identifier: MIT
"""A day's folder: what its files are called, the arguments that it stands for, and its texts.

`mark --day FOLDER` is `mark FOLDER/sitting.txt FOLDER/model.txt FOLDER/hand-ins` with an option
for each other file that lies there. So a day has no form of its own.
"""

from __future__ import annotations

import os
import shutil
import tempfile
from contextlib import suppress
from itertools import count, takewhile
from pathlib import Path
from typing import Callable, Iterator, Mapping, NamedTuple, Sequence

from ..argument import Part
from ..engine import Engine
from ..points import said
from ..problems import Problem, place, shown
from ..reading import argument_points, candidates, schemes
from ..reading.decoding import lines_text
from ..reading.lines import named_values, with_line
from ..reading.own_words import paragraphs
from ..records import PLAIN, split
from ..words import listed
from . import files, inputs
from .inputs import FROM_FILE

SITTING, MODEL, SCHEME, WORDS = "sitting.txt", "model.txt", "scheme.txt", "words.txt"
NAMES, ARGUMENTS, AS = "names.txt", "arguments.txt", "as.txt"
HAND_INS = "hand-ins"  # a folder
PAPER, SOLUTION, PAGES = "paper", "solution", "pages"  # folders that are written
MARKS, ARGUE, RECORD = "marks.csv", "argue.html", "record.json"
# The files of the day that a command takes by options, if they are there.
OPTIONS: dict[str, dict[str, str]] = {
    "model": {},
    "paper": {"--scheme": SCHEME, "--words": WORDS},
    "argue": {"--scheme": SCHEME, "--candidates": NAMES},
    "mark": {"--scheme": SCHEME, "--candidates": NAMES, "--arguments": ARGUMENTS, "--as": AS},
}
DAY = "--day"
INPUTS = (SITTING, MODEL, SCHEME, NAMES, ARGUMENTS, AS)  # of a marking, beside the hand-ins
THERE = "it is there already, and is not replaced: take it out of the day's folder first"
NO_FOLDER = "no folder is chosen for the day: choose a new one, or that of an earlier day"
PASS = "needed to pass: points, or a share of all as 60%; blank: nothing is said of it"
Stamp = dict[str, tuple[int, int]]  # the size and the time of each file that a marking reads


def files_said(command: str) -> str:
    """What a day's folder stands for in a command's arguments."""
    named = [SITTING, MODEL, *([HAND_INS] if command == "mark" else [])]
    named += [f"{option} {FROM_FILE if name == AS else ''}{name}" for option, name in OPTIONS[command].items()]
    return f"{', '.join(named)} in this folder, the options where there is such a file"


def files_of(command: str, folder: str) -> list[str]:
    """The arguments of a command that a day's folder stands for."""
    folder = os.path.join(os.curdir, folder) if folder.startswith("-") else folder
    made = [os.path.join(folder, name) for name in (SITTING, MODEL, *([HAND_INS] if command == "mark" else []))]
    for option, name in OPTIONS[command].items():
        path = os.path.join(folder, name)
        if os.path.isfile(path):
            made.append(f"{option}={FROM_FILE if name == AS else ''}{path}")
    return made


def expanded(given: Sequence[str]) -> list[str]:
    """Arguments, with what a day's folder stands for in the place of --day FOLDER."""
    command = given[0] if given else ""
    for at, word in enumerate(given if command in OPTIONS else ()):
        option, equals, folder = word.partition("=")
        if option == DAY and (equals or at + 1 < len(given)):
            rest = given[at + 1 :] if equals else given[at + 2 :]
            return [command, *files_of(command, folder if equals else given[at + 1]), *given[1:at], *rest]
        if word == "--":
            break
    return list(given)


class Field(NamedTuple):
    """A line of the scheme: its name, its value, and what it is for."""

    name: str
    value: str
    what: str


def record_name(number: int) -> str:
    """What a record is called, from number 0 on: each answers the one before."""
    return f"-{number + 1}".join(os.path.splitext(RECORD)) if number else RECORD


def changes(before: Stamp, now: Stamp) -> Iterator[str]:
    """What changed in a folder: new, changed and gone files."""
    kinds = {
        "new": now.keys() - before.keys(),
        "changed": {name for name in now.keys() & before.keys() if now[name] != before[name]},
        "gone": before.keys() - now.keys(),
    }
    yield from (f"{what}: {', '.join(map(shown, sorted(names)))}" for what, names in kinds.items() if names)


def nameable(name: str) -> bool:
    """Whether a line NAME = VALUE can have this name: a file's may hold anything."""
    return not set("#=") & set(name) and name == name.encode(errors="replace").decode()


class Folder:
    """A day's folder, and its texts."""

    def __init__(self, folder: str) -> None:
        """Takes the folder, which is made when something is first written into it; "" is none yet."""
        self.folder = os.path.abspath(folder) if folder else ""

    def path(self, *names: str) -> str:
        """The place of a file of the day."""
        return os.path.join(self.folder, *names)

    def has(self, name: str) -> bool:
        """Whether a file of the day, or a folder with something in it, is there."""
        path = self.path(name)
        try:
            return bool(self.folder) and (os.path.isfile(path) or os.path.isdir(path) and bool(os.listdir(path)))
        except OSError:  # a folder that can't be looked into: who reads it is told
            return True

    def make(self) -> None:
        """Makes the folder, if it is not there."""
        if not self.folder:
            raise Problem(NO_FOLDER)
        try:
            os.makedirs(self.folder, exist_ok=True)
        except OSError as error:
            raise Problem(f"{shown(self.folder)}: {files.reason(error)}") from None

    def text(self, name: str) -> str:
        """What a text says; nothing, if it is not there."""
        return lines_text(files.read(self.path(name)), place(self.path(name))) if self.has(name) else ""

    def values(self, name: str) -> dict[str, str]:
        """The lines NAME = VALUE of a text."""
        return {line.name: line.value for line in named_values(self.text(name), "") if line.name}

    def write(self, name: str, text: str) -> None:
        """Keeps a text, if it can be read as what it is to be; an empty one is taken away."""
        checks: dict[str, Callable[[str, str], object]] = {
            SCHEME: schemes.parse,
            WORDS: paragraphs,
            NAMES: candidates.parse_list,
            ARGUMENTS: lambda text, where: argument_points.parse(text, where, self.parts()),
        }
        self.make()
        files.forget()  # it was read to be changed
        if text.strip():
            checks.get(name, lambda text, where: None)(text, place(self.path(name)))
            files.write_file(self.path(name), text.encode(), private=True)
        elif self.has(name):
            try:
                os.unlink(self.path(name))
            except OSError as error:
                raise Problem(f"{shown(self.path(name))}: {files.reason(error)}") from None

    def put(self, file: str, name: str, value: str) -> None:
        """Sets a line NAME = VALUE of a text; an empty value takes it away."""
        value = " ".join(value.split())
        if not nameable(name):
            raise Problem(f"{file}: no line can name {shown(name)}: without # and =, and in UTF-8, it could: rename the file")
        if "#" in value:
            raise Problem(f"{file}: no line can say {shown(name)} = {shown(value)}, since a # begins a comment")
        before = self.text(file)
        after = with_line(before, name, value)
        if after != before:
            self.write(file, after)

    def choose(self, name: str, other: str) -> None:
        """Takes a file from elsewhere, if it can be read as what it is to be."""
        if self.has(name):
            raise Problem(f"{name}: {THERE}")
        readers: dict[str, Callable[[str], object]] = {
            SITTING: inputs.read_sitting,
            MODEL: lambda name: inputs.read_plain(Engine(), name),
            NAMES: inputs.read_list,
        }
        readers[name](other)
        self.make()
        files.write_file(self.path(name), files.read(other), private=True, new=THERE)

    def take_in(self, folder: str) -> None:
        """Copies a folder of hand-ins; links stay links, since they may lead to another's file."""
        if self.has(HAND_INS):
            raise Problem(f"{HAND_INS}: there already: put further files into {shown(self.path(HAND_INS))}")
        taken, own = (Path(os.path.realpath(each)) for each in (folder, self.folder))
        if taken in (own, *own.parents):
            raise Problem(f"{shown(folder)}: the day's folder is in it: choose a folder of hand-ins alone")
        self.make()
        try:
            with tempfile.TemporaryDirectory(dir=self.folder, prefix=".taa1.") as half:
                made = shutil.copytree(folder, os.path.join(half, HAND_INS), symlinks=True)
                os.rename(made, self.path(HAND_INS))
        except shutil.Error as error:  # it has all that went wrong
            source, _, why = error.args[0][0]
            raise Problem(f"{shown(source)}: {why}") from None
        except OSError as error:
            raise Problem(f"{shown(folder)}: {files.reason(error)}") from None

    def scheme(self) -> schemes.Scheme:
        """The scheme, or the default."""
        return inputs.read_scheme(self.path(SCHEME) if self.has(SCHEME) else None)

    def parts(self) -> tuple[Part, ...]:
        """The parts of the argument that have points."""
        return schemes.argument_parts(self.scheme())

    def heading(self) -> dict[str, str]:
        """What the sitting and the model say of what can be drawn, if they are there."""
        found: dict[str, str] = {}
        if self.has(SITTING):
            sitting, heading = inputs.read_headed(self.path(SITTING))
            found.update(title=heading.title, date=heading.date, sides=str(sitting.sides))
        if self.has(MODEL):
            kinds = [record[0] for record in split(inputs.read_plain(Engine(), self.path(MODEL)), PLAIN)]
            found.update(kinds=",".join(map(str, kinds)), entries=str(len(kinds)))
        return found

    def points(self) -> list[Field]:
        """The scheme's lines; what the day's does not say is as it counts then."""
        own, counts = self.values(SCHEME), self.scheme()
        notes = {line.partition("=")[0].strip(): line.partition("#")[2].strip() for line in schemes.DEFAULT.splitlines()}
        names = [line.name for line in named_values(schemes.DEFAULT, "")]
        made = [Field(name, own.get(name, said(counts[name])), notes[name]) for name in names]
        return [*made, Field("pass", own.get("pass", ""), PASS)]

    def pages(self) -> tuple[str, ...]:
        """The options with which a marking writes its pages and its table."""
        return f"--html={self.path(PAGES)}", "--csv", f"--output={self.path(MARKS)}"

    def drop_gone(self) -> None:
        """Takes away in which form a file is to be read, if the file is gone."""
        for key in self.values(AS):
            if not os.path.lexists(self.path(HAND_INS, key)):
                self.put(AS, key, "")

    def lacks(self) -> str:
        """What is missing before anything can be marked."""
        lacks = [what for name, what in ((SITTING, "a sitting"), (MODEL, "a model book")) if not self.has(name)]
        if not self.folder:
            return f"Missing: {NO_FOLDER} (Ctrl+O)."
        if lacks:
            return f"Missing for the paper and for marking: {listed(lacks)}. Draw, or take a file (page 1)."
        if not self.has(HAND_INS):
            where = f"Take in a folder (page 2), or put files into {shown(self.path(HAND_INS))}."
            return f"Next: print the paper and the form. Missing for marking: what was handed in. {where}"
        return ""

    def draw(self, given: Mapping[str, str]) -> list[list[str]]:
        """What draws the model and the sitting, each if it is not there yet; the model first, since
        only its kinds can be refused, and then nothing is drawn."""
        self.make()
        made = []
        for name, options in ((MODEL, ("kinds", "entries")), (SITTING, ("title", "date", "sides"))):
            typed = [f"--{option}={given[option].strip()}" for option in options if given[option].strip()]
            if not self.has(name):
                made.append(["draw", *["--book"] * (name == MODEL), *typed, f"--output={self.path(name)}"])
        return made

    def paper(self, part: str) -> list[list[str]]:
        """What writes the paper and the form; or the worked solution, into a folder of its own."""
        where = f"--solution={self.path(SOLUTION)}" if part == "solution" else f"--html={self.path(PAPER)}"
        return [["paper", f"--day={self.folder}", where]]

    def argue(self) -> list[list[str]]:
        """What makes the marking aid."""
        return [["argue", f"--day={self.folder}", f"--html={self.path(ARGUE)}"]]

    def stamp(self) -> Stamp:
        """What a marking would read now."""
        found = [self.path(name) for name in INPUTS]
        for folder, _, names in os.walk(self.path(HAND_INS)):
            found += [os.path.join(folder, name) for name in names if not name.startswith(".")]
        seen = {}
        for path in found:
            with suppress(OSError):  # it is not there, or is gone by now
                seen[path] = os.lstat(path)
        return {os.path.relpath(path, self.folder): (each.st_size, each.st_mtime_ns) for path, each in seen.items()}

    def records(self) -> list[str]:
        """The records that are kept, the first one first: each answers the one before."""
        return list(takewhile(self.has, map(record_name, count())))

    def verify(self) -> list[list[str]]:
        """What marks again, and compares with the last record."""
        return [["verify", self.path((self.records() or [RECORD])[-1]), self.folder]]
