# SPDX-License-Identifier: MIT
"""Which files of folders are hand-ins, and what their pages are called."""

from __future__ import annotations

import os
from collections import Counter
from itertools import count
from typing import Callable, Container, Mapping, NamedTuple, Optional, Sequence

from ..problems import STANDARD, Problem, place, shown
from ..reading.answerform import is_form
from ..reading.decoding import FILES, decoded
from ..reading.keyfile import is_keys
from ..reading.recorded import is_record
from ..showing.candidate_page import MADE_BY
from ..showing.html import is_made_by
from .files import read, reason

MOST_NAME = 200  # bytes of a page's name
KEYS = ".keys"
LINK = "left out: a link, which may lead to another's file (ask for the file itself)"
PAGE = "left out: a page that the desk made"
RECORD = "left out: a record of marking that the desk made"
NO_HAND_IN = "no hand-in in this folder"
NO_BOOK = f"left out: no hand-in beside it whose keys they are (NAME{KEYS} belongs to NAME.book)"


class Skipped(NamedTuple):
    """A file of a folder that is not marked, and why."""

    name: str
    why: str
    told: bool = False  # also where marks are made: it may be somebody's work

    def __str__(self) -> str:
        """A line about it."""
        return f"{place(self.name)}: {self.why}"


class HandIns(NamedTuple):
    """What arguments stand for: a name for each candidate's hand-in, and what lies around it."""

    names: list[str]
    left_out: list[Skipped]
    twice: list[str]  # named once more
    folders: dict[str, str]  # of a candidate's folder, its name, by the names
    keys: dict[str, list[str]]  # files of keys, and answer forms beside a book, by the names
    problems: dict[str, str]  # why a candidate's folder has no hand-in, or no one, by its name


# Says of a text in a folder why it is no hand-in; nothing, if it is one. The second is the name
# of the candidate's folder that it lies in, or nothing.
Judge = Callable[[str, str], str]


class _Room(NamedTuple):
    """A candidate's folder: the hand-in, keys and answer forms that lie beside it, what else is
    there, and why it has no hand-in, or no one."""

    name: str
    keys: list[str]
    left_out: list[Skipped]
    problem: str = ""


def hand_ins(
    arguments: Sequence[str], beside: Sequence[str], judge: Judge = lambda name, folder: ""
) -> HandIns:
    """A folder stands for its regular files, and for the folders in it, which are candidates'; but
    for hidden ones, *.keys, *.txt whose content is no hand-in, links, the desk's pages and those
    that are named on the command line, too. A file is taken once."""
    named = {os.path.realpath(name) for name in (*arguments, *beside)}
    found: dict[str, str] = {}
    left_out: list[Skipped] = []
    twice = []
    folders: dict[str, str] = {}
    keys: dict[str, list[str]] = {}
    problems: dict[str, str] = {}
    for argument in arguments:
        files = [argument]
        if argument != STANDARD and os.path.isdir(argument):
            inside = _files(argument)
            why = {name: left for name in inside for left in [_left_out(name, named, "", judge)] if left}
            files = [name for name in inside if name not in why and not _is_candidates(name)]
            for folder in [name for name in inside if name not in why and _is_candidates(name)]:
                room = _room(folder, named, judge)
                folders.update(dict.fromkeys(_files(folder), os.path.basename(folder)))
                why.update({each.name: each for each in room.left_out})
                if room.name:
                    files.append(room.name)
                    folders[room.name], keys[room.name] = os.path.basename(folder), room.keys
                    why.setdefault(folder, Skipped(folder, "the folder of a candidate"))
                if room.problem:
                    problems[room.name] = room.problem
                    del why[folder]
            if not files:
                told = (str(left) for left in why.values() if left.told)
                raise Problem(f"{place(argument)}: {NO_HAND_IN}", *told)
            left_out += why.values()
        for name in files:
            if _path(name) in found:
                twice.append(name)
            else:
                found[_path(name)] = name
    of = {_path(keys_of(name)): name for name in found.values() if not name.endswith(KEYS) and name not in folders}
    left_out += [Skipped(name, "") for path, name in found.items() if path in of]
    names = [name for path, name in found.items() if path not in of]
    for name in names:
        if name not in keys and name != STANDARD and keys_of(name) != name and os.path.lexists(keys_of(name)):
            keys[name] = [keys_of(name)]
    return HandIns(names, [_keys_said(each, of) for each in left_out], twice, folders, keys, problems)


def _room(folder: str, named: Container[str], judge: Judge) -> _Room:
    """What a candidate's folder holds. Its keys and its answer form may have any name, if there is
    one of each; what is more than that is named."""
    base, inside = os.path.basename(folder), _files(folder)
    kinds = {name: _kind(name) for name in inside}
    left = {
        name: why
        for name in inside
        for why in [_left_out(name, named, base, judge, kinds[name])]
        if why
    }
    books, keys, forms, others = (
        [name for name in inside if name not in left and kinds[name] == kind]
        for kind in (BOOK, KEY_FILE, FORM, OTHER)
    )
    if books or forms:
        no_book = "left out: no book by its content, beside a hand-in (named by itself, it is marked)"
        left.update({name: Skipped(name, no_book, True) for name in others})
    books = books or ([] if forms else others)
    hand_in, more = _one(books, forms)
    own = [name for name in keys if hand_in and name == keys_of(hand_in)]
    beside = forms if books else []  # which are read as keys
    taken = [*(own or (keys if len(keys) == 1 else [])), *(beside if len(beside) == 1 else [])]
    said = f"read as the keys of {place(hand_in or folder)}"
    rest = [Skipped(name, said) for name in taken]
    for what, several in (("files of keys", keys), ("answer forms", beside)):
        why = f"left out: one of {len(several)} {what} in this folder (keep one)"
        rest += [Skipped(name, why, True) for name in several if name not in taken]
    if hand_in or more or taken:
        problem = more or ("" if hand_in else "no book in this folder, but keys: ask for the book")
        return _Room(hand_in or folder, taken, [*left.values(), *rest], problem)
    pages = bool(left) and all(each.why == PAGE for each in left.values())
    nothing = Skipped(folder, f"left out: {NO_HAND_IN}", not pages)
    return _Room("", [], [*left.values(), *rest, nothing])


def _one(books: Sequence[str], forms: Sequence[str]) -> tuple[str, str]:
    """The hand-in of a folder, a book or else an answer form; or that there are several."""
    for what, several in (("books", books), ("answer forms", forms)):
        if len(several) == 1:
            return several[0], ""
        if several:
            names = ", ".join(shown(os.path.basename(name)) for name in several)
            said = f"{len(several)} {what} in this folder, {names}: keep one, or name the one that counts by itself"
            return "", said
    return "", ""


BOOK, KEY_FILE, FORM, OTHER = "book", "keys", "form", "other"


def _kind(name: str) -> str:
    """What a file in a candidate's folder is by its content: keys, an answer form, what can be no
    book, such as a picture, or a book."""
    if name.endswith(KEYS):
        return KEY_FILE
    if os.path.islink(name) or not os.path.isfile(name):
        return BOOK
    try:
        data = read(name)
    except Problem:  # it is said where it is marked
        return BOOK
    if any(data.startswith(start) for start, _ in FILES):
        return OTHER
    text = decoded(data)
    if text and is_form(text.text):
        return FORM
    return KEY_FILE if is_keys(data) else BOOK


def _files(folder: str) -> list[str]:
    """What lies in a folder."""
    try:
        return [os.path.join(folder, name) for name in sorted(os.listdir(folder))]
    except OSError as error:
        raise Problem(f"{place(folder)}: {reason(error)}") from None


def _is_candidates(name: str) -> bool:
    """Whether something in a folder is the folder of a candidate."""
    hidden = os.path.basename(name).startswith(".")
    return os.path.isdir(name) and not os.path.islink(name) and not hidden and not name.endswith(KEYS)


def keys_of(name: str) -> str:
    """The file of a candidate's keys beside the hand-in: NAME.keys beside NAME.book."""
    return os.path.splitext(name)[0] + KEYS


def _path(name: str) -> str:
    """What the names of one file have in common; those of links to it have not."""
    folder, base = os.path.split(name)
    return name if name == STANDARD else os.path.join(os.path.realpath(folder), base)


def _left_out(
    name: str, named: Container[str], folder: str, judge: Judge, kind: str = ""
) -> Optional[Skipped]:
    """Why a file of a folder is no hand-in, if it is none."""
    if os.path.basename(name).startswith("."):
        return Skipped(name, "left out: hidden")
    if os.path.realpath(name) in named:
        return Skipped(name, "left out here: it is named on the command line")
    if os.path.islink(name):
        return Skipped(name, LINK, True)
    if os.path.isdir(name):
        if not folder and _is_candidates(name):
            return None
        return Skipped(name, "left out: a folder (name it by itself, if hand-ins are in it)", True)
    if not os.path.isfile(name):
        return Skipped(name, "left out: no regular file", True)
    if kind in (KEY_FILE, FORM):
        return None
    if name.endswith(KEYS):
        return Skipped(name, NO_BOOK, True)
    if name.lower().endswith(".txt"):
        why = judge(name, folder)
        return Skipped(name, f"left out: {why} (named by itself, it is marked)", True) if why else None
    start = _start(name)
    if is_record(start):
        return Skipped(name, RECORD)
    return Skipped(name, PAGE) if name.endswith(".html") and is_page(start) else None


def _start(name: str) -> bytes:
    """How a file begins."""
    try:
        with open(name, "rb") as file:
            return file.read(1024)
    except OSError:  # it is said where it is read
        return b""


def is_page(start: bytes) -> bool:
    """Whether a file that begins so is a page of the desk's."""
    return any(is_made_by(start, by) for by in ("taa1", MADE_BY))


def _keys_said(left: Skipped, keys: Mapping[str, str]) -> Skipped:
    """What is said of a file that may be the keys of a hand-in."""
    of = keys.get(_path(left.name))
    if of is None or not os.path.isfile(left.name):
        return left
    return Skipped(left.name, f"read as the keys of {place(of)}")


def page_names(names: Sequence[str], others: Sequence[str], folders: Mapping[str, str] = {}) -> list[str]:
    """A page's name for each hand-in, after its file, so that a late one renames nobody; other pages
    have theirs.

    A candidate's folder has its name in front. Equal names get their folder's in front, and a
    number if they are equal still.
    """
    bases = ["standard input" if name == STANDARD else os.path.basename(name) for name in names]
    bases = [
        f"{folders[name]}-{base}" if name in folders and base != folders[name] else base
        for name, base in zip(names, bases)
    ]
    often = Counter(f"{base}.html".casefold() for base in (*bases, *(other.removesuffix(".html") for other in others)))
    taken: set[str] = set()
    made = []
    for name, base in zip(names, bases):
        if often[f"{base}.html".casefold()] > 1:
            base = f"{os.path.basename(os.path.dirname(os.path.realpath(name)))}-{base}"
        stem = os.fsdecode(os.fsencode(base)[:MOST_NAME])
        pages = (f"{stem}{f'-{n}' * (n > 1)}.html" for n in count(1))
        made.append(next(page for page in pages if page.casefold() not in taken))
        taken.add(made[-1].casefold())
    return made
