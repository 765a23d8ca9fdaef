# SPDX-License-Identifier: MIT
"""Candidates' names: from a list, or from the names of their files.

A list has a line `FILE = Name` for each candidate. FILE is the name of the hand-in's
file, with or without what stands after a point.
"""

from __future__ import annotations

import os
from collections import Counter
from typing import Mapping, NamedTuple, Optional, Sequence

from ..handed import LeftOut
from ..problems import STANDARD, Problem, place, shown
from .lines import named_values


class Named(NamedTuple):
    """The candidates' names, in the order of their hand-ins, and who handed nothing in, or
    a file that was left out."""

    names: list[str]
    absent: list[str]
    left_out: list[LeftOut]  # listed candidates of whose files none is marked
    unlisted: list[bool]  # whether each hand-in is none of the list's, where there is one


def parse_list(text: str, where: str) -> dict[str, str]:
    """The names in a list, by their files."""
    found: dict[str, str] = {}
    wrong: list[str] = []
    form = "FILE = Name"
    for line in named_values(text, form):
        problem = line.problem or shown(line.again)
        problem = problem or ("" if line.value else f"no line of the form {form}")
        if problem:
            wrong.append(f"{where}, line {line.number}: {problem}")
        else:
            found[line.name] = shown(line.value)
    if wrong:
        raise Problem(*wrong)
    return found


def key_of(file: str, listed: Mapping[str, str], folder: str = "") -> Optional[str]:
    """The key of a hand-in in the list: the name of its candidate's folder, or its own."""
    key = _listed(folder, listed) if folder else None
    return _listed(os.path.basename(file), listed) if key is None else key


def named(
    files: Sequence[str],
    pages: Sequence[str],
    listed: dict[str, str],
    left_out: Sequence[str] = (),
    folders: Mapping[str, str] = {},
) -> Named:
    """Each hand-in's candidate. Where two have the same name, their pages' names, which
    differ, stand after it."""
    names, used, unlisted = [], {}, []
    for file in files:
        folder = folders.get(file, "")
        key = key_of(file, listed, folder)
        names.append(listed[key] if key is not None else shown(folder) or _of_file(file))
        unlisted.append(bool(listed) and key is None)
        if key is not None:
            used[key] = file
    _once(used, listed)
    unused = {key: name for key, name in listed.items() if key not in used}
    left = {key_of(file, unused, folders.get(file, "")): file for file in reversed(left_out)}
    often = Counter(names)
    return Named(
        [
            f"{name} ({shown(page.removesuffix('.html'))})" if often[name] > 1 else name
            for name, page in zip(names, pages)
        ],
        [name for key, name in unused.items() if key not in left],
        [LeftOut(name, place(left[key]), "") for key, name in unused.items() if key in left],
        unlisted,
    )


def _once(used: dict[str, str], listed: dict[str, str]) -> None:
    """A file that is listed with its whole name, and again without its end, has two names."""
    wrong = []
    for key, file in used.items():
        rest = {each: name for each, name in listed.items() if each not in used}
        other = _listed(key.rpartition(".")[0], rest)
        if other is not None:
            both = f"as {shown(key)} = {listed[key]} and as {shown(other)} = {listed[other]}"
            wrong.append(f"{place(file)}: listed twice among the candidates, {both}")
    if wrong:
        raise Problem(*wrong)


def _listed(base: str, listed: Mapping[str, str]) -> Optional[str]:
    """The key of a file in the list, by its whole name first."""
    while base and base not in listed:
        base = base.rpartition(".")[0]
    return base or None


def _of_file(file: str) -> str:
    """A name from a file's: what stands in front of the last point."""
    return place(file) if file == STANDARD else shown(os.path.splitext(os.path.basename(file))[0])
