# SPDX-License-Identifier: MIT
"""The points of the candidates' arguments in a text.

A line for each candidate, `NAME = 7 1/2` or `NAME = given 1, one entry 3/2, properties half`.
A part that the line does not name gets nothing; what is blank is not yet marked.
"""

from __future__ import annotations

import os
import re
from difflib import get_close_matches
from fractions import Fraction
from typing import Dict, Iterable, Mapping, NamedTuple, Optional, Sequence, Union

from ..argument import IN_ITS_PLACE, ONE_ENTRY, Argument, Part
from ..points import said
from ..problems import Problem, quoted, shown
from ..words import listed as words_listed
from .candidates import Named, key_of
from .lines import named_values

BLANK = "_"  # in the place of points that are still to be written
_FORM = "NAME = POINTS, as in ann = 7 1/2 or ann = given 1, one entry half"
_NUMBER = re.compile(r"[0-9]{1,6}( [0-9]{1,6}/0*[1-9][0-9]{0,5}|/0*[1-9][0-9]{0,5}|\.[0-9]{1,6})?")
_SHARES = {"full": Fraction(1), "half": Fraction(1, 2), "none": Fraction(0)}
_HEAD = """\
# The arguments' points: mark --arguments FILE. Write points (2, 1/2, 1 1/2), full, half or none in
# the place of each {blank}, or the sum alone after the =. Who has a {blank} left is not yet marked.
# {parts}.
"""
_EITHER = f"# '{IN_ITS_PLACE}' counts in the place of '{ONE_ENTRY}', where that gets nothing.\n"


_Owner = Union[int, str]  # the place of a hand-in, or another candidate's key in the list
_Owners = Dict[str, Dict[_Owner, str]]  # who may be meant by a name, and how they are called


class Line(NamedTuple):
    """What a line gives to whom."""

    number: int
    name: str
    argument: Argument


class Given(NamedTuple):
    """The points of arguments: those of hand-ins, by their places, and those of listed candidates
    of whom no hand-in is marked, with their names."""

    of: Mapping[int, Argument] = {}
    others: Sequence[tuple[str, Argument]] = ()


def parse(text: str, where: str, parts: Sequence[Part]) -> list[Line]:
    """The lines of a text, by the parts of a scheme."""
    made, wrong = [], []
    for line in named_values(text, _FORM):
        problem = line.problem or shown(line.again)
        if not problem:
            try:
                made.append(Line(line.number, line.name, argument(line.value, parts)))
            except ValueError as error:
                problem = f"{shown(line.name)}: {error}"
        if problem:
            wrong.append(f"{where}, line {line.number}: {problem}")
    if wrong:
        raise Problem(*wrong)
    return made


def argument(value: str, parts: Sequence[Part]) -> Argument:
    """What a value gives, the sum or points of parts; raises ValueError with what is wrong."""
    made = Argument(tuple(parts))
    if not value.strip(f" \t,;{BLANK}"):
        return made
    if not re.search(f"[^\\W\\d{BLANK}]", value) or value.lower() in _SHARES:
        return made._replace(alone=_points(value, made.most, "the argument"))
    given = _given([item for item in re.split("[,;]", value) if item.strip()], parts)
    if given.get(ONE_ENTRY) and given.get(IN_ITS_PLACE):
        either = f"'{IN_ITS_PLACE}' stands in the place of '{ONE_ENTRY}', where that gets nothing"
        raise ValueError(f"points for both, and {either}: give points for one of them")
    for part, other in ((ONE_ENTRY, IN_ITS_PLACE), (IN_ITS_PLACE, ONE_ENTRY)):
        if given.get(other) and given.get(part, 0) is None:
            given[part] = Fraction(0)
    return Argument(tuple(part._replace(points=given.get(part.name, Fraction(0))) for part in parts))


def _given(items: Iterable[str], parts: Sequence[Part]) -> dict[str, Optional[Fraction]]:
    """The points of the parts that items name; None for one that is blank."""
    of = {part.name: part.of for part in parts}
    given: dict[str, Optional[Fraction]] = {}
    for item in items:
        words = " ".join(item.replace(":", " ").replace("=", " ").split())
        name = next((name for name in of if re.match(f"{name}(?![^\\W_])", words, re.IGNORECASE)), None)
        if name is None:
            names = ", ".join(of)
            raise ValueError(f"no part {quoted(item.strip())}: the parts that have points are {names}")
        if name in given:
            raise ValueError(f"{name} for the second time: write it once")
        value = words[len(name) :].strip()
        given[name] = _points(value, of[name], name) if value.strip(BLANK) else None
    return given


def _points(value: str, of: Fraction, what: str) -> Fraction:
    """The points that a value gives, of so many."""
    words = " ".join(value.split())
    if words.lower() in _SHARES:
        return of * _SHARES[words.lower()]
    if re.fullmatch("[0-9]+,[0-9]+", words):
        raise ValueError(f"{quoted(words)} is no number: write {words.replace(',', '.')}")
    if not _NUMBER.fullmatch(words):
        forms = "0 or more as 2, 1/2, 1 1/2 or 1.5, or full, half or none"
        raise ValueError(f"{what}: {quoted(words)} are no points: write {forms}")
    points = sum(map(Fraction, words.split()), Fraction(0))
    if points > of:
        raise ValueError(f"{what}: {said(points)}, where there are {said(of)}: write 0 to {said(of)}")
    return points


def written(argument: Argument) -> str:
    """What a line says of an argument; blank parts are to be written in."""
    if argument.alone is not None:
        return said(argument.alone)
    points = ((part.name, BLANK if part.points is None else said(part.points)) for part in argument.parts)
    return ", ".join(f"{name} {each}" for name, each in points)


def lines_text(arguments: Iterable[tuple[str, str, Argument]], parts: Sequence[Part]) -> str:
    """A text of arguments, each with the name of the file and the candidate's: a form, where
    they are not yet marked."""
    of = "; ".join(f"{part.name}: {said(part.of)}" for part in parts)
    head = f"Of {said(Argument(tuple(parts)).most)}: {of}"
    both = {ONE_ENTRY, IN_ITS_PLACE} <= {part.name for part in parts}
    made = [(name, written(each), candidate) for name, candidate, each in arguments]
    wide = max((len(name) for name, _, _ in made), default=0)
    lines = (f"{name:{wide}} = {said_}  # {candidate}\n" for name, said_, candidate in made)
    return "".join([_HEAD.format(blank=BLANK, parts=head), _EITHER * both, "\n", *lines])


def whose(
    lines: Sequence[Line],
    where: str,
    files: Sequence[str],
    names: Named,
    listed: Mapping[str, str],
    folders: Mapping[str, str] = {},
) -> Given:
    """Whose arguments the lines are.

    A line names a candidate as the list does, by the file's name or the candidate's; or a hand-in
    by its file's name, with or without its end."""
    exact, loose = _owners(files, names, listed, folders)
    taken: dict[_Owner, int] = {}
    found: dict[_Owner, Argument] = {}
    wrong = []
    for line in lines:
        name = " ".join(line.name.split())
        owners = exact.get(name) or loose.get(name) or {}
        if len(owners) == 1:
            owner = next(iter(owners))
            if owner in taken:
                wrong.append((line, f"{owners[owner]} for the second time, after line {taken[owner]}: keep one"))
            taken.setdefault(owner, line.number)
            found[owner] = line.argument
        elif owners:
            several = words_listed([f"{each}" for each in owners.values()])
            wrong.append((line, f"{quoted(name)} may be {several}: write the whole name of one"))
        else:
            like = get_close_matches(name, [*exact, *loose], 1)
            known = like or list(exact)[:3]
            said_ = f"is {known[0]} meant?" if like else f"write a name as in {', '.join(known)}"
            wrong.append((line, f"no candidate {quoted(name)}: {said_}"))
    if wrong:
        raise Problem(*(f"{where}, line {line.number}: {shown(problem)}" for line, problem in wrong))
    return Given(
        {owner: given for owner, given in found.items() if isinstance(owner, int)},
        [(listed[owner], given) for owner, given in found.items() if isinstance(owner, str)],
    )



def _owners(
    files: Sequence[str], names: Named, listed: Mapping[str, str], folders: Mapping[str, str]
) -> tuple[_Owners, _Owners]:
    """Who is called so, in the list, on the pages or by the file; and whose file is without its end."""
    exact: _Owners = {}
    loose: _Owners = {}

    def call(owners: _Owners, name: str, owner: _Owner, candidate: str) -> None:
        if name:
            owners.setdefault(" ".join(name.split()), {})[owner] = candidate

    used = set()
    for at, (file, candidate) in enumerate(zip(files, names.names)):
        key = key_of(file, listed, folders.get(file, ""))
        used.add(key)
        base, folder = os.path.basename(file), folders.get(file, "")
        for name in (candidate, base, folder, *(() if key is None else (key, listed[key]))):
            call(exact, name, at, candidate)
        for name in _stems(base):
            call(loose, name, at, candidate)
    for key, candidate in listed.items():
        if key not in used:
            for name in (key, candidate):
                call(exact, name, key, candidate)
            for name in _stems(key):
                call(loose, name, key, candidate)
    return exact, loose


def _stems(base: str) -> Iterable[str]:
    """A file's name, and without each of its ends."""
    while base:
        yield base
        base = base.rpartition(".")[0]
