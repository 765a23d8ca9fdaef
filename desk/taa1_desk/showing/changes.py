# SPDX-License-Identifier: MIT
"""What differs between two records of marking: files, programs and options, and every mark.

Both are the objects of their JSON, so that whatever is recorded is compared.
"""

from __future__ import annotations

import json
from collections import Counter
from fractions import Fraction
from typing import Any, Callable, Container, Iterable, Iterator, Mapping, NamedTuple

from ..origin import brief
from ..points import said as points_said
from ..reading.recorded import ROLES
from ..words import entries_said, plural
from .pictures import decimal

NONE = "-"


class Change(NamedTuple):
    """What is not as it was."""

    what: str
    was: str
    now: str

    def __str__(self) -> str:
        """A line about it."""
        return f"{self.what}: {self.now}, was {self.was}"


class Compared(NamedTuple):
    """Two records beside each other."""

    frame: list[Change]  # programs, options, the files that marking goes by, files left out
    candidates: list[tuple[str, list[Change]]]  # those with changes
    same: list[str]  # those without
    gone: list[str]  # candidates of the earlier record alone
    new: list[str]  # of the later alone
    whole: list[Change]  # of the class

    @property
    def any(self) -> bool:
        """Whether there is a difference."""
        return bool(self.frame or self.candidates or self.gone or self.new or self.whole)


def _entry(of: Mapping[str, Any]) -> str:
    """An entry's mark in a few words."""
    said = [f"{each['field']} {each['has']}, not {each['wants']}" for each in of["differences"]]
    said += [f"{plural(len(of['failed_checks']), 'check')} failing"] if of["failed_checks"] else []
    said += [f"right under own {of['right_under_own']}"] if of["right_under_own"] else []
    said += [of["note"]] if of["note"] else []
    return str(of["state"]) + (f" ({'; '.join(said)})" if said else "")


def _key(of: Mapping[str, Any]) -> str:
    """A value's mark in a few words."""
    return f"{of['state']} ({of['has'] or 'not read'})"


def _slip(of: Mapping[str, Any]) -> str:
    """What a slip explains, or how many of the class made it, in a few words."""
    if "candidates" in of:
        return plural(of["candidates"], "candidate")
    keys = f", and {', '.join(of['keys'])}" if of["keys"] else ""
    return f"explains {entries_said(of['explains'])}{keys}" if of["explains"] else f"explains{keys[5:]}"


def _wrong(of: Mapping[str, Any]) -> str:
    """How many of the class got an entry wrong, in a few words."""
    return ", ".join(f"{count} {what.replace('_', ' ')}" for what, count in of.items() if what != "entry")


class _List(NamedTuple):
    """A list of objects: what names one, by which key, and how it is said in a few words."""

    what: str
    key: str
    said: Callable[[Mapping[str, Any]], str]


_LISTS = {
    "items": _List("points for", "for", lambda of: _points(of["points"])),
    "parts": _List("argument,", "part", lambda of: _points(of["points"])),
    "keys": _List("value", "name", _key),
    "entries": _List("entry", "entry", _entry),
    "slips": _List("slip", "slip", _slip),
    "wrong_entries": _List("who got entry", "entry", _wrong),
    "left_out": _List("left out:", "file", lambda of: str(of["why"])),
}
_FIRST = ("total", "counts 0 so far", "points, sum", "points, of", "argument")  # of a candidate's changes
_DERIVED = ("slips", "checks", "wrong_entries")  # counts of the class that follow from candidates' changes
_POINTS = ("sum", "of", "points", "mean", "median")
_SAID: dict[tuple[str, ...], str] = {("total", "counts_0"): "counts 0 so far"}  # of what its name alone would not say
_UNKNOWN: dict[tuple[str, ...], str] = {("total", "passed"): "not yet known"}  # what null means there


def _points(value: Any) -> str:
    """Points as they are said; those of a mean may have no short fraction."""
    try:
        points = Fraction(value)
        return points_said(points) if points.denominator < 100 else decimal(points)
    except (TypeError, ValueError, ZeroDivisionError):
        return _plain(value)


def _plain(value: Any) -> str:
    """A value as it is said."""
    if value is None or value == "" or value == []:
        return NONE
    if isinstance(value, bool):
        return "yes" if value else "no"
    if isinstance(value, list) and not any(isinstance(each, (dict, list)) for each in value):
        return ", ".join(map(str, value))
    return str(value) if isinstance(value, (str, int)) else json.dumps(value)


def _numbered(values: Iterable[Any], key: str) -> dict[tuple[str, int], Any]:
    """Objects by what their key has; the second with the same is another."""
    often: Counter[str] = Counter()
    made = {}
    for each in values:
        name = str(each.get(key)) if isinstance(each, dict) else str(each)
        made[name, often[name]] = each
        often[name] += 1
    return made


def _few(said: Callable[[Mapping[str, Any]], str], of: Any) -> str:
    """An object in a few words; an absent one is a dash."""
    try:
        return NONE if of is None else said(of)
    except (KeyError, TypeError, AttributeError):  # of another form
        return _plain(of)


def changed(was: Any, now: Any, what: tuple[str, ...] = ()) -> Iterator[Change]:
    """What differs between two values of JSON."""
    if was == now:
        return
    last = what[-1] if what else ""
    if isinstance(was, (dict, type(None))) and isinstance(now, (dict, type(None))):
        old, new = was or {}, now or {}
        for key in dict.fromkeys((*old, *new)):
            yield from changed(old.get(key), new.get(key), (*what, key))
    elif last in _LISTS and isinstance(was or [], list) and isinstance(now or [], list):
        of = _LISTS[last]
        before, after = _numbered(was or [], of.key), _numbered(now or [], of.key)
        for name in dict.fromkeys((*before, *after)):
            one, other = before.get(name), after.get(name)
            if one != other:
                pair = _few(of.said, one), _few(of.said, other)
                pair = pair if pair[0] != pair[1] else (_plain(one), _plain(other))
                yield Change(f"{of.what} {name[0]}", *pair)
    else:
        said = _points if last in _POINTS else _plain
        said = said if said(was) != said(now) else _plain
        one, other = (_UNKNOWN.get(what, NONE) if each is None else said(each) for each in (was, now))
        yield Change(_SAID.get(what) or _words(what), one, other)


def _words(what: Iterable[str]) -> str:
    return ", ".join(part.replace("_", " ") for part in what)


def _digest(of: Any) -> str:
    """A file by the first digits of its digest."""
    digest = of.get("sha256") if isinstance(of, dict) else None
    return brief(digest) if digest else NONE if of is None else "not read"


def _files(was: Iterable[Any], now: Iterable[Any], what: str) -> Iterator[Change]:
    """Files that are other ones, by their names."""
    old, new = ({each["file"]: each for each in files} for files in (was, now))
    for name in dict.fromkeys((*old, *new)):
        pair = _digest(old.get(name)), _digest(new.get(name))
        if (old.get(name) or {}).get("sha256") != (new.get(name) or {}).get("sha256") or NONE in pair:
            yield Change(f"{what} {name}, SHA-256", *pair)


def _frame(was: Mapping[str, Any], now: Mapping[str, Any]) -> Iterator[Change]:
    """Programs, options, and the files that marking goes by."""
    yield from changed(was["engine"]["release"], now["engine"]["release"], ("the engine's release",))
    if was["engine"]["library"] != now["engine"]["library"]:
        pair = (brief(each["engine"]["library"]) for each in (was, now))
        yield Change("the engine's library, SHA-256", *pair)
    yield from changed(was["desk"], now["desk"], ("the desk's version",))
    for option in ("opened", "bytes"):
        yield from changed(was["options"][option], now["options"][option], (f"option --{option}",))
    yield from changed(_forms(was), _forms(now), ("option --as",))
    for role in ROLES:
        old, new = was["files"][role], now["files"][role]
        if (old or {}).get("sha256") != (new or {}).get("sha256"):
            name = (new or {}).get("file") or (old or {}).get("file")
            yield Change(f"{role}{f' {name}' if name else ''}, SHA-256", _digest(old), _digest(new))
    yield from _files(was["left_out"], now["left_out"], "left out:")


def _forms(of: Mapping[str, Any]) -> list[str]:
    """The forms in which hand-ins were to be read."""
    return [f"{each['file'] or 'each'}={each['form']}" for each in of["options"]["as"]]


def _rows(of: Mapping[str, Any]) -> dict[str, tuple[Any, Any]]:
    """The hand-ins and their sheets, by the names of their files."""
    return {file["file"]: (file, sheet) for file, sheet in zip(of["hand_ins"], of["marks"]["sheets"])}


def compare(was: Mapping[str, Any], now: Mapping[str, Any]) -> Compared:
    """Two records, the earlier one first."""
    old, new = _rows(was), _rows(now)
    candidates, same = [], []
    for name in new:
        if name in old:
            (file, sheet), (file_now, sheet_now) = old[name], new[name]
            found = list(_files([file, *file["beside"]], [file_now, *file_now["beside"]], "file"))
            found += sorted(changed(sheet, sheet_now), key=lambda each: not each.what.startswith(_FIRST))
            if found:
                candidates.append((sheet_now["name"], found))
            else:
                same.append(sheet_now["name"])
    gone = [sheet["name"] for name, (_, sheet) in old.items() if name not in new]
    added = [sheet["name"] for name, (_, sheet) in new.items() if name not in old]
    frame = [*_frame(was, now), *changed(_head(was), _head(now))]
    without = _DERIVED if candidates or added else ()
    # of an appeal of some candidates the class is none: its counts are theirs alone
    whole = [] if gone else list(changed(_class(was, without), _class(now, without)))
    return Compared(frame, candidates, same, gone, added, whole)


def _class(of: Mapping[str, Any], without: Container[str]) -> dict[str, Any]:
    """What the class comes to."""
    return {key: value for key, value in of["marks"]["class"].items() if key not in without}


def _head(of: Mapping[str, Any]) -> dict[str, Any]:
    """What stands above the marks."""
    return {f"marks, {key}": value for key, value in of["marks"].items() if key not in ("class", "sheets")}
