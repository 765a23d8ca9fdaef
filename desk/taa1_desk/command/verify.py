# SPDX-License-Identifier: MIT
"""The command that marks again what a record says, from the files in folders."""

from __future__ import annotations

import argparse
import os
import tempfile
from hashlib import sha256
from typing import Any, Iterator, NamedTuple, Optional

from ..origin import brief
from ..problems import STANDARD, Problem, place, shown
from ..reading.recorded import MOST_BYTES, Recorded, is_record, parse
from ..showing.changes import compare
from ..showing.exports import is_marks
from ..words import plural
from . import files, folders
from .job import Job, Progress, marked
from .output import ACCEPTED, REFUSED, emit_text
from .record import record

START = 1024  # bytes of a file, by which the desk knows its own


class Found(NamedTuple):
    """The files in folders: their paths, and their digests where they can be read."""

    paths: dict[str, Optional[str]]
    by_digest: dict[str, list[str]]


class Laid(NamedTuple):
    """A record's files, laid out as they were: what each is now called, and which are missing."""

    paths: dict[str, str]  # of hand-ins and what lies beside them, by their names in the record
    used: frozenset[str]  # every file of the folders that stands for one of the record's
    missing: list[str]
    job: Optional[Job]  # to be marked again, if what marking goes by is there
    absent: frozenset[str]  # hand-ins that are missing


def run_verify(args: argparse.Namespace) -> int:
    """Whether every file and every mark is as a record has it: it marks again."""
    if STANDARD in (args.record, *args.folder):
        raise Problem("verify: standard input is no file that a record could name")
    recorded = parse(files.read(args.record, MOST_BYTES), place(args.record))
    differences = list(verified(recorded, args.folder))
    emit_text(args, text(recorded, differences))
    return REFUSED if differences else ACCEPTED


def text(recorded: Recorded, differences: list[str]) -> str:
    """What came of it."""
    data = recorded.data
    by = f"engine {data['engine']['release']} and desk {data['desk']}"
    whose = plural(len(data["hand_ins"]), "hand-in")
    lines = [f"record {brief(recorded.digest)} of {recorded.made}, by {by}: {whose}"]
    if data["against"]:
        lines.append(f"  it answers the record {brief(recorded.before)}: {data['against']['reason']}")
    lines += [f"  {line}" for line in differences]
    same = "as it was: every file, every mark, the engine and the desk"
    lines.append(plural(len(differences), "difference") if differences else same)
    return "\n".join(lines) + "\n"


def verified(recorded: Recorded, where: list[str], progress: Progress = files.progress) -> Iterator[str]:
    """Each difference between a record and what the files in folders give now."""
    found = _find(where, progress)
    data = recorded.data
    with tempfile.TemporaryDirectory(prefix="taa1.") as room:
        laid = _lay_out(data, found, room)
        said = f"missing: no file in {', '.join(map(place, where))} has its digest or its name"
        yield from (f"{shown(name)}: {said}" for name in laid.missing)
        for name, path in laid.paths.items():  # a hand-in's name says whose it is
            if not _named(path, name):
                yield f"{shown(name)}: now called {place(path)}"
        if laid.job is None:
            yield "nothing could be marked again, since marking goes by what is missing"
        else:
            now = record(laid.job, marked(laid.job, progress))
            yield from _differences(data, now, laid)
    yield from (f"{shown(name)}: new: it is not in the record" for name in _new(data, found, laid))


def _differences(was: dict[str, Any], now: dict[str, Any], laid: Laid) -> Iterator[str]:
    """What differs in the records. Of a hand-in that is missing nothing is compared, nor then the
    class."""
    rows = list(zip(was["hand_ins"], was["marks"]["sheets"]))
    kept = [row for row in rows if row[0]["file"] not in laid.absent]
    there = {row[0]["file"] for row in kept}
    old = {**was, "hand_ins": [row[0] for row in kept], "marks": {**was["marks"], "sheets": [row[1] for row in kept]}}
    again = [row for row in zip(now["hand_ins"], now["marks"]["sheets"]) if row[0]["file"] in there]
    new = {**now, "hand_ins": [row[0] for row in again], "marks": {**now["marks"], "sheets": [row[1] for row in again]}}
    compared = compare(old, new)
    yield from map(str, compared.frame)
    for name, changes in compared.candidates:
        yield from (f"{name}: {change}" for change in changes)
    yield from (f"{name}: not marked again" for name in compared.gone)
    if not laid.missing:
        yield from (f"the class: {change}" for change in compared.whole)


def _find(where: list[str], progress: Progress) -> Found:
    """Every file in folders, and below them, but for links."""
    paths = []
    for folder in where:
        if not os.path.isdir(folder):
            raise Problem(f"{place(folder)}: no folder")
        for at, inside, names in os.walk(folder, onerror=_unreadable):
            inside.sort()
            paths += [os.path.join(at, name) for name in sorted(names)]
    made = Found({}, {})
    for done, path in enumerate(paths):
        progress(done, len(paths))
        digest = None
        if os.path.isfile(path) and not os.path.islink(path):
            try:
                digest = sha256(files.read(path)).hexdigest()
            except Problem:  # too long, or not to be read: no file of the record, unless by its name
                pass
            if digest:
                made.by_digest.setdefault(digest, []).append(path)
        made.paths[path] = digest
    progress(0, 0)
    return made


def _unreadable(error: OSError) -> None:
    raise Problem(f"{shown(str(error.filename))}: {files.reason(error)}")


def _files(data: dict[str, Any]) -> Iterator[tuple[str, dict[str, Any]]]:
    """A record's files that were read, by where they are laid out: each has a folder of its own
    that marking goes by, and hand-ins have theirs."""
    yield from ((f"{role}/{of['file']}", of) for role, of in data["files"].items() if of and of["file"] is not None)
    base = f"hand-ins/{data['options']['folder'] or 'class'}"
    rows = [each for row in data["hand_ins"] for each in (row, *row["beside"])]
    yield from ((f"{base}/{each['file']}", each) for each in (*rows, *data["left_out"]))


def _assigned(data: dict[str, Any], found: Found) -> dict[str, str]:
    """Where a record's files are, by where they are laid out. A file stands for one of the record:
    for that with its digest and its name, else with its digest, else with its name. Of copies the
    one in a folder of the hand-ins' name comes first: what was altered there is then new."""
    made: dict[str, str] = {}
    free = dict(found.paths)
    for by_digest, by_name, by_folder in (
        (True, True, True),
        (True, True, False),
        (True, False, False),
        (False, True, False),
    ):
        for at, of in _files(data):
            name = at.partition("/")[2] if by_folder else of["file"] if by_name else ""
            same = found.by_digest.get(of["sha256"] or "", ()) if by_digest else found.paths
            there = (path for path in same if free.get(path) and (not name or _named(path, name)))
            path = next(there, None) if of["sha256"] and at not in made else None
            if path:
                made[at] = path
                del free[path]
    return made


def _named(path: str, name: str) -> bool:
    """Whether a file is called so, from some folder on."""
    return f"/{path}".endswith(f"/{name}")


def _lay_out(data: dict[str, Any], found: Found, room: str) -> Laid:
    """Copies a record's files to where their names in the record hold."""
    there = _assigned(data, found)
    missing = []
    for at, of in _files(data):
        _lay(of, os.path.join(room, at), there.get(at))
        missing += [at] if of["sha256"] and at not in there else []
    options = data["options"]
    base = f"hand-ins/{options['folder'] or 'class'}/"
    lost = {at[len(base) :] for at in missing if at.startswith(base)}
    absent = frozenset(
        row["file"]
        for row in data["hand_ins"]
        if lost & {each["file"] for each in (row, *row["beside"])} or row["type"] == "file" and not row["sha256"]
    )
    given = {
        role: os.path.join(room, role, of["file"]) if of and of["file"] is not None else None
        for role, of in data["files"].items()
    }
    job = Job(
        given["sitting"] or "",
        given["book"] or "",
        tuple(os.path.normpath(os.path.join(room, base, name)) for name in options["hand_ins"]),
        given["scheme"],
        given["names"],
        options["opened"],
        options["bytes"],
        tuple(
            "=".join(filter(None, (each["file"] and os.path.join(room, base + each["file"]), each["form"])))
            for each in options["as"]
            if each["file"] not in absent
        ),
        arguments=given["arguments"],
    )
    complete = all(at.startswith(base) for at in missing)
    paths = {at[len(base) :]: path for at, path in there.items() if at.startswith(base)}
    names = [at.partition("/")[2] if not at.startswith(base) else at[len(base) :] for at in missing]
    return Laid(paths, frozenset(there.values()), names, job if complete else None, absent)


def _lay(of: dict[str, Any], to: str, path: Optional[str]) -> None:
    """Puts a file of the record in its place, or what it was instead of a file."""
    what = of.get("type", "file")
    try:
        os.makedirs(to if what == "folder" else os.path.dirname(to), exist_ok=True)
        if what == "link":
            os.symlink("nowhere", to)
        elif what == "other":
            os.mkfifo(to)
        elif path is not None:
            with open(to, "xb") as file:
                file.write(files.read(path))
    except (OSError, ValueError) as error:  # a name that this system can't have, or two alike
        said = files.reason(error) if isinstance(error, OSError) else str(error)
        raise Problem(f"{shown(of['file'])}: a file of the record can't be laid out under its name: {said}") from None


def _new(data: dict[str, Any], found: Found, laid: Laid) -> list[str]:
    """Files that lie in a folder that was marked whole, where it is now, and are not in the record."""
    rows = [row["file"] for row in data["hand_ins"]]
    left_out = {each["file"] for each in data["left_out"]}
    roots = {}  # the folders that were marked, by where they are now
    for folder in data["options"]["hand_ins"]:
        start = "" if folder == "." else f"{folder}/"
        for row in rows if folder not in rows else ():
            path, inside = laid.paths.get(row), row[len(start) :]
            if path and row.startswith(start) and _named(path, inside):
                roots[path[: -len(inside)]] = start
    folder = data["options"]["folder"]  # a copy elsewhere, of which one file was taken, is none of them
    roots = {root: start for root, start in roots.items() if _named(root, f"{folder}/{start}")} or roots
    return [
        path
        for path in found.paths
        if path not in laid.used and not _own(path)
        for root, start in roots.items()
        if path.startswith(root) and start + path[len(root) :] not in left_out
    ]


def _own(path: str) -> bool:
    """Whether a file is hidden, or what the desk itself wrote."""
    if os.path.basename(path).startswith("."):
        return True
    try:
        with open(path, "rb") as file:
            start = file.read(START)
    except OSError:
        return False
    return is_record(start) or is_marks(start) or folders.is_page(start)


RUNS = {"verify": run_verify}
