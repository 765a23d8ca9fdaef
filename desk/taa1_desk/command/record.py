# SPDX-License-Identifier: MIT
"""The record of a marking: which files it read, by their digests, what ran, and every mark.

docs/desk.md describes its form and docs/record.schema.json is its schema; a change that a reader
would notice gives it the next number. Files have names that hold elsewhere: hand-ins from the
folder that holds them all, others without their folder.
"""

from __future__ import annotations

import json
import os
import re
from hashlib import sha256
from typing import Any, Iterable, Mapping, Optional

from ..problems import STANDARD, Problem, place
from ..reading.recorded import FORM, VERSION
from ..showing.exports import class_json
from . import files
from .job import Job, Outcome
from .output import json_text

THERE = "it is there already, and a record is kept as it is: give the new one another name"


class Against:
    """The record that a marking answers, and why."""

    def __init__(self, digest: str, made: str, reason: str) -> None:
        self.digest, self.made, self.reason = digest, made, reason


class _Names:
    """The names of a marking's files in its record."""

    def __init__(self, job: Job, outcome: Outcome) -> None:
        found = outcome.found
        self.root = os.path.commonpath(
            [os.path.abspath(name if os.path.isdir(name) else os.path.dirname(name) or ".") for name in job.hand_ins]
        )
        beside = [name for names in found.keys.values() for name in names]
        inside = [*found.names, *beside, *found.folders, *(each.name for each in found.left_out)]
        self._said = {place(name): place(self.of(name)) for name in inside}
        others = (job.sitting, job.book, job.scheme, job.names, job.arguments)
        self._said.update({place(name): place(os.path.basename(name)) for name in others if name})
        longest = sorted((name for name, said in self._said.items() if name != said), key=len, reverse=True)
        self._pattern = re.compile("|".join(map(re.escape, longest))) if longest else None

    def of(self, name: str) -> str:
        """The name of a hand-in, or of what lies beside it."""
        return os.path.relpath(os.path.abspath(name), self.root).replace(os.sep, "/")

    def said(self, value: Any) -> Any:
        """What was said of files, with their names in the record."""
        if isinstance(value, str) and self._pattern:
            return self._pattern.sub(lambda found: self._said[found[0]], value)
        if isinstance(value, dict):
            return {key: self.said(each) for key, each in value.items()}
        if isinstance(value, (list, tuple)):
            return [self.said(each) for each in value]
        return value


def check(job: Job, name: Optional[str], against: Optional[str] = None) -> None:
    """Refuses a record that can't be made, before the work begins."""
    given = (job.sitting, job.book, job.scheme, job.names, job.arguments, *job.hand_ins)
    if STANDARD in given and (name is not None or against is not None):
        option = "--against" if name is None else "--record"
        raise Problem(f"mark: {option} is about files that can be found again: none may be standard input")
    if name is None:
        return
    if name == STANDARD:
        raise Problem("mark: --record wants the name of a file")
    if os.path.lexists(name):
        raise Problem(f"{place(name)}: {THERE}")


def record(job: Job, outcome: Outcome, against: Optional[Against] = None) -> dict[str, Any]:
    """The record of a marking, as the objects of its JSON."""
    made: dict[str, Any] = json.loads(json_text(_record(job, outcome, against)))
    return made


def _record(job: Job, outcome: Outcome, against: Optional[Against]) -> dict[str, Any]:
    names, origin, found = _Names(job, outcome), outcome.origin, outcome.found
    passed = {each.name for each in found.left_out if not each.why.startswith("read as the keys of")}
    rows = []
    for name in found.names:
        beside = list(found.keys.get(name, ()))
        if name in found.problems and os.path.isdir(name):
            beside = [each for each in found.folders if os.path.dirname(each) == name and each not in passed]
        rows.append({**_file(name, names, outcome.digests), "beside": [_file(each, names, {}) for each in beside]})
        for each, file in zip(rows[-1]["beside"], beside):
            each["sha256"] = outcome.digests.get(file, each["sha256"])
    left_out = [{**_file(each.name, names, {}), "why": names.said(each.why)} for each in found.left_out if each.told]
    return {
        "form": FORM,
        "version": VERSION,
        "made": origin.made,
        "engine": {"release": origin.release, "library": origin.library},
        "desk": origin.desk,
        "against": against and {"record": against.digest, "made": against.made, "reason": against.reason},
        "options": {
            "opened": job.opened,
            "bytes": job.bytes,
            "as": list(_forms(job, found.names, names)),
            "folder": os.path.basename(names.root),
            "hand_ins": [names.of(name) for name in job.hand_ins],
        },
        "files": {
            "sitting": _input(job.sitting, outcome.digests),
            "book": _input(job.book, outcome.digests),
            "scheme": _input(job.scheme, outcome.digests) or {"file": None, "sha256": origin.scheme},
            "names": _input(job.names, outcome.digests),
            "arguments": _input(job.arguments, outcome.digests),
        },
        "hand_ins": rows,
        "left_out": left_out,
        "marks": names.said(class_json(outcome.of, outcome.heading)),
    }


def text(made: Mapping[str, Any]) -> bytes:
    """A record as it is written."""
    return json_text(made).encode()


def write(name: str, data: bytes) -> None:
    """Writes a record, whole or not at all, and in the place of no other file."""
    files.write_file(name, data, private=True, new=THERE)


def _forms(job: Job, hand_ins: Iterable[str], names: _Names) -> Iterable[dict[str, Any]]:
    """The forms in which hand-ins were to be read: of each that was named, or of all."""
    for given in job.forms:
        file, _, form = given.rpartition("=")
        if not file:
            yield {"file": None, "form": form}
        for name in hand_ins:
            if file and (name == file or name.endswith(os.sep + file)):
                yield {"file": names.of(name), "form": form}


def _input(name: Optional[str], digests: Mapping[str, str]) -> Optional[dict[str, Any]]:
    """A file that marking goes by."""
    return {"file": os.path.basename(name), "sha256": digests[name]} if name else None


def _file(name: str, names: _Names, digests: Mapping[str, str]) -> dict[str, Any]:
    """A hand-in, or what lies beside it: its name, what it is, and its digest, if it can be read."""
    what = "link" if os.path.islink(name) else "folder" if os.path.isdir(name) else "file"
    what = "other" if what == "file" and os.path.exists(name) and not os.path.isfile(name) else what
    what = "file" if name in digests else what
    digest = digests.get(name)
    if digest is None and what == "file":
        try:
            digest = sha256(files.read(name)).hexdigest()
        except Problem:  # it is said in the marks
            pass
    return {"file": names.of(name), "type": what, "sha256": digest}
