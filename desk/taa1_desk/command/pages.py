# SPDX-License-Identifier: MIT
"""The pages of a class in a folder: one for each candidate, and the class's."""

from __future__ import annotations

import os
from pathlib import Path
from typing import Container, Iterable
from urllib.parse import quote

from ..origin import brief
from ..problems import Problem, shown
from ..showing import candidate_page
from ..showing.class_page import class_page
from ..showing.foot import foot
from ..showing.html import is_made_by, record_of
from . import files
from .job import INDEX, Outcome

START = 1024  # bytes of a page, in which it says what made it


def pages(outcome: Outcome, record: str = "") -> dict[str, bytes]:
    """The pages by the names of their files; they belong to a record, if its digest is given."""
    of, above, origin = outcome.of, outcome.heading.line, outcome.origin
    content = {}
    for sheet, name, file in zip(of.sheets, outcome.pages, outcome.found.names):
        theirs = {"hand-in": outcome.digests.get(file, "")}
        for at, keys in enumerate(outcome.found.keys.get(file, ())):
            theirs[f"keys{f' {at + 1}' * bool(at)}"] = outcome.digests.get(keys, "")
        made = candidate_page.sheet_page(sheet, of.wanted, above, foot(origin, theirs, record), record)
        content[name] = made.encode()
    links = [quote(os.fsencode(name)) for name in outcome.pages]
    return {**content, INDEX: class_page(of, links, above, foot(origin, {}, record), record).encode()}


def keep_recorded(folder: str, names: Iterable[str], named: Container[str] = ()) -> None:
    """Refuses to replace pages that belong to a record, unless that is among those that are named."""
    for name in names:
        record = record_of(_start(Path(folder) / name))
        if record and record not in named:
            said = f"it belongs to the record {brief(record)}, so it is not replaced"
            choice = "--against that record replaces it, --clean every page; or give another folder"
            raise Problem(f"{shown(os.path.join(folder, name))}: {said}: {choice}")


def write(folder: str, content: dict[str, bytes], clean: bool) -> None:
    """Writes the pages; those of an earlier run that this one did not make are named, or removed."""
    earlier = [name for name in _earlier(folder) if name not in content]
    files.write_folder(folder, content, private=content, unwanted=earlier if clean else ())
    if earlier and not clean:
        said = f"not of this run, but of an earlier one: {', '.join(map(shown, earlier))}"
        files.say(f"{shown(folder)}: {said} (--clean removes such pages)")


def _earlier(folder: str) -> list[str]:
    """The candidates' pages that stand in a folder."""
    found = filter(Path.is_file, sorted(Path(folder).glob("*.html")))
    return [path.name for path in found if is_made_by(_start(path), candidate_page.MADE_BY)]


def _start(path: Path) -> bytes:
    """How a page begins; nothing, if it can't be read."""
    try:
        with open(path, "rb") as file:
            return file.read(START)
    except OSError:
        return b""
