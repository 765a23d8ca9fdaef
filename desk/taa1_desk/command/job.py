# SPDX-License-Identifier: MIT
"""One marking: which files and choices it takes, and what comes of it.

Both are plain data that can be sent to another process, so that every front marks by the same
call: the commands, and a window that goes on while a process of its own marks.
"""

from __future__ import annotations

import os
import time
from hashlib import sha256
from typing import Callable, Iterator, NamedTuple, Optional, Sequence

from taa1 import __version__

from ..application import mark_class
from ..engine import Engine
from ..handed import HandIn, KeyFile, LeftOut
from ..marker import Marker
from ..marking.opened import OpenedMarker
from ..marking.sealed import SealedMarker
from ..origin import Origin
from ..problems import Problem, place, shown
from ..reading import answerform, candidates, keyfile, schemes
from ..reading.argument_points import whose
from ..reading.decoding import decoded
from ..reading.forms import BYTES
from ..reading.handin import READ_AS
from ..reading.sittings import Heading, sitting_ring
from ..sheet import Class
from . import files, folders, inputs

INDEX, APPEAL = "index.html", "appeal.html"  # the class's page, and what changed since a record

# How far the work is: hand-ins that are done, of how many. 0 of 0 is the end.
Progress = Callable[[int, int], None]


class Job(NamedTuple):
    """What is to be marked, by the names of files."""

    sitting: str
    book: str  # the model, or the sealed book that was handed out
    hand_ins: tuple[str, ...]  # files, and folders of such
    scheme: Optional[str] = None  # None: the default
    names: Optional[str] = None  # the list of candidates
    opened: bool = False  # the hand-ins are what was opened
    bytes: bool = False  # book and hand-ins are bytes, also if they look like text
    forms: tuple[str, ...] = ()  # in which hand-ins are to be read: FORM, or FILE=FORM
    beside: tuple[str, ...] = ()  # more files that are no hand-ins, such as outputs
    arguments: Optional[str] = None  # the points of the arguments


class Outcome(NamedTuple):
    """A class that was marked, and what was read for it."""

    of: Class
    heading: Heading
    found: folders.HandIns
    pages: tuple[str, ...]  # the names of the candidates' pages
    listed: bool  # whether there is a list of candidates
    digests: dict[str, str]  # SHA-256 of what was read, by the file's name
    origin: Origin


class _Reader:
    """Reads files, and keeps the digest of what each held when it was last read."""

    def __init__(self) -> None:
        self.digests: dict[str, str] = {}

    def __call__(self, name: str) -> bytes:
        data = files.read(name)
        self.digests[name] = sha256(data).hexdigest()
        return data


def marked(job: Job, progress: Progress = files.progress) -> Outcome:
    """Reads the files and marks what was handed in. Raises Problem or RefusedFile where there is
    nothing to mark by; what is wrong with a hand-in is said on its sheet."""
    read = _Reader()
    inputs.once(job.sitting, job.book, *job.hand_ins, job.arguments or "")
    listed = inputs.read_list(job.names, read)
    scheme = inputs.read_scheme(job.scheme, read)
    if job.opened and job.arguments is None:  # an exercise, which has no argument unless it is given
        scheme = schemes.without_argument(scheme)
    lines = inputs.read_arguments(job.arguments, schemes.argument_parts(scheme), read)
    engine = Engine()
    marker, heading, rows = _marker(engine, job, read)
    origin = _origin(engine, job, read)
    named = (job.sitting, job.book, job.scheme, job.names, job.arguments, *job.beside)
    beside = [name for name in named if name]
    found = folders.hand_ins(job.hand_ins, beside, _judge(marker, listed))
    forms = _forms(job, found.names)
    pages = folders.page_names(found.names, (INDEX, APPEAL), found.folders)
    told = [each for each in found.left_out if each.told]
    who = candidates.named(found.names, pages, listed, [each.name for each in told], found.folders)
    theirs = {each.file: each.candidate for each in who.left_out}
    left_out = [LeftOut(theirs.get(place(each.name), ""), place(each.name), each.why) for each in told]
    given = whose(lines, place(job.arguments or ""), found.names, who, listed, found.folders)
    of = mark_class(marker, _hand_ins(found, forms, rows, read, progress), scheme, who, left_out, given)
    progress(0, 0)
    return Outcome(of, heading, found, tuple(pages), bool(listed), read.digests, origin)


def _origin(engine: Engine, job: Job, read: _Reader) -> Origin:
    """What this marking comes from."""
    release = ".".join(map(str, engine.host.release()))
    with open(engine.host.path, "rb") as file:
        library = sha256(file.read()).hexdigest()
    scheme = sha256(schemes.DEFAULT.encode()).hexdigest() if job.scheme is None else read.digests[job.scheme]
    return Origin(release, library, __version__, _moment(), read.digests[job.book], scheme)


def _moment() -> str:
    """Now, in UTC; SOURCE_DATE_EPOCH has another moment where one is wanted, as reproducible
    builds have it."""
    given = os.environ.get("SOURCE_DATE_EPOCH", "")
    seconds = int(given) if given.isascii() and given.isdecimal() and len(given) < 12 else time.time()
    return time.strftime("%Y-%m-%dT%H:%M:%SZ", time.gmtime(seconds))


def _marker(engine: Engine, job: Job, read: inputs.Read) -> tuple[Marker, Heading, list[str]]:
    """What reads hand-ins and marks them: sealed books beside the model, or what was opened
    beside the sealed book that was handed out; the sitting's heading, and the answer form's rows."""
    sitting, heading = inputs.read_headed(job.sitting, read)
    ring, rows = sitting_ring(engine, sitting, place(job.sitting)), answerform.asked_rows(sitting.sides)
    if job.opened:
        sealed = inputs.read_sealed(job.book, job.bytes, read)
        return OpenedMarker(engine, sitting, ring, sealed, place(job.book)), heading, rows
    model = inputs.read_model(engine, job.book, job.bytes, "there is nothing to mark", read)
    return SealedMarker(engine, sitting, ring, model), heading, rows


def _hand_ins(
    found: folders.HandIns, forms: Sequence[str], rows: Sequence[str], read: inputs.Read, progress: Progress
) -> Iterator[HandIn]:
    """The hand-ins, each read when it is wanted, and how far the work is."""
    for done, (name, form) in enumerate(zip(found.names, forms)):
        progress(done, len(found.names))
        keys = _keys_of(found.keys.get(name, ()), rows, read)
        try:
            if name in found.problems:
                raise Problem(found.problems[name])
            yield HandIn(name, read(name), keys, form)
        except Problem as problem:
            yield HandIn(name, problem, keys, form)


def _judge(marker: Marker, listed: dict[str, str]) -> folders.Judge:
    """What says why a text in a folder is no hand-in. Whose candidate is listed, or has keys
    beside it, is one in any case; but not in a candidate's folder, which has a row of its own."""

    def judge(name: str, folder: str) -> str:
        listed_ = not folder and candidates.key_of(name, listed) is not None
        if listed_ or os.path.isfile(folders.keys_of(name)):
            return ""
        try:
            return marker.no_hand_in(files.read(name))
        except Problem:  # it is said where it is marked
            return ""

    return judge


def _keys_of(names: Sequence[str], rows: Sequence[str], read: inputs.Read) -> Optional[KeyFile]:
    """What files of keys beside a hand-in say, and an answer form beside a book."""
    made: Optional[KeyFile] = None
    for name in names:
        file = _key_file(name, rows, read)
        made = file if made is None else answerform.both(file, made)
    return made


def _key_file(name: str, rows: Sequence[str], read: inputs.Read) -> KeyFile:
    """The keys in a file, be it an answer form, whose rows are given."""
    if os.path.islink(name) or not os.path.isfile(name):
        what = "a folder" if os.path.isdir(name) else "no regular file"
        what = "a link, which may lead to another's file" if os.path.islink(name) else what
        return keyfile.unread(shown(name), what)
    try:
        data = read(name)
    except Problem as problem:
        return keyfile.unread(shown(name), str(problem).removeprefix(f"{place(name)}: "))
    text = decoded(data)
    if text is None or not answerform.is_form(text.text):
        return keyfile.read(shown(name), data)
    form = answerform.read(text.text, rows)
    said = f"{shown(name)}: its records are not marked, since a book lies beside it"
    more = [said] if form.book or form.problems else []
    blank = tuple(row for row in form.blank if row in rows)
    return form.keys._replace(problems=(*form.keys.problems, *more), blank=blank)


def _forms(job: Job, names: list[str]) -> list[str]:
    """For each hand-in the form that it is to be read in, or nothing."""
    forms = dict.fromkeys(names, BYTES if job.bytes else "")
    for given in job.forms:
        file, _, form = given.rpartition("=")
        meant = [name for name in names if file in ("", name) or name.endswith(os.sep + file)]
        if form not in READ_AS:
            raise Problem(f"mark: argument --as: {inputs.no_form(form)}")
        if not meant:
            raise Problem(f"mark: argument --as: no hand-in is called {shown(file)!r}")
        forms.update(dict.fromkeys(meant, form))
    return [forms[name] for name in names]
