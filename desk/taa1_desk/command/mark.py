# SPDX-License-Identifier: MIT
"""The command that marks: it has the class marked, writes and says."""

from __future__ import annotations

import argparse
import os
from hashlib import sha256
from typing import Iterator, NamedTuple, Optional

from ..problems import STANDARD, Problem, place
from ..reading.recorded import MOST_BYTES, Recorded, parse
from ..showing.appeal import Appeal, appeal_page, appeal_text
from ..showing.argued import alone_said, not_yet_marked
from ..showing.changes import compare
from ..showing.exports import class_json, csv_text
from ..showing.foot import foot
from ..showing.phrases import UNLISTED, reading, to_look_at
from ..showing.sheet_text import sheet_text, summary_text
from . import files, inputs, pages, record
from .job import APPEAL, INDEX, Job, Outcome, Progress, marked
from .output import ACCEPTED, REFUSED, emit_text, json_text, keep_hand_ins


def run_mark(args: argparse.Namespace) -> int:
    """The mark sheets of candidates' books."""
    return mark(args)[0]


def mark(args: argparse.Namespace, progress: Progress = files.progress) -> tuple[int, Outcome]:
    """Marks, says and writes what the arguments ask for; the status, and what was marked."""
    _check(args)
    keep_hand_ins(args)
    job = job_of(args)
    record.check(job, args.record, args.against)
    earlier = parse(files.read(args.against, MOST_BYTES), place(args.against)) if args.against else None
    named = (earlier.digest, earlier.before) if earlier else ()
    if args.html is not None and not args.clean:
        pages.keep_recorded(args.html, (INDEX, APPEAL) if earlier else (INDEX,), named)
    outcome = marked(job, progress)
    files.say(*to_see_to(outcome, args.dry))
    if args.dry:
        passed = [f"{each}\n" for each in outcome.found.left_out]
        emit_text(args, "".join([f"{reading(sheet)}\n" for sheet in outcome.of.sheets] + passed))
    else:
        keep = kept(job, outcome, earlier, args.reason or "") if args.record or earlier else None
        _write(args, outcome, keep, named)
    return REFUSED if outcome.of.has_unread else ACCEPTED, outcome


def job_of(args: argparse.Namespace) -> Job:
    """What the arguments ask for."""
    return Job(
        args.sitting,
        args.book,
        tuple(args.candidate),
        args.scheme,
        args.candidates,
        args.opened,
        args.bytes,
        tuple(inputs.read_forms(args.as_ or ())),
        tuple(name for name in (args.output, args.record, args.against) if name not in (None, STANDARD)),
        args.arguments,
    )


def _check(args: argparse.Namespace) -> None:
    """Refuses options that don't go together."""
    if args.clean and args.html is None:
        raise Problem("mark: --clean is about pages, so it wants --html")
    if args.csv and args.json:
        raise Problem("mark: --csv or --json, not both")
    if args.dry and (args.html is not None or args.csv or args.json):
        given = "--html" if args.html is not None else "--csv" if args.csv else "--json"
        raise Problem(f"mark: --dry says how hand-ins are read and marks none, so it takes no {given}")
    if args.dry and (args.record is not None or args.against is not None):
        given = "--record" if args.record is not None else "--against"
        raise Problem(f"mark: --dry says how hand-ins are read and marks none, so it takes no {given}")
    if args.record is not None and os.path.realpath(args.record) == os.path.realpath(args.output):
        raise Problem("mark: --record and -o want two files")
    if args.record is not None and args.html is not None and args.record.endswith(".html"):
        raise Problem(f"mark: {place(args.record)}: a record is no page: give it a name without .html")
    if args.against is not None and args.reason is None:
        raise Problem("mark: --against RECORD wants --reason WORDS: why it is marked again")
    if args.reason is not None and args.against is None:
        raise Problem("mark: --reason is that of an appeal, so it wants --against RECORD")
    if args.against is not None and (args.csv or args.json) and args.html is None:
        said = "what changed as text or on a page"
        raise Problem(f"mark: --against says {said}: with --csv or --json it wants --html")


def to_see_to(outcome: Outcome, dry: bool = False) -> Iterator[str]:
    """What somebody has to look at, a line each."""
    of = outcome.of
    for sheet in () if dry else of.sheets:
        if sheet.problem or sheet.keys.unread:
            if sheet.problem:
                yield f"{sheet.name}: {sheet.problem}"
            if sheet.keys.unread:
                yield sheet.keys.unread
        elif sheet.has_problems:
            first, *more = (line for line in to_look_at(sheet) if line != UNLISTED)
            yield f"{sheet.name}: {first}{f' (and {len(more)} more: see the sheet)' * bool(more)}"
    yield from (f"{place(name)}: named more than once, and marked once" for name in outcome.found.twice)
    yield from (f"{each.file}: {each.why}" for each in (() if dry else of.left_out))
    if of.absent:
        yield f"nothing was handed in by {', '.join(of.absent)}"
    yield from (() if dry else map(alone_said, of.argued))
    if not_yet_marked(of.sheets) and not dry:
        yield f"argument not yet marked: {', '.join(not_yet_marked(of.sheets))}"
    unlisted = [sheet.candidate for sheet in of.sheets if sheet.unlisted]
    if unlisted:
        yield f"not on the list of candidates: {', '.join(unlisted)}"
    if of.unmarked:
        held = (f"{each.candidate} ({each.file})" for each in of.unmarked)
        yield f"nothing was marked of what was handed in by {', '.join(held)}"


class Kept(NamedTuple):
    """The record of a marking, the digest of its text, and what changed since an earlier one."""

    text: bytes
    digest: str
    appeal: Optional[Appeal]


def kept(job: Job, outcome: Outcome, earlier: Optional[Recorded] = None, reason: str = "") -> Kept:
    """The record of a marking, beside the one that it answers."""
    against = record.Against(earlier.digest, earlier.made, reason) if earlier else None
    made = record.record(job, outcome, against)
    text = record.text(made)
    appeal = Appeal(earlier.digest, earlier.made, reason, compare(earlier.data, made)) if earlier else None
    return Kept(text, sha256(text).hexdigest(), appeal)


def _write(args: argparse.Namespace, outcome: Outcome, keep: Optional[Kept], named: tuple[str, ...]) -> None:
    """Writes the record, then what belongs to it; if that fails, there is no record either."""
    if args.record is None or keep is None:
        return _write_marks(args, outcome, keep, named)
    record.write(args.record, keep.text)
    try:
        _write_marks(args, outcome, keep, named)
    except BaseException:
        os.unlink(args.record)
        raise


def _write_marks(args: argparse.Namespace, outcome: Outcome, keep: Optional[Kept], named: tuple[str, ...]) -> None:
    """Writes the pages, and the class as text, JSON or a table."""
    of = outcome.of
    if args.html is not None:
        content = pages.pages(outcome, keep.digest if keep and args.record else "")
        if keep and keep.appeal:
            of_record = keep.digest if args.record else ""
            at_foot = foot(outcome.origin, {"earlier record": keep.appeal.record}, of_record)
            content[APPEAL] = appeal_page(keep.appeal, outcome.heading.line, at_foot, of_record).encode()
        if not args.clean:
            pages.keep_recorded(args.html, content, named)
        pages.write(args.html, content, args.clean)
    changes = appeal_text(keep.appeal) if keep and keep.appeal else ""
    end = summary_text(of.summary, of.sheets) + "".join(f"  {each.file}: {each.why}\n" for each in of.left_out)
    end += "".join(f"  {alone_said(each)}\n" for each in of.argued)
    if args.json:
        emit_text(args, json_text(class_json(of, outcome.heading)))
    elif args.csv:
        emit_text(args, csv_text(of))
    elif args.html is not None:
        emit_text(args, end + changes)
    else:
        end = end if len(of.sheets) > 1 or of.left_out or of.argued else ""
        emit_text(args, "".join(sheet_text(sheet, outcome.listed) for sheet in of.sheets) + end + changes)


RUNS = {"mark": run_mark}
