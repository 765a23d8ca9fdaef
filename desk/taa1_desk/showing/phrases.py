# SPDX-License-Identifier: MIT
"""What is said of a mark sheet, in a few words each."""

from __future__ import annotations

from fractions import Fraction
from typing import Any, Iterable, Sequence

from taa1 import Refusal

from ..points import NOT_HANDED_IN, Item, Lost, Points, said as points_said
from ..reading.schemes import EXTRA
from ..records import KINDS, SEALED
from ..sheet import Explained, Flags, KeySheet, Marked, Sheet
from ..words import entries_said, failed_checks, listed, plural, spans

MOST_VALUES = 12  # lines of what is wrong with one book's entries that have values
MOST_LINES = 24  # such lines
MANY_FLAGS = 3  # that one slip is likely to have set


UNLISTED = "not on the list of candidates"
# What the words of sheets and pages mean.
WRONG_MEANS = "wrong: not the model's record"
FAILS_MEANS = "fails a check, or seals no key: not the model's, and who opens it gets a warning and no key"
UNTIL = "the book is not marked, and counts 0 until somebody decides"
COUNTS_0 = "Such a book counts 0 until somebody decides. Where nothing else is said, ask for it anew."


def verdict(sheet: Sheet) -> str:
    """A candidate's result in a few words."""
    if sheet.problem:
        return f"not marked: {sheet.problem}"
    read_as = f"; read as {sheet.read_as}" if sheet.read_as else ""
    follow = f", {sheet.following} more under own keys" if sheet.following else ""
    return f"{sheet.right} of {sheet.size} entries right{follow}; {opening(sheet)}{read_as}"


def reason(sheet: Sheet) -> str:
    """Why a hand-in is not marked, without the option that marks it all the same."""
    return (sheet.problem or "").partition("; --as ")[0]


def why_unmarked(sheet: Sheet) -> str:
    """Why a hand-in is not marked, and the option that marks it all the same, for any file."""
    why, option, rest = (sheet.problem or "").partition("; --as ")
    return f"{why}{option}FILE={rest.rpartition('=')[2]}" if option else why


def unmarked_said(sheet: Sheet) -> str:
    """That a book is not marked, why, and what is to be done."""
    ask = "" if "ask for" in (sheet.problem or "") else "; ask for the book anew"
    return f"{UNTIL}: {sheet.problem}{ask}"


def to_look_at(sheet: Sheet) -> list[str]:
    """What somebody has to look at: why the book is not marked, and what could not be read."""
    said = [unmarked_said(sheet)] if sheet.problem else []
    said += [UNLISTED] if sheet.unlisted else []
    said += [line for line in sheet.keys.problems if line != sheet.keys.unread]
    said += [sheet.keys.unread] if sheet.keys.unread else []
    said += [] if sheet.problem else unread_said(sheet)
    said += [entry.note for entry in sheet.entries if entry.note.startswith("line ")]
    return not_read(said)


def opening(sheet: Sheet, brief: bool = False) -> str:
    """Whether a book opens, and why not."""
    if sheet.refused:
        refused = sheet.refused
        said = f"refused {refused.number} at {refused.index}"
        return said if brief else f"does not open: {said} ({refused.name})"
    return flags_said(sheet.flags) if sheet.flags else "opens" if sheet.entries else "no record"


def opening_words(sheet: Sheet) -> str:
    """Whether a book opens, and why not, without the engine's numbers: for candidates."""
    refused = sheet.refused
    if refused is None:
        return opening(sheet)
    at = f", first at entry {refused.index}" if refused.number == Refusal.FLAG_SET else ""
    return f"does not open: {refused.name}{at}"


def was_read(sheet: Sheet) -> str:
    """How a hand-in was read."""
    records = plural(len(sheet.entries), "record")
    left = f" and {plural(sheet.left, 'byte')}" if sheet.left else ""
    return f"read as {sheet.read_as or 'bytes'}: {records}{left}"


def flags_said(flags: Flags) -> str:
    """What a hand-in says of the flags."""
    said = [
        f"{len(of)} flag{'s' * (len(of) != 1)} {what}"
        for of, what in (
            (flags.missed, "missed"),
            (flags.invented, "invented"),
            (flags.left_out, "left out"),
            (flags.unsaid, "set, which bytes can't say (lines can: entry I flag)"),
        )
        if of
    ]
    return ", ".join(said) or ("every flag right" if flags.set else "no flag is set")


def reading(sheet: Sheet) -> str:
    """How a hand-in was read, in a line."""
    keys = f"; its keys are not read: {sheet.keys.unread}" if sheet.keys.unread else ""
    return f"{sheet.name}: {verdict(sheet) if sheet.problem else was_read(sheet)}{keys}"


def _like(entry: Marked, values: bool = True) -> tuple[Any, ...]:
    """Entries that are equal in this have one line: what is wrong with them, and how far
    from the model's entry they stand; without values, which fields are wrong."""
    if entry.state in ("doubled", "further"):
        return entry.state, 0, (), (), "", False
    if entry.follows:
        own = (f"right under the candidate's own {entry.follows}",)
        return entry.state, 0, own, (), "", False
    if entry.opened and entry.record and not any(entry.record):
        return entry.state, 0, ("zero bytes alone",), (), "", False
    opened = entry.opened
    failed = failed_checks(opened.kind, opened.failed) if opened and opened.failed else ""
    no_kind = opened is not None and opened.kind not in KINDS
    shift = 0 if entry.model is None or not values else entry.model - entry.index
    borrowed = tuple((field, owner - entry.index) for field, owner in entry.borrowed)
    said = tuple(
        f"{d.field} {d.has}, not {d.wants}" if values else f"another {d.field}"
        for d in entry.differences
    )
    return entry.state, shift, (*said, *[entry.note] * bool(entry.note)), borrowed, failed, no_kind


def fault(*entries: Marked, values: bool = True) -> str:
    """What is wrong with an entry, or with each of entries that are alike, in a few words."""
    state, _, said, borrowed, failed, no_kind = _like(entries[0], values)
    one = len(entries) == 1
    models = sorted({entry.model for entry in entries if entry.model is not None})
    if state == "doubled":
        return f"{'is' if one else 'are'} the model's {entries_said(models)} again"
    if state == "further":
        return f"{'one ' * one}more attempt{'s' * (not one)} at the model's {entries_said(models)}"
    faults = list(said)
    for field, _ in borrowed:
        owners = entries_said([dict(entry.borrowed)[field] for entry in entries])
        faults.append(f"{'has' if one else 'have'} the {field} of the model's {owners}")
    if failed:
        faults.append(f"seal{'s' * one} no key: {failed}")
    if no_kind:
        faults.append("there is no such kind")
    if state == "extra":
        faults.insert(0, f"{'one ' * one}more than the model has")
    return "; ".join(faults)


def _alike(entries: Iterable[Marked], values: bool) -> list[list[Marked]]:
    """The entries that are not right, those together that are alike."""
    alike: dict[tuple[Any, ...], list[Marked]] = {}
    for entry in entries:
        if entry.state != "right":
            alike.setdefault(_like(entry, values), []).append(entry)
    return list(alike.values())


def faults(sheet: Sheet) -> list[str]:
    """What is wrong with a book's entries, a line for all that are alike. Of many lines the
    values are left out, and of very many, the last ones."""
    groups = _alike(sheet.entries, True)
    values = len(groups) <= MOST_VALUES
    if not values:
        groups = _alike(sheet.entries, False)
    shown = groups if len(groups) <= MOST_LINES else groups[: MOST_LINES - 1]
    said = []
    for group in shown:
        models = [entry.model for entry in group if entry.model is not None]
        away = values and group[0].state == "wrong" and models[0] != group[0].index
        like = f" (the model's {spans(models)})" if away else ""
        what = fault(*group, values=values)
        said.append(f"{entries_said([entry.index for entry in group])}{like}: {what}")
    more = sum(map(len, groups[len(shown) :]))
    if more:
        said.append(f"{more} more entries are wrong: --json and --html list each")
    return said


def too_many(sheet: Sheet) -> list[str]:
    """What is to be said first of a hand-in with more records than the model has entries."""
    if not sheet.extra:
        return []
    cost = -sheet.points.of(EXTRA) if sheet.points else Fraction(0)
    costs = f", which cost{'s' * (sheet.extra == 1)} {points_said(cost)}" if cost else ""
    records = len(sheet.entries) + sheet.again
    there = f"{records} records, where the model has {sheet.size} entries"
    return [f"{plural(sheet.extra, 'extra record')}{costs}: {there}"]


def sum_said(points: Points) -> str:
    """The points and their sum."""
    parts = "; ".join(f"{item.what}: {points_said(item.points)}{_of(item)}" for item in points.items)
    parts = f" ({parts})" if len(points.items) > 1 else ""
    return f"points {points_said(points.sum)} of {points_said(points.most)}{parts}"


def _of(item: Item) -> str:
    """Of how many points an item is."""
    return f" of {points_said(item.most)}" if item.most else ""


def lost_said(lost: Sequence[Lost]) -> str:
    """What was lost where: entries of the model, and values, by the reason."""
    reasons = dict.fromkeys(each.why for each in lost)
    return "; ".join(f"{why}: {rows_said([each.what for each in lost if each.why == why])}" for why in reasons)


def not_handed_in(sheet: Sheet) -> list[str]:
    """The values that are asked for and not handed in; blank rows of a form are named elsewhere."""
    lost = sheet.points.not_handed_in if sheet.points else []
    names = [each.what for each in lost if each.why == NOT_HANDED_IN]
    return [f"not handed in: {listed(names)}"] if names else []


def others(sheet: Sheet) -> list[str]:
    """What is to be said of a book as a whole."""
    said = [UNLISTED] if sheet.unlisted else []
    moved = [entry.index for entry in sheet.entries if entry.moved]
    if moved:
        said.append(f"in another order: {entries_said(moved)}")
    if sheet.missing and not sheet.problem:
        said.append(f"missing: the model's {entries_said(list(sheet.missing))}")
    said += unread_said(sheet)
    told = {index for slip in sheet.slips for index in slip.entries}
    untold = [i for i in sheet.flags.invented if i not in told] if sheet.flags else []
    if len(untold) >= MANY_FLAGS:
        said.append(
            "what set these flags can't be told from flags alone; from the fields after them it can "
            "(entry I flag kind K identity I version V key HEX number N)"
        )
    return said


def unread_said(sheet: Sheet) -> list[str]:
    """What of a hand-in is not read, or left blank."""
    said = not_read(sheet.problems)
    if sheet.unread:
        where = "in a line that can't be read"
        where += ", or not there" if len(sheet.unread) > len(sheet.problems) else ""
        said.append(f"{where}: the model's {entries_said(list(sheet.unread))}")
    if sheet.blank:
        said.append(f"left blank on the form: {rows_said(sheet.blank)}")
    if sheet.left:
        more = f"{plural(sheet.left, 'more byte')} after the last record"
        cut = f"the last record is cut short: {sheet.left} of {SEALED} bytes"
        said.append(cut if len(sheet.entries) < sheet.size else more)
    return said


def rows_said(rows: Sequence[str]) -> str:
    """Values and entries, as the rows of a form."""
    entries = [int(row.split()[1]) for row in rows if row.startswith("entry ")]
    values = [row for row in rows if not row.startswith("entry ")]
    return listed([*values, *([entries_said(entries)] if entries else [])])


def explains(slip: Explained) -> str:
    """Which entries and keys a slip explains."""
    part = f", their {slip.part}" if slip.part else ""
    what = [entries_said(list(slip.entries)) + part] if slip.entries else []
    own = ", worked from the candidate's own keys" if slip.own else ""
    return "; ".join([*what, *([listed(slip.keys)] if slip.keys else [])]) + own


def explanation(slip: Explained, sheet: Sheet) -> str:
    """How much a slip explains."""
    wrong = sum(entry.state == "wrong" for entry in sheet.entries)
    same = f" (or: {'; '.join(slip.others)})" if slip.others else ""
    part = f", their {slip.part}" if slip.part else ""
    much = "the one wrong entry" if wrong == 1 else f"{len(slip.entries)} of {wrong} wrong entries"
    what = [f"{much}{part}"] if slip.entries else []
    what += [listed(slip.keys)] if slip.keys else []
    own = ", worked from the candidate's own keys" if slip.own else ""
    return f"{slip.name}{same}: explains {', and '.join(what)}{own}"


def not_read(problems: Sequence[str]) -> list[str]:
    """Lines that can't be read; of very many, the first ones."""
    more = len(problems) - MOST_LINES
    said = [f"{more} more lines can't be read: --json lists each"] if more > 0 else []
    return [*problems[:MOST_LINES], *said]


def keys_said(keys: KeySheet) -> list[str]:
    """What is to be said of the keys that are handed in."""
    said = not_read(keys.problems)
    for mark in keys.marks:
        if mark.state == "wrong" and mark.wants is not None:
            also = f", which is {mark.also}" if mark.also else ""
            if len(mark.has) == len(mark.wants):
                note = f" ({mark.note})" if mark.note else ""
                said.append(f"{mark.name}: {mark.has.hex()}{also}, not {mark.wants.hex()}{note}")
            elif mark.has:  # else a line is said that can't be read
                length = plural(len(mark.has), "byte")
                said.append(f"{mark.name}: {length}{also}, not {len(mark.wants)}")
        elif mark.state == "follows":
            said.append(f"{mark.name}: wrong, but right under the candidate's own {listed(mark.under)}")
        elif mark.state == "idle":
            said.append(f"{mark.name}: not asked for, since this side does not run")
    right = [mark.name for mark in keys.marks if mark.state == "right"]
    if right:
        said.append(f"right: {listed(right)}")
    return said
