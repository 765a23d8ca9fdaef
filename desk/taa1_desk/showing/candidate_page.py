# SPDX-License-Identifier: MIT
"""A candidate's page: what was handed in beside what was wanted."""

from __future__ import annotations

import os
from typing import Any, Iterable

from ..names import both, sealing
from ..points import Points, said as points_said
from ..records import KINDS, Entry
from ..sheet import Explained, Flags, KeySheet, Marked, Sheet, Wanted
from . import argued, comparison
from .comparison import Field, plain_fields, sealed_fields
from .html import Html, Number, Row, breakable, fields, join, page, pairs, table, tag, text
from .phrases import (
    FAILS_MEANS,
    WRONG_MEANS,
    explains,
    fault,
    lost_said,
    not_handed_in,
    not_read,
    opening_words,
    others,
    too_many,
    was_read,
)
from .result import key_result, result

RESULT = """
.result { font-size: 1.15em; margin: 0 0 .8em; }
"""
STYLE = RESULT + comparison.STYLE + argued.STYLE + """
.entries tr:not(.right) td:last-child { font-weight: bold; }
.points, .points .number { width: auto; }
.points td { padding-bottom: .05em; padding-top: .05em; }
.points tr:last-child td { font-weight: bold; }
.keys td { padding-right: 1.2em; }
.slips td:nth-child(2) { width: 36%; }
section h3 { margin: 1em 0 .2em; }
section p { margin: 0 0 .2em; }
.sign { break-inside: avoid; margin-top: 2em; }
.means { font-size: .7em; font-weight: normal; }
@media screen and (max-width: 40em) {
  .keys td:nth-child(2)::before { content: none; }
  .slips td:nth-child(2) { width: auto; }
  .entries td, .entries td.number, .points td:nth-child(n+2):not(:empty) { display: inline; padding-right: .5em; }
  .entries td:nth-last-child(-n+2)::before { content: none; }
}
@media print {
  body { font-size: 9pt; line-height: 1.25; }
  h2 { margin: .8em 0 .2em; }
  .result { margin: 0 0 .4em; }
  table { margin: .1em 0 .2em; }
  th, td { padding-bottom: .08em; padding-top: .08em; }
  .hex, .code { line-height: 1.25; }
  .sign { margin-top: .6em; }
  .fields { gap: .2em 1.5em; margin: .3em 0; }
  .fields span { min-height: 1.6em; }
  footer { margin-top: .4em; }
}
"""
MADE_BY = "taa1 mark"  # a candidate's page


def _opened(entry: Marked, plain: Entry, flags: Flags) -> list[Field]:
    """What was opened beside what is wanted, which may be the flag alone."""
    made = []
    if entry.index in (*flags.missed, *flags.invented):
        said = ("clear", "set") if entry.index in flags.missed else ("set", "clear")
        made.append(Field(both("flag"), *said))
    if entry.index not in flags.set:
        made += plain_fields(Entry.of(entry.record) if entry.record else None, plain)
    return made


def _compared(entry: Marked, sheet: Sheet, wanted: Wanted) -> list[Html]:
    """A wrong entry beside what is wanted: sealed, and opened where that says more."""
    if entry.model is None:
        return [pairs([("record", entry.record)])]
    plain = wanted.plain[entry.model]
    if sheet.flags:
        compared = _opened(entry, plain, sheet.flags)
        return [comparison.table("opened", compared)] if compared else []
    made = [comparison.table("sealed", sealed_fields(entry.record, wanted.sealed[entry.model]))]
    if entry.opened:
        _, identity, _, *sealed = plain_fields(entry.opened, plain)
        said = [identity, *(sealed if entry.opened.key else ())]
        if any(field.has != field.wants for field in said):
            made.append(comparison.table("opened", said))
    return made


def _algorithm(kind: int, wanted: Wanted) -> str:
    """The algorithm by which entries of a kind were to be sealed, or unsealed."""
    return (KINDS[kind].seal if wanted.sealed else KINDS[kind].unseal).upper()


def kind_said(kind: int, wanted: Wanted) -> str:
    """A kind, and its algorithm."""
    return f"{kind}, {sealing(kind)} by {_algorithm(kind, wanted)}"


def _slips(sheet: Sheet) -> Html:
    """The slips, the steps at which they happened, and what they explain."""
    rows = []
    for slip in sheet.slips:
        name = f"{slip.name} (or: {'; '.join(slip.others)})" if slip.others else slip.name
        rows.append((name, at_step(slip), explains(slip)))
    return table(("slip", "step", "explains"), rows, "slips")


def at_step(slip: Explained) -> str:
    """The step at which a slip happens, and where that stands."""
    return step_said(*slip.step)


def step_said(step: str, clause: str) -> str:
    """A step, and the clause or clauses in which it stands."""
    what = "document" if "." not in clause else "clauses" if " and " in clause else "clause"
    return f"{step} ({what} {clause})" if clause else step


def _points(points: Points) -> Html:
    """What gave or cost points, of how many, what was lost where, and their sum. What is given in
    the place of entries is part of what these could give, so it is of none."""
    rows: list[tuple[Any, ...]] = []
    for item in points.items:
        of = Number(points_said(item.most)) if item.most else None
        rows.append((item.what, Number(points_said(item.points)), of, lost_said(item.lost)))
    rows.append(("sum", Number(points_said(points.sum)), Number(points_said(points.most)), ""))
    return table(("for", "points", "of", "lost"), rows, "points")


def _keys(keys: KeySheet) -> Iterable[Html]:
    """The values that were handed in, wrong ones over those that are wanted."""
    yield from (text("p", line) for line in not_read(keys.problems))
    rows = []
    for mark in keys.marks:
        wrong = mark.wants is not None and mark.has != mark.wants
        value = comparison.over(mark.has, mark.wants or b"") if wrong else mark.has
        rows.append((both(mark.name), value, key_result(mark)))
    if rows:
        yield table(("value", "bytes", "result"), rows, "keys")


def _entry_section(entry: Marked, sheet: Sheet, wanted: Wanted) -> Html:
    """What is wrong with an entry."""
    kind = None if entry.model is None else wanted.plain[entry.model].kind
    title = f"Entry {entry.index}"
    title += f": kind {kind_said(kind, wanted)}" if kind else ""
    said = fault(entry, values=False)
    said = said[:1].upper() + said[1:] + "."
    for slip in sheet.slips:
        if entry.index in slip.entries:
            said += f" Slip: {slip.name}, at this step: {at_step(slip)}."
    compared = join(_compared(entry, sheet, wanted))
    return tag("section", text("h3", title) + text("p", said) + compared)


def _entries(sheet: Sheet, wanted: Wanted) -> Html:
    """A row for each entry; the model's, where it stands elsewhere in some."""
    elsewhere = any(entry.model != entry.index for entry in sheet.entries)
    rows = []
    for entry in sheet.entries:
        said = "right" if entry.state == "right" else fault(entry, values=False)
        said += "; in another order" if entry.moved else ""
        kind, made = "-", "-"
        if entry.model is not None:
            number = wanted.plain[entry.model].kind
            kind, made = f"{number}, {sealing(number)}", _algorithm(number, wanted)
        model = (entry.model,) if elsewhere else ()
        rows.append(Row((entry.index, *model, kind, made, said), entry.state))
    model_head = ("of the model",) if elsewhere else ()
    return table(("entry", *model_head, "kind", "by", "result"), rows, "entries")


def _means(sheet: Sheet) -> Html:
    """What is meant by the words for entries that are not right."""
    wrong = [entry for entry in sheet.entries if entry.state == "wrong" and not entry.follows]
    fails = any(entry.opened and entry.opened.failed for entry in wrong)
    means = [WRONG_MEANS] * bool(wrong and not sheet.flags) + [FAILS_MEANS] * fails
    return Html(" ") + text("span", f"({'; '.join(means)})", class_="means") if means else Html()


def _missing(sheet: Sheet, wanted: Wanted) -> Html:
    """The entries that are missing, as they are wanted, be it by their flag alone."""
    rows: list[tuple[Any, ...]] = []
    for at in sorted((*sheet.missing, *sheet.unread)):
        plain = wanted.plain[at]
        made = plain_fields(plain, plain)
        if wanted.sealed:
            made = sealed_fields(wanted.sealed[at], wanted.sealed[at])
        values = [field.wants for field in made[1:4]]
        if sheet.flags and at in sheet.flags.set:
            values = [None, None, f"its {both('flag')} is set"]
        rows.append((at, kind_said(plain.kind, wanted), *values))
    heads = ("encrypted identity", "text") if wanted.sealed else ("identity", "key")
    return table(("entry", "kind", both(heads[0]), "version", heads[1]), rows)


def sheet_page(sheet: Sheet, wanted: Wanted, heading: str, foot: str = "", record: str = "") -> str:
    """A candidate's page: the result, what explains it, each entry, where to sign, and what it
    was made by and of. It is handed to the candidate, so nothing leads from it to the class."""
    file = os.path.basename(sheet.name)
    hand_in = file if sheet.problem else f"{file}, {was_read(sheet)}"
    facts: list[tuple[str, Any]] = [("hand-in", breakable(hand_in))]
    facts += [] if sheet.problem else [("flags" if sheet.flags else "book", opening_words(sheet))]
    facts += [("", line) for line in too_many(sheet) + not_handed_in(sheet) + others(sheet)]
    wrong = [entry for entry in sheet.entries if entry.state not in ("right", "doubled")]
    parts = [text("p", result(sheet), class_="result"), pairs(facts)]
    if sheet.slips:
        parts += [text("h2", "What went wrong, and at which step"), _slips(sheet)]
    if sheet.points and sheet.points.items:
        parts += [text("h2", "Points"), _points(sheet.points)]
    parts += argued.section(sheet)
    if sheet.keys.marks or sheet.keys.problems:
        parts += [text("h2", "Keys of the first two generations"), *_keys(sheet.keys)]
    if sheet.entries:
        parts += [tag("h2", Html("Entry by entry") + _means(sheet)), _entries(sheet, wanted)]
    if wrong:
        parts.append(text("h2", "What was handed in beside what was wanted"))
        parts += [_entry_section(entry, sheet, wanted) for entry in wrong]
    if (sheet.missing or sheet.unread) and not sheet.problem:
        title = "What is missing, or was not read" if sheet.unread else "What is missing"
        parts += [text("h2", title), _missing(sheet, wanted)]
    signature = fields(("Remarks", *argued.to_write(sheet), "Marked by", "Date", "Signature"))
    parts.append(tag("div", signature, class_="sign"))
    return page(sheet.candidate, *parts, above=heading, style=STYLE, made_by=MADE_BY, foot=foot, record=record)
