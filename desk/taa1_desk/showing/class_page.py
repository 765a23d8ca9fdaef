# SPDX-License-Identifier: MIT
"""The class as a page: its numbers, pictures, and a row for each candidate."""

from __future__ import annotations

import os
from collections import Counter, defaultdict
from fractions import Fraction
from typing import Iterable, NamedTuple, Optional, Sequence

from ..handed import LeftOut
from ..marking.counting import COUNTED, WRONG, average, counts, wrong_by_entry
from ..marking.slip import clauses_of, in_order
from ..marking.totals import passing, totals
from ..names import sealing
from ..points import said as points_said
from ..records import KINDS
from ..sheet import Class, Sheet, Summary, Wanted
from ..words import entries_said, plural
from .argued import alone_said, yes_or_no
from .candidate_page import RESULT, kind_said, step_said
from .html import Html, Number, breakable, page, table, tag, text
from .phrases import COUNTS_0, FAILS_MEANS, WRONG_MEANS, opening, why_unmarked
from .pictures import STYLE, Part, bar, decimal, fillings, histogram, legend
from .sheet_text import class_numbers, passing_numbers

MOST_ENTRIES = 40  # in the picture of the entries
CHECKS = "Checks of the redundancy, and how many entries fail them"
PLACES = """
@media print, (min-width: 40em) {
  .pictured th:nth-child(2), .pictured td:nth-child(2) { width: 32%; }
  .candidates th:nth-child(2), .candidates td:nth-child(2) { width: 15%; }
  .candidates th:last-child, .candidates td:last-child { width: 26%; }
}
.checks th, .candidates .number { white-space: nowrap; }
@media screen and (max-width: 40em) {
  .wide td.number { display: inline-block; padding-right: .8em; }
  .pictured td:nth-child(2)::before { content: none; }
}
"""


class _Column(NamedTuple):
    """Points of all candidates, and of how many each has them."""

    name: str
    points: list[Optional[Fraction]]
    of: list[Fraction]

    @property
    def same(self) -> bool:
        """Whether the same could be reached by all."""
        return len(set(self.of)) == 1


def _columns(sheets: Sequence[Sheet]) -> list[_Column]:
    """The columns of points; those of arguments and totals, if any argument is marked."""
    points = [sheet.points for sheet in sheets if sheet.points]
    made = [_Column("points", [each.sum for each in points], [each.most for each in points])]
    arguments = [sheet.argument for sheet in sheets if sheet.argument]
    if any(each.points is not None for each in arguments):
        whole = [sheet.total for sheet in sheets if sheet.total]
        marked = [None if "argument" in each.unmarked else each.points for each in whole]
        made.append(_Column("argument", [each.points for each in arguments], [each.most for each in arguments]))
        made.append(_Column("total", marked, [each.most for each in whole]))
    return [column for column in made if len(column.of) == len(sheets)]


def _number(points: Optional[Fraction]) -> Optional[Number]:
    return None if points is None else Number(points_said(points))


def _candidates(sheets: Sequence[Sheet], links: Sequence[str]) -> Html:
    """A row for each candidate, with a bar of what the entries are."""
    counted = [counts(sheet) for sheet in sheets]
    most = max(sum(of) for of in counted)
    heads, cells = [], []
    for column in _columns(sheets):
        heads += [column.name, *([] if column.same else ["of"])]
        cells += [list(map(_number, column.points)), *([] if column.same else [list(map(_number, column.of))])]
    passed = [yes_or_no(sheet.total) for sheet in sheets]
    heads += ["passed"] * any(passed)
    rows = []
    for at, (sheet, of, link) in enumerate(zip(sheets, counted, links)):
        picture = bar([Part(name, count) for name, count in zip(COUNTED, of)], most)
        book = "not marked" if sheet.problem else opening(sheet, brief=True)
        found = "; ".join([book, *(slip.name for slip in sheet.slips)])
        name = tag("a", breakable(sheet.candidate), href=link)
        right = None if sheet.problem else of.right
        marked = [column[at] for column in cells] + [passed[at]] * any(passed)
        rows.append((name, picture, right, *marked, found))
    return table(("candidate", "entries", "right", *heads, "book and slips"), rows, "pictured candidates")


def _of_how_many(sheets: Sequence[Sheet]) -> Iterable[Html]:
    """Of how many the columns of points are, where that is the same for all."""
    same = [f"{column.name} of {points_said(column.of[0])}" for column in _columns(sheets) if column.same]
    if same:
        yield text("p", f"{', '.join(same)}.".capitalize())


def _entries(sheets: Sequence[Sheet], wanted: Wanted) -> Iterable[str]:
    """The entries that some candidate got wrong, the worst first."""
    wrong = wrong_by_entry(sheets)
    often: Counter[int] = sum(wrong.values(), Counter())
    ranked = sorted(often, key=lambda at: (-often[at], at))
    marked = sum(not sheet.problem for sheet in sheets)
    rows = []
    for at in ranked[:MOST_ENTRIES]:
        parts = [Part(name, counted[at]) for name, counted in wrong.items()]
        what = kind_said(wanted.plain[at].kind, wanted)
        rows.append((f"entry {at}", bar(parts, marked), often[at], what))
    if rows:
        yield legend(wrong)
        yield table(("entry", "candidates", "number", "kind"), rows, "pictured")
    if ranked[MOST_ENTRIES:]:
        more, most = len(ranked) - MOST_ENTRIES, often[ranked[MOST_ENTRIES]]
        yield text("p", f"{more} more entries were got wrong by {most} or fewer.")
    never = [at for at in range(len(wanted.plain)) if at not in often]
    if marked and never:
        yield text("p", f"Nobody got {entries_said(never)} wrong.")


def _slips(sheets: Sequence[Sheet], of: Summary) -> Html:
    """The slips, the commonest first."""
    found = [slip for sheet in sheets for slip in sheet.slips]
    steps = {slip.name: slip.step[0] for slip in found}
    clauses: dict[str, set[str]] = defaultdict(set)  # those of all candidates who made it
    for slip in found:
        clauses[slip.name].update(clauses_of(slip.step[1]))
    rows = [
        (
            name,
            bar([Part(WRONG, count)], of.candidates - of.unreadable or of.candidates),
            count,
            step_said(steps[name], in_order(clauses[name])),
        )
        for name, count in of.slips
    ]
    heads = ("slip", "candidates", "number", "step")
    return table(heads, rows, "pictured") if rows else text("p", "None.")


def _checks(of: Summary) -> Html:
    """How many entries of each kind fail each check of the redundancy."""
    failing = {(kind, check): count for kind, check, count in of.checks}
    most = max(shape.checks for shape in KINDS.values())
    rows = []
    for kind in sorted({kind for kind, _ in failing}):
        zero_bits = KINDS[kind].number == 1
        often: list[Optional[int]] = [failing.get((kind, at), 0) for at in range(KINDS[kind].checks)]
        last = often.pop() if zero_bits else None
        often += [None] * (most - len(often))
        rows.append((f"{kind}, {sealing(kind)}", *often, last))
    heads = ("kind", *(f"byte {at}" for at in range(most)), "three zero bits")
    return table(heads, rows, "checks") if rows else text("p", "None.")


def _whose(name: str, file: str) -> str:
    """A candidate's name, and the file's without its folder."""
    file = os.path.basename(file)
    return f"{name} ({file})" if name else file


def _unmarked(sheets: Sequence[Sheet], left_out: Sequence[LeftOut]) -> Iterable[Html]:
    """The hand-ins that are not marked, and files that were left out: what is to be done. Those
    with the same reason have one row."""
    if sheets or left_out:
        yield text("h2", "Not marked, for somebody to decide")
    if sheets:
        yield text("p", COUNTS_0)
    whose: dict[str, list[str]] = defaultdict(list)
    for sheet in sheets:
        whose[why_unmarked(sheet)].append(_whose(sheet.candidate, sheet.name))
    for name, file, why in left_out:
        whose[why].append(_whose(name, file))
    if whose:
        yield table(("candidate", "why"), [(", ".join(names), why) for why, names in whose.items()])


def _totals(of: Class) -> str:
    """What is to be said of arguments, totals and passing."""
    sheets, whole = of.sheets, totals(of.sheets)
    unmarked = [sheet for sheet in sheets if sheet.argument and sheet.argument.points is None]
    said = ""
    if unmarked and unmarked[0].argument:
        whose = "" if len(unmarked) == len(sheets) else f" of {plural(len(unmarked), 'candidate')}"
        said += f" The argument{whose}, of {points_said(unmarked[0].argument.most)} points, is not yet marked."
    if whole and any(sheet.argument for sheet in sheets):
        what = "Totals, in percent of what each could reach" if whole.shares else "Totals"
        zero = f", {whole.unmarked} of them with 0 for the book" * bool(whole.unmarked)
        means = f"mean {decimal(whole.mean)}, median {decimal(whole.median)} of {decimal(whole.most)}"
        said += f" {what}: {means}, of {plural(whole.candidates, 'candidate')}{zero}."
    said += f" {passing_numbers(sheets)}." if passing(sheets) else ""
    return said + "".join(f" N{alone_said(each)[1:]}." for each in of.argued)


def class_page(of: Class, links: Sequence[str], heading: str, foot: str = "", record: str = "") -> str:
    """The class, with the links to the candidates' pages."""
    sheets, absent = of.sheets, of.absent
    numbers = f"{plural(of.summary.candidates, 'candidate')}: {class_numbers(of.summary)}."
    unmarked = [sheet for sheet in sheets if sheet.problem]
    if absent:
        numbers += f" Nothing was handed in by {', '.join(absent)}."
    points = average(sheets)
    marked = f", of the {len(sheets) - len(unmarked)} that are marked" if unmarked else ""
    pictured: list[str] = []
    if points:
        means = {"mean": points.mean, "median": points.median}
        said = ", ".join(f"{name} {decimal(value)}" for name, value in means.items())
        what = "Points, in percent of what each could reach" if points.shares else "Points"
        whole = len(sheets) + len(absent)
        of_how_many = f"of {len(points.values)} of {plural(whole, 'candidate')}"
        if len(points.values) == whole:
            of_how_many = f"of all {whole} candidates" if whole > 1 else "of the one candidate"
        zero = f", {points.unmarked} of them not marked and counted as 0 for the book" * bool(points.unmarked)
        numbers += f" {what}: {said} of {decimal(points.most)}, {of_how_many}{zero}."
        histogram_ = histogram(points.values, points.most, means)
        title = f"{what}, and how many candidates have them, {of_how_many}"
        pictured = [tag("section", text("h2", title) + histogram_)]
    more = _totals(of).strip()
    return page(
        "The class",
        fillings(),
        text("p", numbers, class_="result"),
        *([text("p", more, class_="result")] if more else []),
        *_unmarked(unmarked, of.left_out),
        text("h2", "Candidates"),
        legend(COUNTED),
        text("p", f"{WRONG_MEANS.capitalize()}, and it seals another key or has no kind. {FAILS_MEANS.capitalize()}."),
        *_of_how_many(sheets),
        _candidates(sheets, links),
        *pictured,
        text("h2", f"Entries, by how many candidates got them wrong{marked}"),
        *_entries(sheets, of.wanted),
        text("h2", f"Slips, by how many candidates made them{marked}"),
        _slips(sheets, of.summary),
        *([] if of.summary.unopened is None else [text("h2", CHECKS), _checks(of.summary)]),
        above=heading,
        style=RESULT + STYLE + PLACES,
        foot=foot,
        record=record,
    )
