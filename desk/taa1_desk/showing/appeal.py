# SPDX-License-Identifier: MIT
"""What a new marking changed beside an earlier record, and why: as text, and as a page."""

from __future__ import annotations

from typing import Iterable, NamedTuple

from ..origin import brief
from ..words import plural
from .candidate_page import RESULT
from .changes import Change, Compared
from .html import Html, breakable, page, pairs, table, text

STYLE = RESULT + """
.changes td:first-child { width: 34%; }
.changes td { width: 33%; }
@media screen and (max-width: 40em) {
  .changes td, .changes td:first-child { width: auto; }
}
"""


class Appeal(NamedTuple):
    """A marking beside an earlier record, which is given by its digest, and the reason for it."""

    record: str
    made: str  # when
    reason: str
    compared: Compared


def _result(compared: Compared) -> str:
    """What came of it, in a sentence."""
    if not compared.any:
        return "Nothing changed."
    changed, all_ = len(compared.candidates), len(compared.candidates) + len(compared.same)
    return f"{changed} of {plural(all_, 'candidate')} changed."


def _others(compared: Compared) -> Iterable[tuple[str, str]]:
    """Who is not compared, and who did not change."""
    if compared.new:
        yield "not in the record", ", ".join(compared.new)
    if compared.gone:
        yield "not marked this time", ", ".join(compared.gone)
    if compared.same:
        yield "as they were", ", ".join(compared.same)


def appeal_text(of: Appeal) -> str:
    """The changes as lines."""
    compared = of.compared
    lines = [f"against the record {brief(of.record)} of {of.made}: {of.reason}", f"  {_result(compared)}"]
    for name, changes in (("", compared.frame), *compared.candidates, ("the class", compared.whole)):
        lines += [f"  {name}"] if name and changes else []
        lines += [f"  {'  ' * bool(name)}{change}" for change in changes]
    lines += [f"  {what}: {who}" for what, who in _others(compared)]
    return "\n".join(lines) + "\n"


def _table(changes: Iterable[Change]) -> Html:
    rows = [tuple(breakable(part) for part in change) for change in changes]
    return table(("what", "was", "is"), rows, "changes")


def appeal_page(of: Appeal, heading: str, foot: str, of_record: str = "") -> str:
    """The changes as a page, old and new beside each other."""
    compared, moment = of.compared, of.made.replace("T", " ").replace("Z", " UTC")
    earlier = ("against the record", f"{brief(of.record)} of {moment}")
    parts = [text("p", _result(compared), class_="result"), pairs([("reason", breakable(of.reason)), earlier])]
    if compared.frame:
        parts += [text("h2", "Files, programs and options"), _table(compared.frame)]
    for name, changes in compared.candidates:
        parts += [text("h2", name), _table(changes)]
    if compared.whole:
        parts += [text("h2", "The class"), _table(compared.whole)]
    others = list(_others(compared))
    if others:
        parts += [text("h2", "Other candidates"), pairs([(what, breakable(who)) for what, who in others])]
    return page("What changed", *parts, above=heading, style=STYLE, foot=foot, record=of_record)
