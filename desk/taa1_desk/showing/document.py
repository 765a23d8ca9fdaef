# SPDX-License-Identifier: MIT
"""A document of headings, words and tables: written once, shown as text and as a page."""

from __future__ import annotations

import textwrap
from itertools import zip_longest
from typing import Any, Iterable, NamedTuple, Sequence, Union

from . import html
from .html import Html, Row, grouped, join, tag, text

WIDTH = 96  # of a text's lines
CELL = 72  # of a cell's words in it


class Head(NamedTuple):
    """A heading; a new page is for paper."""

    words: str
    level: int = 2
    new_page: bool = False


class Words(NamedTuple):
    """A paragraph."""

    words: str


class Pairs(NamedTuple):
    """Names and values; a word between them may say whose a value is."""

    rows: Sequence[tuple[Any, ...]]


class Table(NamedTuple):
    """Rows of cells under their heads, and a title over these."""

    heads: Sequence[str]
    rows: Sequence[Any]
    class_: str = ""
    title: str = ""
    cell: int = CELL


class Fields(NamedTuple):
    """Places to write on after names."""

    names: Sequence[str]


class Lines(NamedTuple):
    """Ruled lines to write on."""

    number: int


class Together(NamedTuple):
    """Blocks that a printed page keeps together."""

    blocks: Sequence[Any]


Block = Union[Head, Words, Pairs, Table, Fields, Lines, Together]


class Boxes(NamedTuple):
    """A cell with an empty box for each byte, or for each thing to tick."""

    number: int
    tick: bool = False


class Noted:
    """A cell with words, and notes under them."""

    def __init__(self, words: str, *notes: str) -> None:
        """Takes the words and the notes."""
        self.words, self.notes = words, notes


class Document(NamedTuple):
    """A title, what stands over it, the blocks, and names of places to write on at the head of
    every printed sheet."""

    title: str
    above: str
    blocks: Sequence[Block]
    head: Sequence[str] = ()


# ---- as text


def _shown(value: Any, cell: int) -> list[str]:
    """A cell's lines, its words so wide at most."""
    if isinstance(value, Boxes):
        return [" ".join(["[ ]" if value.tick else "__"] * value.number)]
    if isinstance(value, (bytes, tuple)):
        return [grouped(value)]
    if isinstance(value, Noted):
        return [line for words in (value.words, *value.notes) for line in _shown(words, cell)]
    said = "-" if value is None else str(value)
    return textwrap.wrap(said, cell, break_on_hyphens=False) or [""]


def columns(rows: Iterable[Any], heads: Sequence[str] = (), cell: int = CELL) -> list[str]:
    """Rows in columns, numbers to the right."""
    cells = [row.cells if isinstance(row, Row) else row for row in rows]
    right = html.numbers(cells, len(heads or cells[0])) if cells else [False] * len(heads)
    shown = [[[head] for head in heads]] * bool(heads)
    shown += [[_shown(value, cell) for value in row] for row in cells]
    wide = [max(len(line) for lines in column for line in lines) for column in zip(*shown)]
    made = []
    for row in shown:
        for parts in zip_longest(*row, fillvalue=""):
            padded = (
                part.rjust(width) if number else part.ljust(width)
                for part, width, number in zip(parts, wide, right)
            )
            made.append("  ".join(padded).rstrip())
    return made


def _lines(block: Block) -> list[str]:
    """A block's lines, and a blank one after it."""
    if isinstance(block, Head):
        if block.level == 3:
            return textwrap.wrap(block.words, WIDTH, break_on_hyphens=False)
        return [block.words, "-" * len(block.words), ""]
    if isinstance(block, Words):
        return [*textwrap.wrap(block.words, WIDTH, break_on_hyphens=False), ""]
    if isinstance(block, Pairs):
        return [*(f"  {line}" for line in columns(block.rows)), ""]
    if isinstance(block, Table):
        title = [block.title] if block.title else []
        return [*title, *(f"  {line}" for line in columns(block.rows, block.heads, block.cell)), ""]
    if isinstance(block, Fields):
        return [*(f"{name} {'_' * (40 - len(name))}" for name in block.names), ""]
    if isinstance(block, Lines):
        return ["_" * WIDTH, ""] * block.number
    return [line for each in block.blocks for line in _lines(each)]


def as_text(document: Document) -> str:
    """The document as lines of text."""
    lines = [f"{document.title}, {document.above}" if document.above else document.title]
    lines += ["=" * len(lines[0]), ""]
    lines += [line for line in _lines(Fields(document.head)) if line]
    for block in document.blocks:
        lines += _lines(block)
    return "\n".join(lines).rstrip("\n") + "\n"


# ---- as a page

STYLE = """
.boxes { display: inline-flex; flex-wrap: wrap; vertical-align: middle; }
.boxes i { width: 6.5mm; height: 8mm; border: 1px solid #000; margin: 0 -1px 1px 0; }
.boxes i:nth-child(2n) { margin-right: 1mm; }
.boxes i.tick { width: 4mm; height: 4mm; margin: .2mm 1mm; }
.form td, .form th { border: 0; padding-bottom: .1em; vertical-align: middle; }
.line { border-bottom: 1px solid #777; height: 9mm; }
.result td { font-weight: bold; }
.note { margin: .15em 0 0; }
.rubric .noted { font-weight: bold; }
.marked th, .marked td { line-height: 1.3; padding-bottom: .12em; padding-top: .12em; }
.whose { color: #444; white-space: nowrap; width: 1%; }
.claims .boxes i:not(.tick) { height: 5.5mm; }
.sheets, .sheets > thead > tr, .sheets > tbody > tr { break-inside: auto; margin: 0; }
.sheets > thead > tr > td, .sheets > tbody > tr > td { border: 0; padding: 0; }
.sheets > thead .fields { margin: 0 0 .8em; }
.sheets > thead .fields p:first-child { flex: 3 1 14em; }
.boxed tr:nth-last-child(-n+5), .rounds tr:nth-last-child(-n+9) { break-before: avoid; }
@media print, (min-width: 40em) {
  .steps { font-size: .9em; line-height: 1.25; }
  .steps td { border-color: #ccc; padding-bottom: .12em; padding-top: .12em; }
  .steps td.hex { line-height: 1.25; white-space: normal; width: 41.5ch; }
  .steps td:nth-child(2) { white-space: nowrap; width: 12em; }
  .steps td:nth-child(3) { width: 4em; }
  .rows th:nth-child(2), .asked th:nth-child(2) { width: 12em; }
  .claims th:nth-child(n+3), .claims td:nth-child(n+3) { width: 1%; padding-right: .5em; }
}
@media screen {
  .sheets, .sheets > *, .sheets > * > tr, .sheets > * > tr > td { display: block; }
}
@media screen and (max-width: 40em) {
  .steps td:nth-child(-n+3), .rows td:nth-child(-n+2) { display: inline; padding-right: .8em; }
  .steps td::before, .rows td::before { content: none; }
  .claims td:nth-child(n+4), .rubric td:nth-child(n+3) { display: inline; padding-right: .8em; }
  .claims td:nth-child(2)::before, .rubric td:nth-child(2)::before { content: none; }
  .pairs .whose { white-space: normal; }
  .boxes i { width: 5.2mm; }
}
@media print {
  h2 { margin-top: 1.2em; }
  .new { break-before: page; margin-top: 0; }
}
"""


def _in_page(value: Any) -> Any:
    """A cell for a page's table."""
    if isinstance(value, Boxes):
        box = '<i class="tick"></i>' if value.tick else "<i></i>"
        return tag("span", Html(box * value.number), class_="boxes")
    if isinstance(value, Noted):
        notes = join(text("p", note, class_="note") for note in value.notes)
        return text("span", value.words, class_="noted") + notes
    return value


def _row(row: Any) -> Row:
    made = row if isinstance(row, Row) else Row(row)
    return Row([_in_page(value) for value in made.cells], made.class_)


def _html(block: Block) -> Html:
    """A block's HTML."""
    if isinstance(block, Head):
        return text(f"h{block.level}", block.words, class_="new" if block.new_page else "")
    if isinstance(block, Words):
        return text("p", block.words)
    if isinstance(block, Pairs):
        marked = "marked" if any(len(row) > 2 for row in block.rows) else ""
        return html.pairs([(*names, _in_page(value)) for *names, value in block.rows], marked)
    if isinstance(block, Table):
        return html.table(block.heads, map(_row, block.rows), block.class_, block.title)
    if isinstance(block, Fields):
        return html.fields(block.names)
    if isinstance(block, Lines):
        return Html('<div class="line"></div>\n' * block.number)
    return tag("section", join(map(_html, block.blocks), "\n"))


def as_page(document: Document) -> str:
    """The document as a page."""
    blocks: Iterable[Html] = map(_html, document.blocks)
    if document.head:
        blocks = [_headed(document.head, blocks)]
    return html.page(document.title, *blocks, above=document.above, style=STYLE)


def _headed(names: Sequence[str], blocks: Iterable[Html]) -> Html:
    """Blocks in the body of a table, since browsers repeat a table's head on each sheet."""
    head = tag("thead", tag("tr", tag("td", html.fields(names))))
    body = tag("tbody", tag("tr", tag("td", join(blocks, "\n"))))
    return tag("table", head + body, class_="sheets", role="presentation")
