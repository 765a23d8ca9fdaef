# SPDX-License-Identifier: MIT
"""What every page of HTML shares: the style, the frame, tables, and bytes in groups.

A page is whole in itself, without script, font or picture from elsewhere. It is black
on white, prints on A4 and Letter, and below 40 em, as on a phone, the rows of its wide
tables stand as blocks, each cell after its head.
"""

from __future__ import annotations

import re
from html import escape
from typing import Any, Iterable, NamedTuple, Sequence

STYLE = """
* { box-sizing: border-box; }
html { -webkit-text-size-adjust: 100%; }
body { font: 11pt/1.4 Arial, "Liberation Sans", sans-serif; color: #000; background: #fff;
  margin: 0 auto; max-width: 60em; padding: 1em; overflow-wrap: break-word; }
header { border-bottom: 2px solid #000; margin-bottom: 1em; padding-bottom: .4em; }
header p { margin: 0; }
h1 { font-size: 1.5em; line-height: 1.2; margin: 0; }
h2 { font-size: 1.2em; margin: 1.6em 0 .4em; }
h3 { font-size: 1em; margin: 1.2em 0 .3em; }
h1, h2, h3, caption { break-after: avoid; break-inside: avoid; }
p, li { orphans: 3; widows: 3; }
ul, ol { padding-left: 1.4em; }
table { border-collapse: collapse; width: 100%; margin: .3em 0 .8em; }
thead { display: table-header-group; }
tr { break-inside: avoid; }
th, td { border-bottom: 1px solid #999; padding: .25em .8em .25em 0; text-align: left;
  vertical-align: baseline; }
th { border-bottom: 1.5px solid #000; }
th:last-child, td:last-child { padding-right: 0; }
th.title { border: 0; padding-top: .8em; }
th.number, td.number { text-align: right; font-variant-numeric: tabular-nums; width: 1%; }
th.number:not(:last-child), td.number:not(:last-child) { padding-right: 1.2em; }
.hex, .code { font-family: "Liberation Mono", "DejaVu Sans Mono", Consolas, monospace;
  font-size: .9em; line-height: 1.55; }
td.hex, .keys td:first-child { white-space: nowrap; }
.pairs th { border-bottom: 1px solid #999; font-weight: normal; white-space: nowrap; width: 1%; }
.fields { display: flex; flex-wrap: wrap; gap: 1em 1.5em; margin: 1em 0; }
.fields p { flex: 1 1 14em; display: flex; margin: 0; white-space: nowrap; }
.fields p:first-child { flex-basis: 100%; }
.fields span { flex: 1; border-bottom: 1px solid #000; margin-left: .5em; min-height: 1.8em; }
section { break-inside: avoid; }
footer { border-top: 1px solid #999; break-before: avoid; break-inside: avoid; font-size: .75em;
  margin-top: 1.5em; padding-top: .3em; }
a { color: inherit; }
@media screen and (max-width: 40em) {
  .wide thead, .wide tbody, .wide th.title { display: block; }
  .wide thead tr:not(.title) { display: none; }
  .wide tr, .wide td, .wide td.number { display: block; text-align: left; width: auto; }
  .wide tr { border-bottom: 1px solid #999; padding: .4em 0; }
  .wide td { border: 0; padding: 0; }
  .wide td:empty { display: none; }
  .wide td:first-child { font-weight: bold; }
  .wide td::before { content: attr(data-head) " "; font: 11pt/1.4 Arial, "Liberation Sans",
    sans-serif; color: #444; }
  .pairs th { width: 33%; }
  .wide td:first-child:not(.number)::before { content: none; }
  td, td.hex, .keys td:first-child, .pairs th { white-space: normal; }
}
@media print {
  body { font-size: 9.5pt; max-width: none; padding: 0; }
}
"""
MOST_FOOT = 80  # letters of a foot, which has one line
# The foot of each printed page; a browser that knows no margin boxes leaves it out.
FOOT = """
@page { margin: 15mm 15mm 18mm;
  @bottom-left { content: "%s"; font: 8pt Arial, "Liberation Sans", sans-serif; }
  @bottom-right { content: counter(page) " of " counter(pages);
    font: 8pt Arial, "Liberation Sans", sans-serif; } }
"""


class Html(str):
    """Text that is HTML already."""

    def __add__(self, other: Html) -> Html:  # type: ignore[override]
        """HTML after HTML; other text has to be escaped first."""
        return Html(str.__add__(self, other))


def join(parts: Iterable[Html], between: str = "") -> Html:
    """HTML one after the other."""
    return Html(between.join(parts))


class Code(str):
    """Text with bytes in it, in their font."""


class Number(str):
    """A number in words, such as 13 1/2."""


class Row(NamedTuple):
    """A row of a table, and its class."""

    cells: Sequence[Any]
    class_: str = ""


def tag(name: str, content: Html, **attributes: Any) -> Html:
    """An element around content that is HTML already, which its type says; attributes are
    text, and an empty one is left out."""
    given = "".join(
        f' {key.rstrip("_").replace("_", "-")}="{escape(str(value))}"'
        for key, value in attributes.items()
        if value != ""
    )
    return Html(f"<{name}{given}>{content}</{name}>")


def text(name: str, content: str, **attributes: Any) -> Html:
    """An element around text."""
    return tag(name, Html(escape(content)), **attributes)


def breakable(content: str) -> Html:
    """Printable text in which a word longer than any of a language may be broken."""
    marked = re.sub(r"[^\s-]{24}(?=[^\s-])", "\\g<0>\0", content)
    return Html(escape(marked).replace("\0", "<wbr>"))


def grouped(data: Any) -> str:
    """Bytes in hexadecimal, in groups of four digits; three, an identity, in one. Several
    strings have a stroke between them."""
    if not isinstance(data, bytes):
        return " | ".join(map(grouped, data))
    digits = data.hex()
    if len(data) <= 3:
        return digits
    return " ".join(digits[at : at + 4] for at in range(0, len(digits), 4))


def _cell(value: Any, head: str, number: bool) -> Html:
    """A cell: bytes in groups, a column of numbers to the right, text as text."""
    if isinstance(value, (bytes, tuple)):
        return text("td", grouped(value), class_="hex", data_head=head)
    said = value if isinstance(value, Html) else Html(escape("-" if value is None else str(value)))
    class_ = "code" if isinstance(value, Code) else "number" if number else ""
    return tag("td", said, class_=class_, data_head=head)


def numbers(rows: Sequence[Sequence[Any]], count: int) -> list[bool]:
    """Which of so many columns have numbers, and nothing else."""
    return [
        any(isinstance(row[at], (int, Number)) for row in rows)
        and all(row[at] is None or isinstance(row[at], (int, Number)) for row in rows)
        for at in range(count)
    ]


def table(heads: Sequence[str], rows: Iterable[Any], class_: str = "", title: str = "") -> Html:
    """A table; a row is a sequence of cells or a Row. A column of numbers stands to the
    right with its head; a table of more than two columns is wide. The title is repeated
    with the heads on each printed page."""
    made = [each if isinstance(each, Row) else Row(each) for each in rows]
    right = numbers([each.cells for each in made], len(heads))
    head = join(
        text("th", each, class_="number" if number else "") for each, number in zip(heads, right)
    )
    above = tag("tr", text("th", title, class_="title", colspan=len(heads)), class_="title")
    rows_ = (
        tag("tr", join(map(_cell, each.cells, heads, right)), class_=each.class_) for each in made
    )
    body = join(rows_, "\n")
    classes = f"{'wide' if len(heads) > 2 else ''} {class_}".strip()
    head = (above if title else Html()) + tag("tr", head)
    return tag("table", tag("thead", head) + tag("tbody", body), class_=classes)


def pairs(rows: Iterable[tuple[Any, ...]], class_: str = "") -> Html:
    """A table of names and values, without heads; a word between them says whose a value is."""
    made = []
    for name, *whose, value in rows:
        marks = join(text("td", mark, class_="whose") for mark in whose)
        made.append(tag("tr", text("th", name) + marks + _cell(value, "", False)))
    body = join(made, "\n")
    return tag("table", tag("tbody", body), class_=f"pairs {class_}".strip())


def fields(names: Iterable[str]) -> Html:
    """Places to write on after names."""
    places = join(tag("p", text("b", name) + Html("<span></span>")) for name in names)
    return tag("div", places, class_="fields")


def _in_css(said: str) -> str:
    """Text for a string of the style: all but letters and digits by their numbers."""
    safe = (letter.isascii() and letter.isalnum() for letter in said)
    return "".join(a if plain else f"\\{ord(a):x} " for a, plain in zip(said, safe))


def _made_by(command: str) -> str:
    return f'<meta name="generator" content="{escape(command)}">'


def is_made_by(start: bytes, command: str) -> bool:
    """Whether a page that begins so was made by a command."""
    return _made_by(command).encode() in start


def _of_record(record: str) -> str:
    return f'<meta name="taa1-record" content="{escape(record)}">'


def record_of(start: bytes) -> str:
    """The digest of the record that a page which begins so belongs to; nothing, if to none."""
    found = re.search(_of_record("([0-9a-f]{64})").encode(), start)
    return found[1].decode() if found else ""


def page(
    title: str, *parts: str, above: str = "", style: str = "", made_by: str = "taa1", foot: str = "", record: str = ""
) -> str:
    """A page of these parts; `above` stands over its title, and at the foot in print, `foot` at its
    end; `made_by` and `record` say to programs which command made it, and to which record of
    marking, given by its digest, it belongs."""
    named = f"{title} · {above}" if above else title
    margin = FOOT % _in_css(named if len(named) <= MOST_FOOT else named[: MOST_FOOT - 1] + "…")
    return "\n".join(
        [
            "<!DOCTYPE html>",
            '<html lang="en">',
            '<head><meta charset="utf-8">',
            '<meta name="viewport" content="width=device-width, initial-scale=1">',
            _made_by(made_by),
            *([_of_record(record)] if record else []),
            text("title", named),
            f"<style>{STYLE}{style}{margin}</style></head>",
            "<body>",
            tag("header", (text("p", above) if above else Html()) + text("h1", title)),
            *parts,
            *([text("footer", foot)] if foot else []),
            "</body>",
            "</html>\n",
        ]
    )
