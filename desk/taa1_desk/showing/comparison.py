# SPDX-License-Identifier: MIT
"""What was handed in over what was wanted, byte by byte."""

from __future__ import annotations

from typing import Any, NamedTuple, Optional, Sequence

from ..names import KIND_NAMES, both
from ..records import Entry, whole
from .html import Html, join, tag, text

HANDED_IN, WANTED = "handed in", "wanted"
# Bytes that differ are bold, with a box where they were handed in and a line where they
# are wanted; both have room at their sides, so that the box is clear of the next digit and
# equal places stand over each other. On a phone only fields that differ are shown, each as
# handed in over as wanted.
STYLE = """
.beside { margin-bottom: .2em; table-layout: auto; width: auto; }
.beside th, .beside td { padding-right: 1.4em; white-space: nowrap; }
.beside th { font-weight: normal; }
.beside td:first-child { width: 6em; }
td b, td u { margin: 0 .3em; }
td b { outline: 1px solid #000; outline-offset: 1px; }
td u { font-weight: bold; text-decoration-thickness: 2px; text-underline-offset: 2px; }
td i { display: inline-block; font-style: normal; width: 5.5em; }
td div { white-space: nowrap; }
@media screen and (max-width: 40em) {
  td i { display: block; }
  td div { white-space: normal; }
  .beside { display: flex; flex-direction: column; width: 100%; }
  .beside thead, .beside td:first-child, .beside .same { display: none; }
  .beside tbody, .beside tr { display: contents; }
  .beside td { border: 0; padding: 0; white-space: normal; }
  .beside td::before { content: attr(data-head) " "; font: 11pt/1.4 Arial, "Liberation Sans",
    sans-serif; color: #444; display: block; }
  .beside td:nth-child(2) { order: 2; } .beside td:nth-child(3) { order: 3; }
  .beside td:nth-child(4) { order: 4; } .beside td:nth-child(5) { order: 5; }
  .beside td:nth-child(6) { order: 6; } .beside td:nth-child(7) { order: 7; }
}
"""
def differing(data: bytes, other: bytes, name: str) -> Html:
    """Bytes in groups of four digits, as everywhere; those that another string has not in
    their place within an element."""
    said, inside = "", False
    for at in range(len(data)):
        differs = data[at : at + 1] != other[at : at + 1]
        gap = " " if at and at % 2 == 0 and len(data) > 3 else ""
        if inside and not differs:
            said += f"</{name}>"
        said += gap + (f"<{name}>" if differs and not inside else "") + f"{data[at]:02x}"
        inside = differs
    return Html(said + (f"</{name}>" if inside else ""))


def over(has: bytes, wants: bytes) -> Html:
    """Bytes that were handed in, if any, over those that are wanted, in one cell."""
    lines = ((HANDED_IN, differing(has, wants, "b") or Html("-")), (WANTED, differing(wants, has, "u")))
    return join(
        tag("div", text("i", name) + tag("span", said, class_="hex")) for name, said in lines
    )


class Field(NamedTuple):
    """A field of a record: its names, what was handed in and what is wanted."""

    name: str
    has: Any  # bytes, a number, or none
    wants: Any

    def cell(self, wanted: bool) -> Html:
        """Its cell in the row of what was handed in, or was wanted."""
        value, other = (self.wants, self.has) if wanted else (self.has, self.wants)
        name = "u" if wanted else "b"
        same = value == other
        if isinstance(value, bytes):
            said = differing(value, other if isinstance(other, bytes) else b"", name)
        else:
            number = "-" if value is None else str(value)
            said = text("span", number) if same else text(name, number)
        return tag(
            "td",
            said,
            class_=f"{'hex' * isinstance(value, bytes)}{' same' * same}".strip(),
            data_head=f"{self.name}, {WANTED if wanted else HANDED_IN}",
        )


def sealed_fields(record: bytes, wanted: bytes) -> list[Field]:
    """A sealed record beside the one that is wanted."""
    names = KIND_NAMES[wanted[0]]
    return [
        Field("kind", record[0], wanted[0]),
        Field(both("encrypted identity"), record[1:4], wanted[1:4]),
        Field(f"version ({names.version})", whole(record[4:6]), whole(wanted[4:6])),
        Field(f"text ({names.sealed})", record[6:], wanted[6:]),
    ]


def _identity(number: Optional[int]) -> Optional[bytes]:
    return None if number is None else number.to_bytes(3, "big")


def plain_fields(has: Any, wants: Entry) -> list[Field]:
    """An opened entry, or none, beside the one that is wanted."""
    names = KIND_NAMES[wants.kind]
    kind, identity, version, key, number = has[:5] if has else (None,) * 5
    made = [
        Field("kind", kind, wants.kind),
        Field(both("identity"), _identity(identity), _identity(wants.identity)),
        Field(f"version ({names.version})", version, wants.version),
        Field(f"key ({names.key})", key, wants.key),
    ]
    if number is not None or wants.number is not None:
        name = f"number ({names.number})" if names.number else "number"
        made.append(Field(name, number, wants.number))
    return made


def table(what: str, compared: Sequence[Field]) -> Html:
    """Fields in two rows: what was handed in over what was wanted."""
    head = join(text("th", each) for each in (what, *(field.name for field in compared)))
    rows = [
        text("td", name) + join(field.cell(wanted) for field in compared)
        for name, wanted in ((HANDED_IN, False), (WANTED, True))
    ]
    body = join(tag("tr", row) for row in rows)
    return tag("table", tag("thead", tag("tr", head)) + tag("tbody", body), class_="beside")
