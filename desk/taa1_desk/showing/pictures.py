# SPDX-License-Identifier: MIT
"""Pictures of numbers, as SVG within a page.

Widths are in percent of the place that a picture has, and heights in pixels, so that a
phone and a sheet of paper show letters of the same size. What is told apart by its
filling has a pattern of its own, for eyes and printers without colours.
"""

from __future__ import annotations

from fractions import Fraction
from typing import Iterable, NamedTuple, Sequence

from .html import Html, join, tag, text

HEIGHT = 14  # of a bar
SIDE = 6  # of a pattern's square
# The fillings by their names: a pattern's ground, and the lines or dots on it.
FILLINGS: dict[str, tuple[str, str]] = {
    "right": ("#777", ""),
    "wrong": ("#fff", '<path d="M-1 1 1-1M0 6 6 0M5 7 7 5" stroke="#000" stroke-width="1.6"/>'),
    "fails a check": ("#fff", '<path d="M0 0H3V3H0zM3 3H6V6H3z" fill="#000"/>'),
    "missing": ("#fff", ""),
    "not marked": ("#ddd", '<path d="M0 3H6" stroke="#000" stroke-width="1.2"/>'),
    "extra": ("#fff", '<path d="M1.5 0V6M4.5 0V6" stroke="#000" stroke-width="1.2"/>'),
}
STYLE = """
svg { display: block; overflow: visible; width: 100%; }
svg text { font: 9pt Arial, "Liberation Sans", sans-serif; fill: #000; }
.fillings { height: 0; position: absolute; width: 0; }
.legend { break-after: avoid; display: flex; flex-wrap: wrap; gap: .2em 1.4em; list-style: none; margin: .4em 0;
  padding: 0; }
.legend li { align-items: center; display: flex; }
.legend svg { flex: none; margin-right: .4em; width: 2em; }
figure { break-inside: avoid; margin: 0; }
.histogram { margin: 2em 1em .5em; max-width: 36em; }
"""


def _id(name: str) -> str:
    return name.replace(" ", "-")


def _svg(parts: Iterable[str], height: float, said: str = "", class_: str = "") -> Html:
    body = (text("title", said) if said else Html()) + Html("".join(parts))
    return tag("svg", body, class_=class_, height=height, role="img")


def _rect(x: float, width: float, y: float, height: float, filling: str) -> str:
    return (
        f'<rect x="{x:.2f}%" y="{y:.1f}" width="{width:.2f}%" height="{height:.1f}" '
        f'fill="url(#{_id(filling)})" stroke="#000"/>'
    )


def fillings() -> Html:
    """The patterns; a page has them once, in front of its pictures."""
    made = [
        f'<pattern id="{_id(name)}" width="{SIDE}" height="{SIDE}" patternUnits="userSpaceOnUse">'
        f'<rect width="{SIDE}" height="{SIDE}" fill="{ground}"/>{lines}</pattern>'
        for name, (ground, lines) in FILLINGS.items()
    ]
    return tag("svg", tag("defs", Html("".join(made))), class_="fillings", height=0)


class Part(NamedTuple):
    """A part of a bar."""

    filling: str
    number: int


def bar(parts: Sequence[Part], most: int) -> Html:
    """A bar of parts, one after the other, where `most` fills the place."""
    x, made = 0.0, []
    for part in parts:
        width = 100 * part.number / most
        made += [_rect(x, width, 0.5, HEIGHT - 1, part.filling)] if part.number else []
        x += width
    said = ", ".join(f"{part.filling}: {part.number}" for part in parts if part.number)
    return _svg(made, HEIGHT, said or "none")


def legend(names: Iterable[str]) -> Html:
    """What the fillings mean."""
    return tag(
        "ul",
        join(tag("li", bar([Part(name, 1)], 1) + text("span", name)) for name in names),
        class_="legend",
    )


# ---- a histogram

FULL = 110  # the height of its highest column
MOST_COLUMNS = 10


class Columns(NamedTuple):
    """A histogram's columns: each is so wide, and has so many values from its left edge to
    the next one's; the last column has its right edge, too."""

    width: int
    counts: list[int]


def columns(values: Sequence[Fraction], top: Fraction) -> Columns:
    """Values from 0 to the top in at most ten columns of a whole width."""
    width = max(1, -int(-top // MOST_COLUMNS))
    counts = [0] * max(1, -int(-top // width))
    for value in values:
        counts[min(int(value // width), len(counts) - 1)] += 1
    return Columns(width, counts)


def _label(x: float, y: float, said: object, anchor: str = "middle", dx: int = 0) -> str:
    return f'<text x="{x:.2f}%" y="{y:.1f}" dx="{dx}" text-anchor="{anchor}">{said}</text>'


def _pointer(x: float, y: float, said: str) -> str:
    """A place on the axis, and its name to the side that has room."""
    left = x > 50
    return _label(x, y, "▲") + _label(x, y, said, "end" if left else "start", -9 if left else 9)


def histogram(values: Sequence[Fraction], top: Fraction, means: dict[str, Fraction]) -> Html:
    """How many values there are in each column, and below it where the means are."""
    of = columns(values, top)
    wide, most = 100 / len(of.counts), max([*of.counts, 1])
    made = []
    for at, count in enumerate(of.counts):
        high = FULL * count / most
        made += [_rect(at * wide, wide, FULL - high, high, "right")] if count else []
        made += [_label((at + 0.5) * wide, FULL - high - 4, count)] if count else []
        made.append(_label(at * wide, FULL + 16, at * of.width))
    made.append(_label(100, FULL + 16, len(of.counts) * of.width))
    made.append(f'<line x1="0" x2="100%" y1="{FULL}" y2="{FULL}" stroke="#000"/>')
    scale = 100 / (len(of.counts) * of.width)
    for line, (name, value) in enumerate(means.items()):
        said = f"{name} {decimal(value)}"
        made.append(_pointer(float(value) * scale, FULL + 34 + 16 * line, said))
    picture = _svg(made, FULL + 24 + 16 * len(means), "How many values there are in each column")
    return tag("div", picture, class_="histogram")


def decimal(value: Fraction) -> str:
    """A number with at most two places, rounded."""
    return f"{float(value):.2f}".rstrip("0").rstrip(".")
