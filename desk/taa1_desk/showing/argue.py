# SPDX-License-Identifier: MIT
"""The marking aid for the argument: for a marker who has nothing else beside the script."""

from __future__ import annotations

from fractions import Fraction
from typing import Iterable, Mapping, Sequence

from taa1 import Sitting

from ..argument import Argument, Part
from .claims import CLAIMS, PARTS, RULES, STEPS, Claim
from ..engine import Engine
from .document import Block, Boxes, Document, Fields, Head, Lines, Noted, Pairs, Table, Together, Words
from .html import Number
from .instances import MARKS, Maker, instance_of
from .paper import QUESTION
from ..points import said
from ..records import Ring
from ..reading.sittings import Heading

PROPOSED = tuple(Part(part.name, Fraction(part.points)) for part in PARTS)  # by the rubric itself
LINES = 15  # to write on, on a candidate's sheet


def _steps() -> list[Block]:
    """The model argument."""
    steps = [
        Together((Head(f"{number}. {step.title}", 3), Words(step.words)))
        for number, step in enumerate(STEPS, 1)
    ]
    return [Head("The model argument"), *steps]


def _parts(weights: Mapping[str, Fraction], places: bool) -> Table:
    """The parts that have points, with what is worth them, and places to write them."""
    rows = []
    for part in PARTS:
        if part.name not in weights:
            continue
        worth = [f"Full: {part.full}"]
        worth += [f"Half: {part.half}"] if part.half else []
        worth += [f"None: {part.none}"] if part.none else []
        of = Number(said(weights[part.name]))
        rows.append((part.name, Noted(part.asks, *worth), of, *[Boxes(1)] * places))
    return Table(("part", "what it asks, and what it is worth", "of", *["points"] * places), rows, "rubric")


def _rubric(weights: Mapping[str, Fraction], for_each: bool) -> list[Block]:
    """The parts, with what is worth their points, and the rules."""
    return [Head("The rubric"), _parts(weights, not for_each), Together((Head("Rules", 3), *map(Words, RULES)))]


def _for_each(listed: Mapping[str, str], weights: Mapping[str, Fraction], most: Fraction) -> Iterable[Block]:
    """A sheet for each candidate: the parts of the rubric, with places for the points, and for the
    labels of sentences."""
    of = {part.name: part for part in PARTS if part.name in weights}
    rows = [(name, part.asks, Number(said(weights[name])), Boxes(1)) for name, part in of.items()]
    for at, (file, name) in enumerate(listed.items(), 1):
        yield Head(f"{name} ({file}), {at} of {len(listed)}", new_page=True)
        yield Table(("part", "what it asks", "of", "points"), rows, "rubric")
        yield Fields((f"Points in all, of {said(most)}", "Marker", "Date"))
        yield Words("Sentences, by their labels, and remarks:")
        yield Lines(LINES)


def _table() -> list[Block]:
    """The claims, with room for what the candidate does with each."""
    tick, points = Boxes(1, tick=True), Boxes(1)
    rows = []
    for claim in CLAIMS:
        notes = [f"Instead: {claim.instead}"] if claim.instead else []
        said = Noted(claim.sentence, *notes)
        rows.append((claim.label, said, claim.verdict, tick, tick, tick, points))
    heads = ("claim", "sentence", "it is", "says it", "denies it", "with a reason", "points")
    return [
        Head("The sentences"),
        Words(
            "Each is true, false, false as a reason (the conclusion may hold, but it does not "
            "follow) or open (neither proved nor refuted here)."
        ),
        Table(heads, rows, "claims", cell=44),
    ]


def _shown(made: Maker, claim: Claim) -> Block:
    """A claim with its reason, its theorem and its instance."""
    words = f"Why: {claim.why}."
    if claim.instead:
        words += f" Instead: {claim.instead}"
    if claim.theorem:
        words += f" Theorem, {claim.proved}: {claim.crate}, {claim.theorem}."
    instance = instance_of(made, claim.name)
    head = Head(f"{claim.label}, {claim.verdict}: “{claim.sentence}”", 3)
    if isinstance(instance, str):
        return Together((head, Words(f"{words} No instance: {instance}.")))
    return Together((head, Words(f"{words} Instance: {instance.source}."), Pairs(instance.rows)))


def argument_sheet(
    desk: Engine,
    sitting: Sitting,
    ring: Ring,
    heading: Heading,
    plain: bytes,
    parts: Sequence[Part] = PROPOSED,
    listed: Mapping[str, str] = {},
) -> Document:
    """The question, the model argument, the rubric and the claims with room for marks, and
    after them their instances. With a list of candidates the points are written on a sheet for
    each, after all that they share."""
    made = Maker(desk, sitting, ring, plain)
    weights, most = {part.name: part.of for part in parts}, Argument(tuple(parts)).most
    blocks: list[Block] = [
        *([] if listed else [Fields(("Candidate", "Marker", "Date", f"Points in all, of {said(most)}"))]),
        Head("The question"),
        Words(QUESTION),
        *_steps(),
        *_rubric(weights, bool(listed)),
        *_table(),
        Together(
            (
                Head("The sentences, each with an instance"),
                Words("Before each value of an instance stands whose it is:"),
                Pairs(list(MARKS.items())),
            )
        ),
    ]
    blocks += [_shown(made, claim) for claim in CLAIMS]
    blocks += _for_each(listed, weights, most)
    return Document("Marking aid for the argument", heading.line, blocks)
