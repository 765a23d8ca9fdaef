# SPDX-License-Identifier: MIT
"""The application: a class's hand-ins, marked.

It touches no file, stream or argument. A front hands it what was handed in, and shows the
class that it gives back: `command.mark` is one, on the command line.
"""

from __future__ import annotations

from fractions import Fraction
from typing import Iterable, Sequence

from .argument import Argument
from .handed import HandIn, LeftOut
from .marker import Marker
from .marking.counting import summary
from .marking.scoring import score
from .marking.totals import total
from .points import said
from .problems import Problem, place
from .reading.argument_points import Given
from .reading.candidates import Named
from .reading.schemes import ASKED, Scheme, argument_parts
from .sheet import Argued, Class, Marks, Sheet


def mark_class(
    marker: Marker,
    hand_ins: Iterable[HandIn],
    scheme: Scheme,
    names: Named,
    left_out: Sequence[LeftOut] = (),
    given: Given = Given(),
) -> Class:
    """The sheets of hand-ins by a scheme of points, under their candidates' names, which are in
    the order of the hand-ins, with the points that were given to arguments; and what the class
    comes to."""
    parts = argument_parts(scheme)
    unmarked = Argument(parts) if parts else None
    nothing = Marks(len(marker.wanted.plain), tuple(entry.kind for entry in marker.wanted.plain))
    whole = total(scheme, score({**scheme, ASKED: Fraction(1)}, nothing, marker.asked), unmarked)
    if whole and whole.needed and whole.needed > whole.most:
        reached = f"{said(whole.needed)} points are needed, and {said(whole.most)} can be reached"
        raise Problem(f"the scheme's pass: {reached}, so nobody could pass")
    sheets = []
    for at, (hand_in, candidate, unlisted) in enumerate(zip(hand_ins, names.names, names.unlisted)):
        marks = marker.mark(hand_in)
        points = score(scheme, marks, marker.asked)
        argument = given.of.get(at, unmarked)
        in_all = total(scheme, points, argument, not marks.problem)
        sheets.append(Sheet.of(marks, place(hand_in.name), candidate, points, unlisted, argument, in_all))
    without = score(scheme, nothing, marker.asked)
    argued = (Argued(name, each, total(scheme, without, each, False)) for name, each in given.others)
    return Class(
        tuple(sheets),
        summary(sheets),
        marker.wanted,
        tuple(names.absent),
        tuple(names.left_out),
        tuple(left_out),
        tuple(argued),
    )
