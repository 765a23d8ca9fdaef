# SPDX-License-Identifier: MIT
"""A scheme of points in a text."""

from __future__ import annotations

import re
from fractions import Fraction
from typing import Optional

from ..argument import PARTS as RUBRIC
from ..argument import Part
from ..points import said
from ..problems import Problem, quoted
from .lines import named_values

DEFAULT = """\
# Points. A number is whole or a fraction: 2, 1/2, -1. A line that is left out counts as here.

entry = 1             # each entry that is right: of a book that was opened, also a flag that is set
text = 1/2            # in the place of an entry: kind, version and sealed text are those of an entry
identity = 1/4        # in the place of an entry: the encrypted identity is that of an entry
redundancy byte = 0   # each check of an entry's redundancy that does not fail, also of wrong entries

session key = 2       # each: in NAME.keys beside NAME.book, or on the answer form
response = 1
key = 1
D = 1
O = 2
G = 1

keys asked = 1        # 1: values that are not handed in count in what can be reached; 0: they cost nothing

follow-through = 1/2  # of the points, for what is wrong but right under the candidate's own keys
extra = -1            # each record beyond the number of the model's entries
order = 0             # each entry in another order than the model's

# text and identity together are less than entry, or both 0. Beside another entry, text is half of
# it where its line is left out, and identity a quarter. The sum is never below 0.

# The argument, by the parts of its rubric (taa1 argue). All of them 0: the examination has none.
given = 1
one entry = 3
one result = 1        # in the place of 'one entry', where that gets nothing
properties = 2
without it = 2
was sealed = 2

# What is needed to pass, points or a share of all; without such a line nothing is said of it.
# pass = 60%
"""
Scheme = dict[str, Fraction]
COSTS = ("extra", "order")
SHARE = "follow-through"
ASKED = "keys asked"
TEXT, IDENTITY = "text", "identity"
PARTS = {TEXT: Fraction(1, 2), IDENTITY: Fraction(1, 4)}  # of an entry, where no line says it
EXTRA = "extra records"
PASS, PASS_SHARE = "pass", "pass in percent"  # a scheme has one of them, or none


def parse(text: str, where: str) -> Scheme:
    """The scheme of a text; what it leaves out is the default's."""
    default, _ = _read(DEFAULT, "the default", None)
    given, lines = _read(text, where, default)
    scheme = {**default, **given}
    scheme.update({part: share * scheme["entry"] for part, share in PARTS.items() if part not in given})
    parts = [scheme[part] for part in PARTS]
    if any(parts) and sum(parts) >= scheme["entry"]:
        line = min(lines[part] for part in PARTS if part in lines)
        come = f"text {said(parts[0])} and identity {said(parts[1])} come to {said(parts[0] + parts[1])}"
        less = f"where less than entry, {said(scheme['entry'])}, is wanted"
        raise Problem(f"{where}, line {line}: {come}, {less}: lessen one of them, or make both 0")
    return scheme


def argument_parts(scheme: Scheme) -> tuple[Part, ...]:
    """The parts of the argument that a scheme has points for; none: the examination has no argument."""
    return tuple(Part(name, scheme[name]) for name in RUBRIC if scheme[name])


def without_argument(scheme: Scheme) -> Scheme:
    """The scheme of an examination that has no argument."""
    return {**scheme, **dict.fromkeys(RUBRIC, Fraction(0))}


def needed(scheme: Scheme, most: Fraction) -> Optional[Fraction]:
    """What is needed to pass, of so many points in all; None: the scheme says nothing of it."""
    if PASS_SHARE in scheme:
        return most * scheme[PASS_SHARE] / 100
    return scheme.get(PASS)


def _read(text: str, where: str, known: Optional[Scheme]) -> tuple[Scheme, dict[str, int]]:
    """The points of each name, and its line; any name is taken where none is known."""
    scheme: Scheme = {}
    lines: dict[str, int] = {}
    wrong = []
    names = None if known is None else {name: name for name in (*known, PASS)}
    for line in named_values(text, "NAME = POINTS, as in entry = 1", names):
        name, value, problem = line.name, line.value, line.problem or line.again
        if name == PASS and value.endswith("%"):
            name, value = PASS_SHARE, value[:-1].rstrip()
        if not problem and not re.fullmatch(r"[+-]?[0-9]{1,9}(\s*/\s*0*[1-9][0-9]{0,8})?", value):
            problem = f"{name}: {quoted(value)} is no whole number nor a fraction, as 2, 1/2 or -1"
        elif not problem:
            scheme[name], lines[name] = Fraction("".join(value.split())), line.number
            problem = _beyond(name, scheme[name])
        if problem:
            wrong.append(f"{where}, line {line.number}: {problem}")
    if wrong:
        raise Problem(*wrong)
    return scheme, lines


def _beyond(name: str, points: Fraction) -> str:
    """What is wrong with points that would reward a fault, or make what is right cost."""
    wanted = "0 or more"
    good = points >= 0
    if name in COSTS:
        wanted, good = "0 or less", points <= 0
    elif name == SHARE:
        wanted, good = "0 to 1", 0 <= points <= 1
    elif name == ASKED:
        wanted, good = "0 or 1", points in (0, 1)
    elif name == PASS:
        wanted, good = "more than 0", points > 0
    elif name == PASS_SHARE:
        wanted, good = "more than 0 and 100 at most", 0 < points <= 100
    return "" if good else f"{name}: {said(points)}, where {wanted} is wanted"
