# SPDX-License-Identifier: MIT
"""What a mark sheet comes to by a scheme, in exact fractions.

Everything is counted by equal bytes, each as often as the model has it. Beside which entry a
wrong record is shown is a guess, and no point rests on it.
"""

from __future__ import annotations

from collections import Counter
from fractions import Fraction
from typing import Callable, Collection, Iterable, NamedTuple, Sequence

from ..points import BLANK, NOT_HANDED_IN, Item, Lost, Points
from ..reading.schemes import ASKED, EXTRA, IDENTITY, SHARE, TEXT, Scheme
from ..records import KINDS
from ..sheet import Marked, Marks

# The lines of the scheme for values, and what several of them are called.
VALUES = {"session key": "session keys", "response": "responses", "key": "keys", "D": "D", "O": "O", "G": "G"}
TEXTS, IDENTITIES = "right texts of wrong entries", "right identities of wrong entries"
FOLLOWING = "entries right under own keys"
OWN, NONE = "right under own keys", "no record has it"
NOT_READ = "not read"


class _Left(NamedTuple):
    """What neither a right record nor one that follows through took: the entries, and the
    records. A copy of such a record is none: it shows nothing that was not shown before."""

    entries: list[int]
    records: list[Marked]


def score(scheme: Scheme, marks: Marks, asked: Iterable[str] = ()) -> Points:
    """The points of a hand-in; the names are those of the values that are asked for."""
    items = [*_entries(scheme, marks), *_values(scheme, marks, asked)]
    moved = [entry.model for entry in marks.entries if entry.moved]
    items += [
        Item(EXTRA, scheme["extra"] * marks.extra, Fraction(0)),
        Item("entries in another order", scheme["order"] * len(moved), Fraction(0)),
    ]
    shown = [item for item in items if item.points or item.most or item.most is None]
    return Points(tuple(shown), sum((item.most or Fraction(0) for item in items), Fraction(0)))


def _entries(scheme: Scheme, marks: Marks) -> Iterable[Item]:
    """What the book gives: its entries, and what is given in the place of those not right."""
    redundancy, share = scheme["redundancy byte"], scheme[SHARE]

    def full(places: Collection[int]) -> Fraction:
        """The points of entries with everything right."""
        checks = sum(KINDS[marks.kinds[at]].checks for at in places)
        return scheme["entry"] * len(places) + redundancy * checks

    right = [e.model for e in marks.entries if e.state == "right" and e.model is not None]
    following = [e.model for e in marks.entries if follows(e) and e.model is not None]
    every = range(marks.size)
    lost = tuple(Lost(f"entry {at}", _why(marks, at, following)) for at in every if at not in right)
    yield Item("entries right", full(right), full(every), lost if full(every) else ())
    if share and (following or marks.keys.ring and len(right) < marks.size):
        yield Item(FOLLOWING, share * full(following))
    left = _left(marks, {*right, *(following if share else ())}, bool(share))
    if marks.problem or not left.entries:
        return
    for name, what, part in ((TEXT, TEXTS, text_of), (IDENTITY, IDENTITIES, identity_of)):
        if scheme[name] and marks.wanted:
            without = _without(marks.wanted, left, part)
            won = len(left.entries) - len(without)
            yield Item(what, scheme[name] * won, None, tuple(Lost(f"entry {at}", NONE) for at in without))
    if redundancy and marks.wanted:
        yield Item("redundancy bytes of wrong entries", redundancy * _redundancy(marks, left))


def follows(entry: Marked) -> bool:
    """Whether a record is wrong, but right under the candidate's own keys."""
    return bool(entry.follows) and entry.state == "wrong"


def text_of(record: bytes) -> bytes:
    """The text of a sealed record, with its kind and version."""
    return record[:1] + record[4:]


def identity_of(record: bytes) -> bytes:
    """The encrypted identity of a sealed record."""
    return record[1:4]


def _why(marks: Marks, at: int, following: Sequence[int]) -> str:
    """Why an entry is not right."""
    if marks.problem:
        return "not marked"
    if at in following:
        return OWN
    unsaid = marks.flags is not None and at in marks.flags.unsaid
    return "missing" if at in marks.missing else NOT_READ if at in marks.unread else "unsaid" if unsaid else "wrong"


def _left(marks: Marks, taken: set[int], share: bool) -> _Left:
    """What is left beside the entries that are taken."""
    took = [entry for entry in marks.entries if entry.state == "right" or share and follows(entry)]
    shown = {entry.record for entry in took}
    return _Left(
        [at for at in range(marks.size) if at not in taken],
        [entry for entry in marks.entries if entry.record not in shown],
    )


def _without(model: Sequence[bytes], left: _Left, part: Callable[[bytes], bytes]) -> list[int]:
    """The entries left of which no record has the part, be it since each is taken for another."""
    has = Counter(part(entry.record) for entry in left.records)
    without = []
    for at in left.entries:
        if has[part(model[at])]:
            has[part(model[at])] -= 1
        else:
            without.append(at)
    return without


def _values(scheme: Scheme, marks: Marks, asked: Iterable[str]) -> Iterable[Item]:
    """What the values of the first two generations give, by the scheme's lines. C is given, and has
    none."""
    states = {mark.name: mark.state for mark in marks.keys.marks if mark.state != "idle"}
    names = dict.fromkeys([*(asked if scheme[ASKED] else ()), *states])
    for line, several in VALUES.items():
        of = [name for name in names if name.rstrip(" 12") == line]
        if not of or not scheme[line]:
            continue
        shares = {"right": Fraction(1), "follows": scheme[SHARE]}
        won = sum((shares.get(states.get(name, ""), Fraction(0)) for name in of), Fraction(0))
        lost = tuple(Lost(name, _lost(marks, name, states)) for name in of if states.get(name) != "right")
        yield Item(several if len(of) > 1 else of[0], scheme[line] * won, scheme[line] * len(of), lost)


def _lost(marks: Marks, name: str, states: dict[str, str]) -> str:
    """Why a value is not right."""
    if name in states:
        return OWN if states[name] == "follows" else "wrong"
    return BLANK if name in marks.blank else NOT_READ if marks.keys.unread else NOT_HANDED_IN


def _redundancy(marks: Marks, left: _Left) -> int:
    """How many checks do not fail of records that are left: of as many as there are entries left,
    those with the fewest failures, and of none more checks than such entries have. A text that
    is no such entry's own counts once, however often it stands in the book."""
    own = Counter(text_of(marks.wanted[at]) for at in left.entries)
    seen = {text_of(entry.record) for entry in marks.entries if entry.state == "right"} - set(own)
    passed = []
    for entry in left.records:
        text = text_of(entry.record)
        if text in seen:
            continue
        passed.append(_passed(entry))
        own[text] -= 1
        if own[text] <= 0:
            seen.add(text)
    checks = sorted((KINDS[marks.kinds[at]].checks for at in left.entries), reverse=True)
    return sum(min(pair) for pair in zip(sorted(passed, reverse=True), checks))


def _passed(entry: Marked) -> int:
    """How many checks of a record do not fail that is not right, nor a further attempt."""
    counts = entry.state in ("wrong", "extra")
    if not counts or not entry.opened or entry.opened.kind not in KINDS:
        return 0
    return KINDS[entry.opened.kind].checks - len(entry.opened.failed)
