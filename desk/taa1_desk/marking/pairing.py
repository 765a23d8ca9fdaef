# SPDX-License-Identifier: MIT
"""Which entry of the model each record of a book is, or is meant to be."""

from __future__ import annotations

from bisect import bisect_left
from collections import Counter
from typing import Callable, Collection, Mapping, NamedTuple, Optional, Protocol, Sequence

BOTH = 2  # of a record that is alike in kind and version


class Pairs(NamedTuple):
    """For each record the model's entry that it is, or is most like; of the others, the
    entry that it is once more, or a further attempt at."""

    entries: dict[int, int]
    certain: dict[int, int]  # those that are their entry's byte for byte, under the model's keys or own ones
    following: set[int]  # of these, under own ones
    again: dict[int, int]
    attempts: dict[int, int]


class Shows(Protocol):
    """What a record shows of a model's entries. But for its signs, all of it is equal bytes."""

    def head(self, record: bytes) -> Collection[int]:
        """The entries whose kind, encrypted identity and version it has."""

    def repeats(self, record: bytes) -> Collection[int]:
        """The entries whose text or key it has."""

    def tells(self, record: bytes) -> Collection[int]:
        """The entries whose encrypted identity, text or key it has."""

    def alike(self, record: bytes, place: int) -> int:
        """Whether it has an entry's kind, and its version."""

    def signs_of(self, record: bytes) -> Mapping[int, int]:
        """The entries that it may be meant for, and how likely each is."""


def pair(
    records: Sequence[bytes],
    model: Sequence[bytes],
    places: Mapping[bytes, list[int]],
    own: Mapping[bytes, list[int]],
    shows: Shows,
) -> Pairs:
    """Pairs records with the model's entries, by equal bytes first: the model's own records,
    then those that are an entry's under the candidate's own keys. What is left are repeats,
    further attempts and the rest; the rest is guessed, by signs of an entry, by their weight and
    in its own place first, then by likeness, then in order.

    The guess decides which entry a wrong record is shown beside, and no number.
    """
    entries = {i: i for i, (a, b) in enumerate(zip(records, model)) if a == b}
    free = set(range(len(model))) - set(entries)

    def take(index: int, place: int) -> None:
        if index not in entries and place in free:
            entries[index] = place
            free.discard(place)

    def take_equal(index: int, equal: Sequence[int]) -> bool:
        unused = [place for place in equal if place in free]
        if unused:
            take(index, index if index in unused else unused[0])
        return bool(unused)

    left = [
        index
        for index, record in enumerate(records)
        if index not in entries and not take_equal(index, places.get(record, ()))
    ]
    following = {index for index in left if take_equal(index, own.get(records[index], ()))}
    again = {i: places[records[i]][0] for i in left if i not in following and records[i] in places}
    others = [index for index in left if index not in following and index not in again]
    certain = dict(entries)
    attempts = _attempts(records, others, free, set(certain.values()), shows)
    others = [index for index in others if index not in attempts]
    seen = {index: shows.signs_of(records[index]) for index in others}
    for index in others:
        if seen[index] and seen[index].get(index) == max(seen[index].values()):
            take(index, index)
    weighed = [
        (-weight, abs(index - place), index, place)
        for index in others
        if index not in entries
        for place, weight in seen[index].items()
        if place in free
    ]
    for _, _, index, place in sorted(weighed):
        take(index, place)
    _pair_rest(records, [index for index in others if index not in entries], free, shows.alike, take)
    return Pairs(entries, certain, following, again, attempts)


def _attempts(
    records: Sequence[bytes], others: Sequence[int], free: set[int], done: set[int], shows: Shows
) -> dict[int, int]:
    """The records that are further attempts at entries, and at which.

    A record is one that has the text or a key of entries which have their record, or the head
    of such; or the head of entries for which there are as many records already. Nothing in it
    may be an entry's that has no record yet.
    """
    attempts: dict[int, int] = {}
    heads: Counter[frozenset[int]] = Counter()
    for index in others:
        record = records[index]
        head = frozenset(shows.head(record))
        heads[head] += bool(head)
        if heads[head] > len(free & head) and set(shows.tells(record)) <= done | head:
            attempts[index] = min(head)
            continue
        repeated = shows.repeats(record)
        if repeated and done.issuperset(repeated) and done.issuperset(shows.tells(record)):
            if not any(shows.alike(record, place) == BOTH for place in free):
                attempts[index] = min(repeated)
    return attempts


def _pair_rest(
    records: Sequence[bytes],
    rest: list[int],
    free: set[int],
    alike: Callable[[bytes, int], int],
    take: Callable[[int, int], None],
) -> None:
    """Pairs what is left with what is left: the most alike, then in order."""
    weighed = [
        (-likeness, abs(index - place), index, place)
        for index in rest
        for place in free
        for likeness in [alike(records[index], place)]
        if likeness
    ]
    taken = set()
    for _, _, index, place in sorted(weighed):
        if index not in taken and place in free:
            take(index, place)
            taken.add(index)
    for index, place in zip([index for index in rest if index not in taken], sorted(free)):
        take(index, place)


def out_of_order(entries: dict[int, int]) -> set[int]:
    """The records to move, as few as can be, for the order of the model."""
    indexes = sorted(entries)
    ends: list[int] = []  # for each length, the least last place of a rising run
    at: list[int] = []
    before: dict[int, Optional[int]] = {}
    for index in indexes:
        length = bisect_left(ends, entries[index])
        if length == len(ends):
            ends.append(entries[index])
            at.append(index)
        else:
            ends[length] = entries[index]
            at[length] = index
        before[index] = at[length - 1] if length else None
    keep: set[int] = set()
    last = at[-1] if at else None
    while last is not None:
        keep.add(last)
        last = before[last]
    return set(indexes) - keep
