# SPDX-License-Identifier: MIT
"""Instances about records and books, and about marking by equal records."""

from __future__ import annotations

from collections import Counter
from typing import Sequence

from taa1 import MOST_RECORDS, Refused

from .instance import (
    ALTERED, COUNTED, PLAIN, SEALED, WORKING, Code, Entry, Instance, Maker, Row, body_of, both,
    by, changed, field, hold, shows, split, whole,
)  # fmt: skip

# ---- records


def _identity(entry: Entry) -> bytes:
    return entry.identity.to_bytes(3, "big")


@shows("one-record")
def one_record(of: Maker) -> Instance:
    """A record, opened and sealed."""
    record = of.records[0]
    plain = of.open_book(record)
    again = of.seal_book(plain)
    hold(plain == of.plain[:PLAIN] and again == record)
    return Instance(
        of.name(0),
        [
            ("sealed record", by("seal_book"), record),
            ("opened", by("open_book"), plain),
            ("sealed again", by("seal_book"), again),
        ],
    )


@shows("record-alone")
def record_alone(of: Maker) -> Instance:
    """The last record by single calls, and as a book of one record."""
    last = len(of.records) - 1
    entry, record = of.entries[last], of.records[last]
    opened = of.open_book(record)
    identity = of.desk.call("ta61_inverse", of.ring.c, whole(record[1:4]))["identity"]
    found = of.unsealed(entry, record[6:])
    hold(opened == entry.data and identity == entry.identity and found == (body_of(entry), 0))
    return Instance(
        of.name(last),
        [
            ("sealed record", by("seal_book"), record),
            ("as a book of one record it opens to", by("open_book"), opened),
            ("by itself: its identity", by("ta61_inverse"), identity.to_bytes(3, "big")),
            ("by itself: its text", of.unsealing(entry.kind), of.body(entry.kind, found.body)),
        ],
    )


@shows("identity-free")
def identity_free(of: Maker) -> Instance:
    """A record with another encrypted identity."""
    record = of.records[0]
    other = changed(record, 3)
    first, second = Entry.of(of.open_book(record)), Entry.of(of.open_book(other))
    hold(first.identity != second.identity)
    hold(first == second._replace(identity=first.identity))
    return Instance(
        of.name(0),
        [
            ("sealed record", by("seal_book"), record),
            ("another encrypted identity", ALTERED, other),
            (f"{field('identity')} of the first", by("open_book"), _identity(first)),
            (f"{field('identity')} of the other", by("open_book"), _identity(second)),
            ("either opens to", by("open_book"), of.body(first.kind, body_of(first))),
        ],
    )


@shows("wrong-c")
def wrong_c(of: Maker) -> Instance:
    """The book under a ring with another C."""
    ring = of.ring._replace(c=changed(of.ring.c, 0))
    right, wrong = of.open_book(of.sealed), of.open_book(of.sealed, ring)
    pairs = list(zip(split(right, PLAIN), split(wrong, PLAIN)))
    hold(len(pairs) == len(of.records))
    hold(all(a[:1] + a[4:] == b[:1] + b[4:] for a, b in pairs))
    alike = f"{len(pairs)} of {len(of.records)}"
    return Instance(
        "the whole book",
        [
            (f"another {both('C')}", ALTERED, ring.c),
            ("entry 0 under the ring", by("open_book"), pairs[0][0]),
            ("entry 0 under the ring with that C", by("open_book"), pairs[0][1]),
            ("records that open, to the same but for the identity", COUNTED, alike),
        ],
    )


@shows("texts-exchanged")
def texts_exchanged(of: Maker) -> Instance:
    """Two records of a kind and version, with their texts exchanged."""
    pairs = [
        (i, j)
        for j, two in enumerate(of.entries)
        for i, one in enumerate(of.entries[:j])
        if (one.kind, one.version) == (two.kind, two.version)
    ]
    if pairs:
        names = f"entries {pairs[0][0]} and {pairs[0][1]}"
        one, two = (of.entries[index] for index in pairs[0])
    else:
        one = of.entries[0]
        two = one._replace(identity=one.identity ^ 1, key=one.key[::-1])
        names = "entry 0, and the same with another identity and its key reversed"
    made = split(of.seal_book(one.data + two.data), SEALED)
    crossed = [made[0][:6] + made[1][6:], made[1][:6] + made[0][6:]]
    opened = [Entry.of(record) for record in split(of.open_book(b"".join(crossed)), PLAIN)]
    for entry, own, other in zip(opened, (one, two), (two, one)):
        hold(entry.identity == own.identity and entry[3:] == other[3:])
    rows: list[Row] = []
    for record, entry in zip(crossed, opened):
        said = f"{field('identity')} {entry.identity:06x}, {of.body(entry.kind, body_of(entry))}"
        rows.append(("record with the other's text", ALTERED, record))
        rows.append(("opens to", by("open_book"), Code(said)))
    return Instance(names, rows)


@shows("kind-byte-protected")
def kind_byte(of: Maker) -> Instance:
    """A record of kind 3 or 4 with the other kind byte."""
    index = of.first(3, 4)
    if index is None:
        entry, source = of.like(3), "an entry of kind 3 with entry 0's identity, version and key"
    else:
        entry, source = of.entries[index], of.name(index)
    record = of.seal_book(entry.data)
    other = changed(record, 0, 3 ^ 4)
    first, second = of.open_book(record), of.open_book(other)
    hold(first[1:] == second[1:] and (first[0], second[0]) == (record[0], other[0]))
    return Instance(
        source,
        [
            ("sealed record", by("seal_book"), record),
            ("opens to", by("open_book"), first),
            (f"with kind byte {other[0]:02x}", ALTERED, other),
            ("opens to", by("open_book"), second),
        ],
    )


# ---- books


@shows("one-book")
def one_book(of: Maker) -> Instance:
    """The book, opened and sealed."""
    plain = of.open_book(of.sealed)
    again = of.seal_book(plain)
    hold(plain == of.plain and again == of.sealed)
    return Instance(
        f"the book of this sitting, entries {len(of.entries)}",
        [
            ("opened", by("open_book"), f"{len(plain):,} bytes: the model book"),
            ("sealed again", by("seal_book"), f"{len(again):,} bytes: the sealed book"),
        ],
    )


def _two(of: Maker) -> tuple[str, bytes]:
    """The sealed book; of one record, with another after it."""
    if len(of.records) > 1:
        return f"the book of this sitting, entries {len(of.records)}", of.sealed
    entry = of.entries[0]
    other = entry._replace(identity=entry.identity ^ 1, key=entry.key[::-1])
    source = "entry 0, and the same with another identity and its key reversed"
    return source, of.seal_book(entry.data + other.data)


@shows("within-a-book")
def within_a_book(of: Maker) -> Instance:
    """The last record by itself, and in the book."""
    source, sealed = _two(of)
    record = sealed[-SEALED:]
    alone, within = of.open_book(record), of.open_book(sealed)[-PLAIN:]
    hold(alone == within)
    return Instance(
        f"{source}: the last",
        [
            ("sealed record", by("seal_book"), record),
            ("opened alone", by("open_book"), alone),
            ("opened in the book", by("open_book"), within),
        ],
    )


@shows("spoils-only-itself")
def spoiled(of: Maker) -> Instance:
    """A book with a record that does not open."""
    source, sealed = _two(of)
    key, data, _ = of.core(of.entries[0])
    bad = sealed[:6] + of.text_of(key, changed(data, 14))
    rest = split(sealed, SEALED)[1:]
    said = ""
    try:
        of.open_book(bad + b"".join(rest))
    except Refused as refused:
        hold(refused.index == 0)
        said = f"{refused}, nothing written"
    hold(said != "")
    opening = sum(len(of.open_book(record)) == PLAIN for record in rest)
    hold(opening == len(rest))
    return Instance(
        f"{source}: its first record's last inserted byte ⊕ 01",
        [
            ("that record", WORKING, bad),
            ("the whole book", by("open_book"), said),
            ("other records that open by themselves", COUNTED, f"{opening} of {len(rest)}"),
        ],
    )


def _arranged(of: Maker, what: str, order: Sequence[int], source: str, sealed: bytes) -> Instance:
    """A book of these records of another, which opens to those entries."""
    records, plains = split(sealed, SEALED), split(of.open_book(sealed), PLAIN)
    made = b"".join(records[index] for index in order)
    opened = of.open_book(made)
    hold(opened == b"".join(plains[index] for index in order) and made != sealed)
    first = [[plain[1:4] for plain in each[:4]] for each in (plains, split(opened, PLAIN))]
    named = f"first {field('identity')}s of its entries"
    after = f"to {len(opened) // PLAIN} entries, the same in that order"
    return Instance(
        source,
        [
            ("the book opens", by("open_book"), f"to {len(plains)} entries"),
            (named, by("open_book"), tuple(first[0])),
            (f"{what} it opens", by("open_book"), after),
            (named, by("open_book"), tuple(first[1])),
        ],
    )


@shows("missing")
def missing(of: Maker) -> Instance:
    """The book without its first record."""
    source, sealed = _two(of)
    return _arranged(of, "without record 0", range(1, len(sealed) // SEALED), source, sealed)


@shows("doubled")
def doubled(of: Maker) -> Instance:
    """The book with its first record twice; the first records of one that is full."""
    source, sealed = _two(of)
    if len(sealed) == MOST_RECORDS * SEALED:
        source, sealed = "entries 0 and 1 of this sitting's book", sealed[: 2 * SEALED]
    order = [0, *range(len(sealed) // SEALED)]
    return _arranged(of, "with record 0 twice", order, source, sealed)


@shows("reordered")
def reordered(of: Maker) -> Instance:
    """The book with its first two different records exchanged."""
    source, sealed = _two(of)
    records = split(sealed, SEALED)
    at = next((at for at, record in enumerate(records) if record != records[0]), None)
    if at is None:
        entry = of.entries[0]
        other = entry._replace(identity=entry.identity ^ 1)
        source, at = "entry 0, and the same with another identity", 1
        sealed = of.seal_book(entry.data + other.data)
        records = split(sealed, SEALED)
    order = list(range(len(records)))
    order[0], order[at] = at, 0
    return _arranged(of, f"with records 0 and {at} exchanged", order, source, sealed)


# ---- marking by equal records


def equal_records(hand_in: Sequence[bytes], model: Sequence[bytes]) -> int:
    """How many records of a hand-in are the model's, none counted twice."""
    return sum((Counter(hand_in) & Counter(model)).values())


def _count(name: str, hand_in: Sequence[bytes], model: Sequence[bytes]) -> Row:
    return (name, COUNTED, f"{equal_records(hand_in, model)} of {len(model)}")


def _hand_in(of: Maker) -> list[bytes]:
    """The sealed book backwards, the text of its record 0 wrong in one byte."""
    return [*of.records[:0:-1], changed(of.records[0], SEALED - 1)]


@shows("equal-records")
def most_equal(of: Maker) -> Instance:
    """A hand-in in another order, counted so and by places."""
    hand_in, model = _hand_in(of), of.records
    by_place = sum(a == b for a, b in zip(hand_in, model))
    hold(by_place <= equal_records(hand_in, model))
    return Instance(
        "a hand-in: the sealed book backwards, the last byte of its entry 0's record ⊕ 01",
        [
            ("the model's record of entry 0", by("seal_book"), model[0]),
            ("the hand-in's", ALTERED, hand_in[-1]),
            _count("records that are the model's", hand_in, model),
            ("if each counted in its own place alone", COUNTED, f"{by_place} of {len(model)}"),
        ],
    )


@shows("order-of-books")
def order_of_books(of: Maker) -> Instance:
    """The same hand-in with either book the other way round."""
    hand_in, model = _hand_in(of), of.records
    rows = [
        _count("as they are", hand_in, model),
        _count("the hand-in the other way round", hand_in[::-1], model),
        _count("the model the other way round", hand_in, model[::-1]),
        _count("both", hand_in[::-1], model[::-1]),
    ]
    hold(len({row[2] for row in rows}) == 1)
    return Instance("the same hand-in", rows)


@shows("copies-beyond")
def copies_beyond(of: Maker) -> Instance:
    """The sealed book with copies of a record after it."""
    model = of.records
    longer = [*model, *[model[0]] * 3]
    rows = [_count("the sealed book", model, model)]
    rows.append(_count("with three more copies", longer, model))
    hold(rows[0][2] == rows[1][2])
    rows.append(("records over", COUNTED, len(longer) - equal_records(longer, model)))
    return Instance("a hand-in: the sealed book, and record 0 three times more", rows)


@shows("all-right")
def all_right(of: Maker) -> Instance:
    """The sealed book backwards, and what it opens to."""
    hand_in = of.records[::-1]
    opened = of.open_book(b"".join(hand_in))
    hold(equal_records(hand_in, of.records) == len(of.records))
    hold(opened == b"".join(entry.data for entry in reversed(of.entries)))
    return Instance(
        "a hand-in: the sealed book backwards",
        [
            _count("records that are the model's", hand_in, of.records),
            ("records over", COUNTED, 0),
            ("opened", by("open_book"), "the model book backwards"),
        ],
    )
