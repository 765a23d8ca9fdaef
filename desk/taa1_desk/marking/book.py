# SPDX-License-Identifier: MIT
"""Marks a candidate's sealed book beside the model, entry by entry.

A sealed book is right exactly if its records are the model's, in any order: the
order is reported. A record that is none of the model's is unsealed by the engine
and compared with the model's entry that it is most like, and the table of slips is
searched for those that give exactly its bytes, the identity's and the others apart.
"""

from __future__ import annotations

from collections import Counter, defaultdict
from functools import partial
from typing import Iterable, NamedTuple, Optional

from taa1 import Refused

from ..engine import Engine
from ..problems import Problem
from ..records import KINDS, PLAIN, SEALED, Entry, split
from ..sheet import Difference, Explained, KeySheet, Marked, Opened, differences
from .explain import (
    IDENTITY,
    KEY,
    TEXT,
    Found,
    Part,
    Table,
    altered,
    exchanges,
    explained,
    joined,
    named,
    of_keys,
    under_own,
)
from .keys import NOT_AGREED, KeyMarker, own_keys
from .miscopied import miscopied_said
from .pairing import Pairs, out_of_order, pair
from .slipped import work, work_under
from .trials import Sealing
from .tried import Tried, Versions
from .unsealing import said_by
from .working import Steps

MOST_SOUGHT = 16  # texts of a hand-in that are tried with other entries' versions
FIELDS = {"identity": slice(1, 4), "version": slice(4, 6), "text": slice(6, SEALED)}


def text_of(record: bytes) -> bytes:
    """A record without its identity."""
    return record[:1] + record[4:]


def parts_of(record: bytes) -> dict[str, bytes]:
    """The parts of a record that slips explain apart: the text with its kind and version."""
    return {IDENTITY: record[1:4], TEXT: text_of(record)}


class BookMarks(NamedTuple):
    """What is found of a book."""

    entries: tuple[Marked, ...]
    missing: tuple[int, ...]
    slips: tuple[Explained, ...]
    refused: Optional[Refused]  # why the book does not open
    left: int  # bytes after the last whole record


class BookMarker:
    """Marks the records of books beside one model."""

    def __init__(self, engine: Engine, keys: KeyMarker, plain: bytes) -> None:
        """Takes what marks the sitting's keys. Works the model, and every slip, once."""
        ring = keys.ring
        self.engine, self.ring, self.keys, self.plain = engine, ring, keys, plain
        self.entries = [Entry.of(record) for record in split(plain, PLAIN)]
        sealed = engine.call("seal_book", self.ring.data, plain)["out"]
        self.model = split(sealed, SEALED)
        steps = Steps(engine)
        strings = steps.k_strings(ring.c)
        if sealed != b"".join(steps.sealed(entry, ring, strings) for entry in self.entries):
            raise Problem(NOT_AGREED)  # the slips are that working, altered
        self.parts = [parts_of(record) for record in self.model]
        self.places: dict[bytes, list[int]] = defaultdict(list)  # of whole records
        # by bytes that stand in records, the entries of the model that they are signs of
        self.signs: dict[bytes, set[int]] = defaultdict(set)
        self.heads: dict[bytes, set[int]] = defaultdict(set)
        self.fields: dict[tuple[str, bytes], list[int]] = defaultdict(list)
        for place, (record, entry) in enumerate(zip(self.model, self.entries)):
            self.places[record].append(place)
            self.heads[record[:6]].add(place)
            self.fields["key", entry.key].append(place)
            for field, at in FIELDS.items():
                self.fields[field, record[at]].append(place)
            self.fields["version in sealing", record[4:6]].append(place)
            for value in (record[1:4], record[6:], entry.key):
                self.signs[value].add(place)
        self.table = Table()
        for worked in work(engine, keys.sitting, plain):
            made = {place: parts_of(record) for place, record in worked.records.items()}
            wrong = altered(made, self.parts)
            self.table.add(worked.slip, wrong, worked.keys)
            for (place, _), value in wrong.items():
                self.signs[value].add(place)
        self.tried = Tried(engine, keys.sitting, keys.model, Sealing(self.entries, self.parts, parts_of))
        self.versions = Versions(engine, ring, self.entries)
        self.known: dict[bytes, Opened] = {}

    def marked(self, book: bytes, keys: KeySheet) -> BookMarks:
        """A book's records, marked, beside keys that are marked already."""
        records = split(book, SEALED)
        pairs = pair(records, self.model, self.places, self._own(keys), self)
        refused: Optional[Refused] = None
        try:
            self.engine.call("open_book", self.ring.data, book)
        except Refused as error:
            refused = error
        moved = out_of_order(pairs.certain)
        slips, borrowed = self._explain(records, pairs.entries, keys)
        names = named(slips)
        entries = []
        for index, record in enumerate(records):
            model = pairs.entries.get(index)
            if model is not None and record == self.model[model]:
                entries.append(Marked(index, "right", model, index in moved, record=record))
                continue
            opened = self._open(record)
            differ = () if model is None else differences(opened, self.entries[model])
            entries.append(
                Marked(
                    index,
                    *_state(pairs, index),
                    index in moved,
                    opened,
                    differ,
                    names.get(index),
                    tuple(borrowed.get(index, {}).items()),
                    note="" if index in names or model is None else self._miscopied(record, model, differ),
                    record=record,
                    follows=self._follows(record, keys) if index in pairs.following else "",
                )
            )
        missing = sorted(set(range(len(self.model))) - set(pairs.entries.values()))
        return BookMarks(tuple(entries), tuple(missing), slips, refused, len(book) % SEALED)

    def of_keys_alone(self, keys: KeySheet) -> tuple[Explained, ...]:
        """The slips that give wrong keys, where no book is marked beside them."""
        return self._explain([], {}, keys)[0] if keys.wrong else ()

    def _follows(self, record: bytes, keys: KeySheet) -> str:
        """Which of the candidate's own keys make a record."""
        return own_keys(record[0], keys.ring, self.ring) if keys.ring else ""

    def _own(self, keys: KeySheet) -> dict[bytes, list[int]]:
        """The records that the engine seals under the candidate's own keys, where these make
        others than the model's, and the entries that they are."""
        own: dict[bytes, list[int]] = defaultdict(list)
        if keys.ring is not None:
            sealed = split(self.engine.call("seal_book", keys.ring.data, self.plain)["out"], SEALED)
            for place, (record, right) in enumerate(zip(sealed, self.model)):
                if record != right:
                    own[record].append(place)
        return own

    # ---- what a record says

    def _open(self, record: bytes) -> Opened:
        """What a record says under the model's ring."""
        if record not in self.known:
            self.known[record] = said_by(self.engine, self.ring, record)
        return self.known[record]

    def signs_of(self, record: bytes) -> dict[int, int]:
        """The entries that a record shows signs of, and their weight. An identity weighs
        more than a text: who exchanges two texts writes each after the other's."""
        weights: Counter[int] = Counter()
        parts = parts_of(record)
        key = self._open(record).key
        for value, weight in ((parts[IDENTITY], 3), (parts[TEXT], 2), (record[6:], 2), (key, 1)):
            for place in self.signs.get(value, ()) if value else ():
                weights[place] += 2 * weight
        for place in weights:
            weights[place] += self.alike(record, place)
        return weights

    def alike(self, record: bytes, place: int) -> int:
        """Whether a record shows an entry's kind, and its version."""
        model = self.model[place]
        return (record[0] == model[0]) + (record[4:6] == model[4:6])

    def head(self, record: bytes) -> set[int]:
        """The entries whose kind, encrypted identity and version a record has."""
        return self.heads.get(record[:6], set())

    def repeats(self, record: bytes) -> set[int]:
        """The entries whose right text or key a record has."""
        key = self._open(record).key
        places = {*self.fields.get(("text", record[6:]), ())}
        return places.union(self.fields.get(("key", key), ()) if key else ())

    def tells(self, record: bytes) -> set[int]:
        """The entries whose encrypted identity, text or key a record has."""
        return self.repeats(record).union(self.fields.get(("identity", record[1:4]), ()))

    # ---- what explains it

    def _explain(
        self, records: list[bytes], pairs: dict[int, int], keys: KeySheet
    ) -> tuple[tuple[Explained, ...], dict[int, dict[str, int]]]:
        """The slips that give the wrong entries; and for each entry the fields that are
        another one's, and whose."""
        wrong: dict[Part, bytes] = {}
        right: list[Part] = []
        at = {place: index for index, place in pairs.items()}
        for index, place in pairs.items():
            for part, value in parts_of(records[index]).items():
                if value == self.parts[place][part]:
                    right.append((place, part))
                else:
                    wrong[place, part] = value
        entries = set(wrong)
        wrong.update({(KEY, name): value for name, value in keys.wrong.items()})
        right += of_keys(keys.worked_rightly)
        fixed = of_keys(keys.right)
        found = self.table.explain(wrong, right, fixed=fixed)
        found = self.tried.more(found, wrong, right, fixed=fixed)
        rest = set(wrong).difference(*(each.parts for each in found))
        under = self.keys.explain(keys, rest)
        own = self._explain_own(keys, {part: wrong[part] for part in rest})
        rest = rest.difference(*(each.parts for each in own))
        alone = {
            (place, field): value
            for place in {place for place, _ in rest if place != KEY}
            for field, value in self._wrong_alone(records[at[place]], place).items()
            if (place, IDENTITY if field == IDENTITY else TEXT) in rest
        }
        for place in sorted({place for place, part in rest if part == TEXT})[:MOST_SOUGHT]:
            record = records[at[place]]
            version = self.versions.version(place, record[6:]) if self.alike(record, place) == 2 else None
            if version is not None:
                alone[place, "version in sealing"] = version
        others, borrowed = exchanges(alone, self.fields)
        said = partial(explained, wrong=entries, at=at, step=self._step)
        slips = [said(each)._replace(own=own_) for each, own_ in joined(found, own)]
        slips += [said(each) for each in others]
        slips += [said(each)._replace(own=True) for each in under]
        return tuple(slips), {at[place]: fields for place, fields in borrowed.items()}

    def _step(self, found: Found) -> tuple[str, str]:
        """The step at which a slip happens, and its clause, by the entries that show it."""
        places = {place for place, _ in found.parts if place != KEY}
        seals = {KINDS[self.entries[place].kind].seal.upper() for place in places}
        return found.slip.step_in(self.keys.sitting.sides, seals)

    def _explain_own(self, keys: KeySheet, wrong: dict[Part, bytes]) -> list[Found]:
        """The slips that give wrong entries under the candidate's own keys."""
        places = {place for place, _ in wrong if place != KEY}
        mine = {
            place: self.entries[place]
            for place in sorted(places)
            if keys.ring and own_keys(self.entries[place].kind, keys.ring, self.ring)
        }
        if keys.ring is None or not mine:
            return []
        made = (
            (slip, {(i, p): v for i, record in sealed.items() for p, v in parts_of(record).items()})
            for slip, sealed in work_under(self.engine, keys.ring, mine)
        )
        return under_own(made, {part: value for part, value in wrong.items() if part[0] in mine})

    def _miscopied(self, record: bytes, place: int, differ: Iterable[Difference]) -> str:
        """Digits of a record that were miscopied, of what it says or of its bytes."""
        model = self.model[place]
        values = [(d.field, d.has, d.wants) for d in differ]
        values.append(("encrypted identity", record[1:4].hex(), model[1:4].hex()))
        values.append(("text", record[6:].hex(), model[6:].hex()))
        return miscopied_said(values)

    def _wrong_alone(self, record: bytes, place: int) -> dict[str, bytes]:
        """The fields of a record that are wrong with nothing else wrong in their part."""
        model, fields = self.model[place], {}
        for field, at in FIELDS.items():
            mended = record[: at.start] + model[at] + record[at.stop :]
            part = IDENTITY if field == IDENTITY else TEXT
            if mended != record and parts_of(mended)[part] == self.parts[place][part]:
                fields[field] = record[at]
        opened = self._open(record)
        wrong = {d.field for d in differences(opened, self.entries[place])} - {IDENTITY}
        if opened.key and wrong == {"key"}:
            fields["key"] = opened.key
        if opened.key and wrong == {"version"}:  # the text is sealed with it
            fields["version"] = record[FIELDS["version"]]
        return fields


def _state(pairs: Pairs, index: int) -> tuple[str, Optional[int]]:
    """The state of a record that is not right, and the entry that it is about."""
    if index in pairs.entries:
        return "wrong", pairs.entries[index]
    if index in pairs.again:
        return "doubled", pairs.again[index]
    if index in pairs.attempts:
        return "further", pairs.attempts[index]
    return "extra", None
