# SPDX-License-Identifier: MIT
"""What each slip makes of a model: keys, sealed records, and what these open to."""

from __future__ import annotations

from typing import Iterator, Mapping, NamedTuple, Optional

from taa1 import Sitting

from ..engine import Engine
from ..records import PLAIN, SEALED, Entry, Ring, split
from .opening_slips import OPENING_SLIPS, OPEN_STEPS
from .slip import Slip
from .slips import SLIPS, slips_of
from .working import Keys, Opened, Steps, ring_of


class Worked(NamedTuple):
    """What a slip makes of the model: the keys and, by their entries, the records that differ."""

    slip: Slip
    keys: Keys
    records: dict[int, bytes]


class WorkedOpened(NamedTuple):
    """What a slip makes of the keys and, by their entries, of what sealed records open to."""

    slip: Slip
    keys: Keys
    opened: dict[int, Opened]


def work(engine: Engine, sitting: Sitting, plain: bytes) -> Iterator[Worked]:
    """The model's keys and sealed records under each slip, where they differ from the model.

    A slip whose key has another length than the ring's makes no book, as with exchanged
    masks; an entry with which a slip can't be made stays as it was. One in some algorithms
    alone that gives what it gives everywhere, as where one side runs, is left out.
    """
    whole: dict[str, Worked] = {}
    entries = [Entry.of(record) for record in split(plain, PLAIN)]
    keys = Steps(engine).keys(sitting)
    ring = ring_of(keys)
    model = split(engine.call("seal_book", ring.data, plain)["out"], SEALED)
    for slip in slips_of(sitting):
        steps = Steps(engine, slip.altered)
        made = steps.keys(sitting)
        under = ring_of(made)
        if list(map(len, under)) != list(map(len, ring)):
            records = model
        elif not slip.in_keys_alone:
            records = _sealed(steps, under, entries, model)
        elif under != ring:
            records = split(engine.call("seal_book", under.data, plain)["out"], SEALED)
        else:
            records = model
        worked = Worked(
            slip,
            {name: value for name, value in made.items() if value != keys[name]},
            {i: made for i, (made, right) in enumerate(zip(records, model)) if made != right},
        )
        if not slip.family:
            whole[slip.name] = worked
        if not slip.family or worked[1:] != whole[slip.family][1:]:
            yield worked


def _sealed(steps: Steps, ring: Ring, entries: list[Entry], model: list[bytes]) -> list[bytes]:
    """The records under altered steps; the model's where they can't be made."""
    strings = steps.k_strings(ring.c)
    records = []
    for entry, right in zip(entries, model):
        try:
            records.append(steps.sealed(entry, ring, strings))
        except (ValueError, OverflowError):  # a number too wide for its byte or bytes
            records.append(right)
    return records


def work_under(
    engine: Engine, ring: Ring, entries: Mapping[int, Entry]
) -> Iterator[tuple[Optional[Slip], dict[int, bytes]]]:
    """Sealed records of entries under a candidate's own ring: without a slip, then with
    each that alters more than keys."""
    right = _sealed(Steps(engine), ring, list(entries.values()), [b""] * len(entries))
    yield None, dict(zip(entries, right))
    for slip in SLIPS:
        if not slip.in_keys_alone:
            made = _sealed(Steps(engine, slip.altered), ring, list(entries.values()), right)
            yield slip, dict(zip(entries, made))


def open_under(
    engine: Engine, ring: Ring, sealed: Mapping[int, bytes]
) -> Iterator[tuple[Optional[Slip], dict[int, Opened]]]:
    """What sealed records open to under a candidate's own ring: without a slip, then with
    each that alters more than keys."""
    yield None, dict(zip(sealed, opened(Steps(engine), ring, list(sealed.values()))))
    for slip in (*SLIPS, *OPENING_SLIPS):
        if not slip.in_keys_alone and OPEN_STEPS & set(slip.altered):
            made = opened(Steps(engine, slip.altered), ring, list(sealed.values()))
            yield slip, dict(zip(sealed, made))


def work_opened(engine: Engine, sitting: Sitting, sealed: list[bytes]) -> Iterator[WorkedOpened]:
    """What sealed records open to under each slip, where that differs from what they do. One in
    some algorithms alone that gives what it gives everywhere is left out."""
    whole: dict[str, WorkedOpened] = {}
    right = Steps(engine)
    keys = right.keys(sitting)
    ring = ring_of(keys)
    truth = opened(right, ring, sealed)
    for slip in (*slips_of(sitting), *OPENING_SLIPS):
        steps = Steps(engine, slip.altered)
        made = steps.keys(sitting)
        under, records = ring_of(made), truth
        same = under == ring and not OPEN_STEPS & set(slip.altered)
        if not same and list(map(len, under)) == list(map(len, ring)):
            records = opened(steps, under, sealed)
        worked = WorkedOpened(
            slip,
            {name: value for name, value in made.items() if value != keys[name]},
            {i: o for i, (o, t) in enumerate(zip(records, truth)) if o != t},
        )
        if not slip.family:
            whole[slip.name] = worked
        if not slip.family or worked[1:] != whole[slip.family][1:]:
            yield worked


def opened(steps: Steps, ring: Ring, sealed: list[bytes]) -> list[Opened]:
    """What sealed records open to."""
    strings = steps.k_strings(ring.c)
    return [steps.opened(record, ring, strings) for record in sealed]
