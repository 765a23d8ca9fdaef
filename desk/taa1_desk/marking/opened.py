# SPDX-License-Identifier: MIT
"""Marks what candidates opened from a sealed book that was handed out.

A hand-in is lines, where `entry I flag` says that the flag of entry I is set, or a
plain book's bytes, which can't say it. An entry is right if it is what the engine
opens, or if its flag is set and the hand-in says so.
"""

from __future__ import annotations

from collections import defaultdict
from dataclasses import replace
from functools import partial
from typing import Any, Sequence

from taa1 import MOST_RECORDS, Refusal, Refused, Sitting

from ..engine import Engine, RefusedFile
from ..handed import HandIn
from ..problems import Problem, place
from ..reading.answers import FLAG, Answer
from ..records import KINDS, SEALED, Entry, Ring, split
from ..sheet import Difference, Explained, Flags, KeySheet, Marked, Marks, Wanted, differences
from ..words import failed_checks
from .explain import (
    IDENTITY,
    KEY,
    TEXT,
    Found,
    Part,
    Table,
    altered,
    exchanges,
    explained,
    joined,
    named,
    of_keys,
    under_own,
)
from .keys import NOT_AGREED, KeyMarker, own_keys
from .miscopied import miscopied_said
from .opened_reading import OpenedReader, Read, entry_of, state_of
from .slipped import open_under, work_opened
from .slipped import opened as worked_open
from .slips import EXCHANGED
from .trials import Opening
from .tried import Tried
from .unsealing import opened
from .working import Opened, Steps


class OpenedMarker:
    """Marks opened books beside what a sealed one opens to."""

    def __init__(self, engine: Engine, sitting: Sitting, ring: Ring, sealed: bytes, where: str) -> None:
        """Takes the sitting's ring. Opens the book, and under every slip, once.

        A flag that is set is no refusal here; any other refusal of opening is.
        """
        self.sealed = sealed
        records = split(sealed, SEALED)
        self._check(records, where)
        self.records, self.steps = records, Steps(engine)
        self.keys = KeyMarker(engine, sitting, ring)
        self.engine, self.truth = engine, [opened(engine, ring, record) for record in records]
        if list(worked_open(self.steps, ring, records)) != self.truth:
            raise Problem(NOT_AGREED)
        self.reader = OpenedReader(sealed, self.truth)
        self.table = Table()
        truth = [_parts(each) for each in self.truth]
        for worked in work_opened(engine, sitting, records):
            made = {index: _parts(each) for index, each in worked.opened.items()}
            self.table.add(worked.slip, altered(made, truth), worked.keys)
        self.tried = Tried(engine, sitting, self.keys.model, Opening(records, truth, _parts))

    def _check(self, records: list[bytes], where: str) -> None:
        bad = next((i for i, record in enumerate(records) if record[0] not in KINDS), 0)
        for number, refused in (
            (Refusal.BOOK_TOO_LONG, len(self.sealed) > MOST_RECORDS * SEALED),
            (Refusal.BOOK_NOT_WHOLE, len(self.sealed) % SEALED),
            (Refusal.WRONG_KIND, records and records[bad][0] not in KINDS),
        ):
            if refused:
                raise RefusedFile(where, Refused(number, bad if number == Refusal.WRONG_KIND else 0))
        if not records:
            raise Problem(f"{where}: no entry in it, so there is nothing to mark")

    @property
    def wanted(self) -> Wanted:
        """What is wanted of each entry."""
        return Wanted((), list(map(entry_of, self.truth)))

    @property
    def asked(self) -> Sequence[str]:
        """None: what was opened is asked for, and no keys."""
        return ()

    def no_hand_in(self, data: bytes) -> str:
        """What a text is that can be no hand-in; nothing, if it may be one."""
        return self.reader.no_hand_in(data)

    def mark(self, hand_in: HandIn) -> Marks:
        """The marks of a hand-in, and of keys that are handed in beside it."""
        name, data, file, form = hand_in
        keys = self.keys.mark(file) if file else KeySheet()
        size, kinds = len(self.truth), tuple(opened.kind for opened in self.truth)
        own = self._own(keys)
        try:
            if isinstance(data, Problem):
                raise ValueError(str(data).removeprefix(f"{place(name)}: "))
            read = self.reader.read(data, form, self._own_records(own))
        except (Problem, ValueError, SyntaxError) as error:
            problem = str(error).lstrip(", :")
            none = Flags((), (), (), (), ())
            slips = self._explain({}, keys)[0] if keys.wrong else ()
            return Marks(size, kinds, problem, missing=tuple(range(size)), slips=slips, keys=keys, flags=none)
        slips, borrowed = self._explain(read.answers, keys)
        names, follow = named(slips), self._following(read.answers, keys, own)
        flags = self._flags(read)
        return Marks(
            size,
            kinds,
            entries=tuple(
                replace(
                    self._marked(index, answer),
                    slip=names.get(index),
                    borrowed=tuple(borrowed.get(index, {}).items()),
                    follows=follow.get(index, ""),
                )
                for index, answer in sorted(read.answers.items())
            ),
            missing=tuple(
                index
                for index in range(size)
                if index not in read.answers and index not in flags.unsaid
            ),
            slips=slips,
            keys=keys,
            read_as=read.how,
            again=read.extra,
            problems=(*read.problems, *(self.reader.other_shows(data, form, read) if form else ())),
            flags=flags,
            blank=file.blank if file else (),
        )

    def _explain(
        self, answers: dict[int, Answer], keys: KeySheet
    ) -> tuple[tuple[Explained, ...], dict[int, dict[str, int]]]:
        """The slips that give what is wrong; and for each entry the fields that are another
        one's, and whose."""
        wrong: dict[Part, Any] = {}
        right: list[Part] = []
        for index, answer in answers.items():
            truth, said = _parts(self.truth[index]), _said(answer)
            state = state_of(self.truth[index], answer)
            right += [(index, p) for p in said if state == "right" or said[p] == truth[p]]
            if state == "wrong":
                wrong.update({(index, p): v for p, v in said.items() if v != truth[p]})
        entries = set(wrong)
        wrong.update({(KEY, name): value for name, value in keys.wrong.items()})
        right += of_keys(keys.worked_rightly)
        fixed = of_keys(keys.right)
        invented = {part for part, value in wrong.items() if part[1] == FLAG and value}
        found = self.table.explain(wrong, right, invented, fixed)
        found = self.tried.more(found, wrong, right, invented, fixed)
        rest = set(wrong).difference(*(each.parts for each in found))
        own = self._explain_own(keys, {part: wrong[part] for part in rest}, invented)
        left = rest.difference(*(each.parts for each in own))
        others, borrowed = self._exchanged(answers, left & entries)
        at = {index: index for index in answers}
        worded = partial(explained, wrong=entries, at=at, step=self._step)
        slips = [worded(each)._replace(own=own_) for each, own_ in joined(found, own)]
        slips += [worded(each) for each in others]
        under = self.keys.explain(keys, rest)
        slips += [worded(each)._replace(own=True) for each in under]
        return tuple(slips), borrowed

    def _step(self, found: Found) -> tuple[str, str]:
        """The step at which a slip happens, and its clause, by the entries that show it."""
        places = {index for index, _ in found.parts if index != KEY}
        unseals = {KINDS[self.truth[index].kind].unseal.upper() for index in places}
        return found.slip.step_in(self.keys.sitting.sides, unseals)

    def _explain_own(
        self, keys: KeySheet, wrong: dict[Part, Any], invented: set[Part]
    ) -> list[Found]:
        """The slips that give wrong entries under the candidate's own keys."""
        model = self.keys.ring
        mine = {
            index: self.records[index]
            for index in sorted({index for index, _ in wrong if index != KEY})
            if keys.ring and own_keys(self.truth[index].kind, keys.ring, model)
        }
        if keys.ring is None or not mine:
            return []
        made = (
            (slip, {(i, p): v for i, each in opens.items() for p, v in _parts(each).items()})
            for slip, opens in open_under(self.engine, keys.ring, mine)
        )
        return under_own(
            made, {part: value for part, value in wrong.items() if part[0] in mine}, invented
        )

    def _own(self, keys: KeySheet) -> list[Opened]:
        """What the records open to under the candidate's own keys; nothing, without such."""
        return [opened(self.engine, keys.ring, record) for record in self.records] if keys.ring else []

    def _own_records(self, own: Sequence[Opened]) -> dict[bytes, list[int]]:
        """By plain records, the entries that open to these under the candidate's own keys, and
        not under the model's."""
        made: dict[bytes, list[int]] = defaultdict(list)
        for index, (has, truth) in enumerate(zip(own, self.truth)):
            if has != truth:
                made[entry_of(has).data].append(index)
        return made

    def _following(
        self, answers: dict[int, Answer], keys: KeySheet, own: Sequence[Opened]
    ) -> dict[int, str]:
        """The wrong entries that are right under the candidate's own keys, and which."""
        return {
            index: own_keys(self.truth[index].kind, keys.ring, self.keys.ring)
            for index, answer in answers.items()
            if keys.ring
            and own[index] != self.truth[index]
            and state_of(self.truth[index], answer) == "wrong"
            and state_of(own[index], answer) == "right"
        }

    def _exchanged(
        self, answers: dict[int, Answer], rest: set[Part]
    ) -> tuple[list[Found], dict[int, dict[str, int]]]:
        """Fields that are another entry's, where no slip explains them and nothing else is
        wrong beside them."""
        alone: dict[tuple[int, str], Any] = {}
        for index in {index for index, _ in rest}:
            entry = answers[index].entry
            wrong = differences(entry, entry_of(self.truth[index])) if entry else ()
            if entry and len(wrong) == 1 and wrong[0].field in EXCHANGED:
                alone[index, wrong[0].field] = getattr(entry, wrong[0].field)
        owners: dict[tuple[str, Any], list[int]] = defaultdict(list)
        for index, truth in enumerate(self.truth):
            for field in EXCHANGED.keys() & set(Entry._fields):
                owners[field, getattr(truth, field)].append(index)
        return exchanges(alone, owners)

    def _flags(self, read: Read) -> Flags:
        """Flags that are set, missed, invented, left out, and that the hand-in can't say."""
        truth = [index for index, opened in enumerate(self.truth) if opened.failed]
        said = {index: answer.flag for index, answer in read.answers.items()}
        return Flags(
            tuple(truth),
            tuple(index for index in truth if said.get(index) is False),
            tuple(index for index, flag in sorted(said.items()) if flag and index not in truth),
            tuple(index for index in truth if not read.in_bytes and said.get(index) is None),
            tuple(index for index in truth if read.in_bytes),
        )

    def _marked(self, index: int, answer: Answer) -> Marked:
        """What is right or wrong with an entry."""
        truth, state = self.truth[index], state_of(self.truth[index], answer)
        note, differ = "", ()  # type: tuple[str, tuple[Difference, ...]]
        if state == "unsaid":
            note = "the flag is set, which bytes can't say"
        elif state == "wrong" and truth.failed and answer.flag is False:
            note = f"flag missed: {failed_checks(truth.kind, _bits(truth.failed))}"
        elif state == "wrong" and answer.problem:
            note = answer.problem
        elif state == "wrong" and answer.flag:
            note = "flag invented"
        elif state == "wrong" and answer.entry:
            differ = differences(answer.entry, entry_of(truth))
            note = miscopied_said((d.field, d.has, d.wants) for d in differ)
        record = answer.entry.data if answer.entry else b""
        return Marked(index, state, index, differences=differ, note=note, record=record)


def _bits(failed: int) -> tuple[int, ...]:
    return tuple(bit for bit in range(failed.bit_length()) if failed >> bit & 1)


def _parts(opened: Opened) -> dict[str, Any]:
    """The parts of an opened entry that slips explain apart."""
    text = (opened.kind, opened.version, opened.key, opened.number)
    return {IDENTITY: opened.identity, TEXT: text, FLAG: bool(opened.failed)}


def _said(answer: Answer) -> dict[str, Any]:
    """Those of them that an answer says."""
    said: dict[str, Any] = {}
    if answer.entry:
        said = _parts(Opened(*answer.entry, 0))
    said[FLAG] = answer.flag
    if answer.flag is None:
        del said[FLAG]
    return said
