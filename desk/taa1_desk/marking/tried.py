# SPDX-License-Identifier: MIT
"""Looks slips up that are tried only where the table of slips leaves something without a name.

They are many (`trials`), so one part of a hand-in that nothing explains is looked up first, a
sign; a slip that gives it is worked for the whole book, once for a class.
"""

from __future__ import annotations

from collections import Counter, defaultdict
from typing import Any, Collection, Iterable, Mapping, Optional, Sequence

from taa1 import Sitting

from ..engine import Engine
from ..problems import Problem
from ..records import KINDS, Entry, Ring
from .cipher_slips import CIPHER_SLIPS
from .cipher_tables import copied_wrongly
from .explain import IDENTITY, KEY, TEXT, Found, Part, Table
from .hurdle import agrees
from .trials import Trial, Work, cipher_trials, given_trials, rarer_trials, string_trials, taken_trials
from .working import Keys, ring_of

NOT_AGREED = "the cipher, step by step, is not what the engine answers: nothing is marked"
SIGNS = 2  # of identities, and of the texts under each key
MANY = 4  # a slip of a program shows in one of so many of the wrong parts that it alters
KEYS = "keys"  # the group of signs that are keys
CIPHER, GIVEN_VALUES, TABLES = "cipher", "given values", "tables"  # families of slips


class Tried:
    """The slips that are tried for one class."""

    def __init__(self, engine: Engine, sitting: Sitting, keys: Keys, work: Work) -> None:
        """Takes the model's keys, and what is worked of its entries. The cipher, step by step,
        has to be the engine's on some of the sitting's own bytes."""
        self.engine, self.sitting, self.keys, self.work = engine, sitting, keys, work
        ring = ring_of(keys)
        blocks = (sitting.rs, sitting.rso, sitting.rand1, sitting.rand2, sitting.c)
        pairs = [(key, block[:8]) for key in (sitting.root, ring.o, ring.g) for block in blocks]
        if not agrees(engine.host, pairs):
            raise Problem(NOT_AGREED)
        self._trials: dict[str, list[Trial]] = {}
        self._index: dict[tuple[str, Part], dict[Any, list[Trial]]] = {}
        self._given: dict[int, tuple[dict[Part, Any], dict[str, Any]]] = {}

    def trials(self, family: str) -> list[Trial]:
        """The slips of a family: inside the cipher and in TA61's strings; in what is given; in
        the cipher's tables, which are very many."""
        if family not in self._trials:
            if family == CIPHER:
                made = [trial for slip in CIPHER_SLIPS for trial in cipher_trials(slip, self.work.act)]
                self._trials[family] = [*string_trials(), *rarer_trials(), *made]
            elif family == GIVEN_VALUES:
                self._trials[family] = [*taken_trials(self.sitting), *given_trials(self.sitting)]
            else:
                self._trials[family] = [next(cipher_trials(slip)) for slip in copied_wrongly()]
        return self._trials[family]

    def _sealing_key(self, place: int) -> str:
        return KINDS[self.work.kinds[place]].sealing_key

    def _signs(self, wrong: Mapping[Part, Any], right: Iterable[Part]) -> list[Part]:
        """Of the parts that nothing explains, those that are looked up: all keys; and, unless
        more of them are right, some identities, and some texts under each key of the ring.
        No slip that is tried alters a kind or a version."""
        groups: dict[str, list[Part]] = defaultdict(list)
        for part in sorted(wrong, key=lambda each: (each[0], str(each[1]))):
            place, name = part
            if place == KEY:
                groups[KEYS].append(part)
            elif name in (IDENTITY, TEXT) and self._has_head(place, wrong):
                groups[IDENTITY if name == IDENTITY else self._sealing_key(place)].append(part)
        known = Counter(
            IDENTITY if name == IDENTITY else self._sealing_key(place)
            for place, name in right
            if place != KEY and name in (IDENTITY, TEXT)
        )
        made = groups.pop(KEYS, [])
        for group, parts in groups.items():
            made += parts[:SIGNS] if len(parts) >= known[group] else []
        return made

    def _has_head(self, place: int, wrong: Mapping[Part, Any]) -> bool:
        """Whether a record has the kind and version of its entry."""
        right = self.work.truth[place][TEXT]
        return bool(self.work.head(wrong.get((place, TEXT), right)) == self.work.head(right))

    def _looked_up(self, part: Part, value: Any, family: str) -> list[Trial]:
        """The slips that give a value for a part."""
        at = (family, part)
        if at not in self._index:
            index: dict[Any, list[Trial]] = defaultdict(list)
            for trial in self.trials(family):
                made = self._made(trial, part)
                if made is not None:
                    index[made].append(trial)
            self._index[at] = dict(index)
        return self._index[at].get(value, [])

    def _made(self, trial: Trial, part: Part) -> Any:
        """What a slip gives for a part; nothing where it gives what is right."""
        place, name = part
        engine, sitting, model = self.engine, self.sitting, self.keys
        if place == KEY:
            made = trial.keys(engine, sitting, model)[name] if trial.of_keys else None
            return None if made == model[name] else made
        identity = name == IDENTITY
        if identity and not trial.of_identities:
            return None
        if not identity and self._sealing_key(place) not in trial.of_texts:
            return None
        given = trial.parts(engine, sitting, model, self.work, place, identity)[name]
        return None if given == self.work.truth[place][name] else given

    def _all(self, trial: Trial) -> tuple[dict[Part, Any], dict[str, Any]]:
        """Every part of the book and every key that a slip alters."""
        if id(trial) not in self._given:
            keys = trial.keys(self.engine, self.sitting, self.keys)
            parts = {
                (place, name): made
                for place, truth in enumerate(self.work.truth)
                for name in truth
                for made in [self._made(trial, (place, name))]
                if made is not None
            }
            wrong = {name: value for name, value in keys.items() if value != self.keys[name]}
            self._given[id(trial)] = parts, wrong
        return self._given[id(trial)]

    def more(
        self,
        found: list[Found],
        wrong: Mapping[Part, Any],
        right: Iterable[Part],
        weak: Collection[Part] = (),
        fixed: Collection[Part] = (),
    ) -> list[Found]:
        """The slips that were found, and those that give parts which nothing explains, as
        `Table.explain` says; one identity that a slip gives by chance may be among these.
        Miscopied tables of the cipher are tried where none of these is found."""
        right, sure = list(right), [each for each in found if self._is_sure(each)]
        told = {part for each in sure for part in each.parts}
        rest = {part: value for part, value in wrong.items() if part not in told}
        if not rest:
            return found
        tried: list[Found] = []
        for family in (CIPHER, GIVEN_VALUES, TABLES):
            signs = self._signs(rest, right)
            if family == TABLES:
                signs = [] if tried or sure else self._of_tables(signs)
            taken = {part for each in tried for part in each.parts}
            left = {part: value for part, value in wrong.items() if part not in taken}
            tried += self._explained(signs, left, right, weak, fixed, family)
            told = {part for each in tried for part in each.parts}
            rest = {part: value for part, value in rest.items() if part not in told}
        return _merged(found, tried, {part for each in sure for part in each.parts})

    def _of_tables(self, signs: Sequence[Part]) -> list[Part]:
        """Signs that take one or two blocks: an identity, and a text under G, which is made
        without the cipher."""
        names = [part for part in signs if part[0] != KEY]
        identities = [part for part in names if part[1] == IDENTITY]
        texts = [part for part in names if part[1] == TEXT and self._sealing_key(part[0]) == "g"]
        return identities[:1] + texts[:1]

    def _explained(
        self,
        signs: Sequence[Part],
        wrong: Mapping[Part, Any],
        right: list[Part],
        weak: Collection[Part],
        fixed: Collection[Part],
        family: str,
    ) -> list[Found]:
        signed = {id(trial): trial for part in signs for trial in self._looked_up(part, wrong[part], family)}
        if not signed:
            return []
        table = Table()
        for trial in signed.values():
            table.add(trial.slip, *self._all(trial))
        found = table.explain(wrong, right, weak, fixed)
        alters = dict(zip((slip.name for slip in table.slips), table.alters))
        return [
            each
            for each in found
            if self._is_sure(each) and MANY * len(each.parts) >= len(alters[each.slip.name] & wrong.keys())
        ]

    def _is_sure(self, found: Found) -> bool:
        """Whether a slip explains more than one identity, which has three bytes alone."""
        return len(self.work.truth) == 1 or len(found.parts) > 1 or min(found.parts)[1] != IDENTITY


def _merged(found: list[Found], tried: list[Found], told: Collection[Part]) -> list[Found]:
    """Slips of the table and those that were tried. One of the table gives way to one that
    explains all that it does, and more; else it keeps its parts, unless they are not sure."""
    kept = [each for each in found if not any(each.parts < other.parts for other in tried)]
    sure = {part for each in kept for part in each.parts if part in told}
    made = [each._replace(parts=each.parts - sure) for each in tried]
    new = {part for each in made for part in each.parts}
    return [each for each in kept if not each.parts & new] + [each for each in made if each.parts]


class Versions:
    """Texts of the model's entries that were sealed with the version of another entry."""

    def __init__(self, engine: Engine, ring: Ring, entries: Sequence[Entry]) -> None:
        """Takes the sitting's ring and the model's entries."""
        self.engine, self.ring, self.entries = engine, ring, entries
        self._texts: dict[int, dict[bytes, int]] = {}

    def version(self, place: int, text: bytes) -> Optional[bytes]:
        """The version of another entry with which a text seals this entry, if there is one."""
        if place not in self._texts:
            self._texts[place] = self._sealed(self.entries[place])
        found = self._texts[place].get(text)
        return None if found is None else found.to_bytes(2, "big")

    def _sealed(self, entry: Entry) -> dict[bytes, int]:
        """An entry's text with each version of another entry, by the engine's calls."""
        kind = KINDS[entry.kind]
        number = () if entry.number is None else (entry.number,)
        under = getattr(self.ring, kind.sealing_key)
        versions = {other.version for other in self.entries} - {entry.version}
        return {
            self.engine.call(kind.seal, entry.key, version, under, *number)["bytes"]: version
            for version in sorted(versions)
        }
