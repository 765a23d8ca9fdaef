# SPDX-License-Identifier: MIT
"""The slips that are tried where the table of slips has no name, and what each makes of a model.

Each takes a cipher of its own or a sitting of its own: the slips inside the cipher, TA61's
strings made otherwise, and given values that were miscopied. So each part is worked where it
is asked for.
"""

from __future__ import annotations

from itertools import combinations, product
from typing import Any, Callable, Iterable, Iterator, Mapping, Optional, Protocol, Sequence

from taa1 import Sitting

from ..engine import Engine
from ..names import IN_SITTING, both
from ..records import KINDS, Entry, Ring, whole
from .cipher_slips import CIPHER_SLIPS, CipherSlip
from .explain import IDENTITY, TEXT
from .f_slips import S_TABLES
from .hurdle import Hurdle
from .miscopied import miscopied
from .model import keys_of
from .rarer_slips import RARER_SLIPS
from .slip import DERIVING, SEALING, Alteration, Slip, alone, within
from .unsealing import opened
from .working import Blocks, Keys, Opened, Steps, ring_of

OPENING = ("TA32", "TA52", "TA82", "TA92")


class Work(Protocol):
    """What a hand-in holds of each entry, worked with altered steps: the parts by their names."""

    act: str  # what is done with texts
    kinds: Sequence[int]
    truth: Sequence[Mapping[str, Any]]

    def head(self, text: Any) -> Any:
        """The kind and version in the part of an entry that is its text."""
        ...

    def identity(self, steps: Steps, strings: Blocks, place: int) -> dict[str, Any]:
        """The part of an entry that is its identity."""
        ...

    def text(self, steps: Steps, ring: Ring, place: int) -> dict[str, Any]:
        """The others."""
        ...

    def called(self, engine: Engine, ring: Ring, place: int) -> dict[str, Any]:
        """All parts of an entry under a ring, by the engine's calls."""
        ...


class Sealing:
    """Sealed records."""

    act = "sealing"

    def __init__(
        self,
        entries: Sequence[Entry],
        truth: Sequence[Mapping[str, Any]],
        parts: Callable[[bytes], dict[str, bytes]],
    ) -> None:
        """Takes the model's entries, the parts of their records, and what cuts such into parts."""
        self.entries, self.truth, self.parts = entries, truth, parts
        self.kinds: Sequence[int] = [entry.kind for entry in entries]

    def head(self, text: bytes) -> bytes:
        """The first three bytes."""
        return text[:3]

    def identity(self, steps: Steps, strings: Blocks, place: int) -> dict[str, Any]:
        """The encrypted identity."""
        return {IDENTITY: steps.encrypted(strings, self.entries[place].identity.to_bytes(3, "big"))}

    def text(self, steps: Steps, ring: Ring, place: int) -> dict[str, Any]:
        """Kind, version and sealed text."""
        entry = self.entries[place]
        return {TEXT: self.parts(steps.record(entry, bytes(3), steps.text(entry, ring)))[TEXT]}

    def called(self, engine: Engine, ring: Ring, place: int) -> dict[str, Any]:
        """The entry sealed as a book of its own."""
        return self.parts(engine.call("seal_book", ring.data, self.entries[place].data)["out"])


class Opening:
    """What sealed records open to."""

    act = "opening"

    def __init__(
        self,
        records: Sequence[bytes],
        truth: Sequence[Mapping[str, Any]],
        parts: Callable[[Opened], dict[str, Any]],
    ) -> None:
        """Takes the records, the parts of what they open to, and what cuts such into parts."""
        self.records, self.truth, self.parts = records, truth, parts
        self.kinds: Sequence[int] = [record[0] for record in records]

    def head(self, text: tuple[Any, ...]) -> tuple[Any, ...]:
        """The first two fields."""
        return text[:2]

    def identity(self, steps: Steps, strings: Blocks, place: int) -> dict[str, Any]:
        """The decrypted identity."""
        return {IDENTITY: whole(steps.decrypted(strings, self.records[place][1:4]))}

    def text(self, steps: Steps, ring: Ring, place: int) -> dict[str, Any]:
        """Everything else of the entry, and its flag."""
        parts = self.parts(steps.opened(self.records[place], ring, (bytes(3),) * 3))
        return {name: value for name, value in parts.items() if name != IDENTITY}

    def called(self, engine: Engine, ring: Ring, place: int) -> dict[str, Any]:
        """The record opened."""
        return self.parts(opened(engine, ring, self.records[place]))


# ---- the slips


class Trial:
    """A slip, and what it makes of the model, worked where it is asked for."""

    def __init__(self, slip: Slip, keys: bool, texts: str = "", identities: bool = False) -> None:
        """Takes whether it alters keys, the texts under which keys of the ring (d, o, g), and
        identities."""
        self.slip, self.of_keys, self.of_texts, self.of_identities = slip, keys, texts, identities
        self._steps: Optional[Steps] = None
        self._keys: Optional[Keys] = None
        self._strings: Optional[Blocks] = None
        self._parts: dict[tuple[int, bool], dict[str, Any]] = {}

    def steps(self, engine: Engine) -> Steps:
        """The working with the slip."""
        self._steps = self._steps or Steps(engine, self.slip.altered)
        return self._steps

    def keys(self, engine: Engine, sitting: Sitting, model: Keys) -> Keys:
        """The keys with the slip."""
        if self._keys is None:
            self._keys = self.steps(engine).keys(sitting) if self.of_keys else model
        return self._keys

    def parts(
        self, engine: Engine, sitting: Sitting, model: Keys, work: Work, place: int, identity: bool
    ) -> dict[str, Any]:
        """An entry's identity with the slip, or the other parts."""
        at = (place, identity)
        if at not in self._parts:
            sealing_key = KINDS[work.kinds[place]].sealing_key
            given = identity or sealing_key == "g"  # which the cipher does not make
            known = self.slip.at[0] and given and not self.slip.inputs
            steps = self.steps(engine)
            ring = ring_of(model if known else self.keys(engine, sitting, model))
            if identity:
                self._strings = self._strings or steps.k_strings(ring.c)
                self._parts[at] = work.identity(steps, self._strings, place)
            else:
                self._parts[at] = work.text(steps, ring, place)
        return self._parts[at]


class GivenTrial(Trial):
    """A sitting in which a given value was miscopied, worked by proved calls alone."""

    def keys(self, engine: Engine, sitting: Sitting, model: Keys) -> Keys:
        """The keys of that sitting."""
        if self._keys is None:
            taken = self.slip.altered["inputs"](None, sitting)
            self._keys = keys_of(engine, taken, Ring.of(engine.call("ring", *taken)["ring"]))
        return self._keys

    def parts(
        self, engine: Engine, sitting: Sitting, model: Keys, work: Work, place: int, identity: bool
    ) -> dict[str, Any]:
        """An entry under that sitting's ring."""
        at = (place, False)
        if at not in self._parts:
            self._parts[at] = work.called(engine, ring_of(self.keys(engine, sitting, model)), place)
        return self._parts[at]


def _alone(slip: CipherSlip, where: str, altered: Mapping[str, Alteration], algorithms: tuple[str, ...]) -> Slip:
    return Slip(alone(slip.name, where), altered, slip.name, algorithms, at=slip.step)


def _by(run: Callable[[bytes, bytes], bytes]) -> Alteration:
    """A block by another cipher."""
    return lambda steps, key, block: run(key, block)


def _p(table: Sequence[int]) -> Alteration:
    return lambda steps, a: bytes(table[(2 * sum(a) - 3 * a[at]) & 0xFF] for at in (2, 1, 0))


def _s_trials(name: str, table: bytes, everywhere: Mapping[str, Alteration], at: tuple[str, str]) -> Iterator[Trial]:
    """S otherwise in P as well, where a program has one table for both; and in P alone."""
    yield Trial(Slip(f"{name}, in P as well", {**everywhere, "p": _p(table)}, name, at=at), True, "dog", True)
    yield Trial(Slip(alone(name, "P"), {"p": _p(table)}, name, at=("P", "5.12.4")), False, "", True)


def cipher_trials(slip: CipherSlip, act: str = Sealing.act) -> Iterator[Trial]:
    """A slip of the cipher everywhere, and in some algorithms alone; with what is done with texts."""
    cipher: Hurdle = slip.cipher()
    everywhere: dict[str, Alteration] = {
        "encrypt": _by(cipher.encrypt),
        "decrypt": _by(cipher.decrypt),
    }
    if slip.table:
        everywhere["p"] = _p(slip.table)
    yield Trial(Slip(slip.name, everywhere, at=slip.step), True, "dog", True)
    if slip.name in S_TABLES:
        yield from _s_trials(slip.name, S_TABLES[slip.name], everywhere, slip.step)
    bc = {"bc": _by(cipher.encrypt)}
    yield Trial(_alone(slip, "TA61", bc, ("TA61",)), False, "", True)
    blocks = {each: within(each, _by(cipher.encrypt), SEALING) for each in ("left_block", "right_block")}
    back = {each: within(each, _by(cipher.decrypt), OPENING) for each in ("left_back", "right_back")}
    yield Trial(_alone(slip, act, {**blocks, **back}, SEALING), False, "dog")
    derived = {each: within(each, _by(cipher.encrypt), DERIVING) for each in ("left_block", "right_block")}
    yield Trial(_alone(slip, "deriving keys", derived, DERIVING), True, "do")


def _strings(name: str, choose: Callable[[Blocks, bytes], Blocks]) -> Trial:
    """TA61's strings made otherwise, of the right ones and of BC's output."""
    altered = {"strings": lambda steps, output: choose(Steps.strings(steps, output), output)}
    return Trial(Slip(name, altered), False, "", True)


CHOSEN = ((7, 4, 1), (6, 3, 0), (5, 2, 7))  # the bytes of K1, K2 and K3


def _taken(order: Sequence[Optional[int]]) -> Callable[[Blocks, bytes], Blocks]:
    """The strings in another order; none is a string of zeros."""
    return lambda k, output: tuple(bytes(3) if at is None else k[at] for at in order)


def _of(output: bytes, chosen: Iterable[Sequence[int]]) -> Blocks:
    """Strings of these bytes of BC's output; a zero byte where there is none."""
    return tuple(bytes(output[7 - at] for at in each).ljust(3, b"\0") for each in chosen)


def string_trials() -> Iterator[Trial]:
    """TA61's strings taken twice or left out, or with other bytes in them."""
    for order in product((0, 1, 2, None), repeat=3):
        if len({*order} - {None}) == 3:
            continue  # an order of the three has a name already
        said = " ".join("-" if at is None else f"K{at + 1}" for at in order)
        name = f"TA61's strings {said}, for K1 K2 K3"
        if all(at in (place, None) for place, at in enumerate(order)):
            left = [f"K{place + 1}" for place, at in enumerate(order) if at is None]
            name = f"TA61's {' and '.join(left)} left out"
        yield _strings(name, _taken(order))
    for string, chosen in enumerate(CHOSEN):
        for place, right in enumerate(chosen):
            for other in range(8):
                if other == right:
                    continue
                taken = (*chosen[:place], other, *chosen[place + 1 :])
                made = (*CHOSEN[:string], taken, *CHOSEN[string + 1 :])
                has, wants = (" ".join(f"B{at}" for at in each) for each in (taken, chosen))
                name = f"TA61's K{string + 1} {has}, not {wants}"
                yield _strings(name, lambda k, output, m=made: _of(output, m))  # type: ignore[misc]
    from_left = "TA61's strings of bytes numbered from the left"
    yield _strings(from_left, lambda k, output: _of(output[::-1], CHOSEN))
    upward = ((0, 3, 6), (1, 4, 7), (2, 5, 0))
    name = "TA61's strings of every third byte from B0 up"
    yield _strings(name, lambda k, output: _of(output, upward))
    short = (*CHOSEN[:2], CHOSEN[2][:2])
    name = "TA61's K3 of B5 B2 and a zero byte"
    yield _strings(name, lambda k, output: _of(output, short))


def rarer_trials() -> Iterator[Trial]:
    """The rarer slips outside the cipher."""
    for slip, keys, texts, identities in RARER_SLIPS:
        yield Trial(slip, keys, texts, identities)


# What of a book each given value is in.
GIVEN = {
    "root": "do",
    "rs": "d",
    "rso": "o",
    "rand1": "d",
    "rand2": "d",
    "c": "",
    "group_key": "g",
}


def given_trials(sitting: Sitting) -> Iterator[Trial]:
    """A given value copied with one wrong digit, or with two neighbours exchanged."""
    idle = {1: "rand2", 2: "rand1"}.get(sitting.sides)
    for name, texts in GIVEN.items():
        if name == idle:
            continue
        for digits, said in miscopied(getattr(sitting, name).hex()):
            value = bytes.fromhex(digits)
            altered = {"inputs": lambda steps, s, n=name, v=value: s._replace(**{n: v})}
            slip = Slip(f"{both(IN_SITTING[name])} miscopied, {said}", altered, inputs=(name,))
            yield GivenTrial(slip, True, texts, name == "c")


# The given values that have ten bytes; four pairs of them have a name in the table.
TEN_BYTES = ("rs", "rso", "rand1", "rand2", "c")
NAMED = {frozenset(pair) for pair in (("rs", "rso"), ("rand1", "rand2"))}


def _taken_for() -> Iterator[tuple[str, dict[str, str]]]:
    """Given values in the place of others of their length, or two exchanged."""
    for one, other in combinations(TEN_BYTES, 2):
        if frozenset((one, other)) not in NAMED:
            first, second = IN_SITTING[one], IN_SITTING[other]
            yield f"{first} for {second}", {other: one}
            yield f"{second} for {first}", {one: other}
            yield f"{first} and {second} exchanged", {one: other, other: one}


def taken_trials(sitting: Sitting) -> Iterator[Trial]:
    """Another given value than the one that is asked for."""
    idle = {1: "rand2", 2: "rand1"}.get(sitting.sides)
    for name, taken in _taken_for():
        wanted = [each for each in taken if each != idle]
        if wanted:
            altered = {"inputs": lambda steps, s, t=taken: s._replace(**{n: getattr(sitting, v) for n, v in t.items()})}
            texts = "".join(sorted({text for each in wanted for text in GIVEN[each]}))
            yield GivenTrial(Slip(name, altered, inputs=tuple(wanted)), True, texts, "c" in wanted)


def tried_names() -> Iterator[str]:
    """The names of the slips that are tried; those of miscopied values in general."""
    for slip in CIPHER_SLIPS:
        for act in (Sealing.act, Opening.act):
            for trial in cipher_trials(slip, act):
                yield trial.slip.name
    for trial in (*string_trials(), *rarer_trials()):
        yield trial.slip.name
    yield from (name for name, _ in _taken_for())
    yield "D, a, E or S of the cipher with one digit miscopied, or with two neighbours exchanged"
    yield "D of the cipher without one of its bytes, or two rows of S exchanged"
    for name in GIVEN:
        yield f"{both(IN_SITTING[name])} with one digit miscopied, or with two neighbours exchanged"
