# SPDX-License-Identifier: MIT
"""What a slip is: a name, and the steps of the working that it alters.

The blocks come from the engine all the same, so a slip holds no cipher: it exchanges,
reverses, replaces and leaves out.
"""

from __future__ import annotations

from os.path import commonprefix
from typing import Any, Callable, Collection, Iterable, Mapping, NamedTuple

from ..words import listed
from .clauses import STEPS, clause_of
from .working import Steps

Alteration = Callable[..., Any]
DERIVING = ("TA11", "TA21", "TA41", "TA12", "TA22")
SEALING = ("TA31", "TA51", "TA81", "TA91")
# The algorithms that do not run, by the number of sides.
IDLE: dict[int, tuple[str, ...]] = {1: ("TA21", "TA22"), 2: ("TA11", "TA12"), 3: ()}
# The steps that no seal and no identity has.
KEY_STEPS = {"inputs", "reversed_seed", "split", "chosen", "tb4", "tb7", "ring", "exp2", "last_byte"}
KEY_STEPS |= {"listed", "keys"}
KEY_STEPS |= {name.lower() for name in DERIVING}


# The inputs of the sitting that steps take.
_TAKEN_BY = {
    "ta11": ("root", "rs"),
    "ta21": ("root", "rs"),
    "ta41": ("root", "rso"),
    "ta12": ("rand1",),
    "ta22": ("rand2",),
    "split": ("response_mask", "key_mask"),
    "tb7": ("group_key",),
    "ta61": ("c",),
}


class Slip(NamedTuple):
    """A slip: its name, and what it makes of steps, by their methods."""

    name: str
    altered: Mapping[str, Alteration]
    family: str = ""  # the name of the slip that it is in some algorithms alone
    algorithms: tuple[str, ...] = ()  # those
    inputs: tuple[str, ...] = ()  # of the sitting, that it alters
    at: tuple[str, str] = ("", "")  # its step and clause, where it is none of STEPS

    def step_in(self, sides: int, algorithms: Collection[str] = ()) -> tuple[str, str]:
        """The step at which it happens in a sitting of so many sides, and the clause; of
        inputs, the steps that take them. A step that several algorithms have stands in the
        clauses of those in which the slip shows."""
        if self.at[0]:
            return self.at
        idle = {name.lower() for name in IDLE[sides]}
        taking = [
            method
            for method, taken in _TAKEN_BY.items()
            if {*taken} & {*self.inputs} and method not in idle
        ]
        if not taking:
            method = next(iter(self.altered), "record")
            clauses = {clause_of(method, each) for each in algorithms} or {STEPS[method][1]}
            return STEPS[method][0], in_order(clauses)
        names, taken_in = zip(*(STEPS[method] for method in taking))
        shared = commonprefix([clause.split(".") for clause in taken_in])
        return listed(names), ".".join(shared)

    @property
    def kin(self) -> str:
        """The name that it shares with the slips that are it in some algorithms alone."""
        return self.family or self.name

    @property
    def in_writing(self) -> bool:
        """Whether it exchanges what is written down of keys: then both must show it."""
        return "listed" in self.altered

    @property
    def in_use(self) -> bool:
        """Whether it takes keys of the list in each other's place: the list may be right."""
        return "ring" in self.altered

    @property
    def in_keys_alone(self) -> bool:
        """Whether it can alter nothing but keys."""
        limited = bool(self.algorithms) and set(self.algorithms) <= set(DERIVING)
        return limited or set(self.altered) <= KEY_STEPS


class Rare(NamedTuple):
    """A rarer slip, and what of a hand-in it alters: keys, the texts under which keys of the
    ring (d, o, g), and identities."""

    slip: Slip
    keys: bool = False
    texts: str = ""
    identities: bool = False


def in_order(clauses: Iterable[str]) -> str:
    """Clauses in their order, in words."""
    return listed(sorted(clauses, key=lambda clause: [int(part) for part in clause.split(".")]))


def clauses_of(words: str) -> list[str]:
    """The clauses of such words."""
    return words.replace(" and ", ", ").split(", ")


def within(step: str, alteration: Alteration, algorithms: tuple[str, ...]) -> Alteration:
    """An alteration in some algorithms alone."""
    right = getattr(Steps, step)

    def alter(steps: Steps, *inputs: Any) -> Any:
        return (alteration if steps.algorithm in algorithms else right)(steps, *inputs)

    return alter


def limited(
    name: str, altered: Mapping[str, Alteration], *places: Mapping[str, tuple[str, ...]]
) -> list[Slip]:
    """A slip wherever its step occurs, then in each of these places alone."""
    made = [Slip(name, altered)]
    for words, algorithms in ((key, value) for place in places for key, value in place.items()):
        limited = {step: within(step, alter, algorithms) for step, alter in altered.items()}
        made.append(Slip(alone(name, words), limited, name, algorithms))
    return made


def alone(name: str, words: str) -> str:
    """The name of a slip that is made in some algorithms alone."""
    return f"{name}, in {words} alone"


_SESSION = {listed(each): each for each in (DERIVING[:3], DERIVING[3:])}
EACH_KEY: dict[str, tuple[str, ...]] = {**_SESSION, **{name: (name,) for name in DERIVING}}
EACH_SIDE: dict[str, tuple[str, ...]] = {name: (name,) for name in DERIVING[3:]}
KEYS_OR_SEALS = {"deriving keys": DERIVING, "sealing": SEALING}
EXP2_OR_TA31 = {"EXP2": DERIVING, "TA31": ("TA31",)}
TA31_OR_TA61: dict[str, tuple[str, ...]] = {"TA31 and TA32": ("TA31", "TA32"), "TA61": ("TA61",)}


def exchanged(number: int) -> int:
    """A number of sixteen bits with its bytes exchanged."""
    return number >> 8 | (number & 0xFF) << 8


def added(one: bytes, other: bytes) -> bytes:
    """The sums of two strings' bytes."""
    return bytes((a + b) & 0xFF for a, b in zip(one, other))


def decrypting(steps: Steps, key: bytes, block: bytes) -> bytes:
    return steps.decrypt(key, block)


def encrypting(steps: Steps, key: bytes, block: bytes) -> bytes:
    return steps.encrypt(key, block)


def turned_identity(identity: int) -> int:
    """An identity with its bytes in the other order."""
    return int.from_bytes(identity.to_bytes(3, "little"), "big")
