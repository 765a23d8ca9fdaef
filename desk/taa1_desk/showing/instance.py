# SPDX-License-Identifier: MIT
"""What the instances of claims share: the calls that make and try them, the working, and
the marks that say of each value whose it is."""

from __future__ import annotations

from typing import Any, Callable, NamedTuple, Optional

from taa1 import Sitting

from ..engine import Engine
from ..problems import Problem
from ..names import KIND_NAMES, both, field, sealing
from .html import Code, grouped
from ..records import KINDS, PLAIN, SEALED, Entry, Ring, split, whole
from ..words import failed_checks
from ..marking.unsealing import unsealed
from ..marking.working import EXP3_GROUPS, FOURS, PAIRS, Steps, ring_of, xor, xored

__all__ = [
    "ALTERED", "ALTERED_WORKING", "BY_PROOF", "COUNTED", "EXAMPLE", "GIVEN", "INSTANCES", "KINDS",
    "MARKS", "PLAIN", "PROOF", "SEALED", "TRIED", "UPWARD", "WORKING", "ZERO_BITS", "Code", "Core",
    "Entry", "Instance", "Maker", "Ring", "Row", "Steps", "Unsealed", "body_of", "both", "by",
    "changed", "field", "hold", "ring_of", "shows", "split", "whole", "xor", "xored",
]  # fmt: skip

PROOF = "the example of the proof"
TRIED = f"{PROOF}, tried again by the engine"
UPWARD = bytes(range(16))
ZERO_BITS = 1 << 4  # the bit of the three zero bits among the failed checks

# Whose a value is, if it is no call's.
GIVEN = "given"
ALTERED = "altered"
WORKING = "by the working"
ALTERED_WORKING = "by the altered working"
BY_PROOF = "by the proof"
COUNTED = "counted"
MARKS = {
    GIVEN: "the sitting's, the book's or the example's own",
    "by TA82, by seal_book and so on": "what that call of the engine answers",
    WORKING: "from the desk's working, step by step, compared with the engine's calls before",
    ALTERED_WORKING: "from the same with one step other than the standard's, as the claim has it",
    ALTERED: "a value that stands above, with the change that is named",
    BY_PROOF: "worked in the proof, and not here",
    COUNTED: "by the desk, from what calls answer",
}


def by(call: str) -> str:
    """The mark of what a call answers."""
    return f"by {call.upper() if call[2:].isdigit() else call}"


Row = tuple[str, str, Any]  # a value's name, its mark, the value


class Instance(NamedTuple):
    """What shows a claim: of what, and its values."""

    source: str
    rows: list[Row]


class Unsealed(NamedTuple):
    """What an unsealing call answers."""

    body: bytes  # the key, then the number where there is one
    failed: int


class Core(NamedTuple):
    """What BL1 takes and gives for an entry."""

    key: bytes
    data: bytes
    output: bytes


INSTANCES: dict[str, Callable[[Any], Instance]] = {}
_Make = Callable[[Any], Instance]


def shows(name: str) -> Callable[[_Make], _Make]:
    """Names the claim of which a function makes an instance."""

    def named(make: _Make) -> _Make:
        INSTANCES[name] = make
        return make

    return named


def hold(fact: bool) -> None:
    """Ends where the engine answers otherwise than a claim says."""
    if not fact:
        raise Problem("an instance is not what its claim says: no sheet is made")


def changed(data: bytes, place: int, change: int = 1) -> bytes:
    """The data with a byte ⊕ into one of its own."""
    return data[:place] + bytes([data[place] ^ change]) + data[place + 1 :]


def body_of(entry: Entry) -> bytes:
    """The key, then the number where there is one."""
    return entry.key + (b"" if entry.number is None else entry.number.to_bytes(2, "big"))


# An entry of kind 3 that stands in the proofs, under the key 00 01 .. 0f.
EXAMPLE = Entry(3, 0, 7, UPWARD[1:11], 0x1234)


class Maker:
    """The sitting, its book, the calls and the working, from which instances are made."""

    def __init__(self, desk: Engine, sitting: Sitting, ring: Ring, plain: bytes) -> None:
        """Takes the sitting's ring, and a book that has entries."""
        self.desk, self.sitting, self.ring, self.plain = desk, sitting, ring, plain
        self.entries = [Entry.of(record) for record in split(plain, PLAIN)]
        self.sealed = self.seal_book(plain)
        self.records = split(self.sealed, SEALED)
        self.steps = Steps(desk)
        self._compare()

    def _compare(self) -> None:
        """Ends where the working, step by step, is not what the engine answers."""
        steps, strings = self.steps, self.steps.k_strings(self.ring.c)
        made = ring_of(steps.keys(self.sitting))
        sealed = b"".join(steps.sealed(entry, self.ring, strings) for entry in self.entries)
        opened = [steps.opened(record, self.ring, strings) for record in self.records]
        right = made == self.ring and sealed == self.sealed
        right = right and [(*entry, 0) for entry in self.entries] == opened
        for kind in KINDS:  # some may not be in the book
            entry = self.like(kind)
            text = self.seal(entry)
            worked = getattr(steps, KINDS[kind].unseal)(text, self.key(kind), entry.version)
            right = right and steps.text(entry, self.ring) == text
            right = right and worked == (entry.key, entry.number, 0)
            right = right and self.unsealed(entry, text) == (body_of(entry), 0)
        if not right:
            said = "the working, step by step, is not what the engine answers"
            raise Problem(f"{said}: no sheet is made")

    # ---- calls

    def key(self, kind: int, ring: Optional[Ring] = None) -> bytes:
        """The key of a ring that seals a kind."""
        key: bytes = getattr(ring or self.ring, KINDS[kind].sealing_key)
        return key

    def bytes_of(self, call: str, *values: Any) -> bytes:
        """What a call answers that gives bytes alone."""
        made: bytes = self.desk.call(call, *values)["bytes"]
        return made

    def seal(self, entry: Entry, key: Optional[bytes] = None) -> bytes:
        """An entry's text, under the ring's key or another."""
        values = [entry.key, entry.version, self.key(entry.kind) if key is None else key]
        if entry.number is not None:
            values.append(entry.number)
        return self.bytes_of(KINDS[entry.kind].seal, *values)

    def unseal(self, kind: int, text: bytes, key: bytes, version: int) -> Unsealed:
        """What a text unseals to as a kind."""
        found = unsealed(self.desk, kind, text, key, version)
        number = b"" if found.number is None else found.number.to_bytes(2, "big")
        return Unsealed(found.key + number, found.failed)

    def unsealed(self, entry: Entry, text: bytes) -> Unsealed:
        """What a text unseals to as an entry's kind, with its version."""
        return self.unseal(entry.kind, text, self.key(entry.kind), entry.version)

    def seal_book(self, plain: bytes, ring: Optional[Ring] = None) -> bytes:
        """A plain book, sealed."""
        sealed: bytes = self.desk.call("seal_book", (ring or self.ring).data, plain)["out"]
        return sealed

    def open_book(self, sealed: bytes, ring: Optional[Ring] = None) -> bytes:
        """A sealed book, opened."""
        plain: bytes = self.desk.call("open_book", (ring or self.ring).data, sealed)["out"]
        return plain

    # ---- the working

    def core(self, entry: Entry) -> Core:
        """BL1 of an entry."""
        steps = Steps(self.desk, trace=True)
        steps.text(entry, self.ring)
        core = next(step for step in steps.trace[-1].steps if step.name == "BL1")
        return Core(core.inputs["key"], core.inputs["data"], core.output)

    def text_of(self, key: bytes, data: bytes) -> bytes:
        """The text that BL1 gives of sixteen bytes."""
        return self.steps.dropped(self.steps.bl1(key, data))

    def input_for(self, key: bytes, text: bytes, dropped: int) -> bytes:
        """BL1's input that gives a text with this byte dropped: BL1 undone block by block."""
        left = text[:7] + bytes([dropped])
        right = xor(self.steps.decrypt(key, text[7:]), left)
        return bytes(self.steps.decrypt(key, left)) + right

    # ---- entries, and words for them

    def like(self, kind: int, index: int = 0) -> Entry:
        """An entry of a kind with another's identity, version and, as far as it goes, key."""
        entry, shape = self.entries[index], KINDS[kind]
        key = (entry.key + entry.key)[: shape.key]
        return Entry(kind, entry.identity, entry.version, key, 3 if shape.number else None)

    def first(self, *kinds: int) -> Optional[int]:
        """The first entry of one of these kinds."""
        return next((i for i, entry in enumerate(self.entries) if entry.kind in kinds), None)

    def name(self, index: int) -> str:
        """An entry in words."""
        return f"entry {index}, {self.said(self.entries[index])}"

    def said(self, entry: Entry) -> str:
        """What an entry is, in words."""
        return f"kind {entry.kind}, {sealing(entry.kind)}, version {entry.version}"

    def sealing(self, kind: int) -> str:
        """The mark of a kind's sealing call."""
        return by(KINDS[kind].seal)

    def unsealing(self, kind: int) -> str:
        """The mark of a kind's unsealing call."""
        return by(KINDS[kind].unseal)

    def body(self, kind: int, body: bytes) -> Code:
        """A body in words."""
        names = KIND_NAMES[kind]
        key, number = body[: KINDS[kind].key], body[KINDS[kind].key :]
        said = f"{names.key} {grouped(key)}"
        return Code(f"{said}, {names.number} {whole(number)}" if number else said)

    def given(self, entry: Entry) -> Row:
        """An entry's own body, as a row."""
        return ("entry", GIVEN, self.body(entry.kind, body_of(entry)))

    def checks(self, kind: int, failed: int) -> Row:
        """What an unsealing call says of the checks, as a row."""
        bits = tuple(place for place in range(16) if failed >> place & 1)
        said = failed_checks(kind, bits) if bits else "no check fails: it opens"
        return ("checks", self.unsealing(kind), said)

    def opens(self, name: str, kind: int, text: bytes, key: bytes, version: int) -> Row:
        """What a text opens to as a kind, as a row; it has to open."""
        found = self.unseal(kind, text, key, version)
        hold(found.failed == 0)
        return (name, self.unsealing(kind), self.body(kind, found.body))

    def groups(self, kind: int) -> tuple[int, ...]:
        """How many bytes stand before each inserted one."""
        return {"ta31": PAIRS, "ta51": EXP3_GROUPS}.get(KINDS[kind].seal, FOURS)

    def inserted(self, kind: int) -> list[int]:
        """The places of the inserted bytes in BL2's output."""
        sizes = self.groups(kind)
        return [sum(sizes[: at + 1]) + at for at in range(len(sizes))]
