"""The implementations that answer the vectors: the engine, the independent one, the reference
of tests/desk, and osmo-tetra.

Each answers a dict, the outputs or the refusal. What it cannot know is left out: None for a
field, and for a byte of a string.
"""

from __future__ import annotations

import subprocess
from pathlib import Path
from typing import Any, Callable, Iterator, Optional, Sequence, TypeVar

from read import ROOT, Value, Vector
from reference import Entry, Ring, Sitting, Working
from taa1 import Engine, KeyNumber, Refused, Version
from taa1.calls import CALLS

T = TypeVar("T")
Answer = dict[str, Any]
Bytes = Sequence[Optional[int]]  # a string of which bytes may be unknown

PLAIN, SEALED = 18, 21
UNSEALS = {1: "ta32", 2: "ta52", 3: "ta82", 4: "ta92", 5: "ta52", 6: "ta82"}
SEALS = {1: "ta31", 2: "ta51", 3: "ta81", 4: "ta91", 5: "ta51", 6: "ta81"}
OPERATIONS = {1: "ta11", 2: "ta21", 3: "ta41", 4: "tb4", 5: "ta71"}


def unknown(length: int) -> list[Optional[int]]:
    """A string of which nothing is known."""
    return [None] * length


class Shut(Exception):
    """A record does not open."""


def each(string: bytes, size: int, work: Callable[[bytes], Sequence[T]]) -> Iterator[T]:
    """What becomes of each record, joined. Equal ones are worked once."""
    worked: dict[bytes, Sequence[T]] = {}
    for at in range(0, len(string), size):
        record = string[at : at + size]
        if record not in worked:
            worked[record] = work(record)
        yield from worked[record]


def known(answer: Answer) -> bool:
    """Whether an answer says anything."""
    return any(
        value is not None and (isinstance(value, (int, bytes)) or any(byte is not None for byte in value))
        for value in answer.values()
    )


def agrees(wanted: Answer, got: Answer) -> bool:
    """Whether an answer is as wanted, as far as it is known. A bool stands for failed checks, some or none."""
    if ("refusal" in wanted) != ("refusal" in got):
        return False
    for name, value in got.items():
        if value is None:
            continue
        due = wanted.get(name)
        if isinstance(value, bool):
            if bool(due) is not value:
                return False
        elif isinstance(value, int):
            if due != value:
                return False
        elif not isinstance(due, bytes) or len(due) != len(value):
            return False
        elif any(byte is not None and byte != here for byte, here in zip(value, due)):
            return False
    return True


class EngineWork:
    """The engine itself, as Python hosts call it."""

    name = "engine"

    def __init__(self) -> None:
        self.engine = Engine()

    def answer(self, vector: Vector) -> Optional[Answer]:
        """Every call."""
        kinds: dict[str, Callable[[Any], Any]] = {"version": Version, "number": KeyNumber}
        values = [
            kinds.get(each.kind, lambda value: value)(vector.inputs[each.name]) for each in CALLS[vector.call].inputs
        ]
        try:
            return self.engine.binding.answer(vector.call, *values, room=vector.out_length)
        except Refused as error:
            said = {"refusal": error.number, "index": error.index, "runs": error.runs}
            return {name: value for name, value in said.items() if value is not None}


class Lines:
    """The program `answers` of tests/peer, which makes calls by other implementations."""

    def __init__(self, program: Path) -> None:
        pipe = subprocess.PIPE
        self.process = subprocess.Popen([program], stdin=pipe, stdout=pipe, text=True, cwd=ROOT)

    def ask(self, who: str, call: str, *values: Value) -> list[str]:
        """The words of an answer."""
        words = [f"x{value.hex()}" if isinstance(value, bytes) else str(value) for value in values]
        assert self.process.stdin and self.process.stdout
        print(who, call, *words, file=self.process.stdin, flush=True)
        return self.process.stdout.readline().split()

    def close(self) -> None:
        """Ends the program."""
        assert self.process.stdin and self.process.stdout
        self.process.stdin.close()
        self.process.stdout.close()
        self.process.wait()


def read_word(word: str) -> Any:
    """A field of an answer."""
    if word in ("set", "clear"):
        return word == "set"
    if word == "?":
        return None
    return bytes.fromhex(word[1:]) if word.startswith("x") else int(word)


class IndependentWork:
    """The independent implementation, in Rust: every call, with every refusal."""

    name = "independent"

    def __init__(self, lines: Lines) -> None:
        self.lines = lines

    def answer(self, vector: Vector) -> Optional[Answer]:
        """Its answer."""
        call = CALLS[vector.call]
        values = [vector.inputs[each.name] for each in call.inputs]
        if call.record:
            room = 1024 * call.record if vector.out_length is None else vector.out_length
            values.append(room)
        words = self.lines.ask("other", vector.call, *values)
        names = ["refusal", *(field.name for field in call.fields), *(["out"] if call.record else [])]
        answer = dict(zip(names, map(read_word, words)))
        if answer.pop("refusal") == 0:
            return answer
        refusal = {"refusal": int(words[0])}
        return {**refusal, **{name: answer[name] for name in ("index", "runs") if name in answer}}


class ComposedWork:
    """One that has single calls, none of which refuses; the others are put together from those."""

    name = ""
    worked = 0  # the single calls that it answered

    def single(self, call: str, inputs: dict[str, Any]) -> Optional[Answer]:
        """A call, or None if it has no such."""
        raise NotImplementedError

    def counted(self, call: str, inputs: dict[str, Any]) -> Optional[Answer]:
        """The same, counted."""
        answer = self.single(call, inputs)
        self.worked += answer is not None
        return answer

    def field(self, call: str, name: str, inputs: dict[str, Any]) -> Any:
        """A field of a single call's answer, or None if it is not known."""
        answer = self.counted(call, inputs)
        return None if answer is None else answer[name]

    def answer(self, vector: Vector) -> Optional[Answer]:
        """Its answer, or None if it has worked nothing for it, as for an empty list."""
        before = self.worked
        answer = self.put_together(vector)
        return answer if self.worked > before else None

    def put_together(self, vector: Vector) -> Optional[Answer]:
        """Of a refusal it knows no more than that a book does not open."""
        composed: dict[str, Callable[[dict[str, Any]], Optional[Answer]]] = {
            "encrypt_register": lambda inputs: self.counted("encrypt", inputs),
            "decrypt_register": lambda inputs: self.counted("decrypt", inputs),
            "diffusion": self.diffusion,
            "ta12_class": self.ta12_class,
            "ring": self.ring,
            "seal_book": self.seal_book,
            "open_book": self.open_book,
            "lineage": self.lineage,
        }
        inputs = vector.inputs
        if vector.refusal and (vector.call, vector.refusal["refusal"]) != ("open_book", 6):
            return None
        if vector.call in composed:
            return composed[vector.call](inputs)
        if vector.outputs and vector.call in ("tb5_inverse", "tb6_inverse"):
            made = self.field(vector.call[:3], "bytes", {"cipher_key": inputs["cipher_key"], **vector.outputs})
            return None if made is None else vector.outputs if made == inputs["result"] else {"refusal": 17}
        if vector.outputs and vector.call == "restore_card":
            return {"card": self.field("tb7", "bytes", {"group_key": vector.outputs["key"]})}
        return self.counted(vector.call, inputs)

    def diffusion(self, inputs: dict[str, Any]) -> Optional[Answer]:
        """The tally, from the block cipher."""
        changes = list(each(inputs["records"], 24, lambda record: self.flips(record[:16], record[16:])))
        least, greatest = min(changes, default=0), max(changes, default=0)
        return {"flips": len(changes), "total": sum(changes), "least": least, "greatest": greatest}

    def flips(self, key: bytes, block: bytes) -> list[int]:
        """The changed bits for each flipped one."""
        def encrypted(number: int) -> int:
            made = self.field("encrypt", "bytes", {"key": key, "block": number.to_bytes(8, "big")})
            return int.from_bytes(made, "big")

        start = int.from_bytes(block, "big")
        return [bin(encrypted(start) ^ encrypted(start ^ 1 << bit)).count("1") for bit in range(64)]

    def ta12_class(self, inputs: dict[str, Any]) -> Optional[Answer]:
        """TA12 of each challenge."""
        given = dict(inputs)
        challenges = given.pop("challenges")

        def record(challenge: bytes) -> Bytes:
            answer = self.counted("ta12", {**given, "challenge": challenge})
            return unknown(14) if answer is None else [*(answer["response"] or unknown(4)), *answer["key"]]

        out = list(each(challenges, 10, record))
        return {"index": len(challenges) // 10, "written": len(out), "out": out}

    def ring(self, inputs: dict[str, Any]) -> Optional[Answer]:
        """The recipe, from single calls."""
        masks = {name: inputs[name] for name in ("response_mask", "key_mask")}
        halves: list[tuple[Bytes, Bytes]] = []
        for side, session, response, challenge in ((1, "ta11", "ta12", "rand1"), (2, "ta21", "ta22", "rand2")):
            if not inputs["sides"] & side:
                halves.append((bytes(4), bytes(10)))
                continue
            key = self.field(session, "bytes", {"root": inputs["root"], "seed": inputs["rs"]})
            made = self.counted(response, {"session_key": key, "challenge": inputs[challenge], **masks})
            halves.append((unknown(4), unknown(10)) if made is None else (made["response"] or unknown(4), made["key"]))
        (response1, key1), (response2, key2) = halves
        d: Bytes = unknown(10)
        whole = [bytes(byte for byte in key if byte is not None) for key in (key1, key2)]
        if len(whole[0]) == len(whole[1]) == 10:
            d = self.field("tb4", "bytes", {"input1": whole[0], "input2": whole[1]})
        o = self.field("ta41", "bytes", {"root": inputs["root"], "seed": inputs["rso"]})
        g = self.field("tb7", "bytes", {"group_key": inputs["group_key"]})
        return {"ring": [*d, *o, *inputs["c"], *g], "response1": response1, "response2": response2}

    def under(self, ring: bytes, kind: int) -> bytes:
        """The ring's key for a kind."""
        return ring[:10] if kind == 1 else ring[10:26] if kind < 5 else ring[36:]

    def seal_book(self, inputs: dict[str, Any]) -> Optional[Answer]:
        """Each record, sealed."""
        plain = inputs["plain"]
        out = list(each(plain, PLAIN, lambda record: self.sealed(inputs["ring"], record)))
        count = len(plain) // PLAIN
        return {"index": count, "written": len(out), "runs": 2 * count + (count > 0), "out": out}

    def sealed(self, ring: bytes, record: bytes) -> Bytes:
        """A record's text, and its identity if TA61 is there."""
        kind, body = record[0], record[6:]
        shown = {"common_key": ring[26:36], "identity": int.from_bytes(record[1:4], "big")}
        identity = self.field("ta61", "identity", shown)
        hidden: Bytes = unknown(3) if identity is None else identity.to_bytes(3, "big")
        given: dict[str, Any] = {"group_key": body} if kind == 4 else {"cipher_key": body[:10]}
        if kind not in (1, 4):
            given["number"] = int.from_bytes(body[10:], "big")
        under = {"version": int.from_bytes(record[4:6], "big"), "sealing_key": self.under(ring, kind)}
        return [kind, *hidden, *record[4:6], *self.field(SEALS[kind], "bytes", {**given, **under})]

    def open_book(self, inputs: dict[str, Any]) -> Optional[Answer]:
        """Each record, opened, up to the first that does not open."""
        sealed = inputs["sealed"]
        count = len(sealed) // SEALED
        out: list[Optional[int]] = []
        try:
            for byte in each(sealed, SEALED, lambda record: self.opened(inputs["ring"], record)):
                out.append(byte)
        except Shut:
            index = len(out) // PLAIN
            return {"refusal": 6, "index": index, "runs": 2 * (index + 1)}
        return {"index": count, "written": len(out), "runs": 4 * count + (count > 0), "out": out}

    def opened(self, ring: bytes, record: bytes) -> Bytes:
        """A record's key and number, and its identity if TA61's inverse is there."""
        kind, version = record[0], int.from_bytes(record[4:6], "big")
        sealed = {"text": record[6:], "sealing_key": self.under(ring, kind), "version": version}
        opened = self.counted(UNSEALS[kind], sealed)
        assert opened is not None
        if opened["failed_checks"]:
            raise Shut
        hidden = {"common_key": ring[26:36], "encrypted_identity": int.from_bytes(record[1:4], "big")}
        identity = self.field("ta61_inverse", "identity", hidden)
        shown: Bytes = unknown(3) if identity is None else identity.to_bytes(3, "big")
        body = opened["key"] + opened.get("number", 0).to_bytes(12 - len(opened["key"]), "big")
        return [kind, *shown, *record[4:6], *body]

    def lineage(self, inputs: dict[str, Any]) -> Optional[Answer]:
        """Each key from its parents."""
        sheet = inputs["sheet"]
        values: list[bytes] = []
        for at in range(0, len(sheet), 22):
            record = sheet[at : at + 22]
            if record[0] == 0:
                values.append(record[6 : 6 + record[5]])
                continue
            names = [each.name for each in CALLS[OPERATIONS[record[0]]].inputs]
            parents = [values[int.from_bytes(record[place : place + 2], "big")] for place in (1, 3)]
            made = self.field(OPERATIONS[record[0]], "bytes", dict(zip(names, parents)))
            if made is None:
                return None
            values.append(made)
        out = b"".join(value + bytes(16 - len(value)) for value in values)
        return {"index": len(values), "written": len(out), "out": out}


class OsmoWork(ComposedWork):
    """osmo-tetra, where it means the same: no TA61, TA101 and TB1 to TB3, and a response that no mask gives."""

    name = "osmo-tetra"

    def __init__(self, lines: Lines) -> None:
        self.lines = lines

    def there(self) -> bool:
        """Whether its sources were fetched."""
        return self.lines.ask("osmo", "tb4", bytes(10), bytes(10)) != ["?"]

    def single(self, call: str, inputs: dict[str, Any]) -> Optional[Answer]:
        """A call of it."""
        words = self.lines.ask("osmo", call, *(inputs[each.name] for each in CALLS[call].inputs))
        if words == ["?"]:
            return None
        names = ["refusal", *(field.name for field in CALLS[call].fields)]
        answer = dict(zip(names, map(read_word, words)))
        del answer["refusal"]
        return answer


class ReferenceWork(ComposedWork):
    """The reference of tests/desk, or one in which a step is altered."""

    name = "reference"

    def __init__(self, work: Optional[Working] = None) -> None:
        self.work = work or Working()

    def single(self, call: str, inputs: dict[str, Any]) -> Optional[Answer]:
        """A step of the working. It has no TA71, TA101, TB1 to TB3 and TB6."""
        if call == "register":
            return {"bytes": self.work.registers(inputs["key"])[inputs["steps"] % 16]}
        step = getattr(self.work, call, None)
        if step is None or call not in CALLS:
            return None
        made = step(*(inputs[each.name] for each in CALLS[call].inputs))
        fields = [field.name for field in CALLS[call].fields]
        given = [each for each in made if each is not None] if isinstance(made, tuple) else [made]
        return dict(zip(fields, given))

    def ring(self, inputs: dict[str, Any]) -> Optional[Answer]:
        """The recipe as a whole."""
        self.worked += 1
        keys = self.work.recipe(Sitting(**inputs))
        return {"ring": b"".join(keys.ring), "response1": keys.response1, "response2": keys.response2}

    def sealed(self, ring: bytes, record: bytes) -> Bytes:
        """The record's entry, sealed as a whole."""
        self.worked += 1
        return self.work.sealed_record(Ring(ring[:10], ring[10:26], ring[26:36], ring[36:]), entry(record))


def entry(record: bytes) -> Entry:
    """What a plain record has."""
    kind, body = record[0], record[6:]
    key = body if kind == 4 else body[:10]
    number = None if kind in (1, 4) else int.from_bytes(body[10:], "big")
    return Entry(kind, int.from_bytes(record[1:4], "big"), int.from_bytes(record[4:6], "big"), key, number)
