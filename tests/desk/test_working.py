"""The working, step by step, beside the engine's own calls."""

from __future__ import annotations

import random
import subprocess
import unittest
from typing import Any

from common import DESK, ENTRIES, PLAIN_BOOK, ROOT, SITTING, seal
from taa1 import Sitting
from taa1_desk.asked import KEYS
from taa1_desk.marking.clauses import CLAUSES, STEPS
from taa1_desk.marking.working import S, S_INVERSE, Steps
from taa1_desk.records import KINDS, SEALED, Ring, split

DRAW = random.Random(33)
PLAIN_STEPS = Steps(DESK)
TIMES = 300


def drawn_sitting() -> Sitting:
    bits = DRAW.sample(range(16), 14)
    masks = (sum(1 << bit for bit in part) for part in (bits[:4], bits[4:]))
    strings = [DRAW.randbytes(length) for length in (16, 10, 10, 10, 10, 10, 12)]
    values: list[Any] = [*strings, DRAW.randint(1, 3), *masks]
    return Sitting(*values)


class Working(unittest.TestCase):
    """Unaltered, every result is the engine's."""

    def test_table(self) -> None:
        """S is TA61's, and its inverse is what printtables prints."""
        program = ROOT / "target" / "bin" / "printtables"
        lines = subprocess.run([program], capture_output=True, check=True).stdout.decode()
        self.assertEqual(S_INVERSE, bytes.fromhex("".join(lines.splitlines()[:16])))
        self.assertEqual(bytes(S[byte] for byte in S_INVERSE), bytes(range(256)))

    def test_session_keys(self) -> None:
        for call in ("ta11", "ta21", "ta41"):
            for _ in range(TIMES):
                inputs = (DRAW.randbytes(16), DRAW.randbytes(10))
                made = DESK.call(call, *inputs)["bytes"]
                self.assertEqual(getattr(PLAIN_STEPS, call)(*inputs), made)

    def test_answers(self) -> None:
        for call in ("ta12", "ta22"):
            for _ in range(TIMES):
                s = drawn_sitting()
                inputs = (s.root, s.rs, s.response_mask, s.key_mask)
                answer = DESK.call(call, *inputs)
                self.assertEqual(
                    getattr(PLAIN_STEPS, call)(*inputs), (answer["response"], answer["key"])
                )

    def test_recipe(self) -> None:
        """The recipe with one side and with both."""
        for _ in range(TIMES):
            s = drawn_sitting()
            made = DESK.call("ring", *s)
            keys = PLAIN_STEPS.keys(s)
            self.assertEqual(tuple(keys), KEYS)
            ring = b"".join(keys[name] or b"" for name in ("D", "O", "C", "G"))
            self.assertEqual(ring, made["ring"])
            self.assertEqual(keys["response 1"], made["response1"])
            self.assertEqual(keys["response 2"], made["response2"])
            for bit, name in ((1, "session key 1"), (2, "session key 2")):
                self.assertEqual(keys[name] is not None, bool(s.sides & bit))

    def test_sealing(self) -> None:
        """Each kind sealed; unsealed again, also with every bit drawn."""
        most = {0: 0, 1: 31, 2: 0xFFFF}
        for shape in KINDS.values():
            length = 10 if shape.sealing_key == "d" else 16
            for _ in range(TIMES):
                sealing_key, version = DRAW.randbytes(length), DRAW.getrandbits(16)
                inputs = [DRAW.randbytes(shape.key), version, sealing_key]
                if shape.number:
                    inputs.append(DRAW.randint(0, most[shape.number]))
                text = DESK.call(shape.seal, *inputs)["bytes"]
                self.assertEqual(getattr(PLAIN_STEPS, shape.seal)(*inputs), text)
                for bits in (text, bytes([text[0] ^ 1]) + text[1:], DRAW.randbytes(15)):
                    back = DESK.call(shape.unseal, bits, sealing_key, version)
                    worked = getattr(PLAIN_STEPS, shape.unseal)(bits, sealing_key, version)
                    wanted = (back["key"], back.get("number"), back["failed_checks"])
                    self.assertEqual(tuple(worked), wanted)

    def test_failed_checks(self) -> None:
        """Every single check of every kind, made to fail by itself."""
        for shape in KINDS.values():
            seen: set[int] = set()
            ring_key = DRAW.randbytes(10 if shape.sealing_key == "d" else 16)
            for _ in range(60 * TIMES):
                text = DRAW.randbytes(15)
                worked = getattr(PLAIN_STEPS, shape.unseal)(text, ring_key, 7)
                if worked.failed + 1 == 1 << shape.checks:
                    continue
                seen.update(bit for bit in range(shape.checks) if not worked.failed >> bit & 1)
                wanted = DESK.call(shape.unseal, text, ring_key, 7)["failed_checks"]
                self.assertEqual(worked.failed, wanted)
            self.assertEqual(seen, set(range(shape.checks)))

    def test_identities(self) -> None:
        for _ in range(TIMES):
            common_key, identity = DRAW.randbytes(10), DRAW.getrandbits(24)
            encrypted = PLAIN_STEPS.ta61(common_key, identity)
            self.assertEqual(encrypted, DESK.call("ta61", common_key, identity)["identity"])
            self.assertEqual(PLAIN_STEPS.ta61_inverse(common_key, encrypted), identity)

    def test_book(self) -> None:
        """The sample's book, sealed and opened record by record."""
        keys = PLAIN_STEPS.keys(SITTING)
        ring = Ring(*(keys[name] or b"" for name in ("D", "O", "C", "G")))
        strings = PLAIN_STEPS.k_strings(ring.c)
        made = [PLAIN_STEPS.sealed(entry, ring, strings) for entry in ENTRIES]
        self.assertEqual(made, split(seal(SITTING, PLAIN_BOOK), SEALED))
        for entry, record in zip(ENTRIES, made):
            opened = PLAIN_STEPS.opened(record, ring, strings)
            self.assertEqual(tuple(opened), (*entry, 0))

    def test_steps(self) -> None:
        """Every named step is a method, is worked and recorded, and can be altered."""
        steps = Steps(DESK, trace=True)
        keys = steps.keys(SITTING)
        self.assertEqual(keys, PLAIN_STEPS.keys(SITTING))
        ring = Ring(*(keys[name] or b"" for name in ("D", "O", "C", "G")))
        for entry in ENTRIES:
            steps.ta61_inverse(ring.c, steps.ta61(ring.c, entry.identity))
            strings = steps.k_strings(ring.c)
            steps.opened(steps.sealed(entry, ring, strings), ring, strings)
        seen = set()

        def walk(trace: list) -> None:  # type: ignore[type-arg]
            for step in trace:
                seen.add((step.method, step.name, step.clause))
                walk(step.steps)

        walk(steps.trace)
        self.assertEqual({(method, name) for method, name, _ in seen}, {(m, n) for m, (n, _) in STEPS.items()})
        fixed = {(m, n, c) for m, (n, c) in STEPS.items() if m not in CLAUSES}
        self.assertEqual({each for each in seen if each[0] not in CLAUSES}, fixed)
        ta31 = next(step for step in steps.trace if step.name == "TA31")
        self.assertEqual(list(ta31.inputs), ["cipher_key", "version", "sealing_key"])
        self.assertEqual(ta31.output, PLAIN_STEPS.text(ENTRIES[0], ring))
        self.assertEqual(
            [step.name for step in ta31.steps],
            ["EXP1", "zero byte after", "key derivation", "BL1", "byte 8 dropped"],
        )
        self.assertEqual(PLAIN_STEPS.trace, [])
        altered = Steps(DESK, {"last_byte": lambda steps, inserted: 0}, trace=True)
        self.assertEqual(altered.exp2(bytes(range(10)))[15], 0)
        inner = [step.name for step in altered.trace[0].steps]
        self.assertEqual(inner, ["EXP1", "EXP2's last byte"])

    def test_clauses(self) -> None:
        """A step that several algorithms have stands in the clause of the one that runs."""
        ring = Ring(bytes(10), bytes(16), bytes(10), bytes(16))
        found: dict[str, set[str]] = {}

        def walk(trace: list, algorithm: str) -> None:  # type: ignore[type-arg]
            for step in trace:
                if step.method in CLAUSES:
                    found.setdefault(f"{step.method} {algorithm}", set()).add(step.clause)
                walk(step.steps, step.name if step.name.startswith("TA") else algorithm)

        for entry in ENTRIES:
            steps = Steps(DESK, trace=True)
            strings = steps.k_strings(ring.c)
            steps.opened(steps.sealed(entry, ring, strings), ring, strings)
            walk(steps.trace, "")
        numbers = {"TA31": 8, "TA51": 10, "TA81": 14, "TA91": 16, "TA32": 9, "TA52": 11, "TA82": 15, "TA92": 17}
        parts = {"joined": 1, "zero_behind": 1, "x16": 1, "zero_back": 1, "short_key": 2, "long_key": 2,
                 "repeated": 2, "core_key": 2, "dropped": 3, "failed": 3, "shrunk": 3}  # fmt: skip
        wanted = {
            f"{method} {algorithm}": {f"5.{number}.{parts[method]}"}
            for algorithm, number in numbers.items()
            for method in parts
        }
        wanted.update({"shrunk TA32": {"5.5.1"}, "shrunk TA52": {"5.5.2"}})  # SHR1 and SHR2
        self.assertEqual(found, {each: wanted[each] for each in found})
        self.assertEqual(len(found), 46)


if __name__ == "__main__":
    unittest.main()
