"""The reference working, held against document 01's cases and against the engine's calls."""

from __future__ import annotations

import random
import unittest
from typing import Any, Tuple

from common import DESK
from reference import NUMBERED, SHORT_NUMBER, Entry, Sitting, Working, plain_book, records

WORKING = Working()
ROUNDS = 100


def upward(length: int) -> bytes:
    """01 02 .., so many bytes."""
    return bytes(range(1, length + 1))


class Cases(unittest.TestCase):
    """01, Cases to prove: a to k."""

    def same(self, made: bytes, wanted: str) -> None:
        """Compares bytes with their hexadecimal."""
        self.assertEqual(made.hex(" "), wanted)

    def test_expansions(self) -> None:
        """a to f."""
        self.same(WORKING.exp1(upward(10)), "01 02 03 03 04 07 05 06 03 07 08 0f 09 0a 03")
        self.same(WORKING.exp2(upward(10)), "01 02 03 03 04 07 05 06 03 07 08 0f 09 0a 03 1f")
        self.same(WORKING.exp4(upward(10)), "13 03 01 02 07 03 04 0b 05 06 0f 07 08 13 09 0a")
        self.same(WORKING.exp3(upward(11)), "01 02 03 03 04 05 02 06 07 08 09 09 0a 0b 08")
        self.same(WORKING.x16(upward(12)), "01 02 03 04 04 05 06 07 08 0c 09 0a 0b 0c 04 00")
        self.same(WORKING.tb7(upward(12)), "01 02 03 00 04 05 06 07 07 08 09 06 0a 0b 0c 0d")

    def test_functions(self) -> None:
        """g, h, i and k."""
        self.same(WORKING.f(bytes(4), bytes(12)), "84 4a 18 9c")
        self.same(WORKING.permute(bytes(3)), "f4 f4 f4")
        self.same(WORKING.permute(b"\1\0\0"), "01 01 7f")
        self.same(WORKING.tb5(bytes(10), 0, 0, 1), "00 00 00 01 00 00 40 00 10 00")

    def test_schedule(self) -> None:
        """j."""
        registers = WORKING.registers(bytes(16))
        self.same(WORKING.round_keys(bytes(16))[1], "79 57 df c0 38 0a 33 1e f3 8c f4 f7")
        self.same(registers[16], bytes(16).hex(" "))

    def test_plainlist(self) -> None:
        """The record of 01's listing."""
        entry = Entry(2, 0x123456, 7, upward(10), 3)
        wanted = "02 12 34 56 00 07 01 02 03 04 05 06 07 08 09 0a 00 03"
        self.same(plain_book([entry]), wanted)


class AgainstTheEngine(unittest.TestCase):
    """Every call of the engine that the reference works as well, on random inputs."""

    def setUp(self) -> None:
        """Draws alike in each run."""
        self.random = random.Random(2024)

    def bytes(self, length: int) -> bytes:
        """So many random bytes."""
        return self.random.getrandbits(8 * length).to_bytes(length, "big")

    def number(self, bits: int) -> int:
        """A random number of so many bits."""
        return self.random.getrandbits(bits)

    def masks(self) -> Tuple[int, int]:
        """A response mask and a key mask."""
        places = [1 << place for place in self.random.sample(range(16), 14)]
        return sum(places[:4]), sum(places[4:])

    def entry(self, kind: int) -> Entry:
        """A random entry."""
        key = self.bytes(12 if kind == 4 else 10)
        number = self.number(5 if kind in SHORT_NUMBER else 16) if kind in NUMBERED else None
        return Entry(kind, self.number(24), self.number(16), key, number)

    def sitting(self, sides: int) -> Sitting:
        """A random sitting."""
        rs, rso, rand1, rand2, c = (self.bytes(10) for _ in range(5))
        root, group_key, masks = self.bytes(16), self.bytes(12), self.masks()
        return Sitting(root, rs, rso, rand1, rand2, c, group_key, sides, *masks)

    def same(self, name: str, made: Any, *inputs: Any) -> None:
        """The call's fields, in their order, are what the reference made."""
        fields = tuple(DESK.call(name, *inputs).values())
        self.assertEqual(fields, made if isinstance(made, tuple) else (made,), name)

    def test_cipher(self) -> None:
        """HURDLE-II both ways, and the register at each step."""
        for _ in range(ROUNDS):
            key, block = self.bytes(16), self.bytes(8)
            self.same("encrypt", WORKING.encrypt(key, block), key, block)
            self.same("decrypt", WORKING.decrypt(key, block), key, block)
            self.assertEqual(WORKING.decrypt(key, WORKING.encrypt(key, block)), block)
        for steps, register in enumerate(WORKING.registers(key)):
            self.same("register", register, key, steps)

    def test_derivations(self) -> None:
        """TA11, TA21, TA41, TA12, TA22, TB4, TB5 and TB7."""
        for _ in range(ROUNDS):
            key, data, masks = self.bytes(16), self.bytes(10), self.masks()
            for name in ("ta11", "ta21", "ta41"):
                self.same(name, getattr(WORKING, name)(key, data), key, data)
            for name in ("ta12", "ta22"):
                self.same(name, getattr(WORKING, name)(key, data, *masks), key, data, *masks)
            other, group_key = self.bytes(10), self.bytes(12)
            self.same("tb4", WORKING.tb4(data, other), data, other)
            self.same("tb7", WORKING.tb7(group_key), group_key)
            cell = (self.number(14), self.number(12), self.number(6))
            self.same("tb5", WORKING.tb5(data, *cell), data, *cell)

    def test_seals(self) -> None:
        """TA31, TA51, TA81 and TA91, and their inverses of what they made."""
        for _ in range(ROUNDS):
            d, o, key, group = (self.bytes(length) for length in (10, 16, 10, 12))
            version, short, long = self.number(16), self.number(5), self.number(16)
            for seal, unseal, under, sealed, number in (
                ("ta31", "ta32", d, key, ()),
                ("ta51", "ta52", o, key, (short,)),
                ("ta81", "ta82", o, key, (long,)),
                ("ta91", "ta92", o, group, ()),
            ):
                text = getattr(WORKING, seal)(sealed, version, under, *number)
                self.same(seal, text, sealed, version, under, *number)
                self.same(unseal, (sealed, *number, 0), text, under, version)

    def test_unseals(self) -> None:
        """TA32, TA52, TA82 and TA92 of texts with one byte changed, and of any texts."""
        for turn in range(ROUNDS):
            d, o, key = self.bytes(10), self.bytes(16), self.bytes(10)
            version, text = self.number(16), bytearray(self.bytes(15))
            if turn % 2:
                text[:] = WORKING.ta51(key, version, o, self.number(5))
                text[self.random.randrange(15)] ^= 1 << self.random.randrange(8)
            for name, under in (("ta32", d), ("ta52", o), ("ta82", o), ("ta92", o)):
                made = getattr(WORKING, name)(bytes(text), under, version)
                fields = tuple(field for field in made if field is not None)
                self.same(name, fields, bytes(text), under, version)

    def test_high_bits(self) -> None:
        """TA52's last check, the three zero bits, where all else is in order."""
        for byte in range(256):
            key, version, o = self.bytes(10), self.number(16), self.bytes(16)
            text = WORKING.ta51(key, version, o, byte)
            failed = 16 if byte > 31 else 0
            self.assertEqual(WORKING.ta52(text, o, version), (key, byte % 32, failed))
            self.same("ta52", (key, byte % 32, failed), text, o, version)

    def test_identities(self) -> None:
        """TA61 and its inverse."""
        for _ in range(ROUNDS):
            key, identity = self.bytes(10), self.number(24)
            self.same("ta61", WORKING.ta61(key, identity), key, identity)
            self.same("ta61_inverse", WORKING.ta61_inverse(key, identity), key, identity)

    def test_recipe(self) -> None:
        """The ring and both responses, for each number of sides."""
        for turn in range(ROUNDS):
            sitting = self.sitting(turn % 3 + 1)
            keys = WORKING.recipe(sitting)
            made = (b"".join(keys.ring), keys.response1, keys.response2)
            self.same("ring", made, *sitting)

    def test_books(self) -> None:
        """Books of every kind, sealed and opened."""
        for count in (0, 1, 2, 60):
            ring = WORKING.recipe(self.sitting(3)).ring
            entries = [self.entry(place % 6 + 1) for place in range(count)]
            plain, sealed = plain_book(entries), WORKING.sealed_book(ring, entries)
            joined = b"".join(ring)
            self.assertEqual(DESK.call("seal_book", joined, plain)["out"], sealed)
            self.assertEqual(DESK.call("open_book", joined, sealed)["out"], plain)
            opened = [WORKING.open_record(ring, record) for record in records(sealed, 21)]
            self.assertEqual(opened, [(entry, 0) for entry in entries])


if __name__ == "__main__":
    unittest.main()
