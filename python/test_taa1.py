# SPDX-License-Identifier: MIT
"""Calls everything in the module: results, refusals and values of wrong types.

    TAA1_LIBRARY=target/libtaa1.so python3 python/test_taa1.py
"""

from __future__ import annotations

import copy
import os
import pickle
import unittest
from pathlib import Path
from typing import Any, Callable

import taa1
from taa1 import (
    CHALLENGE_BYTES,
    MOST_RECORDS,
    PLAIN_RECORD_BYTES,
    RECORD_NUMBER_AT,
    RECORD_TEXT_AT,
    RING_BYTES,
    SEALED_RECORD_BYTES,
    SHEET_RECORD_BYTES,
    SHEET_VALUE_BYTES,
    SITTING_BYTES,
    CarrierIdentity,
    Cell,
    TALLY_RECORD_BYTES,
    KeyNumber,
    Kind,
    PlainEntry,
    Refusal,
    Refused,
    SealedRecord,
    Sitting,
    Tally,
    Version,
)

ENGINE = taa1.Engine(os.path.abspath(os.environ["TAA1_LIBRARY"]))


def upward(length: int) -> bytes:
    """The bytes 01 02 .. upward."""
    return bytes(range(1, length + 1))


# The expansions of the bytes upward: the cases a to f of the engine's paper.
EXP1 = bytes.fromhex("01 02 03 03 04 07 05 06 03 07 08 0f 09 0a 03")
EXP2 = EXP1 + b"\x1f"
EXP4 = bytes.fromhex("13 03 01 02 07 03 04 0b 05 06 0f 07 08 13 09 0a")
EXP3 = bytes.fromhex("01 02 03 03 04 05 02 06 07 08 09 09 0a 0b 08")
X16 = bytes.fromhex("01 02 03 04 04 05 06 07 08 0c 09 0a 0b 0c 04 00")
TB7 = bytes.fromhex("01 02 03 00 04 05 06 07 07 08 09 06 0a 0b 0c 0d")

ROOT = bytes(range(0x30, 0x40))
KEY = bytes(range(0x50, 0x5A))
BLOCK = upward(8)
VERSION = Version(0x0708)
RESPONSE_MASK = 0xF000
KEY_MASK = 0x0FFC
BOTH_SIDES = 3
ONE_UNREADABLE = 0x0100
SITTING = Sitting(
    ROOT,
    upward(10),
    KEY,
    b"challenge1",
    b"challenge2",
    b"common key",
    upward(12),
    BOTH_SIDES,
    RESPONSE_MASK,
    KEY_MASK,
)
RING = upward(RING_BYTES)


def record(kind: Kind, body: bytes) -> bytes:
    """A plain record of the identity 123456 and the version 0708."""
    return bytes([kind, 0x12, 0x34, 0x56, 7, 8]) + body


BOOK = [
    record(Kind.TA31, upward(10) + bytes(2)),
    record(Kind.TA51, upward(10) + b"\x00\x1f"),
    record(Kind.TA81, upward(10) + b"\x0b\x0c"),
    record(Kind.TA91, KEY + b"ok"),
    record(Kind.TA51_G, upward(10) + b"\x00\x1f"),
    record(Kind.TA81_G, upward(10) + b"\x0b\x0c"),
]


def given(key: bytes) -> bytes:
    """A sheet's record of a given key."""
    return (bytes([0, 0, 0, 0, 0, len(key)]) + key).ljust(SHEET_RECORD_BYTES, b"\0")


def derived(operation: int, first: int, second: int) -> bytes:
    """A sheet's record of an operation on two others."""
    parents = first.to_bytes(2, "big") + second.to_bytes(2, "big")
    return (bytes([operation]) + parents).ljust(SHEET_RECORD_BYTES, b"\0")


SHEET = [given(ROOT), given(KEY), derived(1, 0, 1), derived(4, 1, 1)]

# For each call, values that it accepts.
ACCEPTED: dict[str, tuple[Any, ...]] = {
    "encrypt": (ROOT, BLOCK),
    "decrypt": (ROOT, BLOCK),
    "encrypt_register": (ROOT, BLOCK),
    "decrypt_register": (ROOT, BLOCK),
    "register": (ROOT, 1),
    "diffusion": (ROOT + BLOCK,),
    "ta11": (ROOT, KEY),
    "ta21": (ROOT, KEY),
    "ta41": (ROOT, KEY),
    "ta12": (ROOT, KEY, RESPONSE_MASK, KEY_MASK),
    "ta22": (ROOT, KEY, RESPONSE_MASK, KEY_MASK),
    "ta12_class": (ROOT, upward(10) + KEY, RESPONSE_MASK, KEY_MASK),
    "ta31": (KEY, VERSION, KEY),
    "ta32": (upward(15), KEY, VERSION),
    "ta51": (KEY, VERSION, ROOT, KeyNumber(31)),
    "ta52": (upward(15), ROOT, VERSION),
    "ta61": (KEY, 1),
    "ta61_inverse": (KEY, 1),
    "ta71": (KEY, KEY),
    "ta81": (KEY, VERSION, ROOT, KeyNumber(31)),
    "ta82": (upward(15), ROOT, VERSION),
    "ta91": (upward(12), VERSION, ROOT),
    "ta92": (upward(15), ROOT, VERSION),
    "ta101": (ROOT, KEY, 1),
    "tb1": (1, 16),
    "tb2": (ROOT,),
    "tb3": (ROOT, 1, 16),
    "tb4": (KEY, KEY),
    "tb5": (KEY, 1, 1, 1),
    "tb6": (KEY, 1, 1),
    "tb7": (upward(12),),
    "tb1_inverse": (ENGINE.tb1(1, 16), 16),
    "tb3_inverse": (ROOT, ENGINE.tb3(ROOT, 1, 16), 16),
    "tb5_inverse": (KEY, ENGINE.tb5(KEY, 1, 1, 1)),
    "tb6_inverse": (KEY, ENGINE.tb6(KEY, 1, 1)),
    "restore_card": (TB7, ONE_UNREADABLE),
    "ring": SITTING,
    "seal_book": (RING, BOOK[0]),
    "open_book": (RING, ENGINE.seal_book(RING, BOOK[0]).content),
    "check_plain": (BOOK[0],),
    "lineage": (b"".join(SHEET),),
    "plain_to_columns": (BOOK[0],),
    "plain_from_columns": (BOOK[0],),
    "sealed_to_columns": (upward(SEALED_RECORD_BYTES),),
    "sealed_from_columns": (upward(SEALED_RECORD_BYTES),),
}

# For each type of value, what must not be taken for it.
WRONG: dict[type, tuple[Any, ...]] = {
    bytes: (None, 16, "text", [1, 2], 1.5, VERSION),
    int: (None, "1", b"1", 1.0, VERSION, KeyNumber(1)),
    Version: (None, 1, True, b"\x00\x01", KeyNumber(1)),
    KeyNumber: (None, 1, True, b"\x00\x01", Version(1)),
}


def call(name: str, *values: Any) -> Any:
    """The result of a call by its name."""
    if name == "ring":
        return ENGINE.ring(Sitting(*values))
    return getattr(ENGINE, name)(*values)


def xor(a: bytes, b: bytes) -> bytes:
    """The xor of two strings of one length."""
    return bytes(x ^ y for x, y in zip(a, b))


def bl1(key: bytes, data: bytes) -> bytes:
    """Two blocks, the second xor the first's encryption."""
    left = ENGINE.encrypt(key, data[:8])
    return left + ENGINE.encrypt(key, xor(data[8:], left))


def sealed(key: bytes, data: bytes) -> bytes:
    """The text of expanded data: byte 8 is left out, where byte 0 is rightmost."""
    text = bl1(key, data)
    return text[:7] + text[8:]


class Results(unittest.TestCase):
    """What the calls answer."""

    def test_cipher(self) -> None:
        encrypted = bytes.fromhex("d184108a86befa5a")
        self.assertEqual(ENGINE.encrypt(upward(16), BLOCK), encrypted)
        self.assertEqual(ENGINE.decrypt(upward(16), encrypted), BLOCK)

    def test_one_register(self) -> None:
        encrypted = ENGINE.encrypt(upward(16), BLOCK)
        self.assertEqual(ENGINE.encrypt_register(upward(16), BLOCK), encrypted)
        self.assertEqual(ENGINE.decrypt_register(upward(16), encrypted), BLOCK)

    def test_steps(self) -> None:
        """Each step rotates the register and adds D, until the key is back."""
        d = bytes.fromhex("3ca7ec257957dfc0380a331ef38cf4f7")
        wanted = ROOT
        for step, rotation in enumerate((5, 5, 5, 5, 3, 7, 5, 5, 5, 5, 7, 3, 5, 5, 5, 5)):
            for turns in (0, 1, (1 << 60) - 1):
                self.assertEqual(ENGINE.register(ROOT, 16 * turns + step), wanted)
            wanted = xor(wanted[rotation:] + wanted[:rotation], d)
        self.assertEqual(wanted, ROOT)

    def test_session_keys(self) -> None:
        key = bl1(ROOT, EXP2)
        self.assertEqual(ENGINE.ta11(ROOT, upward(10)), key)
        self.assertEqual(ENGINE.ta21(ROOT, upward(10)[::-1]), key)
        self.assertEqual(ENGINE.ta41(ROOT, upward(10)), key)

    def test_responses(self) -> None:
        out = bl1(ROOT, EXP2)
        for name in ("ta12", "ta22"):
            with self.subTest(name):
                answer = call(name, ROOT, upward(10), RESPONSE_MASK, KEY_MASK)
                self.assertEqual((answer.response, answer.key), (out[:4], out[4:14]))

    def test_classes(self) -> None:
        """Each challenge is answered as alone, also in the longest and the empty class."""
        masks = (RESPONSE_MASK, KEY_MASK)
        for a, b in ((b"", b""), (upward(10), b""), (upward(10), KEY)):
            for times in (1, 2, MOST_RECORDS // 2):
                challenges = (a + b) * times
                starts = range(0, len(challenges), CHALLENGE_BYTES)
                single = (challenges[at : at + CHALLENGE_BYTES] for at in starts)
                alone = [ENGINE.ta12(ROOT, challenge, *masks) for challenge in single]
                self.assertEqual(ENGINE.ta12_class(ROOT, challenges, *masks), alone)

    def test_lineage(self) -> None:
        """Each operation, the empty sheet, and the longest, a chain."""
        keys = [ROOT, KEY, upward(10)]
        sheet = [given(key) for key in keys]
        for operation, name, first, second in (
            (1, "ta11", 0, 1),
            (2, "ta21", 3, 2),
            (4, "tb4", 1, 2),
            (5, "ta71", 5, 1),
            (3, "ta41", 4, 6),
        ):
            sheet.append(derived(operation, first, second))
            keys.append(call(name, keys[first], keys[second]))
        values = [key.ljust(SHEET_VALUE_BYTES, b"\0") for key in keys]
        self.assertEqual(ENGINE.lineage(b"".join(sheet)), values)
        self.assertEqual(ENGINE.lineage(b""), [])
        keys = [ROOT]
        sheet = [given(ROOT), given(KEY), derived(1, 0, 1)]
        sheet += [derived(1, i, 1) for i in range(2, MOST_RECORDS - 1)]
        for _ in range(2, MOST_RECORDS):
            keys.append(ENGINE.ta11(keys[-1], KEY))
        values = ENGINE.lineage(b"".join(sheet))
        self.assertEqual(values[:1] + values[2:], keys)

    def test_tallies(self) -> None:
        """The figures of the single encryptions, for no records and a few."""
        records = [bytes(24), ROOT + BLOCK, b"\xff" * 24]
        for n in range(len(records) + 1):
            changes = [change for one in records[:n] for change in self.changes(one)]
            wanted = Tally(64 * n, sum(changes), min(changes, default=0), max(changes, default=0))
            self.assertEqual(ENGINE.diffusion(b"".join(records[:n])), wanted)
        one = ENGINE.diffusion(records[1])
        longest = ENGINE.diffusion(records[1] * MOST_RECORDS)
        self.assertEqual(longest, Tally(65536, MOST_RECORDS * one.total, one.least, one.greatest))

    @staticmethod
    def changes(record: bytes) -> list[int]:
        """The bits that change for each of the 64 flips."""
        key, block = record[:16], record[16:]
        output = ENGINE.encrypt(key, block)
        flips = (xor(block, (1 << i).to_bytes(8, "big")) for i in range(64))
        others = (xor(output, ENGINE.encrypt(key, flip)) for flip in flips)
        return [bin(int.from_bytes(other, "big")).count("1") for other in others]

    def test_seals(self) -> None:
        under10 = xor(upward(10), b"\x07\x08" * 5)
        under16 = xor(ROOT, b"\x07\x08" * 8)
        key, group_key = upward(10), upward(12)
        kind1 = sealed(EXP4, EXP1 + b"\0")
        kind2 = sealed(ROOT, EXP3 + b"\0")
        wide = sealed(ROOT, X16)

        self.assertEqual(ENGINE.ta31(key, VERSION, under10), kind1)
        self.assertEqual(ENGINE.ta51(key, VERSION, under16, KeyNumber(0x0B)), kind2)
        self.assertEqual(ENGINE.ta81(key, VERSION, under16, KeyNumber(0x0B0C)), wide)
        self.assertEqual(ENGINE.ta91(group_key, VERSION, under16), wide)

        self.assertEqual(ENGINE.ta32(kind1, under10, VERSION), (key, 0))
        self.assertEqual(ENGINE.ta52(kind2, under16, VERSION), (key, KeyNumber(0x0B), 0))
        self.assertEqual(ENGINE.ta82(wide, under16, VERSION), (key, KeyNumber(0x0B0C), 0))
        self.assertEqual(ENGINE.ta92(wide, under16, VERSION), (group_key, 0))

    def test_failed_checks(self) -> None:
        """Each check fails by itself where its byte, or a top bit of the number, is another."""
        under10 = xor(upward(10), b"\x07\x08" * 5)
        under16 = xor(ROOT, b"\x07\x08" * 8)
        for name, core_key, sealing_key, expanded, inserted in (
            ("ta32", EXP4, under10, EXP1 + b"\0", (2, 5, 8, 11, 14)),
            ("ta52", ROOT, under16, EXP3 + b"\0", (2, 6, 10, 14)),
            ("ta82", ROOT, under16, X16, (4, 9, 14)),
            ("ta92", ROOT, under16, X16, (4, 9, 14)),
        ):
            for place, at in enumerate(inserted):
                with self.subTest(name, place=place):
                    other = bytearray(expanded)
                    other[at] ^= 1
                    failed = call(name, sealed(core_key, bytes(other)), sealing_key, VERSION)
                    self.assertEqual(failed.failed_checks, 1 << place)
                    self.assertEqual(list(failed.failed_checks), [place])
        wide = bytearray(EXP3 + b"\0")
        wide[13] ^= 0x80
        wide[14] ^= 0x80
        opened = ENGINE.ta52(sealed(ROOT, bytes(wide)), under16, VERSION)
        self.assertEqual(opened.failed_checks, 0b10000)

    def test_identities(self) -> None:
        # The first record of the sample sitting.
        common_key = bytes(range(0xC0, 0xCA))
        self.assertEqual(ENGINE.ta61(common_key, 1), 0xA29AFC)
        self.assertEqual(ENGINE.ta61_inverse(common_key, 0xA29AFC), 1)

    def test_keys_from_keys(self) -> None:
        a, b = upward(10), KEY
        key = a[:6] + xor(a[6:], b[:4]) + b[4:]
        self.assertEqual(ENGINE.ta71(a, b), ENGINE.ta11(key, xor(a, b))[3:13])
        seed = xor(KEY, bytes.fromhex("123456" * 3 + "00"))
        self.assertEqual(ENGINE.ta101(ROOT, KEY, 0x123456), ENGINE.ta11(ROOT, seed))

    def test_mixing(self) -> None:
        repeated = bytes.fromhex("12345" * 6 + "12")
        self.assertEqual(ENGINE.tb1(0x12345, 20), repeated)
        self.assertEqual(ENGINE.tb2(ROOT), ROOT)
        self.assertEqual(ENGINE.tb3(ROOT, 0x12345, 20), xor(ROOT, repeated))
        self.assertEqual(ENGINE.tb4(upward(10), KEY), xor(upward(10), KEY))
        self.assertEqual(ENGINE.tb7(upward(12)), TB7)

    def test_cards(self) -> None:
        """Any one byte of each group, whatever stands in its place."""
        self.assertEqual(ENGINE.restore_card(TB7, 0), (upward(12), TB7))
        for places in range(256):
            smudged, unreadable = bytearray(TB7), 0
            for group in range(4):
                i = 4 * group + (places >> 2 * group) % 4
                smudged[i] ^= 0x5A
                unreadable |= 1 << 15 - i
            self.assertEqual(ENGINE.restore_card(smudged, unreadable), (upward(12), TB7))

    def test_cells(self) -> None:
        one = bytes.fromhex("00 00 00 01 00 00 40 00 10 00")
        self.assertEqual(ENGINE.tb5(bytes(10), 0, 0, 1), one)
        self.assertEqual(ENGINE.tb5(KEY, 0, 0, 1), xor(KEY, one))
        widest = ENGINE.tb5(bytes(10), 0x3FFF, 0xFFF, 0x3F)
        self.assertEqual(widest, b"\xff" * 10)
        carried = bytes.fromhex("ab c1 23 45 6a bc 12 34 56 56")
        self.assertEqual(ENGINE.tb6(KEY, 0xABC, 0x123456), xor(KEY, carried))

    def test_inverses(self) -> None:
        for value, width in ((0x12345, 20), (0, 16), (0xFFFF, 16), (0xFEDCBA98, 32)):
            repeated = ENGINE.tb1(value, width)
            self.assertEqual(ENGINE.tb1_inverse(repeated, width), value)
            self.assertEqual(ENGINE.tb3_inverse(ROOT, xor(ROOT, repeated), width), value)
        cell = Cell(0x2ABC, 0xDEF, 0x15)
        self.assertEqual(ENGINE.tb5_inverse(KEY, ENGINE.tb5(KEY, *cell)), cell)
        carried = CarrierIdentity(0xABC, 0x123456)
        self.assertEqual(ENGINE.tb6_inverse(KEY, ENGINE.tb6(KEY, *carried)), carried)

    def test_ring(self) -> None:
        root, rs, rso, rand1, rand2, c, group_key, _, *masks = SITTING
        first = ENGINE.ta12(ENGINE.ta11(root, rs), rand1, *masks)
        second = ENGINE.ta22(ENGINE.ta21(root, rs), rand2, *masks)
        idle = taa1.Authentication(bytes(4), bytes(10))
        for sides, (left, right) in enumerate([(first, idle), (idle, second), (first, second)], 1):
            with self.subTest(sides=sides):
                ring = ENGINE.tb4(left.key, right.key) + ENGINE.ta41(root, rso) + c
                ring += ENGINE.tb7(group_key)
                made = ENGINE.ring(SITTING._replace(sides=sides))
                self.assertEqual(made, (ring, left.response, right.response))

    def test_idle_challenges(self) -> None:
        for sides, idle in ((1, "rand2"), (2, "rand1")):
            with self.subTest(sides=sides):
                sitting = SITTING._replace(sides=sides)
                zeros: dict[str, Any] = {idle: bytes(10)}
                other = sitting._replace(**zeros)
                self.assertEqual(ENGINE.ring(other), ENGINE.ring(sitting))

    def test_books(self) -> None:
        d, o, c, g = RING[:10], RING[10:26], RING[26:36], RING[36:]
        texts = [
            ENGINE.ta31(upward(10), VERSION, d),
            ENGINE.ta51(upward(10), VERSION, o, KeyNumber(31)),
            ENGINE.ta81(upward(10), VERSION, o, KeyNumber(0x0B0C)),
            ENGINE.ta91(KEY + b"ok", VERSION, o),
            ENGINE.ta51(upward(10), VERSION, g, KeyNumber(31)),
            ENGINE.ta81(upward(10), VERSION, g, KeyNumber(0x0B0C)),
        ]
        identity = ENGINE.ta61(c, 0x123456).to_bytes(3, "big")
        wanted = b"".join(
            bytes([kind]) + identity + b"\x07\x08" + text for kind, text in zip(Kind, texts)
        )
        plain = b"".join(BOOK)
        self.assertEqual(ENGINE.seal_book(RING, plain), (6, wanted, 13))
        self.assertEqual(ENGINE.open_book(RING, wanted), (6, plain, 25))
        self.assertEqual(ENGINE.check_plain(plain), 6)

    def test_damages(self) -> None:
        """Of one-byte damages open those of an identity, and kind 3 for 4 or 4 for 3."""
        sealed = ENGINE.seal_book(RING, b"".join(BOOK)).content
        for at, byte in enumerate(sealed):
            record, place = divmod(at, SEALED_RECORD_BYTES)
            for other in {byte ^ 1, byte ^ 0x80, byte ^ 7, 255 - byte}:
                damaged = bytes([*sealed[:at], other, *sealed[at + 1 :]])
                exchanged = place == 0 and {byte, other} == {Kind.TA81, Kind.TA91}
                with self.subTest(record=record, place=place, byte=other):
                    if place in (1, 2, 3) or exchanged:
                        self.assertNotEqual(ENGINE.open_book(RING, damaged).content, b"".join(BOOK))
                    else:
                        self.assertRaises(Refused, ENGINE.open_book, RING, damaged)

    def test_longest_and_empty_books(self) -> None:
        for records, sealing, opening in ((0, 0, 0), (MOST_RECORDS, 2049, 4097)):
            plain = BOOK[3] * records
            sealed_book = ENGINE.seal_book(RING, plain)
            self.assertEqual((sealed_book.records, sealed_book.runs), (records, sealing))
            opened = ENGINE.open_book(RING, sealed_book.content)
            self.assertEqual((opened.content, opened.runs), (plain, opening))
            self.assertEqual(ENGINE.check_plain(plain), records)

    def test_columns(self) -> None:
        """Byte j of every record, for each j; and back, also of the longest and the empty book."""
        for kind, size in (("plain", PLAIN_RECORD_BYTES), ("sealed", SEALED_RECORD_BYTES)):
            for records in (0, 1, 2, 3, MOST_RECORDS - 1, MOST_RECORDS):
                with self.subTest(kind, records=records):
                    book = bytes(i % 251 for i in range(size * records))
                    columns = b"".join(book[j::size] for j in range(size))
                    self.assertEqual(call(f"{kind}_to_columns", book), (records, columns))
                    self.assertEqual(call(f"{kind}_from_columns", columns), (records, book))


class Records(unittest.TestCase):
    """Records as their fields, beside what the engine checks, seals and opens."""

    ENTRIES = [
        PlainEntry(Kind.TA31, 0x123456, VERSION, upward(10)),
        PlainEntry(Kind.TA51, 0x123456, VERSION, upward(10), KeyNumber(31)),
        PlainEntry(Kind.TA81, 0x123456, VERSION, upward(10), KeyNumber(0x0B0C)),
        PlainEntry(Kind.TA91, 0x123456, VERSION, KEY + b"ok"),
        PlainEntry(Kind.TA51_G, 0x123456, VERSION, upward(10), KeyNumber(31)),
        PlainEntry(Kind.TA81_G, 0x123456, VERSION, upward(10), KeyNumber(0x0B0C)),
    ]

    def refused(self, number: int, function: Callable[..., Any], *values: Any) -> None:
        with self.assertRaises(Refused) as caught:
            function(*values)
        self.assertEqual(caught.exception.number, number)

    def test_plain(self) -> None:
        for entry, made in zip(self.ENTRIES, BOOK):
            with self.subTest(entry.kind):
                self.assertEqual(entry.to_bytes(), made)
                self.assertEqual(PlainEntry.from_bytes(bytearray(made)), entry)

    def test_as_check_plain(self) -> None:
        """What a plain book refuses is refused, with the same number, and nothing else."""
        for made in BOOK:
            for at in (0, RECORD_NUMBER_AT, PLAIN_RECORD_BYTES - 1):
                for byte in range(256):
                    other = bytes([*made[:at], byte, *made[at + 1 :]])
                    try:
                        ENGINE.check_plain(other)
                    except Refused as refused:
                        self.refused(refused.number, PlainEntry.from_bytes, other)
                    else:
                        self.assertEqual(PlainEntry.from_bytes(other).to_bytes(), other)

    def test_wrong_fields(self) -> None:
        first, second, *_ = self.ENTRIES
        for number in (32, 255, 256, 0xFFFF):
            entry = second._replace(number=KeyNumber(number))
            self.refused(Refusal.WRONG_NUMBER, entry.to_bytes)
        self.refused(Refusal.VALUE_WIDE, first._replace(identity=1 << 24).to_bytes)
        self.refused(Refusal.WRONG_LENGTH, first._replace(key=upward(12)).to_bytes)
        self.refused(Refusal.WRONG_KIND, PlainEntry(*(7, *first[1:])).to_bytes)  # type: ignore[arg-type]
        for wrong in (first._replace(number=KeyNumber(0)), second._replace(number=None)):
            self.assertRaises(TypeError, wrong.to_bytes)
        self.assertRaises(OverflowError, first._replace(identity=-1).to_bytes)
        for length in (0, 17, 19):
            self.refused(Refusal.WRONG_LENGTH, PlainEntry.from_bytes, bytes([1]) * length)
        self.assertRaises(TypeError, PlainEntry.from_bytes, "no bytes of eighteen")

    def test_sealed(self) -> None:
        sealed = ENGINE.seal_book(RING, b"".join(BOOK)).content
        identity = ENGINE.ta61(RING[26:36], 0x123456)
        for at, kind in enumerate(Kind):
            made = sealed[at * SEALED_RECORD_BYTES :][:SEALED_RECORD_BYTES]
            read = SealedRecord.from_bytes(made)
            self.assertEqual(read, (kind, identity, VERSION, made[RECORD_TEXT_AT:]))
            self.assertEqual(read.to_bytes(), made)
        self.refused(Refusal.WRONG_KIND, SealedRecord.from_bytes, bytes(SEALED_RECORD_BYTES))
        self.refused(Refusal.WRONG_LENGTH, SealedRecord.from_bytes, sealed)
        self.refused(Refusal.WRONG_LENGTH, read._replace(text=b"").to_bytes)
        self.refused(Refusal.VALUE_WIDE, read._replace(encrypted_identity=1 << 24).to_bytes)


class Refusals(unittest.TestCase):
    """What the calls refuse."""

    def refuses(
        self, number: int, index: int | None, name: str, *values: Any, runs: int = 0
    ) -> None:
        """The call is refused so, after these runs if it counts them."""
        with self.subTest(number=number, call=name):
            with self.assertRaises(Refused) as caught:
                call(name, *values)
            refused = caught.exception
            counted = runs if name in ("seal_book", "open_book") else None
            wanted = (number, index, taa1.NAMES[number], counted)
            self.assertEqual((refused.number, refused.index, refused.name, refused.runs), wanted)

    def test_books(self) -> None:
        good = BOOK[3]
        plain_long = bytes(PLAIN_RECORD_BYTES * MOST_RECORDS + 1)
        sealed_long = bytes(SEALED_RECORD_BYTES * MOST_RECORDS + 1)
        self.refuses(Refusal.BOOK_TOO_LONG, 0, "check_plain", plain_long)
        self.refuses(Refusal.BOOK_TOO_LONG, 0, "open_book", RING, sealed_long)
        self.refuses(Refusal.BOOK_NOT_WHOLE, 0, "seal_book", RING, good[1:])
        self.refuses(Refusal.WRONG_KIND, 1, "seal_book", RING, good + bytes(PLAIN_RECORD_BYTES))
        self.refuses(Refusal.NOT_ZERO, 2, "check_plain", good * 2 + record(Kind.TA31, upward(12)))
        for kind in (Kind.TA51, Kind.TA51_G):
            number_32 = record(kind, bytes(11) + b"\x20")
            self.refuses(Refusal.WRONG_NUMBER, 1, "seal_book", RING, good + number_32)
        sealed = ENGINE.seal_book(RING, good * 2).content
        flagged, unknown = (sealed + bytes([kind] * SEALED_RECORD_BYTES) for kind in (1, 0))
        self.refuses(Refusal.FLAG_SET, 2, "open_book", RING, flagged, runs=6)
        self.refuses(Refusal.WRONG_KIND, 2, "open_book", RING, unknown, runs=4)
        self.refuses(Refusal.WRONG_LENGTH, 0, "seal_book", RING[1:], good)

    def test_classes(self) -> None:
        """In the order of the tests; the masks also where there is no challenge."""
        long = bytes(CHALLENGE_BYTES * MOST_RECORDS + 1)
        self.refuses(Refusal.WRONG_LENGTH, 0, "ta12_class", KEY, long, 0, 0)
        self.refuses(Refusal.BOOK_TOO_LONG, 0, "ta12_class", ROOT, long, 0, 0)
        self.refuses(Refusal.BOOK_NOT_WHOLE, 0, "ta12_class", ROOT, long[:11], 0, 0)
        for challenges in (b"", KEY * 2):
            self.refuses(Refusal.WRONG_MASK, 0, "ta12_class", ROOT, challenges, 0, 0)
            self.refuses(Refusal.SHARED_BIT, 0, "ta12_class", ROOT, challenges, 0x3C00, KEY_MASK)

    def test_sheets(self) -> None:
        """The first record decides, and in it 14 before 15 before 16."""
        good, bad = b"".join(SHEET), derived(6, 0, 1)
        long = bytes(SHEET_RECORD_BYTES * MOST_RECORDS + 1)
        self.refuses(Refusal.BOOK_TOO_LONG, 0, "lineage", long)
        self.refuses(Refusal.BOOK_NOT_WHOLE, 0, "lineage", good[1:])
        self.refuses(Refusal.WRONG_FILLING, 4, "lineage", good + bad)
        self.refuses(Refusal.WRONG_FILLING, 4, "lineage", good + given(KEY + b"\x01"))
        self.refuses(Refusal.WRONG_FILLING, 4, "lineage", good + derived(1, 4, 4)[:-1] + b"\x01")
        self.refuses(Refusal.WRONG_PARENT, 4, "lineage", good + derived(1, 4, 1) + bad)
        self.refuses(Refusal.WRONG_PARENT, 4, "lineage", good + derived(5, 0, 260))
        self.refuses(Refusal.PARENT_LENGTH, 4, "lineage", good + derived(1, 1, 0) + bad)
        self.refuses(Refusal.PARENT_LENGTH, 4, "lineage", good + derived(4, 3, 2))

    def test_columns(self) -> None:
        for kind, size in (("plain", PLAIN_RECORD_BYTES), ("sealed", SEALED_RECORD_BYTES)):
            long = bytes(size * MOST_RECORDS + 1)
            for name in (f"{kind}_to_columns", f"{kind}_from_columns"):
                self.refuses(Refusal.BOOK_TOO_LONG, 0, name, long)
                self.refuses(Refusal.BOOK_NOT_WHOLE, 0, name, long[: size + 1])

    def test_tallies(self) -> None:
        long = bytes(TALLY_RECORD_BYTES * MOST_RECORDS + 1)
        self.refuses(Refusal.BOOK_TOO_LONG, None, "diffusion", long)
        self.refuses(Refusal.BOOK_NOT_WHOLE, None, "diffusion", long[:25])

    def test_single_calls(self) -> None:
        self.refuses(Refusal.WRONG_NUMBER, None, "ta51", KEY, VERSION, ROOT, KeyNumber(32))
        self.refuses(Refusal.WRONG_MASK, None, "ta12", ROOT, KEY, 0x7000, KEY_MASK)
        self.refuses(Refusal.SHARED_BIT, None, "ta22", ROOT, KEY, 0x3C00, KEY_MASK)
        for sides in (1, 2, 3):
            exchanged = (*SITTING[:7], sides, KEY_MASK, RESPONSE_MASK)
            self.refuses(Refusal.WRONG_MASK, None, "ring", *exchanged)
        for sides in (0, 4, 259, (1 << 32) + 1):
            self.refuses(Refusal.WRONG_SIDES, None, "ring", *SITTING[:7], sides, 0, 0)
        disagreeing = b"\0" + TB7[1:]
        self.refuses(Refusal.GROUP_DISAGREES, None, "restore_card", disagreeing, 0)
        self.refuses(Refusal.GROUP_DISAGREES, None, "restore_card", disagreeing, ONE_UNREADABLE)
        for several in (0x0003, 0x0009, 0x0070, 0x0F00, 0xFFFF):
            self.refuses(Refusal.GROUP_UNREADABLE, None, "restore_card", disagreeing, several)
        self.refuses(Refusal.WRONG_WIDTH, None, "tb1", 1, 15)
        self.refuses(Refusal.WRONG_WIDTH, None, "tb3", ROOT, 1, 33)
        self.refuses(Refusal.VALUE_WIDE, None, "ta61", KEY, 1 << 24)
        self.refuses(Refusal.VALUE_WIDE, None, "tb1", 1 << 16, 16)

    def test_no_input(self) -> None:
        """The length goes before the width, the width before the input."""
        self.refuses(Refusal.WRONG_LENGTH, None, "tb1_inverse", KEY, 15)
        self.refuses(Refusal.WRONG_WIDTH, None, "tb1_inverse", ROOT, 15)
        self.refuses(Refusal.WRONG_WIDTH, None, "tb3_inverse", ROOT, ROOT, 33)
        self.refuses(Refusal.NO_INPUT, None, "tb1_inverse", ROOT, 16)
        self.refuses(Refusal.NO_INPUT, None, "tb3_inverse", ROOT, KEY + KEY[:6], 16)
        for name in ("tb5_inverse", "tb6_inverse"):
            *front, last = ACCEPTED[name][1]
            self.refuses(Refusal.NO_INPUT, None, name, KEY, bytes([*front, last ^ 1]))

    def test_lengths(self) -> None:
        """A string of a wrong length, in each place that has a fixed one."""
        books = (
            BOOK[0],
            ACCEPTED["open_book"][1],
            ACCEPTED["ta12_class"][1],
            ACCEPTED["lineage"][0],
            ACCEPTED["sealed_to_columns"][0],
            ACCEPTED["diffusion"][0],
        )
        for name, values in ACCEPTED.items():
            for at, value in enumerate(values):
                if isinstance(value, bytes) and value not in books:
                    index = 0 if name.endswith(("book", "class")) else None
                    others = (*values[:at], value[1:], *values[at + 1 :])
                    self.refuses(Refusal.WRONG_LENGTH, index, name, *others)

    def test_short_output(self) -> None:
        """Only a call with too little room is refused so, and the module makes room."""
        with self.assertRaises(Refused) as caught:
            ENGINE.binding.answer("seal_book", RING, BOOK[0], room=0)
        self.assertEqual(
            str(caught.exception), "refused 12 at 0 (output shorter than the result), 0 runs"
        )

    def test_names(self) -> None:
        self.assertEqual(list(taa1.NAMES), list(Refusal))

    def test_text(self) -> None:
        self.assertEqual(str(Refused(Refusal.WRONG_WIDTH)), "refused 9 (width not 16 to 32)")
        self.assertEqual(str(Refused(Refusal.WRONG_KIND, 0)), "refused 3 at 0 (kind not 1 to 6)")
        self.assertEqual(str(Refused(3, 7, 14)), "refused 3 at 7 (kind not 1 to 6), 14 runs")
        self.assertEqual(str(Refused(20)), "refused 20 (not in the list)")

    def test_copies(self) -> None:
        again: list[Callable[[Any], Any]] = [
            copy.copy,
            copy.deepcopy,
            lambda refused: pickle.loads(pickle.dumps(refused)),
        ]
        for refused in (Refused(9), Refused(3, 7), Refused(3, 7, 14)):
            for made in (make(refused) for make in again):
                self.assertIs(type(made), Refused)
                self.assertEqual(vars(made), vars(refused))
                self.assertEqual(str(made), str(refused))


class Values(unittest.TestCase):
    """What the calls take."""

    def test_every_call(self) -> None:
        """ACCEPTED, which the tests below go by, has each call that takes something, and each
        accepts it."""
        public = {name for name in vars(taa1.Engine) if not name.startswith("_")}
        self.assertEqual(set(ACCEPTED) | {"release"}, public)
        self.assertEqual(len(public), 46)
        for name, values in ACCEPTED.items():
            with self.subTest(name):
                call(name, *values)

    def test_wrong_types(self) -> None:
        for name, values in ACCEPTED.items():
            for at, value in enumerate(values):
                for wrong in WRONG[type(value)]:
                    with self.subTest(call=name, argument=at + 1, value=wrong):
                        text = rf"^{name}, argument {at + 1} \([a-z0-9_]+\): .* expected, not "
                        with self.assertRaisesRegex(TypeError, text):
                            call(name, *values[:at], wrong, *values[at + 1 :])

    def test_sittings(self) -> None:
        for wrong in (None, bytes(SITTING_BYTES), tuple(SITTING)):
            with self.assertRaisesRegex(TypeError, "Sitting expected"):
                ENGINE.ring(wrong)  # type: ignore[arg-type]

    def test_byte_strings(self) -> None:
        """Any kind of byte string is taken, also a view with gaps."""
        kinds: list[Callable[[bytes], Any]] = [
            bytearray,
            memoryview,
            lambda value: memoryview(bytes(b for byte in value for b in (byte, 0)))[::2],
        ]
        for name, values in ACCEPTED.items():
            wanted = call(name, *values)
            for kind in kinds:
                with self.subTest(name):
                    made = (kind(value) if isinstance(value, bytes) else value for value in values)
                    self.assertEqual(call(name, *made), wanted)

    def test_wide_integers(self) -> None:
        """The widest that fits goes to the engine, which refuses it; but not as steps."""
        for name, values in ACCEPTED.items():
            for at, value in enumerate(values):
                if not isinstance(value, int):
                    continue
                bits = 16 if value in (RESPONSE_MASK, KEY_MASK, ONE_UNREADABLE) else 64
                wrong: list[tuple[int, type[Exception]]]
                wrong = [(wide, OverflowError) for wide in (1 << bits, 1 << 20000, -1)]
                if name != "register":
                    wrong.append(((1 << bits) - 1, Refused))
                for wide, error in wrong:
                    with self.subTest(call=name, argument=at + 1), self.assertRaises(error):
                        call(name, *values[:at], wide, *values[at + 1 :])

    def test_booleans(self) -> None:
        self.assertEqual(ENGINE.ta61(KEY, True), ENGINE.ta61(KEY, 1))

    def test_numbers(self) -> None:
        for kind in (Version, KeyNumber):
            with self.subTest(kind.__name__):
                self.assertEqual(kind(0xFFFF), kind(0xFFFF))
                for wide in (-1, 0x10000):
                    self.assertRaises(OverflowError, kind, wide)
                for wrong in (None, "1", 1.0, b"1", kind(1)):
                    self.assertRaises(TypeError, kind, wrong)
        self.assertNotEqual(Version(1), KeyNumber(1))

    def test_libraries(self) -> None:
        self.assertRaises(OSError, taa1.Engine, "/no/such/library")
        self.assertRaises(OSError, taa1.Engine, Path("/no/such/library"))
        again = taa1.Engine(Path(os.environ["TAA1_LIBRARY"]).resolve())
        self.assertEqual(again.release(), ENGINE.release())

    def test_release(self) -> None:
        """The library is of this package's release."""
        self.assertEqual(".".join(map(str, ENGINE.release())), taa1.__version__)
        self.assertEqual(ENGINE.release().major, 1)


if __name__ == "__main__":
    unittest.main()
