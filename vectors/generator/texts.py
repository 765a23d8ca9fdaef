# SPDX-License-Identifier: MIT
"""Sealed texts: TA31 and TA32, TA51 and TA52, TA81 and TA82, TA91 and TA92."""

from __future__ import annotations

from typing import NamedTuple, Optional

from taa1 import Engine, Refusal

from .craft import core_key, expanded, inserted, lure, sealed
from .suite import SOME, Group, Input, joined, xor

ABOUT = "Keys sealed, and unsealed with a bit for each check that fails: TA31/TA32, TA51/TA52, TA81/TA82, TA91/TA92."
UP = bytes(range(1, 11))
O = bytes(range(16))  # noqa: E741 (the papers' name)


class Kind(NamedTuple):
    """A pair of calls: what they take."""

    seal: str
    unseal: str
    key: str  # the name of the key that is sealed
    length: int  # its bytes
    under: int  # the sealing key's bytes
    most: Optional[int]  # the highest number, if the kind has one


KINDS = (
    Kind("ta31", "ta32", "cipher_key", 10, 10, None),
    Kind("ta51", "ta52", "cipher_key", 10, 16, 31),
    Kind("ta81", "ta82", "cipher_key", 10, 16, 65535),
    Kind("ta91", "ta92", "group_key", 12, 16, None),
)


def _number(kind: Kind, number: Optional[int]) -> dict[str, Input]:
    return {} if kind.most is None else {"number": number or 0}


def _body(kind: Kind, key: bytes, number: int = 0) -> bytes:
    """What is expanded."""
    if kind.most is None:
        return key
    return key + number.to_bytes(1 if kind.most == 31 else 2, "big")


def _drawn_number(group: Group, kind: Kind) -> int:
    return 0 if kind.most is None else group.draw.number(kind.most.bit_length())


def _seal(group: Group, kind: Kind) -> None:
    """The sealing call."""
    draw = group.draw

    def add(words: str, *flags: str, key: bytes, version: int, under: bytes, number: int = 0) -> None:
        given: dict[str, Input] = {kind.key: key, "version": version, "sealing_key": under}
        group.add(words, *flags, **given, **_number(kind, number))

    zero, ones = bytes(kind.length), b"\xff" * kind.length
    add("zeros", "Edge", key=zero, version=0, under=bytes(kind.under))
    most = kind.most or 0
    add("ones", "Edge", key=ones, version=0xFFFF, under=b"\xff" * kind.under, number=most)
    up = bytes(range(1, kind.length + 1))
    number = min(most, 0x1234) & (31 if most == 31 else 0xFFFF)
    words = "key 01 02 .., sealing key 00 01 .., version 7"
    add(words, "DroppedByte", key=up, version=7, under=bytes(range(kind.under)), number=number)
    key, under = draw.bytes(kind.length), draw.bytes(kind.under)
    for version in (0x0001, 0x0100, 0xA55A):
        add(f"version {version:04x}: the high byte first", "KeyAndVersion", key=key, version=version, under=under)
    pad = b"\x12\x34"
    moved = xor(under, pad * (kind.under // 2))
    words = "key-and-version: sealing key and version both changed, text as before"
    add(words, "Argument", "KeyAndVersion", key=key, version=0xA55A ^ 0x1234, under=moved)
    if kind.most is not None:
        for number in (0, 1, kind.most - 1, kind.most):
            add(f"number {number}", "Edge", key=key, version=7, under=under, number=number)
        for version, number in ((3, 30), (30, 3)):
            words = f"version {version}, number {number}"
            add(words, "NumberIsNoVersion", key=key, version=version, under=under, number=number)
    if kind.under == 10:
        _exp4(group, key)
    for _ in range(4):
        add(
            "drawn",
            "Random",
            "DroppedByte",
            key=draw.bytes(kind.length),
            version=draw.number(16),
            under=draw.bytes(kind.under),
            number=_drawn_number(group, kind),
        )
    fine: dict[str, Input] = {kind.key: key, "version": 7, "sealing_key": under, **_number(kind, 3)}
    group.wrong_lengths(**fine)
    if kind.most == 31:
        for number in (32, 255, 256, 65535):
            group.add(f"number {number}", refused=Refusal.WRONG_NUMBER, **joined(fine, {"number": number}))
        words = "number 32, and a key of 9 bytes: the length goes first"
        group.add(words, "Order", refused=Refusal.WRONG_LENGTH, **joined(fine, {kind.key: key[:9], "number": 32}))
    if kind.under == 16:
        words = "a sealing key of 10 bytes, as kind 1 has"
        group.add(words, refused=Refusal.WRONG_LENGTH, **joined(fine, {"sealing_key": bytes(10)}))


def _exp4(group: Group, key: bytes) -> None:
    """TA31's key, by EXP4: the pairs, and sums that wrap."""
    for hexadecimal, words, flags in (
        ("0102030405060708090a", "sums 03 07 0b 0f 13 of neighbours; 0b five times of the outermost", ("Exp4Pairs", "Exp4Sum")),
        ("ffffffffffffffffffff", "every sum wraps to fe", ("Exp4Sum", "Wrap")),
        ("c0c00000000000000000", "c0 + c0 wraps to 80", ("Exp4Sum", "Wrap")),
        ("80000000000000000080", "the outermost bytes alone", ("Exp4Pairs",)),
        ("11111111111111111111", "all bytes alike: pairs cannot be told apart", ("Edge",)),
    ):
        under = bytes.fromhex(hexadecimal)
        group.add(words, *flags, cipher_key=key, version=0, sealing_key=under)


def _lure(engine: Engine, kind: Kind, key: bytes) -> bytes:
    """A text that opens with the zero byte at the end. Some bodies have none."""
    for first in range(256):
        body = _body(kind, bytes([first]) * kind.length)
        try:
            return lure(engine, key, expanded(kind.unseal, body))
        except ValueError:
            pass
    raise ValueError("no such text")


def _unseal(group: Group, kind: Kind) -> None:
    """The unsealing call: texts of sealing, and such as nobody sealed."""
    draw, engine = group.draw, group.engine
    call = kind.unseal
    checks = inserted(call)

    def add(words: str, *flags: str, text: bytes, failed: int = 0) -> None:
        group.add(words, *flags, failed=failed, text=text, sealing_key=under, version=version)

    def text_of(fifteen: bytes, outermost: bool = False) -> bytes:
        return sealed(engine, core_key(call, under, version, outermost), fifteen)

    under, version = bytes(range(kind.under)), 7
    up = bytes(range(1, kind.length + 1))
    number = 0x14 if kind.most == 31 else 0x1234
    whole = expanded(call, _body(kind, up, number))
    words = "zero-at-end: what sealing gives" if kind.unseal == "ta82" else "what sealing gives"
    flags = ("Argument",) if kind.unseal == "ta82" else ()
    add(words, *flags, "ZeroByteBack", text=text_of(whole))
    words = "nobody sealed it, and it opens if the zero byte is put at the end"
    add(words, "ZeroByteBack", failed=SOME, text=_lure(engine, kind, core_key(call, under, version)))
    for place, at in enumerate(checks):
        changed = bytes(byte ^ (0x80 >> place if here == at else 0) for here, byte in enumerate(whole))
        words = f"inserted byte {place}, from the left, wrong in one bit"
        add(words, "SingleCheck", text=text_of(changed), failed=1 << place)
    changed = bytes([whole[0] ^ 1]) + whole[1:]
    add("key byte 0, from the left, wrong in one bit", "SingleCheck", text=text_of(changed), failed=1)
    every = bytes(byte ^ (1 if here in checks else 0) for here, byte in enumerate(whole))
    add("every inserted byte wrong", "ManyChecks", text=text_of(every), failed=(1 << len(checks)) - 1)
    pair = bytes(byte ^ (1 if here in checks[1:3] else 0) for here, byte in enumerate(whole))
    words = "inserted bytes 1 and 2 wrong alike: their xor is still right"
    add(words, "ManyChecks", text=text_of(pair), failed=0b110)
    if kind.most == 31:
        for bits in range(1, 8):
            words = f"seven-others: number byte {bits << 5 | number:02x} for number {number}"
            body = _body(kind, up, bits << 5 | number)
            add(words, "Argument", "ThreeBits", text=text_of(expanded(call, body)), failed=16)
        for byte in (0x20, 0xFF):
            body = _body(kind, up, byte)
            add(f"number byte {byte:02x}", "ThreeBits", text=text_of(expanded(call, body)), failed=16)
        body = _body(kind, up, 0xE0 | number)
        both = expanded(call, body)[:-1] + bytes([expanded(call, body)[-1] ^ 0xE0])
        words = "three bits set, inserted byte as if they were not"
        add(words, "ManyChecks", text=text_of(both), failed=0b11000)
    if kind.under == 10:
        wrong = text_of(whole, outermost=True)
        add("sealed with EXP4 over the outermost pairs", "Exp4Pairs", text=wrong, failed=SOME)
    _argument(group, kind)
    add("zeros", "ManyChecks", text=bytes(15), failed=SOME)
    for _ in range(3):
        under, version = draw.bytes(kind.under), draw.number(16)
        body = _body(kind, draw.bytes(kind.length), _drawn_number(group, kind))
        add("drawn, and sealed", "Random", "ZeroByteBack", text=text_of(expanded(call, body)))
    for _ in range(2):
        add("any text", "Random", "ManyChecks", text=draw.bytes(15), failed=SOME)
    if kind.under == 16:
        words = "as-three-kinds: opens as TA52, TA82 and TA92 under one key, to zeros"
        add(words, "Argument", "SharedText", text=text_of(bytes(15)))
    group.wrong_lengths(text=bytes(15), sealing_key=bytes(kind.under), version=0)


# Words, flag, text, sealing key and version.
_Example = tuple[str, str, str, bytes, int]


def _argument(group: Group, kind: Kind) -> None:
    """The bytes in the table of docs/ARGUMENT.md; those of kind 3 are of kind 4, too."""
    other = bytes(range(12)) + bytes.fromhex("00bf588f")
    group_form = bytes.fromhex("000e020c040a060808060a040c020e00")
    shared, missed = "SharedText", "NotNoticed"
    of_kind_3: tuple[_Example, ...] = (
        ("two-rings: under O 00 01 .. 0f", shared, "7d3bf4c53bec9b33be0c296b64dc2f", O, 7),
        ("two-rings: the same text under another O, to another key", shared, "7d3bf4c53bec9b33be0c296b64dc2f", other, 7),
        ("two-versions: version 7", shared, "f4204db56932c32411c2c607ad680c", O, 7),
        ("two-versions: the same text with version 5075, to another key", shared, "f4204db56932c32411c2c607ad680c", O, 5075),
        ("flag-notices-every-change: a text", missed, "f20234e6a621c279ee4f4cf0ad6279", O, 7),
        ("flag-notices-every-change: one bit changed, to another key", missed, "f20034e6a621c279ee4f4cf0ad6279", O, 7),
        ("kind-1-only: a text that opens as kind 1 under D 00 01 .. 09", shared, "42ca5b04846c155e56c332519d5f5d", O, 7),
        ("zero-at-end-either-way: the last eight bytes are zeros", shared, "b23e9d02bd07830000000000000000", O, 7),
    )
    examples: dict[str, tuple[_Example, ...]] = {
        "ta32": (
            ("one-byte-1-2-5: a text", missed, "541f2a277684453cad9193d1e0acaa", O[:10], 7),
            ("one-byte-1-2-5: one bit changed, to another key", missed, "d41f2a277684453cad9193d1e0acaa", O[:10], 7),
            ("kind-1-only: a text that opens as kind 3 under O 00 01 .. 0f", shared, "42ca5b04846c155e56c332519d5f5d", O[:10], 7),
        ),
        "ta52": (
            ("one-byte-1-2-5: a text", missed, "57b82885ccb448198c9d93bb19ec5f", O, 7),
            ("one-byte-1-2-5: one byte changed, to another key", missed, "57b8dc85ccb448198c9d93bb19ec5f", O, 7),
            ("o-and-g-differ: as kind 2 under O 00 01 .. 0f", shared, "1e8bfd31a1b29e4c82b4ca42b54967", O, 7),
            ("o-and-g-differ: as kind 5 under a G, to another key", shared, "1e8bfd31a1b29e4c82b4ca42b54967", group_form, 7),
        ),
        "ta82": of_kind_3,
        "ta92": of_kind_3,
    }
    for words, flag, text, under, version in examples[kind.unseal]:
        given: dict[str, Input] = {"text": bytes.fromhex(text), "sealing_key": under, "version": version}
        group.add(f"{words} (as kind 4: three-and-four)" if kind.unseal == "ta92" else words, "Argument", flag, **given)


def groups(engine: Engine) -> list[Group]:
    """The family's groups."""
    made = []
    for kind in KINDS:
        for name, tests in ((kind.seal, _seal), (kind.unseal, _unseal)):
            group = Group(engine, name)
            tests(group, kind)
            made.append(group)
    return made
