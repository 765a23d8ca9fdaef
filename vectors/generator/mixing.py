# SPDX-License-Identifier: MIT
"""Modified and mixed keys, TA71, TA101 and TB1 to TB7; the inverses of TB1, TB3, TB5 and TB6; cards."""

from __future__ import annotations

from typing import Callable

from taa1 import Engine, Refusal

from .suite import Group, Input, joined, made

MIXING = "Modified and mixed keys: TA71, TA101, TB1 to TB7."
INVERSES = "The only input that gives a result, or that there is none: the inverses of TB1, TB3, TB5 and TB6."
CARDS = "A card with a group key in its TB7 form, of which bytes are unreadable: restored, or refused."

WIDTHS = range(16, 33)
WRONG_WIDTHS = (0, 15, 33, 2**32 + 16)
UP = bytes(range(1, 11))


def _two_keys(group: Group) -> None:
    """TA71, whose order matters, or TB4."""
    first, second = (each.name for each in group.call.inputs)
    draw = group.draw

    def add(words: str, *flags: str, one: bytes, other: bytes) -> None:
        group.add(words, *flags, **joined({first: one, second: other}))

    add("zeros", "Edge", one=bytes(10), other=bytes(10))
    add("ones", "Edge", one=b"\xff" * 10, other=b"\xff" * 10)
    one, other = draw.bytes(10), draw.bytes(10)
    order = ("KeyOrder",) if group.name == "ta71" else ("Edge",)
    add("two keys", *order, one=one, other=other)
    add("the same two exchanged", *order, one=other, other=one)
    add("one key twice", "Edge", one=one, other=one)
    for _ in range(3):
        add("drawn", "Random", one=draw.bytes(10), other=draw.bytes(10))
    group.wrong_lengths(**joined({first: one, second: other}))


def _ta101(group: Group) -> None:
    draw = group.draw
    ks, gck0 = draw.bytes(16), draw.bytes(10)
    group.add("zeros", "Edge", ks=bytes(16), gck0=bytes(10), mni=0)
    for mni in (1, 0x800000, 0xFFFFFF, 0x123456):
        group.add(f"network identity {mni:06x}", "Edge", ks=ks, gck0=gck0, mni=mni)
    for _ in range(4):
        group.add("drawn", "Random", ks=draw.bytes(16), gck0=draw.bytes(10), mni=draw.number(24))
    group.wrong_lengths(ks=ks, gck0=gck0, mni=1)
    for mni in (1 << 24, 1 << 32):
        group.add(f"network identity {mni:#x}", refused=Refusal.VALUE_WIDE, ks=ks, gck0=gck0, mni=mni)
    words = "too wide, and a GCK0 of 9 bytes: the length goes first"
    group.add(words, "Order", refused=Refusal.WRONG_LENGTH, ks=ks, gck0=gck0[:9], mni=1 << 24)


def _widths(group: Group) -> None:
    """TB1 or TB3."""
    draw = group.draw
    fixed: dict[str, Input] = {"input": draw.bytes(16)} if group.name == "tb3" else {}
    for width in WIDTHS[:: 3 if fixed else 1]:
        value = draw.number(width) | 1 << (width - 1) | 1
        group.add(f"width {width}", "Widths", **fixed, value=value, width=width)
    for width in (16, 17, 31, 32):
        group.add(f"width {width}, all ones", "Edge", "Widths", **fixed, value=(1 << width) - 1, width=width)
    group.add("width 16, zero", "Edge", **fixed, value=0, width=16)
    group.add("width 17, one", "Edge", "Widths", **fixed, value=1, width=17)
    if fixed:
        for _ in range(2):
            group.add("drawn", "Random", input=draw.bytes(16), value=draw.number(24), width=24)
        group.wrong_lengths(**fixed, value=1, width=16)
    for width in WRONG_WIDTHS:
        group.add(f"width {width}", refused=Refusal.WRONG_WIDTH, **fixed, value=1, width=width)
    for width in (16, 24, 32):
        group.add(f"2^{width} of width {width}", refused=Refusal.VALUE_WIDE, **fixed, value=1 << width, width=width)
    words = "width 33 and a value of 34 bits: the width goes first"
    group.add(words, "Order", refused=Refusal.WRONG_WIDTH, **fixed, value=1 << 33, width=33)
    if fixed:
        words = "no input, and width 15: the length goes first"
        group.add(words, "Order", refused=Refusal.WRONG_LENGTH, input=b"", value=1, width=15)


def _tb2(group: Group) -> None:
    group.add("00 01 .. 0f", "Edge", input=bytes(range(16)))
    group.add("drawn", "Random", input=group.draw.bytes(16))
    group.wrong_lengths(input=bytes(16))


def _fields(group: Group, bits: dict[str, int]) -> None:
    """TB5 or TB6: a cipher key and numbers of so many bits."""
    draw = group.draw
    key = draw.bytes(10)
    zero: dict[str, Input] = {name: 0 for name in bits}
    ones: dict[str, Input] = {name: (1 << wide) - 1 for name, wide in bits.items()}
    group.add("zeros", "Edge", cipher_key=bytes(10), **zero)
    group.add("ones", "Edge", cipher_key=bytes(10), **ones)
    for name, wide in bits.items():
        words = name.replace("_", " ")
        for value in (1, 1 << (wide - 1)):
            group.add(f"zero key, {words} {value}, the rest zero", "Edge", cipher_key=bytes(10), **joined(zero, {name: value}))
    for _ in range(5):
        drawn: dict[str, Input] = {name: draw.number(wide) for name, wide in bits.items()}
        group.add("drawn", "Random", cipher_key=draw.bytes(10), **drawn)
    group.wrong_lengths(cipher_key=key, **zero)
    for name, wide in bits.items():
        words = name.replace("_", " ")
        for value in (1 << wide, 1 << 32):
            refused: dict[str, Input] = {**zero, name: value}
            group.add(f"{words} {value:#x}", refused=Refusal.VALUE_WIDE, cipher_key=key, **refused)
    words = "everything too wide, and a key of 11 bytes: the length goes first"
    wide_: dict[str, Input] = {name: 1 << wide for name, wide in bits.items()}
    group.add(words, "Order", refused=Refusal.WRONG_LENGTH, cipher_key=key + b"\0", **wide_)


TB5 = {"location_area": 14, "carrier": 12, "colour_code": 6}
TB6 = {"carrier": 12, "identity": 24}


def _tb7(group: Group) -> None:
    group.add("zeros", "Edge", group_key=bytes(12))
    group.add("ones", "Edge", group_key=b"\xff" * 12)
    group.add("01 02 .. 0c", "Edge", group_key=bytes(range(1, 13)))
    for _ in range(4):
        group.add("drawn", "Random", group_key=group.draw.bytes(12))
    group.wrong_lengths(group_key=bytes(12))


def _width_inverse(group: Group) -> None:
    """The inverse of TB1 or TB3."""
    draw, engine = group.draw, group.engine
    fixed: dict[str, Input] = {"input": draw.bytes(16)} if group.name == "tb3_inverse" else {}

    def result(value: int, width: int) -> bytes:
        given = fixed.get("input")
        return engine.tb3(given, value, width) if isinstance(given, bytes) else engine.tb1(value, width)

    for width in WIDTHS[:: 3 if fixed else 1]:
        value = draw.number(width)
        group.add(f"width {width}", "Widths", **fixed, result=result(value, width), width=width)
    for width in (17, 32):
        ones = result((1 << width) - 1, width)
        group.add(f"width {width}, all ones", "Edge", "Widths", **fixed, result=ones, width=width)
    group.add("width 16, zero", "Edge", **fixed, result=result(0, 16), width=16)
    value = draw.number(17) | 1 << 16
    good = result(value, 17)
    flipped = good[:-1] + bytes([good[-1] ^ 1])
    words = "a bit of the last copy, which is cut, is wrong"
    group.add(words, refused=Refusal.NO_INPUT, **fixed, result=flipped, width=17)
    group.add("a right result, the width one too large", refused=Refusal.NO_INPUT, **fixed, result=good, width=18)
    group.add("any bytes", refused=Refusal.NO_INPUT, **fixed, result=draw.bytes(16), width=32)
    group.wrong_lengths(**fixed, result=good, width=17)
    for width in WRONG_WIDTHS:
        group.add(f"width {width}", refused=Refusal.WRONG_WIDTH, **fixed, result=good, width=width)
    words = "width 15 and a result of 15 bytes: the length goes first"
    group.add(words, "Order", refused=Refusal.WRONG_LENGTH, **fixed, result=good[:15], width=15)


def _field_inverse(group: Group, call: Callable[..., bytes], bits: dict[str, int]) -> None:
    """The inverse of TB5 or TB6."""
    draw = group.draw
    key = draw.bytes(10)

    def of(key: bytes, *values: int) -> dict[str, Input]:
        return {"cipher_key": key, "result": call(key, *values)}

    group.add("the key itself: zeros", "Edge", **of(key, *(0 for _ in bits)))
    group.add("every field of ones", "Edge", **of(key, *((1 << wide) - 1 for wide in bits.values())))
    for _ in range(5):
        group.add("drawn", "Random", **of(draw.bytes(10), *(draw.number(wide) for wide in bits.values())))
    good = call(key, *(draw.number(wide) for wide in bits.values()))
    for place in (0, 39, 60):
        wrong = (int.from_bytes(good, "big") ^ 1 << place).to_bytes(10, "big")
        words = f"a right result with bit {place} changed"
        group.add(words, refused=Refusal.NO_INPUT, cipher_key=key, result=wrong)
    group.add("any bytes", refused=Refusal.NO_INPUT, cipher_key=key, result=draw.bytes(10))
    group.wrong_lengths(cipher_key=key, result=good)


def _cards(group: Group) -> None:
    draw, engine = group.draw, group.engine
    card = engine.tb7(draw.bytes(12))

    def smudged(mask: int, with_byte: int = 0) -> bytes:
        return bytes(with_byte if mask >> (15 - at) & 1 else byte for at, byte in enumerate(card))

    group.add("all readable", "Edge", card=card, unreadable=0)
    group.add("zeros", "Edge", card=bytes(16), unreadable=0)
    for place in (0, 1, 2, 3, 4, 7, 9, 10, 12, 15):
        mask = 1 << place
        group.add(f"byte {place}, counted from the right, unreadable", "Unreadable", card=smudged(mask), unreadable=mask)
    for mask in (0x1111, 0x8888, 0x1248):
        group.add(f"one unreadable in each group, mask {mask:04x}", "Unreadable", card=smudged(mask, 0xFF), unreadable=mask)
    group.add("the unreadable bytes are right, too", "Unreadable", card=card, unreadable=0x8421)
    for _ in range(3):
        drawn = engine.tb7(draw.bytes(12))
        group.add("drawn", "Random", card=drawn, unreadable=sum(1 << (4 * at + draw.below(4)) for at in range(4)))
    for mask in (0x0003, 0x000F, 0xC000, 0x0090, 0xFFFF):
        words = f"mask {mask:04x}: two or more in a group"
        group.add(words, refused=Refusal.GROUP_UNREADABLE, card=card, unreadable=mask)
    for place in (0, 3, 4, 9, 15):
        wrong = bytes(byte ^ (1 if at == 15 - place else 0) for at, byte in enumerate(card))
        words = f"byte {place} wrong in a readable group"
        group.add(words, refused=Refusal.GROUP_DISAGREES, card=wrong, unreadable=0)
    first = bytes([card[0] ^ 1]) + card[1:]
    words = "the first group disagrees, the others lack a byte each"
    group.add(words, refused=Refusal.GROUP_DISAGREES, card=first, unreadable=0x0111)
    words = "the first group disagrees, and the last lacks two bytes"
    group.add(words, "Order", refused=Refusal.GROUP_UNREADABLE, card=first, unreadable=0x0003)
    group.wrong_lengths(card=card, unreadable=0)
    words = "a card of 15 bytes, and everything unreadable: the length goes first"
    group.add(words, "Order", refused=Refusal.WRONG_LENGTH, card=card[:15], unreadable=0xFFFF)


def mixing(engine: Engine) -> list[Group]:
    """TA71, TA101 and TB1 to TB7."""
    return made(
        engine,
        ("ta71", _two_keys),
        ("ta101", _ta101),
        ("tb1", _widths),
        ("tb2", _tb2),
        ("tb3", _widths),
        ("tb4", _two_keys),
        ("tb5", lambda group: _fields(group, TB5)),
        ("tb6", lambda group: _fields(group, TB6)),
        ("tb7", _tb7),
    )


def inverses(engine: Engine) -> list[Group]:
    """Those of TB1, TB3, TB5 and TB6."""
    return made(
        engine,
        ("tb1_inverse", _width_inverse),
        ("tb3_inverse", _width_inverse),
        ("tb5_inverse", lambda group: _field_inverse(group, engine.tb5, TB5)),
        ("tb6_inverse", lambda group: _field_inverse(group, engine.tb6, TB6)),
    )


def cards(engine: Engine) -> list[Group]:
    """Smudged cards."""
    return made(engine, ("restore_card", _cards))
