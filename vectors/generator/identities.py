# SPDX-License-Identifier: MIT
"""Identities: TA61 and its inverse."""

from __future__ import annotations

from taa1 import Engine, Refusal

from .suite import Group, made

ABOUT = "An identity of 24 bits, encrypted under a common key of 10 bytes, and recovered: TA61 and its inverse."


def _identities(group: Group) -> None:
    """Either call."""
    draw = group.draw
    name = group.call.inputs[1].name

    def add(words: str, *flags: str, key: bytes, identity: int) -> None:
        group.add(words, *flags, common_key=key, **{name: identity})

    key = draw.bytes(10)
    for identity in (0, 1, 0x800000, 0xFFFFFF):
        add(f"identity {identity:06x}", "Edge", key=key, identity=identity)
    add("zeros", "Edge", key=bytes(10), identity=0)
    add("ones", "Edge", "Wrap", key=b"\xff" * 10, identity=0xFFFFFF)
    add("alternating key: the cipher's input is zero", "Edge", key=b"\x5a\xc3" * 5, identity=0x123456)
    add("sums of neighbours, not of the outermost", "Exp4Pairs", "Exp4Sum", key=bytes(range(1, 11)), identity=0x123456)
    add("c0 + c0 wraps to 80", "Exp4Sum", "Wrap", key=b"\xc0\xc0" + bytes(8), identity=0x123456)
    add("the outermost bytes alone", "Exp4Pairs", key=b"\x80" + bytes(8) + b"\x80", identity=0x123456)
    for _ in range(6):
        add("drawn", "Random", key=draw.bytes(10), identity=draw.number(24))
    group.wrong_lengths(common_key=key, **{name: 1})
    for identity in (1 << 24, 1 << 32):
        words = f"{name} {identity:#x}"
        group.add(words, refused=Refusal.VALUE_WIDE, common_key=key, **{name: identity})
    words = "too wide, and a key of 9 bytes: the length goes first"
    group.add(words, "Order", refused=Refusal.WRONG_LENGTH, common_key=key[:9], **{name: 1 << 24})


def groups(engine: Engine) -> list[Group]:
    """The family's groups."""
    return made(engine, ("ta61", _identities), ("ta61_inverse", _identities))
