# SPDX-License-Identifier: MIT
"""HURDLE-II: the block cipher, its register, and the diffusion tally."""

from __future__ import annotations

from taa1 import Engine, Refusal

from .suite import Group, made

ABOUT = "HURDLE-II (a block of 8 bytes under a key of 16), its key schedule in one register, and diffusion."
ZERO_KEY, ZERO_BLOCK = bytes(16), bytes(8)
ONES_KEY, ONES_BLOCK = b"\xff" * 16, b"\xff" * 8
UP_KEY, UP_BLOCK = bytes(range(16)), bytes(range(8))


def _blocks(group: Group, count: int) -> None:
    """One of the four calls that take a key and a block."""
    for key, block, words in (
        (ZERO_KEY, ZERO_BLOCK, "zero key, zero block"),
        (ONES_KEY, ONES_BLOCK, "key and block of ones"),
        (UP_KEY, UP_BLOCK, "key 00 01 .. 0f, block 00 01 .. 07"),
    ):
        group.add(words, "Edge", key=key, block=block)
    for bit in (0, 32):
        block = (1 << bit).to_bytes(8, "big")
        group.add(f"zero key, bit {bit} of the block set", "Edge", key=ZERO_KEY, block=block)
    for _ in range(count):
        group.add("drawn", "Random", key=group.draw.bytes(16), block=group.draw.bytes(8))
    group.wrong_lengths(key=group.draw.bytes(16), block=group.draw.bytes(8))


def _key_bits(group: Group) -> None:
    """A single bit in each byte of the key: each byte reaches the schedule at its own place."""
    for place in range(16):
        key = bytes(1 << (place % 8) if at == place else 0 for at in range(16))
        group.add(f"one bit of key byte {15 - place}", "Edge", key=key, block=ZERO_BLOCK)


def _argument(group: Group) -> None:
    """Two right halves that f takes to the same under a round key of zeros."""
    for right in ("00030136", "0003c136"):
        words = f"f-bytes: f takes right half {right} to the same as its fellow in round 1"
        group.add(words, "Argument", key=ZERO_KEY, block=bytes(4) + bytes.fromhex(right))


def _register(group: Group) -> None:
    """The register at the ends, and drawn."""
    for steps in (0, 1, 2, 15, 16, 17):
        flags = ("KeyBack",) if steps % 16 == 0 else ("Edge",)
        group.add(f"zero key, {steps} steps", *flags, key=ZERO_KEY, steps=steps)
    for steps in (1, 8, 16, 255, 256, 2**32 + 3, 2**53 - 1):
        flags = ("KeyBack",) if steps % 16 == 0 else ("Edge",)
        group.add(f"{steps} steps", *flags, key=group.draw.bytes(16), steps=steps)
    group.wrong_lengths(key=group.draw.bytes(16), steps=1)


def _diffusion(group: Group) -> None:
    """Tallies over few records, and the limits of a list."""
    group.add("no records", "Edge", records=b"")
    group.add("zero key, zero block", "Edge", records=ZERO_KEY + ZERO_BLOCK)
    for count in (1, 2, 3):
        group.add(f"{count} drawn", "Random", records=group.draw.bytes(24 * count))
    one = group.draw.bytes(24)
    group.add("one record twice", "Edge", records=one * 2)
    group.add("1,024 records, all the same", "MostRecords", records=one * 1024)
    group.add("1,025 records", "MostRecords", refused=Refusal.BOOK_TOO_LONG, records=one * 1025)
    group.add("a record and a byte", refused=Refusal.BOOK_NOT_WHOLE, records=one + b"\0")
    group.add("a record without its last byte", refused=Refusal.BOOK_NOT_WHOLE, records=one[:-1])
    words = "1,024 records and a byte: too long before not whole"
    group.add(words, "Order", refused=Refusal.BOOK_TOO_LONG, records=b"\0" * (24 * 1024 + 1))


def _encrypt(group: Group) -> None:
    """The call with the most tests."""
    _blocks(group, 6)
    _key_bits(group)
    _argument(group)


def groups(engine: Engine) -> list[Group]:
    """The family's groups."""
    return made(
        engine,
        ("encrypt", _encrypt),
        ("decrypt", lambda group: _blocks(group, 6)),
        ("encrypt_register", lambda group: _blocks(group, 2)),
        ("decrypt_register", lambda group: _blocks(group, 2)),
        ("register", _register),
        ("diffusion", _diffusion),
    )
