# SPDX-License-Identifier: MIT
"""Texts that no sealing call makes: with checks that fail, and for mistaken unsealing.

They are made from the engine's block cipher. What the engine answers to them is compared with
what they were made for, so that a mistake here shows.
"""

from __future__ import annotations

from taa1 import Engine

from .suite import xor

ZERO = b"\0"


def _fold(string: bytes) -> int:
    """⊕ of a string's bytes."""
    result = 0
    for byte in string:
        result ^= byte
    return result


def _cut(string: bytes, *sizes: int) -> list[bytes]:
    """Parts of these sizes."""
    parts, at = [], 0
    for size in sizes:
        parts.append(string[at : at + size])
        at += size
    return parts


# The parts after each of which a ⊕ byte is inserted, by the unsealing call.
PARTS = {"ta32": (2,) * 5, "ta52": (2, 3, 3, 3), "ta82": (4,) * 3, "ta92": (4,) * 3}


def expanded(call: str, body: bytes) -> bytes:
    """The 15 bytes that are sealed: key, number and the inserted bytes."""
    return b"".join(part + bytes([_fold(part)]) for part in _cut(body, *PARTS[call]))


def inserted(call: str) -> list[int]:
    """The places of the inserted bytes, leftmost first."""
    places, at = [], -1
    for size in PARTS[call]:
        at += size + 1
        places.append(at)
    return places


def exp4(string: bytes, outermost: bool = False) -> bytes:
    """EXP4, or its misreading in which the outermost bytes are the pairs."""
    if outermost:
        string = b"".join(bytes([string[at], string[9 - at]]) for at in range(5))
    pairs = _cut(string, 2, 2, 2, 2, 2)
    sums = bytes(sum(pair) % 256 for pair in pairs)
    return bytes([_fold(sums)]) + b"".join(bytes([one]) + pair for one, pair in zip(sums, pairs))


def core_key(call: str, sealing_key: bytes, version: int, outermost: bool = False) -> bytes:
    """The key of the cipher for an unsealing call."""
    mixed = xor(sealing_key, version.to_bytes(2, "big") * (len(sealing_key) // 2))
    return exp4(mixed, outermost) if call == "ta32" else mixed


def sealed(engine: Engine, key: bytes, fifteen: bytes) -> bytes:
    """The text of 15 bytes, whatever they are: BL1, without byte 8."""
    left = engine.encrypt(key, fifteen[:8])
    right = engine.encrypt(key, xor(fifteen[8:] + ZERO, left))
    return left[:7] + right


def lure(engine: Engine, key: bytes, fifteen: bytes) -> bytes:
    """A text that gives these bytes to whoever puts the zero byte back at the end.

    Such a one takes the text's byte 8 for the left block's last byte, and the next seven with
    a zero for the right block. The last byte of the right block, decrypted, is free, and one
    is looked for with which the right block ends in zero. Raises ValueError if there is none.
    """
    left = engine.encrypt(key, fifteen[:8])
    for last in range(256):
        right = engine.encrypt(key, xor(fifteen[8:], left[:7]) + bytes([last]))
        if right[7] == 0:
            return left[:7] + bytes([left[7] ^ last]) + right[:7]
    raise ValueError("no such text")
