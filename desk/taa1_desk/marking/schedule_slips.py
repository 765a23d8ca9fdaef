# SPDX-License-Identifier: MIT
"""The slips in the cipher's key schedule: the registers Q1 to Q17 and the round keys (6.5)."""

from __future__ import annotations

from typing import Sequence

from .f_slips import Altered, number_sum
from .hurdle import A, D, ROUNDS, Hurdle, xor

D4 = 11  # the place of D's byte 4, whose 1e 000 prints as "le"


def _turned(register: bytes, bits: int) -> bytes:
    """A register rotated left by bits."""
    number, bits = int.from_bytes(register, "big"), bits % 128
    return ((number << bits | number >> (128 - bits)) & ((1 << 128) - 1)).to_bytes(16, "big")


def rotated_by(bits: Sequence[int]) -> Altered:
    """The registers rotated left by these bits instead."""
    return {"rotated": lambda cipher, register, number: _turned(register, bits[number - 2])}


def with_d(constant: bytes) -> Altered:
    """Another D."""
    return {"mixed": lambda cipher, register: xor(register, constant)}


def window(start: int) -> Altered:
    """Other twelve bytes of a register for the round key."""
    return {"round_key": lambda cipher, register: register[start : start + 12]}


def in_words(data: bytes, size: int) -> bytes:
    """The bytes in the other order in each word of so many."""
    return b"".join(data[at : at + size][::-1] for at in range(0, len(data), size))


def _shifted(register: bytes, places: int) -> bytes:
    return register[places:] + bytes(places)


def _bytes_turned(register: bytes, bits: int) -> bytes:
    return bytes((byte << bits | byte >> (8 - bits)) & 0xFF for byte in register)


def _each_from_key(cipher: Hurdle, key: bytes) -> list[bytes]:
    first = cipher.first_register(key)
    return [first, *(cipher.next_register(first, number) for number in range(2, ROUNDS + 2))]


def _d_in_round_keys(cipher: Hurdle, key: bytes) -> list[bytes]:
    made = [cipher.first_register(key)]
    for number in range(2, ROUNDS + 2):
        made.append(cipher.rotated(made[-1], number))
    return [made[0], *map(cipher.mixed, made[1:])]


def _sums(cipher: Hurdle, register: bytes) -> bytes:
    return bytes((a + b) & 0xFF for a, b in zip(register, D))


SCHEDULE: dict[str, Altered] = {
    "rotation to the right": rotated_by([-8 * a for a in A]),
    "rotation by bits, not by bytes": rotated_by(A),
    "rotation by bits, to the right": rotated_by([-a for a in A]),
    "rotation by nibbles, not by bytes": rotated_by([4 * a for a in A]),
    "rotation always by 5": rotated_by([40] * 16),
    "rotations of 3 and 7 exchanged": rotated_by([{24: 56, 56: 24}.get(8 * a, 8 * a) for a in A]),
    "rotation by a(i), not by a(i-1)": rotated_by([8 * a for a in A[1:] + A[:1]]),
    "rotation by a(i-2), not by a(i-1)": rotated_by([8 * a for a in A[-1:] + A[:-1]]),
    "no rotation": rotated_by([0] * 16),
    "registers shifted, zeros from the right": {
        "rotated": lambda cipher, register, number: _shifted(register, A[number - 2])
    },
    "each byte rotated by bits, not the register": {
        "rotated": lambda cipher, register, number: _bytes_turned(register, A[number - 2])
    },
    "rotation after D's ⊕": {
        "next_register": lambda cipher, register, number: cipher.rotated(
            cipher.mixed(register), number
        )
    },
    "D left out": {"mixed": lambda cipher, register: register},
    "D added, not ⊕": {"mixed": _sums},
    "D added as a number of 128 bits": {"mixed": lambda cipher, register: number_sum(register, D)},
    "D's bytes in the other order": with_d(D[::-1]),
    "D's ⊕ in Q1, too": {"first_register": lambda cipher, key: cipher.mixed(key)},
    "D's ⊕ in the round keys alone, not in the registers": {"registers": _d_in_round_keys},
    "each Q made of the key, not of the Q before it": {"registers": _each_from_key},
    "D without its 1e, a zero byte in front": with_d(b"\0" + D[:D4] + D[D4 + 1 :]),
    "D without its 1e, a zero byte at the end": with_d(D[:D4] + D[D4 + 1 :] + b"\0"),
    **{
        f"D's 1e read as {byte:02x}": with_d(D[:D4] + bytes([byte]) + D[D4 + 1 :])
        for byte in (0x00, 0x10, 0x0E, 0xE1, 0x1F, 0x01, 0x11, 0x1C, 0x16, 0x7E, 0xFE, 0x4E, 0xCE)
    },
    **{
        f"bytes {15 - start} to {4 - start} of the register for the round key": window(start)
        for start in (0, 1, 2, 3)
    },
    "other twelve bytes of the register: the last four and the first eight": {
        "round_key": lambda cipher, register: register[12:] + register[:8]
    },
    "key's bytes in the other order": {"first_register": lambda cipher, key: key[::-1]},
    **{
        f"key's bytes in the other order in each word of {word}": {
            "first_register": lambda cipher, key, size=size: in_words(key, size)
        }
        for word, size in (("four", 4), ("eight", 8))
    },
    "D's bytes in the other order in each word of four": with_d(in_words(D, 4)),
    "key's halves exchanged": {"first_register": lambda cipher, key: key[8:] + key[:8]},
}
