# SPDX-License-Identifier: MIT
"""Slips of the cipher that are digits miscopied from the tables of clause 6: D, a, E and S.

They are very many, so they are made only where they are searched.
"""

from __future__ import annotations

from typing import Iterator

from .cipher_slips import CIPHER_SLIPS, CipherSlip
from .f_slips import expanded_as, reading
from .hurdle import A, D, E
from .miscopied import miscopied
from .schedule_slips import D4, rotated_by, with_d
from .working import S


def _said(table: str, place: str, has: str, wants: str) -> str:
    return f"{table}{place} copied as {has}, not {wants}"


def copied_wrongly() -> Iterator[CipherSlip]:
    """D, a, E and S with one digit wrong, or two neighbours exchanged; D without one of its
    bytes, and S with two rows exchanged."""
    for place, byte in enumerate(D):
        for other in range(256):
            one_digit = byte >> 4 == other >> 4 or byte & 15 == other & 15
            turned = other == (byte >> 4 | (byte & 15) << 4)
            if other != byte and (one_digit or turned or place == D4):
                made = D[:place] + bytes([other]) + D[place + 1 :]
                name = _said("D", str(15 - place), f"{other:02x}", f"{byte:02x}")
                yield CipherSlip(name, with_d(made))
    for exchange in range(15):
        made = bytearray(D)
        made[exchange : exchange + 2] = made[exchange : exchange + 2][::-1]
        name = f"D{15 - exchange} and D{14 - exchange} exchanged"
        yield CipherSlip(name, with_d(bytes(made)))
    for place, byte in enumerate(D):
        short = D[:place] + D[place + 1 :]
        if place != D4:
            for made, where in ((b"\0" + short, "in front"), (short + b"\0", "at the end")):
                name = f"D without its byte {15 - place} ({byte:02x}), a zero byte {where}"
                yield CipherSlip(name, with_d(made))
    for place, by in enumerate(A):
        for other in range(0, 16):
            if other != by:
                bits = [8 * a for a in (*A[:place], other, *A[place + 1 :])]
                yield CipherSlip(_said("a", str(place + 1), str(other), str(by)), rotated_by(bits))
    for place in range(15):
        if A[place] != A[place + 1]:
            turned_a = (*A[:place], A[place + 1], A[place], *A[place + 2 :])
            name = f"a{place + 1} and a{place + 2} exchanged"
            yield CipherSlip(name, rotated_by([8 * a for a in turned_a]))
    for place, number in enumerate(E):
        for other in range(4):
            if other != number:
                name = _said("E", str(place), f"X{other}", f"X{number}")
                yield CipherSlip(name, expanded_as((*E[:place], other, *E[place + 1 :])))
    for place in range(11):
        if E[place] != E[place + 1]:
            turned_e = (*E[:place], E[place + 1], E[place], *E[place + 2 :])
            yield CipherSlip(f"E{place + 1} and E{place} exchanged", expanded_as(turned_e))
    for place, byte in enumerate(S):
        for digits, _ in miscopied(f"{byte:02x}"):
            table = S[:place] + bytes.fromhex(digits) + S[place + 1 :]
            name = _said("S", f"[{place:02x}]", digits, f"{byte:02x}")
            yield CipherSlip(name, reading(table), table)
    for place in range(255):
        table = S[:place] + S[place + 1 : place + 2] + S[place : place + 1] + S[place + 2 :]
        name = f"S[{place:02x}] and S[{place + 1:02x}] exchanged"
        yield CipherSlip(name, reading(table), table)
    rows = [S[at : at + 16] for at in range(0, 256, 16)]
    for at in range(15):
        table = b"".join((*rows[:at], rows[at + 1], rows[at], *rows[at + 2 :]))
        name = f"rows {at:x}0 and {at + 1:x}0 of S exchanged"
        yield CipherSlip(name, reading(table), table)


def find(key: bytes, block: bytes, output: bytes, decrypt: bool = False) -> list[CipherSlip]:
    """The slips that give this output for a block; of the miscopied tables only where no
    other slip does."""

    def gives(slip: CipherSlip) -> bool:
        cipher = slip.cipher()
        return (cipher.decrypt if decrypt else cipher.encrypt)(key, block) == output

    return [*filter(gives, CIPHER_SLIPS)] or [*filter(gives, copied_wrongly())]
