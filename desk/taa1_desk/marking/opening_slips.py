# SPDX-License-Identifier: MIT
"""The slips in unsealing."""

from __future__ import annotations

from typing import Any, Callable, Mapping, Sequence

from .slip import Alteration, Slip, encrypting, exchanged, turned_identity
from .working import PAIRS, THIRD, Blocks, Opened, S, Steps, Unsealed, groups, summed, xor


def _put_back(place: int) -> Slip:
    """The zero byte put back at another place from the left."""
    name = {0: "in front", 15: "at the end"}.get(place, f"at byte {15 - place}")
    return Slip(
        f"zero byte put back {name} instead of at byte 8",
        {"zero_back": lambda steps, text: text[:place] + b"\0" + text[place:]},
    )


def _bl2(
    left: Callable[[bytes, bytes], bytes], right: Callable[[bytes, bytes, bytes], bytes]
) -> Mapping[str, Alteration]:
    """BL2 with another left block, of the left input and the right block decrypted; or with
    another right output, of these and the left output."""

    def run(steps: Steps, key: bytes, data: bytes) -> bytes:
        back = steps.decrypt(key, data[8:])
        output = steps.decrypt(key, left(data[:8], back))
        return output + right(data[:8], back, output)[:7]

    return {"bl2": run}


def _mended(left: bytes, back: bytes) -> bytes:
    return left[:7] + xor(left[7:], back[7:])


def _unchecked(steps: Steps, *inputs: Any) -> int:
    return 0


def _failed_sums(steps: Steps, data: bytes, sizes: tuple[int, ...]) -> int:
    cut = groups(data, [size + 1 for size in sizes])
    return sum(1 << i for i, group in enumerate(cut) if summed(group[:-1]) != group[-1])


def _number_last(steps: Steps, text: bytes, sealing_key: bytes, version: int) -> Unsealed:
    data = steps.bl2(steps.long_key(sealing_key, version), steps.zero_back(text))
    return Steps.ta52(steps, text, sealing_key, version)._replace(number=data[14] & 31)


def _shr1_for_shr2(steps: Steps, text: bytes, sealing_key: bytes, version: int) -> Unsealed:
    data = steps.bl2(steps.long_key(sealing_key, version), steps.zero_back(text))
    key = steps.shrunk(data, PAIRS)
    return Steps.ta52(steps, text, sealing_key, version)._replace(key=key)


def _number_first(steps: Steps, data: bytes, sizes: tuple[int, ...]) -> bytes:
    """The number taken from in front of the key."""
    body = Steps.shrunk(steps, data, sizes)
    size = {"TA52": 1, "TA82": 2}.get(steps.algorithm, 0)
    return body[size:] + body[:size]


def _undone(*p: bool) -> Alteration:
    """TA61 undone with P undone after the first ⊕ and after the second, where it is said."""

    def run(steps: Steps, strings: Blocks, identity: bytes) -> bytes:
        one, two, three = strings
        made = steps.mixed(identity, three)
        made = steps.mixed(steps.p_inverse(made) if p[0] else made, two)
        return steps.mixed(steps.p_inverse(made) if p[1] else made, one)

    return run


def _p_back(table: Sequence[int]) -> Alteration:
    """P undone with another table for S's inverse."""

    def run(steps: Steps, b: bytes) -> bytes:
        sums = [table[byte] for byte in b]
        return bytes((2 * THIRD * sum(sums) - sums[place]) * THIRD & 0xFF for place in (2, 1, 0))

    return run


def _written(name: str, change: Callable[[Opened], Opened]) -> Slip:
    """Another entry written down than was opened."""
    return Slip(name, {"written": lambda steps, opened: change(opened)})


OPENING_SLIPS: tuple[Slip, ...] = (
    *(_put_back(place) for place in range(15, -1, -1) if place != 7),
    Slip("three zero bits not checked", {"failed_bits": _unchecked}),
    Slip(
        "three zero bits not checked, and taken into the number",
        {"failed_bits": _unchecked, "five_bits": lambda steps, number: number},
    ),
    Slip("redundancy not checked", {"failed": _unchecked, "failed_bits": _unchecked}),
    Slip("redundancy checked as sums", {"failed": _failed_sums}),
    Slip(
        "first bytes for the key, redundancy left in",
        {"shrunk": lambda steps, data, sizes: data[: sum(sizes)]},
    ),
    Slip(
        "no chaining in BL2, each block decrypted by itself",
        _bl2(lambda left, back: left, lambda left, back, output: back),
    ),
    Slip("no chaining in BL2", _bl2(_mended, lambda left, back, output: back)),
    Slip(
        "BL2 chained with the left output",
        _bl2(_mended, lambda left, back, output: xor(output, back)),
    ),
    Slip(
        "left block's zero byte kept in BL2",
        _bl2(lambda left, back: left, lambda left, back, output: xor(left, back)),
    ),
    Slip(
        "left block ⊕ the whole right one in BL2",
        _bl2(xor, lambda left, back, output: xor(left, back)),
    ),
    Slip("encryption for decryption in BL2", {"right_back": encrypting, "left_back": encrypting}),
    Slip("BL1 for BL2", {"bl2": lambda steps, key, data: steps.bl1(key, data)[:15]}),
    Slip(
        "left block's first byte ⊕ the right one's in BL2, not its last",
        _bl2(
            lambda left, back: xor(left[:1], back[:1]) + left[1:],
            lambda left, back, output: xor(left, back),
        ),
    ),
    Slip(
        "last seven bytes of BL2's right block, not the first",
        _bl2(_mended, lambda left, back, output: xor(left[1:], back[1:])),
    ),
    Slip("number from the last byte", {"ta52": _number_last}),
    Slip("number from the highest five bits", {"five_bits": lambda steps, number: number >> 3}),
    Slip("SHR1 for SHR2", {"ta52": _shr1_for_shr2}),
    Slip("number before the key", {"shrunk": _number_first}),
    _written(
        "bytes of the number exchanged",
        lambda o: o._replace(number=exchanged(o.number)) if o.kind in (3, 6) and o.number else o,
    ),
    _written("bytes of the version exchanged", lambda o: o._replace(version=exchanged(o.version))),
    _written("key reversed", lambda o: o._replace(key=o.key[::-1])),
    _written("identity reversed", lambda o: o._replace(identity=turned_identity(o.identity))),
    Slip("identity not decrypted", {"decrypted": lambda steps, strings, identity: identity}),
    Slip("TA61 for its inverse", {"decrypted": Steps.encrypted}),
    Slip("P for its inverse", {"p_inverse": lambda steps, b: steps.p(b)}),
    Slip("P undone once, after the first ⊕", {"decrypted": _undone(True, False)}),
    Slip("P undone once, after the second ⊕", {"decrypted": _undone(False, True)}),
    Slip("P not undone", {"decrypted": _undone(False, False)}),
    Slip("P undone without S", {"p_inverse": _p_back(range(256))}),
    Slip("P undone with S, not its inverse", {"p_inverse": _p_back(S)}),
    Slip(
        "bytes of P's inverse in the other order",
        {"p_inverse": lambda steps, b: Steps.p_inverse(steps, b)[::-1]},
    ),
)
# The steps of unsealing, and those that it shares with sealing.
OPEN_STEPS = {"short_key", "long_key", "repeated", "core_key", "exp4", "sealing_key"}
OPEN_STEPS |= {"strings", "shrunk_key", "bc"}
OPEN_STEPS |= {step for slip in OPENING_SLIPS for step in slip.altered}
