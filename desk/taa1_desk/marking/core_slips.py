# SPDX-License-Identifier: MIT
"""The slips in the expansions and in the core."""

from __future__ import annotations

from typing import Callable, Iterable, Mapping, Optional

from .slip import EACH_KEY, EXP2_OR_TA31, KEYS_OR_SEALS, TA31_OR_TA61, Alteration, Slip, decrypting, limited
from .working import EXP3_GROUPS, FOURS, PAIRS, THREES, Steps, groups, summed, xor, xored

Sum = Callable[[Iterable[int]], int]


def _behind(cut: Iterable[bytes], made: Sum = xored) -> bytes:
    return b"".join(group + bytes([made(group)]) for group in cut)


def _before(cut: Iterable[bytes], made: Sum = xored) -> bytes:
    return b"".join(bytes([made(group)]) + group for group in cut)


def _inside(cut: Iterable[bytes], made: Sum = xored) -> bytes:
    return b"".join(group[:1] + bytes([made(group)]) + group[1:] for group in cut)


def _at_the_end(cut: Iterable[bytes], made: Sum = xored) -> bytes:
    cut = list(cut)
    return b"".join(cut) + bytes(map(made, cut))


def _in_front(cut: Iterable[bytes], made: Sum = xored) -> bytes:
    cut = list(cut)
    return bytes(map(made, cut)) + b"".join(cut)


def _inserting(put: Callable[..., bytes], sizes: tuple[int, ...], tail: bytes = b"") -> Alteration:
    """An expansion whose bytes are put elsewhere, or made otherwise."""
    return lambda steps, data: put(groups(data, sizes)) + tail


def _summing(cut: Iterable[bytes]) -> bytes:
    return _behind(cut, summed)


def _places(expansion: str, group: str) -> list[tuple[str, Callable[..., bytes]]]:
    """The names of an expansion with its bytes in other places, or as sums."""
    return [
        (f"{expansion}'s ⊕ bytes before their {group}", _before),
        (f"{expansion}'s ⊕ bytes after the first byte of their {group}", _inside),
        (f"{expansion}'s ⊕ bytes all at the end", _at_the_end),
        (f"{expansion}'s ⊕ bytes all in front", _in_front),
        (f"{expansion} with sums for ⊕", _summing),
    ]


def _outermost(data: bytes) -> list[bytes]:
    """The first byte and the last, the second and the last but one, and so on."""
    return [bytes([data[i], data[9 - i]]) for i in range(5)]


def _exp4(pairs: list[bytes], added: Optional[list[bytes]] = None, made: Sum = summed) -> bytes:
    """EXP4 of pairs; the sums may be those of others."""
    sums = bytes(map(made, added or pairs))
    return bytes([xored(sums)]) + b"".join(bytes([s]) + pair for s, pair in zip(sums, pairs))


def _exp4_behind(data: bytes) -> bytes:
    pairs = groups(data, PAIRS)
    return bytes([xored(map(summed, pairs))]) + _behind(pairs, summed)


_EXP2: dict[str, Mapping[str, Alteration]] = {
    "EXP2's last byte as ⊕": {"last_byte": lambda steps, inserted: xored(inserted)},
    "EXP2's last byte as the sum of all ten bytes": {
        "exp2": lambda steps, data: steps.exp1(data) + bytes([summed(data)])
    },
    "EXP2's last byte zero": {"last_byte": lambda steps, inserted: 0},
    "EXP2's last byte in front": {
        "exp2": lambda steps, data: _turned(Steps.exp2(steps, data)),
    },
    "EXP4 for EXP2": {"exp2": lambda steps, data: steps.exp4(data)},
}
_EXP4: dict[str, Callable[[Steps, bytes], bytes]] = {
    "EXP2 for EXP4": lambda steps, data: steps.exp2(data),
    "EXP4's pairs the outermost bytes": lambda steps, data: _exp4(_outermost(data)),
    "EXP4's sums those of the outermost bytes": lambda steps, data: _exp4(
        groups(data, PAIRS), _outermost(data)
    ),
    "EXP4's sums after their pairs": lambda steps, data: _exp4_behind(data),
    "EXP4's ⊕ of the sums at the right": lambda steps, data: _back(Steps.exp4(steps, data)),
    "EXP4 with ⊕ for sums": lambda steps, data: _exp4(groups(data, PAIRS), made=xored),
    "EXP4's first byte as a sum": lambda steps, data: (
        bytes([summed(data)]) + Steps.exp4(steps, data)[1:]
    ),
    "zeros for EXP4": lambda steps, data: data + bytes(6),
}


def _turned(data: bytes) -> bytes:
    """The last byte in front."""
    return data[-1:] + data[:-1]


def _back(data: bytes) -> bytes:
    """The first byte at the end."""
    return data[1:] + data[:1]


def _unchained(steps: Steps, right: bytes, left_output: bytes, left_input: bytes) -> bytes:
    return right


_BLOCKS: dict[str, Alteration] = {"left_block": decrypting, "right_block": decrypting}
_BL1: dict[str, Mapping[str, Alteration]] = {
    "no chaining in BL1": {"chained": _unchained},
    "decryption for encryption in BL1": _BLOCKS,
    "decryption for encryption in BL1, no chaining": {**_BLOCKS, "chained": _unchained},
    "decryption for encryption in BL1, its output ⊕ the left input": {
        "bl1": lambda steps, key, data: (
            steps.decrypt(key, data[:8]) + xor(steps.decrypt(key, data[8:]), data[:8])
        )
    },
    "BL1 chained with the left input": {
        "chained": lambda steps, right, left_output, left_input: xor(right, left_input)
    },
    "BL1's ⊕ after the encryption of the right block": {
        "bl1": lambda steps, key, data: _joined_after(steps, key, data)
    },
    "BL1 begun at the right block": {"bl1": lambda steps, key, data: _from_right(steps, key, data)},
    "BL1's output blocks exchanged": {
        "bl1": lambda steps, key, data: _halves(Steps.bl1(steps, key, data))
    },
    "BL1's input blocks exchanged": {
        "bl1": lambda steps, key, data: Steps.bl1(steps, key, _halves(data))
    },
}


def _halves(data: bytes) -> bytes:
    """The halves, exchanged."""
    return data[8:] + data[:8]


def _joined_after(steps: Steps, key: bytes, data: bytes) -> bytes:
    left = steps.encrypt(key, data[:8])
    return left + xor(steps.encrypt(key, data[8:]), left)


def _from_right(steps: Steps, key: bytes, data: bytes) -> bytes:
    return _halves(Steps.bl1(steps, key, _halves(data)))


CORE_SLIPS: tuple[Slip, ...] = (
    *(slip for name, altered in _EXP2.items() for slip in limited(name, altered, EACH_KEY)),
    *(
        slip
        for name, put in _places("EXP1", "pairs")
        for slip in limited(name, {"exp1": _inserting(put, PAIRS)}, EXP2_OR_TA31)
    ),
    Slip(
        "EXP1 with sums for ⊕, EXP2's last byte of them",
        {
            "exp1": _inserting(_summing, PAIRS),
            "exp2": lambda steps, data: steps.exp1(data) + bytes([summed(data)]),
        },
    ),
    *(Slip(name, {"exp3": _inserting(put, EXP3_GROUPS)}) for name, put in _places("EXP3", "groups")),
    Slip("EXP3's groups of 3, 3, 3 and 2 bytes", {"exp3": _inserting(_behind, (3, 3, 3, 2))}),
    *(Slip(name, {"x16": _inserting(put, FOURS, b"\0")}) for name, put in _places("X16", "fours")),
    Slip("TB7 for X16", {"x16": lambda steps, data: steps.tb7(data)}),
    *(Slip(name, {"tb7": _inserting(put, THREES)}) for name, put in _places("TB7", "threes")),
    Slip(
        "zero byte in front",
        {
            "zero_behind": lambda steps, data: b"\0" + data,
            "x16": lambda steps, data: _turned(Steps.x16(steps, data)),
        },
    ),
    *(
        slip
        for name, alter in _EXP4.items()
        for slip in limited(name, {"exp4": alter}, TA31_OR_TA61)
    ),
    *(
        slip
        for name, altered in _BL1.items()
        for slip in limited(name, altered, KEYS_OR_SEALS, EACH_KEY)
    ),
    Slip("decryption for encryption everywhere, in TA61 too", {**_BLOCKS, "bc": decrypting}),
)
