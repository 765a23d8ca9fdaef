# SPDX-License-Identifier: MIT
"""Rarer slips outside the cipher, which are worked only where a sign of one is found."""

from __future__ import annotations

from typing import Callable, Iterator, Mapping, Sequence

from .identity_slips import in_identities, ring_of_others
from .slip import (
    KEYS_OR_SEALS,
    TA31_OR_TA61,
    Alteration,
    Rare,
    Slip,
    added,
    decrypting,
    limited,
    within,
)
from .working import EXP3_GROUPS, PAIRS, Steps, groups, summed, xor, xored


# ---- the core and the expansions (5.2, 5.4)

_BL1: dict[str, Mapping[str, Alteration]] = {
    "BL1 chained with the left input and the left output": {
        "chained": lambda steps, right, output, given: xor(xor(right, output), given)
    },
    "BL1 chained by sums, not by ⊕": {
        "chained": lambda steps, right, output, given: added(right, output)
    },
    "BL1 chained in seven bytes, the last one left as it is": {
        "chained": lambda steps, right, output, given: xor(right[:7], output) + right[7:]
    },
    "decryption for encryption in BL1's left block": {"left_block": decrypting},
    "decryption for encryption in BL1's right block": {"right_block": decrypting},
}


def _held(sums: Sequence[int]) -> bytes:
    return bytes(min(each, 0xFF) for each in sums)


def _exp2_sum(make: Callable[[int], int]) -> Alteration:
    """EXP2's last byte otherwise, of the sum before it is taken modulo 256."""
    return lambda steps, inserted: make(sum(inserted))


_EXP2: dict[str, Mapping[str, Alteration]] = {
    "EXP2's last byte as the sum of all fifteen bytes": {
        "exp2": lambda steps, data: steps.exp1(data) + bytes([summed(steps.exp1(data))])
    },
    "EXP2's last byte held at 255": {"last_byte": _exp2_sum(lambda total: min(total, 0xFF))},
    "EXP2's last byte modulo 255": {"last_byte": _exp2_sum(lambda total: total % 0xFF)},
    "zeros for EXP2": {"exp2": lambda steps, data: data + bytes(6)},
    "zeros in front for EXP2": {"exp2": lambda steps, data: bytes(6) + data},
}


def _first(make: Callable[[bytes, bytes], int]) -> Alteration:
    """EXP4's first byte otherwise, of what is expanded and of the fifteen bytes after it."""

    def alter(steps: Steps, data: bytes) -> bytes:
        rest = Steps.exp4(steps, data)[1:]
        return bytes([make(data, rest)]) + rest

    return alter


def _exp4_held(steps: Steps, data: bytes) -> bytes:
    pairs = groups(data, PAIRS)
    sums = _held([sum(pair) for pair in pairs])
    return bytes([xored(sums)]) + b"".join(bytes([s]) + pair for s, pair in zip(sums, pairs))


_EXP4: dict[str, Alteration] = {
    "EXP4's first byte the ⊕ of the ten bytes": _first(lambda data, rest: xored(data)),
    "EXP4's first byte the ⊕ of all fifteen": _first(lambda data, rest: xored(rest)),
    "EXP4's first byte zero": _first(lambda data, rest: 0),
    "EXP4's sums held at 255": _exp4_held,
    "key repeated for EXP4": lambda steps, data: data + data[:6],
    "zeros in front for EXP4": lambda steps, data: bytes(6) + data,
}


def _last_two(steps: Steps, data: bytes) -> bytes:
    cut = groups(data, EXP3_GROUPS)
    return b"".join(group + bytes([xored(group[-2:])]) for group in cut)


def _x16_last(make: Callable[[bytes], int]) -> Mapping[str, Alteration]:
    """A byte of X16's three ⊕ bytes for its zero byte."""

    def alter(steps: Steps, data: bytes) -> bytes:
        expanded = Steps.x16(steps, data)[:15]
        return expanded + bytes([make(expanded[4::5])])

    return {"x16": alter}


def _exp2_in_ta31(steps: Steps, data: bytes) -> bytes:
    return data + bytes([summed(data[2::3])])


def _body_in_ta31(steps: Steps, cipher_key: bytes, version: int, sealing_key: bytes) -> bytes:
    data = steps.x16(cipher_key + bytes(2))
    return steps.dropped(steps.bl1(steps.short_key(sealing_key, version), data))


def _repeating(make: Callable[[bytes, bytes, int], bytes]) -> Mapping[str, Alteration]:
    """The version repeated otherwise, of its high byte, its low byte and the copies."""

    def alter(steps: Steps, version: int, copies: int) -> bytes:
        pair = version.to_bytes(2, "big")
        return make(pair[:1], pair[1:], copies)

    return {"repeated": alter}


def _sealing() -> Iterator[Rare]:
    """Slips in the core, the expansions and the texts."""
    places = {"": (True, "dog"), "deriving keys": (True, "do"), "sealing": (False, "dog")}
    for name, altered in _BL1.items():
        for slip in limited(name, altered, KEYS_OR_SEALS):
            place = next((each for each in KEYS_OR_SEALS if slip.name.endswith(f"{each} alone")), "")
            yield Rare(slip, *places[place])
    for name, altered in _EXP2.items():
        yield Rare(Slip(name, altered), True, "do")
    for name, alter in _EXP4.items():
        for slip in limited(name, {"exp4": alter}, TA31_OR_TA61):
            in_text, in_identity = ("TA31" in slip.algorithms, "TA61" in slip.algorithms)
            everywhere = not slip.algorithms
            yield Rare(slip, False, "d" * (everywhere or in_text), everywhere or in_identity)
    yield Rare(Slip("EXP3's ⊕ of the two bytes left of it", {"exp3": _last_two}), False, "og")
    yield Rare(Slip("X16's last byte the sum of its ⊕ bytes", _x16_last(summed)), False, "og")
    yield Rare(Slip("X16's last byte the ⊕ of its ⊕ bytes", _x16_last(xored)), False, "og")
    alter = within("zero_behind", _exp2_in_ta31, ("TA31",))
    yield Rare(Slip("EXP2 in TA31, for EXP1 and a zero byte", {"zero_behind": alter}), False, "d")
    yield Rare(Slip("X16 of key and two zero bytes in TA31", {"ta31": _body_in_ta31}), False, "d")
    low = _repeating(lambda high, low, copies: low * 2 * copies)
    yield Rare(Slip("version's low byte alone, repeated", low), False, "dog")
    apart = _repeating(lambda high, low, copies: high * copies + low * copies)
    yield Rare(Slip("version's high byte repeated, then its low byte", apart), False, "dog")


# ---- keys (5.6, 5.7, 5.22, 5.23)


def _in_bytes(seed: bytes, make: Callable[[str], str]) -> bytes:
    """Each byte with its eight bits in another order."""
    return bytes(int(make(f"{byte:08b}"), 2) for byte in seed)


_SEEDS: dict[str, Callable[[bytes], bytes]] = {
    "bits of each byte of TA21's seed reversed, its bytes not": lambda seed: _in_bytes(
        seed, lambda bits: bits[::-1]
    ),
    "digits of each byte of TA21's seed exchanged, its bytes not reversed": lambda seed: _in_bytes(
        seed, lambda bits: bits[4:] + bits[:4]
    ),
    "TA21's seed reversed pair by pair": lambda seed: b"".join(groups(seed, PAIRS)[::-1]),
    "bytes of each pair of TA21's seed exchanged": lambda seed: b"".join(
        pair[::-1] for pair in groups(seed, PAIRS)
    ),
    "halves of TA21's seed exchanged": lambda seed: seed[5:] + seed[:5],
}
_TA21: dict[str, Callable[[Steps, bytes, bytes], bytes]] = {
    "TA21's seed reversed after EXP2": lambda steps, root, seed: steps.bl1(
        root, steps.exp2(seed)[::-1]
    ),
    "session key 2 reversed, TA21's seed not": lambda steps, root, seed: steps.bl1(
        root, steps.exp2(seed)
    )[::-1],
    "TA21's root reversed, its seed not": lambda steps, root, seed: steps.bl1(
        root[::-1], steps.exp2(seed)
    ),
    "TA21's root reversed as its seed": lambda steps, root, seed: steps.bl1(
        root[::-1], steps.exp2(seed[::-1])
    ),
}


def _in_ta21(run: Callable[[Steps, bytes, bytes], bytes]) -> Alteration:
    def alter(steps: Steps, root: bytes, seed: bytes) -> bytes:
        steps.algorithm = "TA21"
        return run(steps, root, seed)

    return alter


def _left_over(output: bytes, mask: int) -> bytes:
    return bytes(byte for i, byte in enumerate(output) if not mask >> (15 - i) & 1)


def _splitting(make: Callable[[Steps, bytes, int], tuple[bytes, bytes]]) -> Mapping[str, Alteration]:
    """Response and key otherwise, of the output and the response's mask."""
    return {"split": lambda steps, output, mask, key_mask: make(steps, output, mask)}


def _masked(turn: int) -> Mapping[str, Alteration]:
    """Bits of the masks counted from elsewhere."""

    def alter(steps: Steps, output: bytes, mask: int) -> bytes:
        return Steps.chosen(steps, output, (mask << turn | mask >> (16 - turn)) & 0xFFFF)

    return {"chosen": alter}


_SPLITS: dict[str, Mapping[str, Alteration]] = {
    "last ten bytes that the response leaves for the key's mask": _splitting(
        lambda steps, output, mask: (steps.chosen(output, mask), _left_over(output, mask)[2:])
    ),
    "last ten bytes for the key's mask": _splitting(
        lambda steps, output, mask: (steps.chosen(output, mask), output[6:])
    ),
    "first four bytes and the next ten for the masks": _splitting(
        lambda steps, output, mask: (output[:4], output[4:14])
    ),
    "last four bytes and the ten before them for the masks": _splitting(
        lambda steps, output, mask: (output[12:], output[2:12])
    ),
    "masks' bits counted from 1": _masked(15),
    "masks' bits counted from -1": _masked(1),
}
_TB4: dict[str, Alteration] = {
    "TB4 with key 1 reversed": lambda steps, one, two: xor(one[::-1], two),
    "TB4 with key 2 reversed": lambda steps, one, two: xor(one, two[::-1]),
    "TB4 as a difference": lambda steps, one, two: bytes((a - b) & 0xFF for a, b in zip(one, two)),
    "TB4 as OR, not ⊕": lambda steps, one, two: bytes(a | b for a, b in zip(one, two)),
    "TB4 as AND, not ⊕": lambda steps, one, two: bytes(a & b for a, b in zip(one, two)),
}


def _derived() -> Iterator[Rare]:
    """Slips in keys."""
    for name, turn in _SEEDS.items():
        alter: Alteration = lambda steps, seed, turn=turn: turn(seed)  # noqa: E731
        yield Rare(Slip(name, {"reversed_seed": alter}), True, "d")
    for name, run in _TA21.items():
        yield Rare(Slip(name, {"ta21": _in_ta21(run)}), True, "d")
    for name, altered in _SPLITS.items():
        yield Rare(Slip(name, altered), True, "d")
    for name, alter in _TB4.items():
        yield Rare(Slip(name, {"tb4": alter}), True, "d")
    for key in "dog":
        slip = ring_of_others(
            f"{key.upper()} reversed",
            lambda ring, key=key: ring._replace(**{key: getattr(ring, key)[::-1]}),  # type: ignore[misc]
        )
        yield Rare(slip, True, key)
    repeated = {"tb7": lambda steps, key: key + key[:4]}
    yield Rare(Slip("group key and its first four bytes for its TB7 form", repeated), True, "g")


RARER_SLIPS: tuple[Rare, ...] = (*_sealing(), *_derived(), *in_identities())
