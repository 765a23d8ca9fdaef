# SPDX-License-Identifier: MIT
"""The slips in the cipher's f: E, the chain T0 to T11, S, and bits to bytes (6.4)."""

from __future__ import annotations

from typing import Callable, Mapping, Sequence

from .hurdle import E, Alteration, Hurdle, Words
from .working import S, S_INVERSE

Altered = Mapping[str, Alteration]


def number_sum(one: bytes, other: bytes) -> bytes:
    """The sum of two strings as numbers, which carries from byte to byte."""
    size = len(one)
    made = int.from_bytes(one, "big") + int.from_bytes(other, "big")
    return (made % (1 << 8 * size)).to_bytes(size, "big")


def reading(table: Sequence[int]) -> Altered:
    """Another table for S."""
    return {"table": lambda cipher: table}


# S otherwise, which P takes as well where a program has one table for both.
S_TABLES: dict[str, bytes] = {
    "S looked up at the next index": S[1:] + S[:1],
    "S looked up at the index before": S[-1:] + S[:-1],
    "S's inverse for S": S_INVERSE,
    "S's rows taken for columns": bytes(S[(i & 15) << 4 | i >> 4] for i in range(256)),
    "S left out": bytes(range(256)),
}
TABLES: dict[str, Altered] = {name: reading(table) for name, table in S_TABLES.items()}


def _backwards(cipher: Hurdle, sums: Words) -> Words:
    return list(Hurdle.chained(cipher, sums[::-1]))[::-1]


def _summed(cipher: Hurdle, sums: Words) -> Words:
    s, t, made = cipher.table(), 0, []
    for each in sums:
        t = s[(each + t) & 0xFF]
        made.append(t)
    return made


def _joined_after(cipher: Hurdle, sums: Words) -> Words:
    s, t, made = cipher.table(), 0, []
    for each in sums:
        t ^= s[each]
        made.append(t)
    return made


def _before_sum(cipher: Hurdle, x: bytes, k: bytes) -> bytes:
    s, t, chain = cipher.table(), 0, []
    for one, other in zip(cipher.expanded(x), k[::-1]):
        t = s[((one ^ t) + other) & 0xFF]
        chain.append(t)
    return cipher.transposed(cipher.nibbles(chain))


def _with_key(cipher: Hurdle, x: bytes, k: bytes) -> bytes:
    s, t, chain = cipher.table(), 0, []
    for one, other in zip(cipher.expanded(x), k[::-1]):
        t = s[(one + (other ^ t)) & 0xFF]
        chain.append(t)
    return cipher.transposed(cipher.nibbles(chain))


def _key_after(cipher: Hurdle, x: bytes, k: bytes) -> bytes:
    s, t, chain = cipher.table(), 0, []
    for one, other in zip(cipher.expanded(x), k[::-1]):
        t = (s[one ^ t] + other) & 0xFF
        chain.append(t)
    return cipher.transposed(cipher.nibbles(chain))


def _added_after(cipher: Hurdle, sums: Words) -> Words:
    s, t, made = cipher.table(), 0, []
    for each in sums:
        t = (t + s[each]) & 0xFF
        made.append(t)
    return made


def _no_first_s(cipher: Hurdle, sums: Words) -> Words:
    s, t = cipher.table(), sums[0]
    made = [t]
    for each in sums[1:]:
        t = s[each ^ t]
        made.append(t)
    return made


def _with_former(cipher: Hurdle, sums: Words, former: Words) -> Words:
    """Each sum joined with something else than the T before it."""
    s = cipher.table()
    return [s[each ^ other] for each, other in zip(sums, (0, *former))]


def _in_fours(cipher: Hurdle, sums: Words) -> Words:
    return [t for at in (0, 4, 8) for t in Hurdle.chained(cipher, sums[at : at + 4])]


def _carried(cipher: Hurdle, sums: Words) -> Words:
    """The chain begun with the last T of the round before."""
    s, t, made = cipher.table(), getattr(cipher, "last", 0), []
    for each in sums:
        t = s[each ^ t]
        made.append(t)
    setattr(cipher, "last", t)
    return made


def _begun(cipher: Hurdle, block: bytes) -> tuple[bytes, bytes]:
    setattr(cipher, "last", 0)
    return Hurdle.halves(cipher, block)


def _in_added(each: str) -> Alteration:
    """E and the round key joined otherwise."""
    ways: dict[str, Callable[[Words, bytes], Words]] = {
        "⊕": lambda e, k: [one ^ other for one, other in zip(e, k)],
        "-": lambda e, k: [(one - other) & 0xFF for one, other in zip(e, k)],
        "no key": lambda e, k: e,
        "held": lambda e, k: [min(one + other, 0xFF) for one, other in zip(e, k)],
        "255": lambda e, k: [(one + other) % 0xFF for one, other in zip(e, k)],
        "first ⊕": lambda e, k: [e[0] ^ k[0], *((a + b) & 0xFF for a, b in zip(e[1:], k[1:]))],
        "no first": lambda e, k: [e[0], *((a + b) & 0xFF for a, b in zip(e[1:], k[1:]))],
    }
    return lambda cipher, e, k: ways[each](e, k[::-1])


CHAIN: dict[str, Altered] = {
    "T0 without its byte of the round key": {"added": _in_added("no first")},
    "round key joined by ⊕, not by sums": {"added": _in_added("⊕")},
    "E and the round key added as numbers of 96 bits": {
        "added": lambda cipher, e, k: number_sum(bytes(e)[::-1], k)[::-1]
    },
    "sums of E and the round key held at 255": {"added": _in_added("held")},
    "sums of E and the round key modulo 255": {"added": _in_added("255")},
    "T0's byte of the round key joined by ⊕": {"added": _in_added("first ⊕")},
    "round key joined by ⊕, and the chain by sums": {
        "added": _in_added("⊕"),
        "chained": _summed,
    },
    "round key subtracted": {"added": _in_added("-")},
    "round key left out": {"added": _in_added("no key")},
    "T's not chained": {
        "chained": lambda cipher, sums: [cipher.table()[each] for each in sums],
    },
    "chain from T11 down to T0": {"chained": _backwards},
    "chain joined by sums, not by ⊕": {"chained": _summed},
    "chain's ⊕ after S": {"chained": _joined_after},
    "chain's sum after S": {"chained": _added_after},
    "chain's ⊕ before the round key's sum": {"f": _before_sum},
    "chain's ⊕ with the round key, before E's sum": {"f": _with_key},
    "round key added after S": {"f": _key_after},
    "T0 without S": {"chained": _no_first_s},
    "chained with the sum before, not with its T": {
        "chained": lambda cipher, sums: _with_former(cipher, sums, sums)
    },
    "chained with S of the sum before, not with its T": {
        "chained": lambda cipher, sums: _with_former(
            cipher, sums, [cipher.table()[each] for each in sums]
        )
    },
    "chain begun anew at T4 and T8": {"chained": _in_fours},
    "chain begun with the last T of the round before": {"chained": _carried, "halves": _begun},
}


def _ts(first: int) -> Altered:
    return {"nibbles": lambda cipher, chain: [t & 15 for t in chain[first : first + 8]]}


def _concatenated(cipher: Hurdle, nibbles: Words) -> bytes:
    made = 0
    for place, nibble in enumerate(nibbles):
        made |= nibble << 4 * place
    return made.to_bytes(4, "big")


def _permuted_back(cipher: Hurdle, nibbles: Words) -> bytes:
    """Table 2 taken in the other direction."""
    u = int.from_bytes(_concatenated(cipher, nibbles), "big")
    made = sum((u >> (8 * n + m) & 1) << (4 * m + n) for m in range(8) for n in range(4))
    return made.to_bytes(4, "big")


def _from_left(chain: Words) -> Words:
    """Bit n of a T counted from its highest."""
    return [int(f"{t >> 4:04b}"[::-1], 2) for t in chain]


def _whole(first: int) -> Altered:
    return {
        "transposed": lambda cipher, ts: bytes(ts),
        "nibbles": lambda cipher, chain: chain[first : first + 4][::-1],
    }


BITS: dict[str, Altered] = {
    "high nibbles of T4 to T11": {"nibbles": lambda cipher, chain: [t >> 4 for t in chain[4:]]},
    **{f"T{first} to T{first + 7} for T4 to T11": _ts(first) for first in (0, 1, 2, 3)},
    "T11 to T4 for T4 to T11": {
        "nibbles": lambda cipher, chain: [t & 15 for t in chain[:3:-1]],
    },
    "T7 to T0 for T4 to T11": {"nibbles": lambda cipher, chain: [t & 15 for t in chain[7::-1]]},
    "T11 to T4 for T4 to T11, bytes of f's output numbered from the left": {
        "nibbles": lambda cipher, chain: [t & 15 for t in chain[:3:-1]],
        "transposed": lambda cipher, u: Hurdle.transposed(cipher, u)[::-1],
    },
    "bits of T counted from the left": {"nibbles": lambda cipher, chain: _from_left(chain[4:])},
    "bits of T and of f's output counted from the left": {
        "nibbles": lambda cipher, chain: _from_left(chain[:3:-1])
    },
    "nibbles' bits counted from the left": {
        "nibbles": lambda cipher, chain: [int(f"{t & 15:04b}"[::-1], 2) for t in chain[4:]],
        "transposed": lambda cipher, u: _concatenated(cipher, u),
    },
    "no transposition of the bits": {"transposed": _concatenated},
    "no transposition of the bits, T4 leftmost": {
        "transposed": lambda cipher, nibbles: _concatenated(cipher, nibbles[::-1])
    },
    "no transposition of the bits, nibbles of each byte exchanged": {
        "transposed": lambda cipher, u: _concatenated(cipher, [u[at ^ 1] for at in range(8)])
    },
    "no transposition of the bits, bytes in the other order": {
        "transposed": lambda cipher, u: _concatenated(cipher, u)[::-1]
    },
    "transposition of the bits in the other direction": {"transposed": _permuted_back},
    **{
        f"whole T{first} to T{first + 3} for f's result": _whole(first) for first in (8, 4, 0)
    },
}


def expanded_as(order: Sequence[int]) -> Altered:
    """Another order of X's bytes in E0 to E11."""
    return {"expanded": lambda cipher, x: [x[3 - number] for number in order]}


EXPANSIONS: dict[str, Altered] = {
    "E in the other order": expanded_as(E[::-1]),
    "X three times for E": expanded_as((0, 1, 2, 3) * 3),
}
