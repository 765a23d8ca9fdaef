"""Wrong steps outside the cipher, by the reference's hands: each a line of the papers misread.

The keys of WRONG_STEPS are what the desk must say. Nothing here shares code with the desk.
"""

from __future__ import annotations

from typing import Any, Callable, Dict, Iterable, List, Sequence, Tuple

from reference import Keys, Ring, S, Sitting, Unsealed, Working, fold, groups, xor
from wrong_ciphers import INVERSE, Cipher, _f

ORDERS = ((7, 4, 1), (6, 3, 0), (5, 2, 7))  # the bytes of K1, K2 and K3


def _sum(*values: int) -> int:
    return sum(values) % 256


def _sums(one: bytes, other: bytes) -> bytes:
    return bytes(_sum(a, b) for a, b in zip(one, other))


def _pairs(data: bytes) -> List[bytes]:
    return groups(data, [2] * 5)


def _core(run: Callable[[Working, bytes, bytes, bytes], Tuple[bytes, bytes]]) -> Cipher:
    """BL1 of a left block and a right one, otherwise."""
    return {"bl1": lambda work, key, data: b"".join(run(work, key, data[:8], data[8:]))}


def _chained(join: Callable[[bytes, bytes, bytes], bytes]) -> Cipher:
    """BL1 whose right block is joined otherwise: of it, the left output and the left input."""

    def run(work: Working, key: bytes, left: bytes, right: bytes) -> Tuple[bytes, bytes]:
        made = work.encrypt(key, left)
        return made, work.encrypt(key, join(right, made, left))

    return _core(run)


def _left_back(work: Working, key: bytes, left: bytes, right: bytes) -> Tuple[bytes, bytes]:
    made = work.decrypt(key, left)
    return made, work.encrypt(key, xor(right, made))


def _right_back(work: Working, key: bytes, left: bytes, right: bytes) -> Tuple[bytes, bytes]:
    made = work.encrypt(key, left)
    return made, work.decrypt(key, xor(right, made))


def _last(make: Callable[[Working, bytes], int]) -> Cipher:
    """EXP2 with another last byte."""
    return {"exp2": lambda work, data: work.exp1(data) + bytes([make(work, data)])}


def _exp4(first: Callable[[bytes, bytes], int]) -> Cipher:
    """EXP4 with another first byte, of the data and of the five sums."""

    def run(work: Working, data: bytes) -> bytes:
        sums = bytes(_sum(*pair) for pair in _pairs(data))
        rest = b"".join(bytes([total]) + pair for total, pair in zip(sums, _pairs(data)))
        return bytes([first(data, rest)]) + rest

    return {"exp4": run}


def _exp4_held(work: Working, data: bytes) -> bytes:
    sums = bytes(min(sum(pair), 255) for pair in _pairs(data))
    return bytes([fold(sums)]) + b"".join(bytes([s]) + pair for s, pair in zip(sums, _pairs(data)))


def _x16(make: Callable[[Sequence[int]], int]) -> Cipher:
    def run(work: Working, data: bytes) -> bytes:
        parts = groups(data, [4] * 3)
        inserted = b"".join(part + bytes([fold(part)]) for part in parts)
        return inserted + bytes([make([fold(part) for part in parts])])

    return {"x16": run}


def _version(make: Callable[[bytes, bytes, int], bytes]) -> Cipher:
    return {"version_bytes": lambda w, v, n: make(bytes([v >> 8]), bytes([v & 255]), n // 2)}


def _seed(turn: Callable[[bytes], bytes]) -> Cipher:
    return {"ta21": lambda work, root, seed: work.derive(root, turn(seed))}


def _bits(byte: int) -> str:
    return f"{byte:08b}"


def _taken(**taken: str) -> Cipher:
    """Given values in the place of others."""

    def recipe(work: Working, sitting: Sitting) -> Keys:
        wrong: Any = {wanted: getattr(sitting, used) for wanted, used in taken.items()}
        return Working.recipe(work, sitting._replace(**wrong))

    return {"recipe": recipe}


def _ring(change: Callable[[Ring], Ring]) -> Cipher:
    def recipe(work: Working, sitting: Sitting) -> Keys:
        keys = Working.recipe(work, sitting)
        return keys._replace(ring=change(keys.ring))

    return {"recipe": recipe}


def _split(make: Callable[[Working, bytes, int], Tuple[bytes, bytes]]) -> Cipher:
    return {"split": lambda work, output, response_mask, key_mask: make(work, output, response_mask)}


def _masks(turn: Callable[[int], int]) -> Cipher:
    return {"choose": lambda work, output, mask: Working.choose(work, output, turn(mask))}


def _strings(*orders: Sequence[int]) -> Cipher:
    """TA61's strings of other bytes."""

    def strings(work: Working, c: bytes) -> Tuple[bytes, ...]:
        b = work.encrypt(work.exp4(c), xor(c[:8], c[2:]))[::-1]
        return tuple(bytes(b[at] for at in order) for order in orders)

    return {"ta61_strings": strings}


def _shrunk(shrink: Callable[[bytes], bytes]) -> Cipher:
    """TA61's strings of another input block."""

    def strings(work: Working, c: bytes) -> Tuple[bytes, ...]:
        b = work.encrypt(work.exp4(c), shrink(c))[::-1]
        return tuple(bytes(b[at] for at in order) for order in ORDERS)

    return {"ta61_strings": strings}


def _identity(run: Callable[..., Any], call: str = "ta61", permute: str = "permute") -> Cipher:
    """TA61, or its inverse, of P or what undoes it, the three strings and the identity, otherwise."""

    def ta61(work: Working, c: bytes, identity: int) -> int:
        made = run(getattr(work, permute), *work.ta61_strings(c), identity.to_bytes(3, "big"))
        return int.from_bytes(made, "big")

    return {call: ta61}


def _p(make: Callable[[int, int, int], int], table: Sequence[int] = S) -> Cipher:
    """P with another sum of two bytes and a third, or another table."""

    def permute(work: Working, string: bytes) -> bytes:
        a2, a1, a0 = string
        return bytes(table[n % 256] for n in (make(a2, a1, a0), make(a2, a0, a1), make(a1, a0, a2)))

    return {"permute": permute}


def _right_p(one: int, two: int, less: int) -> int:
    return 2 * one + 2 * two - less


def _s_first(work: Working, string: bytes) -> bytes:
    b2, b1, b0 = (S[byte] for byte in string)
    return bytes(n % 256 for n in (_right_p(b2, b1, b0), _right_p(b2, b0, b1), _right_p(b1, b0, b2)))


def _in_turn(work: Working, string: bytes) -> bytes:
    a = list(string)
    a[0] = S[(2 * a[0] + 2 * a[1] - a[2]) % 256]
    a[1] = S[(2 * a[0] + 2 * a[2] - a[1]) % 256]
    a[2] = S[(2 * a[1] + 2 * a[2] - a[0]) % 256]
    return bytes(a)


def _record(change: Callable[[bytes], bytes]) -> Cipher:
    return {"sealed_record": lambda w, ring, entry: change(Working.sealed_record(w, ring, entry))}


def _kinds_under_g(work: Working, ring: Ring, kind: int) -> bytes:
    return ring.d if kind == 1 else ring.o if kind == 4 else ring.g


def _exp3(work: Working, data: bytes) -> bytes:
    parts = groups(data, [2, 3, 3, 3])
    return b"".join(part + bytes([part[-2] ^ part[-1]]) for part in parts)


WRONG_STEPS: Dict[str, Cipher] = {
    "BL1 chained with the left input and the left output": _chained(
        lambda right, made, left: xor(xor(right, made), left)
    ),
    "BL1 chained by sums, not by ⊕": _chained(lambda right, made, left: _sums(right, made)),
    "BL1 chained in seven bytes, the last one left as it is": _chained(
        lambda right, made, left: xor(right[:7], made[:7]) + right[7:]
    ),
    "decryption for encryption in BL1's left block": _core(_left_back),
    "decryption for encryption in BL1's right block": _core(_right_back),
    "EXP2's last byte as the sum of all fifteen bytes": _last(lambda w, d: _sum(*w.exp1(d))),
    "EXP2's last byte held at 255": _last(lambda w, d: min(sum(map(fold, _pairs(d))), 255)),
    "EXP2's last byte modulo 255": _last(lambda w, d: sum(map(fold, _pairs(d))) % 255),
    "zeros for EXP2": {"exp2": lambda work, data: data + bytes(6)},
    "zeros in front for EXP2": {"exp2": lambda work, data: bytes(6) + data},
    "EXP4's first byte the ⊕ of the ten bytes": _exp4(lambda data, rest: fold(data)),
    "EXP4's first byte the ⊕ of all fifteen": _exp4(lambda data, rest: fold(rest)),
    "EXP4's first byte zero": _exp4(lambda data, rest: 0),
    "EXP4's sums held at 255": {"exp4": _exp4_held},
    "key repeated for EXP4": {"exp4": lambda work, data: (data * 2)[:16]},
    "zeros in front for EXP4": {"exp4": lambda work, data: bytes(6) + data},
    "EXP3's ⊕ of the two bytes left of it": {"exp3": _exp3},
    "X16's last byte the sum of its ⊕ bytes": _x16(lambda inserted: _sum(*inserted)),
    "X16's last byte the ⊕ of its ⊕ bytes": _x16(lambda inserted: fold(bytes(inserted))),
    "EXP2 in TA31, for EXP1 and a zero byte": {"ta31_data": lambda work, key: work.exp2(key)},
    "X16 of key and two zero bytes in TA31": {"ta31_data": lambda w, key: w.x16(key + bytes(2))},
    "version's low byte alone, repeated": _version(lambda high, low, times: low * 2 * times),
    "version's high byte repeated, then its low byte": _version(
        lambda high, low, times: high * times + low * times
    ),
    "bits of each byte of TA21's seed reversed, its bytes not": _seed(
        lambda seed: bytes(int(_bits(byte)[::-1], 2) for byte in seed)
    ),
    "digits of each byte of TA21's seed exchanged, its bytes not reversed": _seed(
        lambda seed: bytes.fromhex("".join(f"{byte:02x}"[::-1] for byte in seed))
    ),
    "TA21's seed reversed pair by pair": _seed(lambda seed: b"".join(reversed(_pairs(seed)))),
    "bytes of each pair of TA21's seed exchanged": _seed(
        lambda seed: bytes(seed[at ^ 1] for at in range(10))
    ),
    "halves of TA21's seed exchanged": _seed(lambda seed: seed[5:] + seed[:5]),
    "TA21's seed reversed after EXP2": {
        "ta21": lambda work, root, seed: work.bl1(root, work.exp2(seed)[::-1])
    },
    "session key 2 reversed, TA21's seed not": {
        "ta21": lambda work, root, seed: work.derive(root, seed)[::-1]
    },
    "TA21's root reversed, its seed not": {
        "ta21": lambda work, root, seed: work.derive(root[::-1], seed)
    },
    "TA21's root reversed as its seed": {
        "ta21": lambda work, root, seed: work.derive(root[::-1], seed[::-1])
    },
    "RS for RAND1": _taken(rand1="rs"),
    "RSO for RAND2": _taken(rand2="rso"),
    "RS and RAND1 exchanged": _taken(rand1="rs", rs="rand1"),
    "RAND1 for RSO": _taken(rso="rand1"),
    "RAND2 for C": _taken(c="rand2"),
    "RSO and C exchanged": _taken(c="rso", rso="c"),
    "last ten bytes that the response leaves for the key's mask": _split(
        lambda w, out, mask: (w.choose(out, mask), w.choose(out, mask ^ 0xFFFF)[-10:])
    ),
    "last ten bytes for the key's mask": _split(lambda w, out, mask: (w.choose(out, mask), out[-10:])),
    "first four bytes and the next ten for the masks": _split(lambda w, out, m: (out[:4], out[4:14])),
    "last four bytes and the ten before them for the masks": _split(
        lambda w, out, m: (out[-4:], out[-14:-4])
    ),
    "masks' bits counted from 1": _masks(lambda mask: mask >> 1 | (mask & 1) << 15),
    "masks' bits counted from -1": _masks(lambda mask: mask << 1 & 0xFFFF | mask >> 15),
    "TB4 with key 1 reversed": {"tb4": lambda w, a, b: xor(a[::-1], b)},
    "TB4 with key 2 reversed": {"tb4": lambda w, a, b: xor(a, b[::-1])},
    "TB4 as a difference": {"tb4": lambda w, a, b: bytes((x - y) % 256 for x, y in zip(a, b))},
    "TB4 as OR, not ⊕": {"tb4": lambda w, a, b: bytes(x | y for x, y in zip(a, b))},
    "TB4 as AND, not ⊕": {"tb4": lambda w, a, b: bytes(x & y for x, y in zip(a, b))},
    "O reversed": _ring(lambda ring: ring._replace(o=ring.o[::-1])),
    "G reversed": _ring(lambda ring: ring._replace(g=ring.g[::-1])),
    "group key and its first four bytes for its TB7 form": {"tb7": lambda w, key: (key * 2)[:16]},
    "TA61's input with sums for ⊕": _shrunk(lambda c: _sums(c[:8], c[2:])),
    "TA61's input C's last eight bytes": _shrunk(lambda c: c[-8:]),
    "TA61's input C's middle eight bytes": _shrunk(lambda c: c[1:-1]),
    "TA61's input reversed": _shrunk(lambda c: xor(c[:8], c[2:])[::-1]),
    "TA61's K1 B1 B4 B7, not B7 B4 B1": _strings((1, 4, 7), *ORDERS[1:]),
    "TA61's K3 B7 B5 B2, not B5 B2 B7": _strings(*ORDERS[:2], (7, 5, 2)),
    "TA61's strings of neighbouring bytes from B0 up": _strings((0, 1, 2), (3, 4, 5), (6, 7, 0)),
    "TA61's strings of every second byte": _strings((7, 5, 3), (6, 4, 2), (5, 3, 1)),
    "TA61's strings of every second byte, each taken once": _strings(
        (7, 5, 3), (6, 4, 2), (1, 0, 7)
    ),
    "TA61 without its first P": _identity(lambda p, k1, k2, k3, i: xor(p(xor(xor(i, k1), k2)), k3)),
    "TA61 without P": _identity(lambda p, k1, k2, k3, i: xor(xor(xor(i, k1), k2), k3)),
    "TA61 with a third P, at the start": _identity(
        lambda p, k1, k2, k3, i: xor(p(xor(p(xor(p(i), k1)), k2)), k3)
    ),
    "TA61 with a third P, at the end": _identity(
        lambda p, k1, k2, k3, i: p(xor(p(xor(p(xor(i, k1)), k2)), k3))
    ),
    "sums for ⊕ in TA61": _identity(
        lambda p, k1, k2, k3, i: _sums(p(_sums(p(_sums(i, k1)), k2)), k3)
    ),
    "P's third byte added, not subtracted": _p(lambda one, two, less: 2 * one + 2 * two + less),
    "P's second byte not doubled": _p(lambda one, two, less: 2 * one + two - less),
    "P's first byte not doubled": _p(lambda one, two, less: one + 2 * two - less),
    "P's bytes not doubled": _p(lambda one, two, less: one + two - less),
    "P with ⊕ for sums": _p(lambda one, two, less: (one << 1) ^ (two << 1) ^ less),
    "P with ⊕ for its difference": _p(lambda one, two, less: (2 * one + 2 * two) % 256 ^ less),
    "P's sums held between 0 and 255": _p(
        lambda one, two, less: sorted((0, _right_p(one, two, less), 255))[1]
    ),
    "P's S before its sums": {"permute": _s_first},
    "P's bytes overwritten one after the other": {"permute": _in_turn},
    "P's first two bytes exchanged": {
        "permute": lambda w, string: bytes(Working.permute(w, string)[at] for at in (1, 0, 2))
    },
    "P's last two bytes exchanged": {
        "permute": lambda w, string: bytes(Working.permute(w, string)[at] for at in (0, 2, 1))
    },
    "P's inverse for P": {"permute": Working.permute_back},
    "O's first ten bytes for C": _ring(lambda ring: ring._replace(c=ring.o[:10])),
    "O's last ten bytes for C": _ring(lambda ring: ring._replace(c=ring.o[-10:])),
    "kinds 2 and 3 under G": {"sealing_key": _kinds_under_g},
    "kinds counted from 0 in the record": _record(lambda r: bytes([r[0] - 1]) + r[1:]),
    "kind written as a character in the record": _record(lambda r: str(r[0]).encode() + r[1:]),
    "version before the identity in the record": _record(
        lambda r: r[:1] + r[4:6] + r[1:4] + r[6:]
    ),
    "version after the text in the record": _record(lambda r: r[:4] + r[6:] + r[4:6]),
}


def _bl2(left: Callable[[bytes, bytes], bytes], right: Callable[[bytes, bytes], bytes]) -> Cipher:
    """BL2 of the left block and the right one decrypted, otherwise."""

    def bl2(work: Working, key: bytes, data: bytes) -> bytes:
        back = work.decrypt(key, data[8:])
        return work.decrypt(key, left(data[:8], back)) + right(data[:8], back)

    return {"bl2": bl2}


def _undone(run: Callable[..., Any]) -> Cipher:
    """TA61's inverse, otherwise."""
    return _identity(run, "ta61_inverse", "permute_back")


def _p_undone(table: Sequence[int]) -> Cipher:
    def permute_back(work: Working, string: bytes) -> bytes:
        u, v, w = (table[byte] for byte in string)
        total = 171 * (u + v + w)  # of the three bytes, times three
        return bytes(171 * (2 * total - one) % 256 for one in (w, v, u))

    return {"permute_back": permute_back}


def _shr1(work: Working, text: bytes, sealing_key: bytes, version: int) -> Unsealed:
    opened = work.unseal(work.long_core_key(sealing_key, version), text)
    key = bytes(opened[14 - place] for place in (14, 13, 11, 10, 8, 7, 5, 4, 2, 1))
    return Unsealed(key, opened[13] & 31, 0)


def _number_first(work: Working, text: bytes, sealing_key: bytes, version: int) -> Unsealed:
    opened = work.unseal(work.long_core_key(sealing_key, version), text)
    both = work.parts(opened, [2, 3, 3, 3])[0]
    return Unsealed(both[1:], both[0] & 31, 0)


def _long_number_first(work: Working, text: bytes, sealing_key: bytes, version: int) -> Unsealed:
    both = work.ta92(text, sealing_key, version).key
    return Unsealed(both[2:], int.from_bytes(both[:2], "big"), 0)


def _mended(left: bytes, back: bytes) -> bytes:
    return left[:7] + xor(left[7:], back[7:])


# What opening alone shows.
WRONG_OPENING: Dict[str, Cipher] = {
    "left block's first byte ⊕ the right one's in BL2, not its last": _bl2(
        lambda left, back: xor(left[:1], back[:1]) + left[1:], lambda left, back: xor(left, back)[:7]
    ),
    "last seven bytes of BL2's right block, not the first": _bl2(
        _mended, lambda left, back: xor(left, back)[1:]
    ),
    "number from the highest five bits": {"number_of": lambda work, byte: byte >> 3},
    "SHR1 for SHR2": {"ta52": _shr1},
    "number before the key": {"ta52": _number_first, "ta82": _long_number_first},
    "P undone once, after the first ⊕": _undone(
        lambda back, k1, k2, k3, i: xor(xor(back(xor(i, k3)), k2), k1)
    ),
    "P undone once, after the second ⊕": _undone(
        lambda back, k1, k2, k3, i: xor(back(xor(xor(i, k3), k2)), k1)
    ),
    "P not undone": _undone(lambda back, k1, k2, k3, i: xor(xor(xor(i, k3), k2), k1)),
    "P undone without S": _p_undone(range(256)),
    "P undone with S, not its inverse": _p_undone(S),
    "bytes of P's inverse in the other order": {
        "permute_back": lambda work, string: Working.permute_back(work, string)[::-1]
    },
}


def _tables() -> Iterable[Tuple[str, Sequence[int]]]:
    yield "S looked up at the next index", [S[(at + 1) % 256] for at in range(256)]
    yield "S looked up at the index before", [S[at - 1] for at in range(256)]
    yield "S's inverse for S", INVERSE
    yield "S's rows taken for columns", [S[at % 16 * 16 + at // 16] for at in range(256)]
    yield "S left out", range(256)


# Another S in the cipher and in P, as where a program has one table, and in P alone.
IN_P: Dict[str, Cipher] = {
    **{f"{name}, in P as well": {**_f(table=t), **_p(_right_p, t)} for name, t in _tables()},
    **{f"{name}, in P alone": _p(_right_p, t) for name, t in _tables() if name != "S left out"},
}
_ROWS = [S[at : at + 16] for at in range(0, 256, 16)]
_ROWS[1], _ROWS[2] = _ROWS[2], _ROWS[1]
IN_P["rows 10 and 20 of S exchanged"] = {
    **_f(table=b"".join(_ROWS)), **_p(_right_p, b"".join(_ROWS))
}  # fmt: skip
