"""Wrong ciphers, by the reference's hands: each the cipher with one line of the papers misread.

The keys of WRONG are what the desk must say. Nothing here shares code with the desk.
"""

from __future__ import annotations

from typing import Any, Callable, Dict, Iterable, List, Sequence, Tuple, cast

from reference import S, SCHEDULE_A, SCHEDULE_D, Working, xor

Cipher = Dict[str, Callable[..., Any]]  # steps of the reference's working, altered
RIGHT = Working()
ORDER = "130231203210"  # of X in E11 to E0, as 01 prints it


def working(steps: Cipher) -> Working:
    """The working of a candidate whose cipher is wrong in these steps."""
    return cast(Working, type("Wrong", (Working,), dict(steps))())


def _f(
    order: str = ORDER,
    table: Sequence[int] = S,
    join: Callable[[int, int, int], int] = lambda e, k, j: (e + k) % 256,
    chain: Callable[[Sequence[int], int, int], int] = lambda s, t, v: s[v ^ t],
    backwards: bool = False,
    chosen: slice = slice(4, 12),
    bits: Callable[[Sequence[int]], bytes] = RIGHT.choose_bits,
    x_from_left: bool = False,
    k_from_left: bool = False,
    y_from_left: bool = False,
) -> Cipher:
    """f with one thing in it done otherwise; the order of X is printed from E11 to E0."""

    def f(work: Working, half: bytes, round_key: bytes) -> bytes:
        x = half if x_from_left else half[::-1]
        k = round_key if k_from_left else round_key[::-1]
        values = [join(x[int(order[11 - j])], k[j], j) for j in range(12)]
        last, made = 0, []
        for value in values[::-1] if backwards else values:
            last = chain(table, last, value)
            made.append(last)
        y = bits((made[::-1] if backwards else made)[chosen])
        return y[::-1] if y_from_left else y

    return {"f": f}


def _rounds(
    turn: Callable[[Working, bytes, bytes, bytes], Tuple[bytes, bytes]],
    start: bool = False,
    end: bool = True,
) -> Cipher:
    """Rounds that do something else with the halves; exchanged at the start, and at the end."""

    def rounds(work: Working, block: bytes, round_keys: Iterable[bytes]) -> bytes:
        left, right = block[:4], block[4:]
        if start:
            left, right = right, left
        for k in round_keys:
            left, right = turn(work, left, right, k)
        return right + left if end else left + right

    return {"rounds": rounds}


def _feistel(work: Working, left: bytes, right: bytes, k: bytes) -> Tuple[bytes, bytes]:
    return right, xor(left, work.f(right, k))


def _kept(*registers: int) -> Cipher:
    """The rounds with these registers, counted from 1."""
    return {"round_keys": lambda work, key: [work.registers(key)[n - 1][4:] for n in registers]}


def _window(start: int) -> Cipher:
    return {"round_keys": lambda w, key: [q[start : start + 12] for q in w.registers(key)[:16]]}


def _turning(turn: Callable[[bytes, int], bytes]) -> Cipher:
    return {"turn": lambda work, register, places: turn(register, places)}


def _bits_left(register: bytes, count: int) -> bytes:
    text = "".join(f"{byte:08b}" for byte in register)
    count %= 128
    return int(text[count:] + text[:count], 2).to_bytes(16, "big")


def _by(rotations: Sequence[int]) -> Cipher:
    def registers(work: Working, key: bytes) -> List[bytes]:
        made = [key]
        for places in rotations:
            made.append(xor(made[-1][places:] + made[-1][:places], work.schedule_constant()))
        return made

    return {"registers": registers}


def _constant(d: bytes) -> Cipher:
    return {"schedule_constant": lambda work: d}


def _le(byte: int) -> Cipher:
    return _constant(SCHEDULE_D.replace(b"\x1e", bytes([byte])))


def _next(make: Callable[[Working, bytes, int], bytes]) -> Cipher:
    def registers(work: Working, key: bytes) -> List[bytes]:
        made = [key]
        for places in SCHEDULE_A:
            made.append(make(work, made[-1], places))
        return made

    return {"registers": registers}


def _from_key(work: Working, key: bytes) -> List[bytes]:
    return [key, *(xor(work.turn(key, places), SCHEDULE_D) for places in SCHEDULE_A)]


def _d_outside(work: Working, key: bytes) -> List[bytes]:
    plain = [key]
    for places in SCHEDULE_A:
        plain.append(work.turn(plain[-1], places))
    return [key, *(xor(register, SCHEDULE_D) for register in plain[1:])]


def _packed(nibbles: Sequence[int]) -> bytes:
    """U11 to U4 as they stand."""
    return bytes.fromhex("".join(f"{t & 15:x}" for t in reversed(nibbles)))


def _back(nibbles: Sequence[int]) -> bytes:
    """Table 2 in the other direction: bit pi(j) of Y is bit j of U."""
    pi = [4 * (j % 8) + j // 8 for j in range(32)]
    u = int.from_bytes(_packed(nibbles), "big")
    return sum((u >> j & 1) << pi[j] for j in range(32)).to_bytes(4, "big")


def _mirrored(d: bytes, right: bool) -> Cipher:
    """Every string numbered from the left."""
    inner = working({**_constant(d), **(_turning(lambda q, n: q[-n:] + q[:-n]) if right else {})})

    def run(name: str) -> Callable[..., bytes]:
        def crypt(work: Working, key: bytes, block: bytes) -> bytes:
            made: bytes = getattr(inner, name)(key[::-1], block[::-1])
            return made[::-1]

        return crypt

    return {"encrypt": run("encrypt"), "decrypt": run("decrypt")}


def _block_mirrored() -> Cipher:
    return {
        "encrypt": lambda work, key, block: RIGHT.encrypt(key, block[::-1])[::-1],
        "decrypt": lambda work, key, block: RIGHT.decrypt(key, block[::-1])[::-1],
    }


def _under(change: Callable[[bytes], bytes]) -> Cipher:
    return {
        "encrypt": lambda work, key, block: RIGHT.encrypt(change(key), block),
        "decrypt": lambda work, key, block: RIGHT.decrypt(change(key), block),
    }


def _carrying() -> Cipher:
    """The chain goes on from round to round of a block."""
    last = [0]

    def f(work: Working, half: bytes, round_key: bytes) -> bytes:
        x, k, made = half[::-1], round_key[::-1], []
        for j in range(12):
            last[0] = S[(x[int(ORDER[11 - j])] + k[j]) % 256 ^ last[0]]
            made.append(last[0])
        return work.choose_bits(made[4:])

    def rounds(work: Working, block: bytes, round_keys: Iterable[bytes]) -> bytes:
        last[0] = 0
        return Working.rounds(work, block, round_keys)

    return {"f": f, "rounds": rounds}


def _key_after(work: Working, half: bytes, round_key: bytes) -> bytes:
    x, k, last, made = half[::-1], round_key[::-1], 0, []
    for j in range(12):
        last = S[((x[int(ORDER[11 - j])] ^ last) + k[j]) % 256]
        made.append(last)
    return work.choose_bits(made[4:])


def _r_first(work: Working, left: bytes, right: bytes, k: bytes) -> Tuple[bytes, bytes]:
    right = xor(left, work.f(right, k))
    left = right
    return left, right


def _sum(one: bytes, other: bytes) -> bytes:
    return bytes((a + b) % 256 for a, b in zip(one, other))


def _number_sum(one: bytes, other: bytes) -> bytes:
    total = int(one.hex(), 16) + int(other.hex(), 16)
    return bytes.fromhex(f"{total:0{2 * len(one)}x}"[-2 * len(one) :])


def _carry(work: Working, half: bytes, round_key: bytes) -> bytes:
    """E11 to E0 and k11 to k0 added as numbers."""
    e = bytes(half[3 - int(at)] for at in ORDER)
    last, made = 0, []
    for value in _number_sum(e, round_key)[::-1]:
        last = S[value ^ last]
        made.append(last)
    return work.choose_bits(made[4:])


def _whole_ts(chain: Sequence[int]) -> bytes:
    return bytes(chain[::-1][:4])


def _held(*pairs: Tuple[int, int]) -> List[int]:
    return [a + b if a + b < 256 else 255 for a, b in pairs]


def _stepwise(step: Callable[[int, int, int], int]) -> Cipher:
    """f whose T is made of E, its byte of the round key, and the T before it."""

    def f(work: Working, half: bytes, round_key: bytes) -> bytes:
        x, k, last, made = half[::-1], round_key[::-1], 0, []
        for j in range(12):
            last = step(x[int(ORDER[11 - j])], k[j], last)
            made.append(last)
        return work.choose_bits(made[4:])

    return {"f": f}


def _of_sums(chain: Callable[[List[int]], List[int]]) -> Cipher:
    """f whose T's are made of the twelve sums at once."""

    def f(work: Working, half: bytes, round_key: bytes) -> bytes:
        x, k = half[::-1], round_key[::-1]
        return work.choose_bits(chain([(x[int(ORDER[11 - j])] + k[j]) % 256 for j in range(12)])[4:])

    return {"f": f}


def _without_first_s(sums: List[int]) -> List[int]:
    made = [sums[0]]
    for value in sums[1:]:
        made.append(S[value ^ made[-1]])
    return made


def _anew(sums: List[int]) -> List[int]:
    made: List[int] = []
    for j, value in enumerate(sums):
        made.append(S[value] if j in (0, 4, 8) else S[value ^ made[-1]])
    return made


def _mirror_byte(byte: int) -> int:
    return int(f"{byte:08b}"[::-1], 2)


def _words(data: bytes, size: int) -> bytes:
    """Words that were loaded with the wrong byte first."""
    made = b""
    for at in range(0, len(data), size):
        made += int.from_bytes(data[at : at + size], "little").to_bytes(size, "big")
    return made


def _in_words(d: bytes) -> Cipher:
    """Key and block loaded as words of four bytes with the wrong byte first."""
    inner = working(_constant(d))

    def run(name: str) -> Callable[..., bytes]:
        return lambda work, key, block: _words(getattr(inner, name)(_words(key, 4), _words(block, 4)), 4)

    return {"encrypt": run("encrypt"), "decrypt": run("decrypt")}


def _blocks(given: bool, made: bool) -> Cipher:
    """The block's bytes numbered from the left where it goes in, or where it comes out."""

    def turned(block: bytes, turn: bool) -> bytes:
        return block[::-1] if turn else block

    return {
        "encrypt": lambda w, k, b: turned(RIGHT.encrypt(k, turned(b, given)), made),
        "decrypt": lambda w, k, b: turned(RIGHT.decrypt(k, turned(b, given)), made),
    }


_D15 = SCHEDULE_D[:11] + SCHEDULE_D[12:]  # without the 1e
_REVERSED_NIBBLE = [int(f"{n:04b}"[::-1], 2) for n in range(16)]
INVERSE = [S.index(byte) for byte in range(256)]
WINDOW = _window(0)

WRONG: Dict[str, Cipher] = {
    "halves not exchanged at the end": _rounds(_feistel, end=False),
    "halves exchanged at the start": _rounds(_feistel, start=True),
    "halves exchanged at the start, and not at the end": _rounds(_feistel, start=True, end=False),
    "f of L, not of R": _rounds(lambda w, l, r, k: (r, xor(l, w.f(l, k)))),
    "L overwritten by R before it is joined with f": _rounds(
        lambda w, l, r, k: (r, xor(r, w.f(r, k)))
    ),
    "R overwritten before L takes it": _rounds(_r_first),
    "halves not exchanged in the rounds": _rounds(lambda w, l, r, k: (xor(l, w.f(r, k)), r)),
    "f's result not joined with L": _rounds(lambda w, l, r, k: (r, w.f(r, k))),
    "f's result added to L, not ⊕": _rounds(lambda w, l, r, k: (r, _sum(l, w.f(r, k)))),
    "f's result added to L as a number of 32 bits": _rounds(
        lambda w, l, r, k: (r, _number_sum(l, w.f(r, k)))
    ),
    "fifteen rounds, the last one left out": _kept(*range(1, 16)),
    "fifteen rounds, the first one left out": _kept(*range(2, 17)),
    "seventeen rounds, Q17 in the last": _kept(*range(1, 18)),
    "schedule begun at Q2": _kept(*range(2, 18)),
    "eight rounds": _kept(*range(1, 9)),
    "one round": _kept(1),
    "seventeen rounds, Q1 in the first two": _kept(1, *range(1, 17)),
    "seventeen rounds, Q16 in the last two": _kept(*range(1, 17), 16),
    "Q1's round key in each round": _kept(*[1] * 16),
    "E in the other order": _f(order=ORDER[::-1]),
    "X three times for E": _f(order="3210" * 3),
    "T0 without its byte of the round key": _f(join=lambda e, k, j: (e + k) % 256 if j else e),
    "round key joined by ⊕, not by sums": _f(join=lambda e, k, j: e ^ k),
    "E and the round key added as numbers of 96 bits": {"f": _carry},
    "round key subtracted": _f(join=lambda e, k, j: (e - k) % 256),
    "round key left out": _f(join=lambda e, k, j: e),
    "T's not chained": _f(chain=lambda s, t, v: s[v]),
    "chain from T11 down to T0": _f(backwards=True),
    "chain joined by sums, not by ⊕": _f(chain=lambda s, t, v: s[(v + t) % 256]),
    "chain's ⊕ after S": _f(chain=lambda s, t, v: s[v] ^ t),
    "chain's ⊕ before the round key's sum": {"f": _key_after},
    "chain begun with the last T of the round before": _carrying(),
    "S looked up at the next index": _f(table=[S[(i + 1) % 256] for i in range(256)]),
    "S looked up at the index before": _f(table=[S[i - 1] for i in range(256)]),
    "S's inverse for S": _f(table=INVERSE),
    "S's rows taken for columns": _f(table=[S[i % 16 * 16 + i // 16] for i in range(256)]),
    "S left out": _f(table=range(256)),
    "high nibbles of T4 to T11": _f(bits=lambda c: RIGHT.choose_bits([t >> 4 for t in c])),
    "T0 to T7 for T4 to T11": _f(chosen=slice(0, 8)),
    "T1 to T8 for T4 to T11": _f(chosen=slice(1, 9)),
    "T2 to T9 for T4 to T11": _f(chosen=slice(2, 10)),
    "T3 to T10 for T4 to T11": _f(chosen=slice(3, 11)),
    "T11 to T4 for T4 to T11": _f(bits=lambda c: RIGHT.choose_bits(c[::-1])),
    "T7 to T0 for T4 to T11": _f(chosen=slice(0, 8), bits=lambda c: RIGHT.choose_bits(c[::-1])),
    "nibbles' bits counted from the left": _f(
        bits=lambda c: _packed([_REVERSED_NIBBLE[t & 15] for t in c])
    ),
    "no transposition of the bits": _f(bits=_packed),
    "no transposition of the bits, T4 leftmost": _f(bits=lambda c: _packed(c[::-1])),
    "no transposition of the bits, nibbles of each byte exchanged": _f(
        bits=lambda c: _packed([c[1], c[0], c[3], c[2], c[5], c[4], c[7], c[6]])
    ),
    "no transposition of the bits, bytes in the other order": _f(bits=lambda c: _packed(c)[::-1]),
    "transposition of the bits in the other direction": _f(bits=_back),
    "whole T8 to T11 for f's result": _f(bits=_whole_ts),
    "rotation to the right": _turning(lambda q, n: q[-n:] + q[:-n]),
    "rotation by bits, not by bytes": _turning(_bits_left),
    "rotation by bits, to the right": _turning(lambda q, n: _bits_left(q, -n)),
    "rotation by nibbles, not by bytes": _turning(lambda q, n: _bits_left(q, 4 * n)),
    "rotation always by 5": _by([5] * 16),
    "rotations of 3 and 7 exchanged": _by([5] * 4 + [7, 3] + [5] * 4 + [3, 7] + [5] * 4),
    "rotation by a(i), not by a(i-1)": _by([*SCHEDULE_A[1:], 5]),
    "no rotation": _by([0] * 16),
    "rotation after D's ⊕": _next(lambda w, q, n: w.turn(xor(q, SCHEDULE_D), n)),
    "D left out": _constant(bytes(16)),
    "D added, not ⊕": _next(lambda w, q, n: _sum(w.turn(q, n), SCHEDULE_D)),
    "D added as a number of 128 bits": _next(lambda w, q, n: _number_sum(w.turn(q, n), SCHEDULE_D)),
    "D's bytes in the other order": _constant(SCHEDULE_D[::-1]),
    "D's ⊕ in Q1, too": _under(lambda key: xor(key, SCHEDULE_D)),
    "D's ⊕ in the round keys alone, not in the registers": {"registers": _d_outside},
    "each Q made of the key, not of the Q before it": {"registers": _from_key},
    "D without its 1e, a zero byte in front": _constant(b"\0" + _D15),
    "D without its 1e, a zero byte at the end": _constant(_D15 + b"\0"),
    **{f"D's 1e read as {b:02x}": _le(b) for b in (0, 0x10, 0x0E, 0xE1, 0x1F, 0x01, 0x11, 0x1C)},
    **{f"D's 1e read as {b:02x}": _le(b) for b in (0x16, 0x7E, 0xFE, 0x4E, 0xCE)},
    "bytes 15 to 4 of the register for the round key": WINDOW,
    "bytes 14 to 3 of the register for the round key": _window(1),
    "bytes 13 to 2 of the register for the round key": _window(2),
    "bytes 12 to 1 of the register for the round key": _window(3),
    "key's bytes in the other order": _under(lambda key: key[::-1]),
    "key's halves exchanged": _under(lambda key: key[8:] + key[:8]),
    "bytes of f's input numbered from the left": _f(x_from_left=True),
    "bytes of f's output numbered from the left": _f(y_from_left=True),
    "bytes of the round key numbered from the left": _f(k_from_left=True),
    "bytes of f's input and f's output numbered from the left": _f(
        x_from_left=True, y_from_left=True
    ),
    "bytes of f's input and the round key numbered from the left": _f(
        x_from_left=True, k_from_left=True
    ),
    "bytes of f's input, f's output and the round key numbered from the left": _f(
        x_from_left=True, y_from_left=True, k_from_left=True
    ),
    "bytes of the round key and the register numbered from the left": {
        **_f(k_from_left=True), **WINDOW
    },
    "bytes of f's input, f's output, the round key and the register numbered from the left": {
        **_f(x_from_left=True, y_from_left=True, k_from_left=True), **WINDOW
    },
    "bytes in f and in the register numbered from the left, D's too": {
        **_f(x_from_left=True, y_from_left=True, k_from_left=True),
        **WINDOW, **_constant(SCHEDULE_D[::-1]),
    },
    "bytes in f and in the register numbered from the left, D's too, rotation to the right": {
        **_f(x_from_left=True, y_from_left=True, k_from_left=True),
        **WINDOW, **_constant(SCHEDULE_D[::-1]), **_turning(lambda q, n: q[-n:] + q[:-n]),
    },
    "bytes of the block numbered from the left": _block_mirrored(),
    "all bytes numbered from the left": _mirrored(SCHEDULE_D, False),
    "all bytes numbered from the left, D as it is printed": _mirrored(SCHEDULE_D[::-1], False),
    "all bytes numbered from the left, registers rotated to the left all the same": _mirrored(
        SCHEDULE_D, True
    ),
    "all bytes numbered from the left, registers rotated to the left all the same, D as it is printed": (
        _mirrored(SCHEDULE_D[::-1], True)
    ),
    "bytes in f and in the register numbered from the left, rotation to the right": {
        **_f(x_from_left=True, y_from_left=True, k_from_left=True),
        **WINDOW, **_turning(lambda q, n: q[-n:] + q[:-n]),
    },
    "bytes of f's input and the register numbered from the left": {**_f(x_from_left=True), **WINDOW},
    "bytes of f's output and the register numbered from the left": {**_f(y_from_left=True), **WINDOW},
    "bytes of f's output and the round key numbered from the left": _f(
        y_from_left=True, k_from_left=True
    ),
    "bytes of f's input, f's output and the register numbered from the left": {
        **_f(x_from_left=True, y_from_left=True), **WINDOW
    },
    "bytes of f's input, the round key and the register numbered from the left": {
        **_f(x_from_left=True, k_from_left=True), **WINDOW
    },
    "bytes of f's output, the round key and the register numbered from the left": {
        **_f(y_from_left=True, k_from_left=True), **WINDOW
    },
    "other twelve bytes of the register: the last four and the first eight": {
        "round_keys": lambda w, key: [(q + q)[12:24] for q in w.registers(key)[:16]]
    },
    "fourteen rounds": _kept(*range(1, 15)),
    "twelve rounds": _kept(*range(1, 13)),
    "thirty-two rounds, Q1 to Q16 twice": _kept(*range(1, 17), *range(1, 17)),
    "sums of E and the round key held at 255": _f(join=lambda e, k, j: _held((e, k))[0]),
    "sums of E and the round key modulo 255": _f(join=lambda e, k, j: (e + k) % 255),
    "T0's byte of the round key joined by ⊕": _f(
        join=lambda e, k, j: (e + k) % 256 if j else e ^ k
    ),
    "round key joined by ⊕, and the chain by sums": _f(
        join=lambda e, k, j: e ^ k, chain=lambda s, t, v: s[(v + t) % 256]
    ),
    "chain's sum after S": _f(chain=lambda s, t, v: (s[v] + t) % 256),
    "chain's ⊕ with the round key, before E's sum": _stepwise(lambda e, k, t: S[(e + (k ^ t)) % 256]),
    "round key added after S": _stepwise(lambda e, k, t: (S[e ^ t] + k) % 256),
    "T0 without S": _of_sums(_without_first_s),
    "chained with the sum before, not with its T": _of_sums(
        lambda v: [S[v[0]], *(S[v[j] ^ v[j - 1]] for j in range(1, 12))]
    ),
    "chained with S of the sum before, not with its T": _of_sums(
        lambda v: [S[v[0]], *(S[v[j] ^ S[v[j - 1]]] for j in range(1, 12))]
    ),
    "chain begun anew at T4 and T8": _of_sums(_anew),
    "T11 to T4 for T4 to T11, bytes of f's output numbered from the left": _f(
        bits=lambda c: RIGHT.choose_bits(c[::-1])[::-1]
    ),
    "bits of T counted from the left": _f(
        bits=lambda c: RIGHT.choose_bits([_mirror_byte(t) for t in c])
    ),
    "bits of T and of f's output counted from the left": _f(
        bits=lambda c: RIGHT.choose_bits([_mirror_byte(t) for t in c[::-1]])
    ),
    "whole T4 to T7 for f's result": _f(chosen=slice(4, 8), bits=_whole_ts),
    "whole T0 to T3 for f's result": _f(chosen=slice(0, 4), bits=_whole_ts),
    "rotation by a(i-2), not by a(i-1)": _by([SCHEDULE_A[n - 1] for n in range(16)]),
    "registers shifted, zeros from the right": _turning(lambda q, n: (q + bytes(n))[n:]),
    "each byte rotated by bits, not the register": _turning(
        lambda q, n: bytes(int((f"{byte:08b}" * 2)[n : n + 8], 2) for byte in q)
    ),
    "key's bytes in the other order in each word of four": _under(lambda key: _words(key, 4)),
    "key's bytes in the other order in each word of eight": _under(lambda key: _words(key, 8)),
    "D's bytes in the other order in each word of four": _constant(_words(SCHEDULE_D, 4)),
    "bytes of the input block numbered from the left": _blocks(True, False),
    "bytes of the output block numbered from the left": _blocks(False, True),
    "bytes of key and block in the other order in each word of four": _in_words(SCHEDULE_D),
    "bytes of key and block in the other order in each word of four, D's too": _in_words(
        _words(SCHEDULE_D, 4)
    ),
}  # fmt: skip

# Round keys of decryption, which nothing but opening takes.
WRONG_BACK: Dict[str, Cipher] = {
    "encryption's round keys for decryption's": {"decrypt": Working.encrypt},
    "decryption's round keys of Q17 to Q2": {
        "decrypt": lambda w, key, block: w.rounds(block, [q[4:] for q in w.registers(key)[:0:-1]])
    },
}


def _s_with(place: int, byte: int) -> List[int]:
    table = list(S)
    table[place] = byte
    return table


# Mistakes that no slip of the desk is: no other name may be given to them.
NAMELESS: Dict[str, Cipher] = {
    "a carry of E + k added at the right": _f(join=lambda e, k, j: (e + k) % 256 + (e + k) // 256),
    "E or k, not their sum": _f(join=lambda e, k, j: e | k),
    "D's ⊕ in every second register": {
        "registers": lambda w, key: [
            q if at % 2 else xor(q, SCHEDULE_D) for at, q in enumerate(Working.registers(w, key))
        ]
    },
    "even bytes of the block for L, odd ones for R": {
        "rounds": lambda w, block, keys: Working.rounds(w, block[::2] + block[1::2], keys)
    },
}


# Digits of the clause's tables that were miscopied.
MISCOPIED: Dict[str, Cipher] = {
    "D15 copied as 3e, not 3c": _constant(b"\x3e" + SCHEDULE_D[1:]),
    "D4 copied as b7, not 1e": _le(0xB7),
    "D1 and D0 exchanged": _constant(SCHEDULE_D[:14] + SCHEDULE_D[:13:-1]),
    "a5 copied as 5, not 3": _by([5] * 5 + list(SCHEDULE_A[5:])),
    "a4 and a5 exchanged": _by([5, 5, 5, 3, 5, *SCHEDULE_A[5:]]),
    "E0 copied as X1, not X0": _f(order=ORDER[:11] + "1"),
    "E11 and E10 exchanged": _f(order="31" + ORDER[2:]),
    "D without its byte 6 (0a), a zero byte in front": _constant(
        b"\0" + SCHEDULE_D.replace(b"\x0a", b"")
    ),
    "D without its byte 15 (3c), a zero byte at the end": _constant(SCHEDULE_D[1:] + b"\0"),
}
MISCOPIED_S: Dict[str, Tuple[int, int]] = {
    "S[48] copied as 1c, not 1e": (0x48, 0x1C),
    "S[9f] copied as ca, not ac": (0x9F, 0xCA),
}
MISCOPIED.update({name: _f(table=_s_with(*at)) for name, at in MISCOPIED_S.items()})


def s_working(place: int, byte: int) -> Working:
    """The working of a candidate whose S has a wrong byte, in the cipher and in P."""
    table = _s_with(place, byte)

    def permute(work: Working, string: bytes) -> bytes:
        a2, a1, a0 = string
        sums = (2 * a2 + 2 * a1 - a0, 2 * a2 + 2 * a0 - a1, 2 * a1 + 2 * a0 - a2)
        return bytes(table[total % 256] for total in sums)

    return working({**_f(table=table), "permute": permute})
