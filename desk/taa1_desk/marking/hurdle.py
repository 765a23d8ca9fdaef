# SPDX-License-Identifier: MIT
"""HURDLE-II step by step, in the words of 01: halves, E, the chain T0 to T11, bits to
bytes, and the registers Q1 to Q17.

Each step is a method of `Hurdle` with a name and its clause of 000, and any can be
altered, which makes a wrong cipher of it (`cipher_slips`). Unaltered it is held against the
engine's `encrypt` and `decrypt`, by a test on many inputs and by `agrees` before each
marking. Nothing that is marked right, and no point, rests on it.

A byte string is written leftmost byte first, so that byte 0 is the last one.
"""

from __future__ import annotations

from operator import itemgetter
from types import MethodType
from typing import Any, Callable, Iterable, Mapping, NamedTuple, Optional, Protocol, Sequence

from .working import S

Alteration = Callable[..., Any]
Words = Sequence[int]  # bytes as numbers, by the number of each: byte 0 first

ROUNDS = 16
# D15 to D0; 000 prints "le" for its 1e.
D = bytes.fromhex("3ca7ec257957dfc0380a331ef38cf4f7")
A = (5, 5, 5, 5, 3, 7, 5, 5, 5, 5, 7, 3, 5, 5, 5, 5)  # a1 to a16
E = (0, 1, 2, 3, 0, 2, 1, 3, 2, 0, 3, 1)  # which X stands in E0 to E11
FIRST_T = 4  # T4 to T11 give bits
NIBBLE = 0x0F

# The steps by their methods: the name, and the clause of 000.
HURDLE_STEPS: dict[str, tuple[str, str]] = {
    "halves": ("halves", "6.2"),
    "round": ("round", "6.2"),
    "joined": ("L ⊕ f", "6.2"),
    "output": ("halves exchanged", "6.2"),
    "rounds_run": ("sixteen rounds", "6.2"),
    "in_reverse": ("round keys in reverse order", "6.3"),
    "in_order": ("round keys in their order", "6.2"),
    "f": ("f", "6.4"),
    "expanded": ("E", "6.4.1"),
    "added": ("E + round key", "6.4.2"),
    "chained": ("chain of T", "6.4.2"),
    "table": ("S", "6.4.2"),
    "nibbles": ("nibbles of T", "6.4.3"),
    "transposed": ("bits to bytes", "6.4.4"),
    "first_register": ("Q1", "6.5"),
    "rotated": ("rotation", "6.5"),
    "mixed": ("⊕ D", "6.5"),
    "next_register": ("next Q", "6.5"),
    "registers": ("Q1 to Q17", "6.5"),
    "round_key": ("round key", "6.5"),
}


def xor(one: bytes, other: bytes) -> bytes:
    """⊕ of two strings of one length."""
    size = len(one)
    made = int.from_bytes(one, "big") ^ int.from_bytes(other, "big")
    return made.to_bytes(size, "big")


# For T's place m among the eight, by its nibble: bit n of it at bit m of byte n.
SPREAD = [
    [sum((nibble >> n & 1) << (8 * n + m) for n in range(4)) for nibble in range(16)]
    for m in range(8)
]
_chosen: Callable[[bytes], tuple[int, ...]] = itemgetter(*(3 - number for number in E))


# The same by T's whole byte, for `at_once`.
_BY_BYTE = [[spread[t & NIBBLE] for t in range(256)] for spread in SPREAD]
_IN_F = {"f", "expanded", "added", "table", "chained", "nibbles", "transposed"}


def at_once(x: bytes, k: bytes) -> bytes:
    """f without its steps, which takes half the time: a test holds it against them."""
    s = S
    x3, x2, x1, x0 = x
    k11, k10, k9, k8, k7, k6, k5, k4, k3, k2, k1, k0 = k
    t = s[(x3 + k3) & 255 ^ s[(x2 + k2) & 255 ^ s[(x1 + k1) & 255 ^ s[(x0 + k0) & 255]]]]
    y0, y1, y2, y3, y4, y5, y6, y7 = _BY_BYTE
    t = s[(x0 + k4) & 255 ^ t]
    made = y0[t]
    t = s[(x2 + k5) & 255 ^ t]
    made |= y1[t]
    t = s[(x1 + k6) & 255 ^ t]
    made |= y2[t]
    t = s[(x3 + k7) & 255 ^ t]
    made |= y3[t]
    t = s[(x2 + k8) & 255 ^ t]
    made |= y4[t]
    t = s[(x0 + k9) & 255 ^ t]
    made |= y5[t]
    t = s[(x3 + k10) & 255 ^ t]
    made |= y6[t]
    t = s[(x1 + k11) & 255 ^ t]
    return (made | y7[t]).to_bytes(4, "big")


class Round(NamedTuple):
    """A round: what went in, what f made of it, and what came out."""

    number: int
    register: bytes  # whose bytes 11 to 0 are the round key
    round_key: bytes
    left: bytes
    right: bytes
    expanded: Words  # E0 to E11
    sums: Words  # E + k, likewise
    chain: Words  # T0 to T11
    result: bytes  # f's
    new_left: bytes
    new_right: bytes


class Hurdle:
    """The cipher, with any step altered.

    An alteration has the method's name, and takes the cipher and the method's inputs.
    """

    def __init__(self, altered: Optional[Mapping[str, Alteration]] = None) -> None:
        """Takes the alterations, by the names of HURDLE_STEPS."""
        self._keys: dict[bytes, list[bytes]] = {}
        self._f: Callable[[bytes, bytes], bytes] = self._by_steps
        if altered and _IN_F.isdisjoint(altered):
            self._f = at_once
        for name, alteration in (altered or {}).items():
            setattr(self, name, MethodType(alteration, self))

    # ---- the key schedule (6.5)

    def first_register(self, key: bytes) -> bytes:
        """Q1 is the key."""
        return key

    def rotated(self, register: bytes, number: int) -> bytes:
        """Register i - 1 rotated left by a(i-1) bytes: byte j moves to j + a."""
        by = A[number - 2]
        return register[by:] + register[:by]

    def mixed(self, register: bytes) -> bytes:
        """A register ⊕ D."""
        return xor(register, D)

    def next_register(self, register: bytes, number: int) -> bytes:
        """Qi of Qi-1: rotated, then ⊕ D."""
        return self.mixed(self.rotated(register, number))

    def registers(self, key: bytes) -> list[bytes]:
        """Q1 to Q17."""
        made = [self.first_register(key)]
        for number in range(2, ROUNDS + 2):
            made.append(self.next_register(made[-1], number))
        return made

    def round_key(self, register: bytes) -> bytes:
        """Bytes 11 to 0 of a register."""
        return register[4:]

    def rounds_run(self, registers: list[bytes]) -> list[bytes]:
        """The registers of the sixteen rounds."""
        return registers[:ROUNDS]

    def in_order(self, round_keys: list[bytes]) -> list[bytes]:
        """Encryption takes the round keys in their order."""
        return round_keys

    def in_reverse(self, round_keys: list[bytes]) -> list[bytes]:
        """Decryption takes them in reverse order."""
        return round_keys[::-1]

    def round_keys(self, key: bytes) -> list[bytes]:
        """The round keys of a key, laid out first."""
        made = self._keys.get(key)
        if made is None:
            made = [self.round_key(each) for each in self.rounds_run(self.registers(key))]
            self._keys.clear()  # two blocks have the same key, seldom more
            self._keys[key] = made
        return made

    # ---- f (6.4)

    def expanded(self, x: bytes) -> Words:
        """E0 to E11 of X3 X2 X1 X0."""
        return _chosen(x)

    def added(self, e: Words, k: bytes) -> Words:
        """Each E + its byte of the round key."""
        return [(one + other) & 0xFF for one, other in zip(e, k[::-1])]

    def table(self) -> Sequence[int]:
        """S."""
        return S

    def chained(self, sums: Words) -> Words:
        """T0 is S of the first sum; each other T is S of its sum ⊕ the T before it."""
        s, t, made = self.table(), 0, []
        for each in sums:
            t = s[each ^ t]
            made.append(t)
        return made

    def nibbles(self, chain: Words) -> Words:
        """The low nibbles of T4 to T11."""
        return [t & NIBBLE for t in chain[FIRST_T:]]

    def transposed(self, nibbles: Words) -> bytes:
        """Bit m of output byte n is bit n of the m-th nibble."""
        made = 0
        for spread, nibble in zip(SPREAD, nibbles):
            made |= spread[nibble]
        return made.to_bytes(4, "big")

    def f(self, x: bytes, k: bytes) -> bytes:
        """f of a half and a round key."""
        return self._f(x, k)

    def _by_steps(self, x: bytes, k: bytes) -> bytes:
        return self.transposed(self.nibbles(self.chained(self.added(self.expanded(x), k))))

    # ---- rounds (6.2, 6.3)

    def halves(self, block: bytes) -> tuple[bytes, bytes]:
        """L, bytes 7 to 4, and R, bytes 3 to 0."""
        return block[:4], block[4:]

    def joined(self, left: bytes, result: bytes) -> bytes:
        """L ⊕ f's result."""
        return xor(left, result)

    def round(self, left: bytes, right: bytes, k: bytes) -> tuple[bytes, bytes]:
        """New L is R, new R is L ⊕ f(R, round key)."""
        return right, self.joined(left, self.f(right, k))

    def output(self, left: bytes, right: bytes) -> bytes:
        """R, then L."""
        return right + left

    def _run(self, block: bytes, round_keys: Iterable[bytes]) -> bytes:
        left, right = self.halves(block)
        for k in round_keys:
            left, right = self.round(left, right, k)
        return self.output(left, right)

    def encrypt(self, key: bytes, block: bytes) -> bytes:
        """A block, encrypted."""
        return self._run(block, self.in_order(self.round_keys(key)))

    def decrypt(self, key: bytes, block: bytes) -> bytes:
        """A block, decrypted."""
        return self._run(block, self.in_reverse(self.round_keys(key)))

    def rounds(self, key: bytes, block: bytes, decrypt: bool = False) -> list[Round]:
        """The rounds of a block, one by one."""
        order = self.in_reverse if decrypt else self.in_order
        registers = order(self.rounds_run(self.registers(key)))
        left, right = self.halves(block)
        made = []
        for number, register in enumerate(registers, 1):
            k = self.round_key(register)
            e = self.expanded(right)
            sums = self.added(e, k)
            chain = self.chained(sums)
            result = self.transposed(self.nibbles(chain))
            new_left, new_right = self.round(left, right, k)
            made.append(
                Round(number, register, k, left, right, e, sums, chain, result, new_left, new_right)
            )
            left, right = new_left, new_right
        return made


class Cipher(Protocol):
    """What the engine has, too."""

    def encrypt(self, key: bytes, block: bytes) -> bytes:
        """A block, encrypted."""
        ...

    def decrypt(self, key: bytes, block: bytes) -> bytes:
        """A block, decrypted."""
        ...


def agrees(engine: Cipher, pairs: Iterable[tuple[bytes, bytes]]) -> bool:
    """Whether the steps give what the engine gives, for keys and blocks."""
    steps = Hurdle()
    return all(
        steps.encrypt(key, block) == engine.encrypt(key, block)
        and steps.decrypt(key, block) == engine.decrypt(key, block)
        for key, block in pairs
    )
