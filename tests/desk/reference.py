"""TAA1 worked from the papers, by other hands than the engine's and the desk's.

The papers are TS 104 053-3 (000 below), document 01, and requests 1, 4 and 6 of document 02.
Nothing here calls the engine or shares code with the desk. Every step is a method of `Working`,
so that a candidate's mistake is a subclass in which one step is altered (planted.py).

A byte string is written leftmost byte first: byte 0 of the papers is the last one.
"""

from __future__ import annotations

from typing import Iterable, List, NamedTuple, Optional, Sequence, Tuple

# 000, Table 1 (and 5.12.4): S[00] to S[ff].
S = bytes.fromhex(
    """
    f4 65 01 00 ba 7a a7 47 98 dd 9d ad 96 5d aa 3d
    58 c0 72 d8 66 4c 3e e0 80 55 de 90 2a 4b 83 a0
    51 39 ed 6c 8a 2c 56 60 4a 1f d0 70 6e 33 8b 26
    2e 6f 89 48 5e 40 c3 a4 a9 cf 22 50 e1 15 0c ab
    d5 f8 5f 36 04 a6 4e 92 1e 2b 88 30 93 45 67 16
    8c 68 23 38 61 25 1a 81 63 cb c1 13 41 37 0e 97
    5b ca 57 24 4d 17 c4 b9 b3 ef 8d 52 32 2f ec 20
    d9 11 d1 28 79 da fb e9 bb 06 77 db fc fe cd 84
    1d a1 54 1b b0 e4 cc 7c 2d 27 31 49 f5 02 69 53
    4f 44 df 18 5c 0f bc 9b 94 bd dc 0b a2 c7 09 ac
    c6 9f 82 1c 05 46 c2 34 3c 0d 3b ce b7 be 08 9c
    6b ee e5 87 af bf f2 eb 7b 07 64 c5 b6 ae 9a 95
    35 a5 59 12 9e a3 b8 8e 5a f7 62 d2 3a a8 7d 85
    f6 c8 71 29 d6 d7 43 f9 78 76 73 10 91 19 0a 99
    f0 e6 3f 14 f1 e2 b1 86 b4 f3 74 fa 6a b2 21 6d
    ea b5 e7 e3 c9 d3 8f 03 75 e8 d4 42 fd 7e ff 7f
    """
)
# 000, 6.5: the constant D15 to D0 (its 1e is printed "le"), and a1 to a16.
SCHEDULE_D = bytes.fromhex("3ca7ec257957dfc0380a331ef38cf4f7")
SCHEDULE_A = (5, 5, 5, 5, 3, 7, 5, 5, 5, 5, 7, 3, 5, 5, 5, 5)
# A nibble's bits, eight places apart: bit n goes to bit 0 of byte n.
SPREAD = [sum((nibble >> n & 1) << 8 * n for n in range(4)) for nibble in range(16)]
# The kinds whose number stands in one byte, and those that take a number at all.
SHORT_NUMBER = (2, 5)
NUMBERED = (2, 3, 5, 6)
ZERO = b"\0"


def xor(left: bytes, right: bytes) -> bytes:
    """⊕ of two strings of one length."""
    if len(left) != len(right):
        raise ValueError(f"⊕ of {len(left)} and {len(right)} bytes")
    return (int.from_bytes(left, "big") ^ int.from_bytes(right, "big")).to_bytes(len(left), "big")


def fold(string: bytes) -> int:
    """⊕ of a string's bytes."""
    result = 0
    for byte in string:
        result ^= byte
    return result


def groups(string: bytes, sizes: Sequence[int]) -> List[bytes]:
    """A string cut from the left into parts of these sizes."""
    parts, start = [], 0
    for size in sizes:
        parts.append(string[start : start + size])
        start += size
    return parts


class Sitting(NamedTuple):
    """What a setter gives: document 01's recipe, with 02's sides and group key."""

    root: bytes
    rs: bytes
    rso: bytes
    rand1: bytes
    rand2: bytes
    c: bytes
    group_key: bytes
    sides: int
    response_mask: int
    key_mask: int


class Ring(NamedTuple):
    """The keys that seal a book (02, 4)."""

    d: bytes
    o: bytes
    c: bytes
    g: bytes


class Keys(NamedTuple):
    """A recipe, worked; of a half that did not run the session key is None, the rest zero."""

    session1: Optional[bytes]
    session2: Optional[bytes]
    response1: bytes
    key1: bytes
    response2: bytes
    key2: bytes
    ring: Ring


class Entry(NamedTuple):
    """A plain record's contents; kinds 1 and 4 have no number."""

    kind: int
    identity: int
    version: int
    key: bytes
    number: Optional[int] = None


class Unsealed(NamedTuple):
    """A text unsealed. `failed` has a bit for each check, bit 0 the leftmost (02, 6)."""

    key: bytes
    number: Optional[int]
    failed: int


class Working:
    """The papers' working, a method a step."""

    # HURDLE-II (000, clause 6)

    def registers(self, key: bytes) -> List[bytes]:
        """Q1 to Q17."""
        made = [key]
        for places in SCHEDULE_A:
            made.append(xor(self.turn(made[-1], places), self.schedule_constant()))
        return made

    def turn(self, register: bytes, places: int) -> bytes:
        """A register, its bytes rotated left."""
        return register[places:] + register[:places]

    def schedule_constant(self) -> bytes:
        """The schedule's D."""
        return SCHEDULE_D

    def round_keys(self, key: bytes) -> List[bytes]:
        """The sixteen round keys."""
        return [register[4:] for register in self.registers(key)[:16]]

    def f(self, half: bytes, round_key: bytes) -> bytes:
        """The round function."""
        x3, x2, x1, x0 = half
        chain, last = [], 0
        for place, byte in enumerate((x0, x1, x2, x3, x0, x2, x1, x3, x2, x0, x3, x1)):
            last = S[(byte + round_key[11 - place]) % 256 ^ last]
            chain.append(last)
        return self.choose_bits(chain[4:])

    def choose_bits(self, chain: Sequence[int]) -> bytes:
        """f's output from T4 to T11: their bits n make up byte n, that of T4 the lowest."""
        output = 0
        for m, byte in enumerate(chain):
            output |= SPREAD[byte & 15] << m
        return output.to_bytes(4, "big")

    def rounds(self, block: bytes, round_keys: Iterable[bytes]) -> bytes:
        """The sixteen rounds and the exchange of the halves after them."""
        left, right = block[:4], block[4:]
        for round_key in round_keys:
            left, right = right, xor(left, self.f(right, round_key))
        return right + left

    def encrypt(self, key: bytes, block: bytes) -> bytes:
        """HURDLE-II of a block."""
        return self.rounds(block, self.round_keys(key))

    def decrypt(self, key: bytes, block: bytes) -> bytes:
        """HURDLE-II with the round keys backwards."""
        return self.rounds(block, reversed(self.round_keys(key)))

    # The cores (000, 5.2, 5.3 and 4.3.2)

    def bl1(self, key: bytes, data: bytes) -> bytes:
        """BL1, 16 bytes to 16."""
        left = self.encrypt(key, data[:8])
        return left + self.encrypt(key, xor(data[8:], left))

    def bl2(self, key: bytes, data: bytes) -> bytes:
        """BL2, 16 bytes to 15."""
        left, right = data[:8], self.decrypt(key, data[8:])
        restored = left[:7] + xor(left[7:], right[7:])
        return self.decrypt(key, restored) + xor(left[:7], right[:7])

    # Expansions (000, 5.4 and Figure 16)

    def exp1(self, data: bytes) -> bytes:
        """10 bytes to 15: each pair, then its ⊕."""
        return b"".join(pair + bytes([fold(pair)]) for pair in groups(data, [2] * 5))

    def exp2(self, data: bytes) -> bytes:
        """10 bytes to 16: EXP1, then the sum of the five ⊕ bytes."""
        return self.exp1(data) + bytes([sum(fold(pair) for pair in groups(data, [2] * 5)) % 256])

    def exp3(self, data: bytes) -> bytes:
        """11 bytes to 15: two bytes and three times three, each part with its ⊕ after it."""
        return b"".join(part + bytes([fold(part)]) for part in groups(data, [2, 3, 3, 3]))

    def exp4(self, data: bytes) -> bytes:
        """10 bytes to 16: each pair after its sum, and the ⊕ of the sums leftmost."""
        pairs = groups(data, [2] * 5)
        sums = bytes(sum(pair) % 256 for pair in pairs)
        return bytes([fold(sums)]) + b"".join(
            bytes([total]) + pair for total, pair in zip(sums, pairs)
        )

    def x16(self, data: bytes) -> bytes:
        """12 bytes to 16: each four with their ⊕ after them, then a zero byte."""
        return b"".join(part + bytes([fold(part)]) for part in groups(data, [4] * 3)) + ZERO

    def tb4(self, left: bytes, right: bytes) -> bytes:
        """⊕ of two keys (5.22)."""
        return xor(left, right)

    def tb7(self, group_key: bytes) -> bytes:
        """12 bytes to 16: each three with their ⊕ after them (the last clause of 5)."""
        return b"".join(part + bytes([fold(part)]) for part in groups(group_key, [3] * 4))

    def tb5(self, key: bytes, location_area: int, carrier: int, colour_code: int) -> bytes:
        """A key ⊕ 14 bits of location area, then carrier (12) and colour code (6) in turn."""
        both = carrier << 6 | colour_code
        cell = location_area << 54 | both << 36 | both << 18 | both
        return xor(key, (cell << 12 | carrier).to_bytes(10, "big"))

    # Session keys, responses and derived keys (000, 5.6 and 5.7)

    def derive(self, key: bytes, data: bytes) -> bytes:
        """What TA11, TA12, TA21, TA22 and TA41 share."""
        return self.bl1(key, self.exp2(data))

    def ta11(self, root: bytes, seed: bytes) -> bytes:
        """The session key for TA12."""
        return self.derive(root, seed)

    def ta21(self, root: bytes, seed: bytes) -> bytes:
        """The session key for TA22: of the seed's bytes reversed."""
        return self.derive(root, seed[::-1])

    def ta41(self, root: bytes, seed: bytes) -> bytes:
        """O."""
        return self.derive(root, seed)

    def choose(self, output: bytes, mask: int) -> bytes:
        """The bytes that a mask chooses: bit i is byte Bi, and the higher ones come first."""
        return bytes(byte for place, byte in enumerate(output) if mask >> (15 - place) & 1)

    def split(self, output: bytes, response_mask: int, key_mask: int) -> Tuple[bytes, bytes]:
        """Response and key of an output."""
        return self.choose(output, response_mask), self.choose(output, key_mask)

    def ta12(
        self, session: bytes, challenge: bytes, response_mask: int, key_mask: int
    ) -> Tuple[bytes, bytes]:
        """Response and key from the first challenge."""
        return self.split(self.derive(session, challenge), response_mask, key_mask)

    def ta22(
        self, session: bytes, challenge: bytes, response_mask: int, key_mask: int
    ) -> Tuple[bytes, bytes]:
        """Response and key from the second challenge, which is not reversed."""
        return self.split(self.derive(session, challenge), response_mask, key_mask)

    def recipe(self, sitting: Sitting) -> Keys:
        """The ring and what leads to it (01, with 02, 1 and 4)."""
        masks = (sitting.response_mask, sitting.key_mask)
        session1 = session2 = None
        response1, key1 = response2, key2 = bytes(4), bytes(10)
        if sitting.sides in (1, 3):
            session1 = self.ta11(sitting.root, sitting.rs)
            response1, key1 = self.ta12(session1, sitting.rand1, *masks)
        if sitting.sides in (2, 3):
            session2 = self.ta21(sitting.root, sitting.rs)
            response2, key2 = self.ta22(session2, sitting.rand2, *masks)
        ring = Ring(
            d=self.tb4(key1, key2),
            o=self.ta41(sitting.root, sitting.rso),
            c=sitting.c,
            g=self.tb7(sitting.group_key),
        )
        return Keys(session1, session2, response1, key1, response2, key2, ring)

    # Sealing (000, 5.8, 5.10, 5.14 and 5.16)

    def version_bytes(self, version: int, length: int) -> bytes:
        """A version's two bytes, written again and again to this length."""
        return version.to_bytes(2, "big") * (length // 2)

    def short_core_key(self, sealing_key: bytes, version: int) -> bytes:
        """Kind 1's key for the core, from D."""
        return self.exp4(xor(self.version_bytes(version, 10), sealing_key))

    def long_core_key(self, sealing_key: bytes, version: int) -> bytes:
        """The other kinds' key for the core, from O or G."""
        return xor(self.version_bytes(version, 16), sealing_key)

    def number_byte(self, number: int) -> int:
        """The byte of a five-bit number: three zero bits stand in front of it."""
        return number

    def drop(self, output: bytes) -> bytes:
        """A sealed text: the core's output without byte 8."""
        return output[:7] + output[8:]

    def seal(self, core_key: bytes, data: bytes) -> bytes:
        """What the four sealing algorithms share."""
        return self.drop(self.bl1(core_key, data))

    def ta31_data(self, key: bytes) -> bytes:
        """Kind 1's input of the core."""
        return self.exp1(key) + ZERO

    def ta51_data(self, key: bytes, number: int) -> bytes:
        """Kind 2's and 5's input of the core."""
        return self.exp3(key + bytes([self.number_byte(number)])) + ZERO

    def ta81_data(self, key: bytes, number: int) -> bytes:
        """Kind 3's and 6's input of the core."""
        return self.x16(key + number.to_bytes(2, "big"))

    def ta91_data(self, group_key: bytes) -> bytes:
        """Kind 4's input of the core."""
        return self.x16(group_key)

    def ta31(self, key: bytes, version: int, sealing_key: bytes) -> bytes:
        """Kind 1's text."""
        return self.seal(self.short_core_key(sealing_key, version), self.ta31_data(key))

    def ta51(self, key: bytes, version: int, sealing_key: bytes, number: int) -> bytes:
        """Kind 2's and 5's text."""
        return self.seal(self.long_core_key(sealing_key, version), self.ta51_data(key, number))

    def ta81(self, key: bytes, version: int, sealing_key: bytes, number: int) -> bytes:
        """Kind 3's and 6's text."""
        return self.seal(self.long_core_key(sealing_key, version), self.ta81_data(key, number))

    def ta91(self, group_key: bytes, version: int, sealing_key: bytes) -> bytes:
        """Kind 4's text."""
        return self.seal(self.long_core_key(sealing_key, version), self.ta91_data(group_key))

    # Unsealing (000, 5.9, 5.11, 5.15 and 5.17)

    def put_back(self, text: bytes) -> bytes:
        """A text with a zero byte for the one that was dropped."""
        return text[:7] + ZERO + text[7:]

    def unseal(self, core_key: bytes, text: bytes) -> bytes:
        """What the four unsealing algorithms share: BL2's 15 bytes."""
        return self.bl2(core_key, self.put_back(text))

    def parts(self, opened: bytes, sizes: Sequence[int]) -> Tuple[bytes, List[bool]]:
        """The bytes before each inserted ⊕ byte, and for each of those whether it is wrong."""
        cut = groups(opened, [size + 1 for size in sizes])
        return b"".join(part[:-1] for part in cut), [fold(part) != 0 for part in cut]

    def number_of(self, byte: int) -> int:
        """The five-bit number of a byte."""
        return byte & 0x1F

    def high_bits_fail(self, byte: int) -> bool:
        """Whether the three bits above a five-bit number are not all zero."""
        return byte >> 5 != 0

    def ta32(self, text: bytes, sealing_key: bytes, version: int) -> Unsealed:
        """Unseals kind 1."""
        opened = self.unseal(self.short_core_key(sealing_key, version), text)
        key, wrong = self.parts(opened, [2] * 5)
        return Unsealed(key, None, bits(wrong))

    def ta52(self, text: bytes, sealing_key: bytes, version: int) -> Unsealed:
        """Unseals kinds 2 and 5."""
        opened = self.unseal(self.long_core_key(sealing_key, version), text)
        both, wrong = self.parts(opened, [2, 3, 3, 3])
        wrong.append(self.high_bits_fail(both[10]))
        return Unsealed(both[:10], self.number_of(both[10]), bits(wrong))

    def ta82(self, text: bytes, sealing_key: bytes, version: int) -> Unsealed:
        """Unseals kinds 3 and 6."""
        both = self.ta92(text, sealing_key, version)
        return Unsealed(both.key[:10], int.from_bytes(both.key[10:], "big"), both.failed)

    def ta92(self, text: bytes, sealing_key: bytes, version: int) -> Unsealed:
        """Unseals kind 4."""
        opened = self.unseal(self.long_core_key(sealing_key, version), text)
        key, wrong = self.parts(opened, [4] * 3)
        return Unsealed(key, None, bits(wrong))

    # Identities (000, 5.12)

    def ta61_strings(self, common_key: bytes) -> Tuple[bytes, bytes, bytes]:
        """K1, K2 and K3."""
        data = xor(common_key[:8], common_key[2:])
        b7, b6, b5, b4, b3, b2, b1, b0 = self.encrypt(self.exp4(common_key), data)
        return bytes([b7, b4, b1]), bytes([b6, b3, b0]), bytes([b5, b2, b7])

    def permute(self, string: bytes) -> bytes:
        """P."""
        a2, a1, a0 = string
        sums = (2 * a2 + 2 * a1 - a0, 2 * a2 + 2 * a0 - a1, 2 * a1 + 2 * a0 - a2)
        return bytes(S[total % 256] for total in sums)

    def permute_back(self, string: bytes) -> bytes:
        """P's inverse: the three sums together are 3(a2 + a1 + a0), and 3 · 171 is 1."""
        u, v, w = (S.index(byte) for byte in string)
        total = 171 * (u + v + w)
        return bytes(171 * (2 * total - one) % 256 for one in (w, v, u))

    def ta61(self, common_key: bytes, identity: int) -> int:
        """An identity, encrypted."""
        k1, k2, k3 = self.ta61_strings(common_key)
        string = self.permute(xor(identity.to_bytes(3, "big"), k1))
        return int.from_bytes(xor(self.permute(xor(string, k2)), k3), "big")

    def ta61_inverse(self, common_key: bytes, identity: int) -> int:
        """An identity, decrypted."""
        k1, k2, k3 = self.ta61_strings(common_key)
        string = self.permute_back(xor(identity.to_bytes(3, "big"), k3))
        return int.from_bytes(xor(self.permute_back(xor(string, k2)), k1), "big")

    # Books (01, Books; 02, 4)

    def sealing_key(self, ring: Ring, kind: int) -> bytes:
        """The ring's key for a kind."""
        return ring.d if kind == 1 else ring.o if kind in (2, 3, 4) else ring.g

    def text(self, ring: Ring, entry: Entry) -> bytes:
        """An entry's sealed text."""
        under = self.sealing_key(ring, entry.kind)
        if entry.kind == 1:
            return self.ta31(entry.key, entry.version, under)
        if entry.kind == 4:
            return self.ta91(entry.key, entry.version, under)
        seal = self.ta51 if entry.kind in SHORT_NUMBER else self.ta81
        return seal(entry.key, entry.version, under, entry.number or 0)

    def encrypted_identity(self, ring: Ring, entry: Entry) -> int:
        """The identity in an entry's sealed record."""
        return self.ta61(ring.c, entry.identity)

    def sealed_record(self, ring: Ring, entry: Entry) -> bytes:
        """An entry's sealed record, 21 bytes."""
        identity = self.encrypted_identity(ring, entry)
        return head(entry.kind, identity, entry.version) + self.text(ring, entry)

    def sealed_book(self, ring: Ring, entries: Iterable[Entry]) -> bytes:
        """The sealed records of a book's entries."""
        return b"".join(self.sealed_record(ring, entry) for entry in entries)

    def open_record(self, ring: Ring, record: bytes) -> Tuple[Entry, int]:
        """A sealed record's entry and its failed checks."""
        kind, text = record[0], record[6:]
        identity = self.ta61_inverse(ring.c, int.from_bytes(record[1:4], "big"))
        version = int.from_bytes(record[4:6], "big")
        unseal = {1: self.ta32, 4: self.ta92}.get(
            kind, self.ta52 if kind in SHORT_NUMBER else self.ta82
        )
        key, number, failed = unseal(text, self.sealing_key(ring, kind), version)
        return Entry(kind, identity, version, key, number), failed


def bits(wrong: Iterable[bool]) -> int:
    """A number with bit i set if check i fails."""
    return sum(1 << place for place, fails in enumerate(wrong) if fails)


def head(kind: int, identity: int, version: int) -> bytes:
    """A record's first six bytes, in a plain and in a sealed book."""
    return bytes([kind]) + identity.to_bytes(3, "big") + version.to_bytes(2, "big")


def plain_record(entry: Entry) -> bytes:
    """An entry's plain record, 18 bytes: the number stands at the right, zeros in front of it."""
    body = entry.key + (entry.number or 0).to_bytes(12 - len(entry.key), "big")
    return head(entry.kind, entry.identity, entry.version) + body


def plain_book(entries: Iterable[Entry]) -> bytes:
    """The plain records of a book's entries."""
    return b"".join(plain_record(entry) for entry in entries)


def records(book: bytes, size: int) -> List[bytes]:
    """A book's records of this size."""
    return groups(book, [size] * (len(book) // size))
