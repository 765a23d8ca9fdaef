# SPDX-License-Identifier: MIT
"""TAA1 worked step by step, from the engine's `encrypt` and `decrypt`, ⊕ and sums.

Each step is a method of `Steps` with a name and the clause of 000 that it stands in.
A step can be altered, wherever it occurs: that is what a slip is. Where a trace is
wanted, each step is recorded with the steps that it is made of; else it costs nothing.
tests/desk holds every result against the engine's own call.
"""

from __future__ import annotations

from inspect import signature
from types import MethodType
from typing import Any, Callable, Iterable, Mapping, NamedTuple, Optional

from taa1 import Sitting

from ..asked import KEYS
from ..engine import Engine
from ..records import KINDS, Entry, Ring, whole
from .clauses import STEPS, clause_of

Blocks = tuple[bytes, ...]
Keys = dict[str, Optional[bytes]]  # by the names of KEYS; None: this side does not run
# The table of 5.12.4, which is Table 1 of clause 6 as well.
S = bytes.fromhex(
    "f4650100ba7aa74798dd9dad965daa3d"
    "58c072d8664c3ee08055de902a4b83a0"
    "5139ed6c8a2c56604a1fd0706e338b26"
    "2e6f89485e40c3a4a9cf2250e1150cab"
    "d5f85f3604a64e921e2b883093456716"
    "8c68233861251a8163cbc11341370e97"
    "5bca57244d17c4b9b3ef8d52322fec20"
    "d911d12879dafbe9bb0677dbfcfecd84"
    "1da1541bb0e4cc7c2d273149f5026953"
    "4f44df185c0fbc9b94bddc0ba2c709ac"
    "c69f821c0546c2343c0d3bceb7be089c"
    "6beee587afbff2eb7b0764c5b6ae9a95"
    "35a559129ea3b88e5af762d23aa87d85"
    "f6c87129d6d743f97876731091190a99"
    "f0e63f14f1e2b186b4f374fa6ab2216d"
    "eab5e7e3c9d38f0375e8d442fd7eff7f"
)
S_INVERSE = bytes(S.index(byte) for byte in range(256))
THIRD = 171  # 3 times it is 1 modulo 256
# How many bytes stand in front of each ⊕ byte that an expansion inserts.
PAIRS, EXP3_GROUPS, FOURS, THREES = (2,) * 5, (2, 3, 3, 3), (4,) * 3, (3,) * 4


class Step(NamedTuple):
    """A step that was worked, and the steps that it is made of."""

    method: str
    name: str
    clause: str
    inputs: dict[str, Any]
    output: Any
    steps: tuple[Step, ...]


class Unsealed(NamedTuple):
    """What an unsealing gives: key, number where there is one, a bit for each failed check."""

    key: bytes
    number: Optional[int]
    failed: int


class Opened(NamedTuple):
    """What a sealed record holds."""

    kind: int
    identity: int
    version: int
    key: bytes
    number: Optional[int]
    failed: int


def xor(one: bytes, other: bytes) -> bytes:
    """⊕, over the shorter one's length."""
    return bytes(a ^ b for a, b in zip(one, other))


def xored(data: Iterable[int]) -> int:
    """The ⊕ of some bytes."""
    made = 0
    for byte in data:
        made ^= byte
    return made


def summed(data: Iterable[int]) -> int:
    """The sum of some bytes, modulo 256."""
    return sum(data) & 0xFF


def groups(data: bytes, sizes: Iterable[int]) -> list[bytes]:
    """The data cut into pieces of these sizes."""
    made, at = [], 0
    for size in sizes:
        made.append(data[at : at + size])
        at += size
    return made


def inserted(data: bytes, sizes: Iterable[int]) -> bytes:
    """Behind each group its ⊕."""
    return b"".join(group + bytes([xored(group)]) for group in groups(data, sizes))


def ring_of(keys: Keys) -> Ring:
    """The ring among the keys."""
    return Ring(*(keys[name] or b"" for name in ("D", "O", "C", "G")))


class Steps:
    """The working, with any step altered.

    An alteration has the method's name and takes the steps and the method's inputs.
    With `trace`, `trace` lists the steps worked; else it stays empty.
    """

    def __init__(
        self,
        engine: Engine,
        altered: Optional[Mapping[str, Callable[..., Any]]] = None,
        trace: bool = False,
    ) -> None:
        """Takes the alterations, by the names of STEPS."""
        self.engine = engine
        self.encrypt, self.decrypt = engine.host.encrypt, engine.host.decrypt
        self.algorithm = ""  # in which a step is worked
        self.trace: list[Step] = []
        for name, alteration in (altered or {}).items():
            setattr(self, name, MethodType(alteration, self))
        if trace:
            for name in STEPS:
                setattr(self, name, self._recorded(name))

    def _recorded(self, name: str) -> Callable[..., Any]:
        """A step's method that also records the step."""
        method = getattr(self, name)
        names = list(signature(method).parameters)

        def run(*inputs: Any) -> Any:
            outer, self.trace = self.trace, []
            output = method(*inputs)
            clause, given = clause_of(name, self.algorithm), dict(zip(names, inputs))
            outer.append(Step(name, STEPS[name][0], clause, given, output, tuple(self.trace)))
            self.trace = outer
            return output

        return run

    # ---- expansions (5.4) and the core (5.2)

    def exp1(self, data: bytes) -> bytes:
        """After each pair its ⊕."""
        return inserted(data, PAIRS)

    def exp2(self, data: bytes) -> bytes:
        """EXP1, then the last byte."""
        expanded = self.exp1(data)
        return expanded + bytes([self.last_byte([xored(pair) for pair in groups(data, PAIRS)])])

    def last_byte(self, inserted_bytes: list[int]) -> int:
        """The sum of EXP1's five ⊕ bytes."""
        return summed(inserted_bytes)

    def exp3(self, data: bytes) -> bytes:
        """After each group of two or three its ⊕."""
        return inserted(data, EXP3_GROUPS)

    def exp4(self, data: bytes) -> bytes:
        """Before each pair its sum, and leftmost the ⊕ of the sums."""
        pairs = groups(data, PAIRS)
        sums = [summed(pair) for pair in pairs]
        return bytes([xored(sums)]) + b"".join(bytes([s]) + pair for s, pair in zip(sums, pairs))

    def x16(self, data: bytes) -> bytes:
        """After each four their ⊕, then a zero byte."""
        return inserted(data, FOURS) + b"\0"

    def bl1(self, key: bytes, data: bytes) -> bytes:
        """Two blocks, chained."""
        left = self.left_block(key, data[:8])
        return left + self.right_block(key, self.chained(data[8:], left, data[:8]))

    def left_block(self, key: bytes, block: bytes) -> bytes:
        """The left block, encrypted."""
        return self.encrypt(key, block)

    def chained(self, right: bytes, left_output: bytes, left_input: bytes) -> bytes:
        """The right block ⊕ the left output."""
        return xor(right, left_output)

    def right_block(self, key: bytes, block: bytes) -> bytes:
        """The right block, encrypted."""
        return self.encrypt(key, block)

    # ---- the first generations (5.6, 5.7, 5.22, 5.23)

    def ta11(self, root: bytes, seed: bytes) -> bytes:
        """Session key 1."""
        self.algorithm = "TA11"
        return self.bl1(root, self.exp2(seed))

    def ta21(self, root: bytes, seed: bytes) -> bytes:
        """Session key 2: the seed is reversed first."""
        self.algorithm = "TA21"
        return self.bl1(root, self.exp2(self.reversed_seed(seed)))

    def ta41(self, root: bytes, seed: bytes) -> bytes:
        """The key that seals kinds 2 to 4."""
        self.algorithm = "TA41"
        return self.bl1(root, self.exp2(seed))

    def reversed_seed(self, seed: bytes) -> bytes:
        """The seed's bytes in the other order."""
        return seed[::-1]

    def ta12(
        self, session_key: bytes, challenge: bytes, response_mask: int, key_mask: int
    ) -> tuple[bytes, bytes]:
        """Response and key."""
        self.algorithm = "TA12"
        return self.split(self.bl1(session_key, self.exp2(challenge)), response_mask, key_mask)

    def ta22(
        self, session_key: bytes, challenge: bytes, response_mask: int, key_mask: int
    ) -> tuple[bytes, bytes]:
        """Response and key, the other side."""
        self.algorithm = "TA22"
        return self.split(self.bl1(session_key, self.exp2(challenge)), response_mask, key_mask)

    def split(self, output: bytes, response_mask: int, key_mask: int) -> tuple[bytes, bytes]:
        """Response and key, each by its mask."""
        return self.chosen(output, response_mask), self.chosen(output, key_mask)

    def chosen(self, output: bytes, mask: int) -> bytes:
        """The bytes whose bits are set; byte 0 is rightmost, higher bytes come first."""
        return bytes(byte for i, byte in enumerate(output) if mask >> (15 - i) & 1)

    def tb4(self, key1: bytes, key2: bytes) -> bytes:
        """The ⊕ of two keys."""
        return xor(key1, key2)

    def tb7(self, group_key: bytes) -> bytes:
        """After each three their ⊕."""
        return inserted(group_key, THREES)

    def inputs(self, sitting: Sitting) -> Sitting:
        """What the recipe takes from the sitting."""
        return sitting

    def ring(self, sitting: Sitting, d: bytes, o: bytes, c: bytes, g: bytes) -> Ring:
        """The keys that seal, and C."""
        return Ring(d, o, c, g)

    def keys(self, sitting: Sitting, own: Optional[Mapping[str, bytes]] = None) -> Keys:
        """The recipe: every key of the first two generations, and the ring. Where a
        candidate's own values are given, each is worked from those before it."""
        s, own = self.inputs(sitting), own or {}
        masks = (s.response_mask, s.key_mask)
        session1 = session2 = None
        response1 = response2 = bytes(4)
        key1 = key2 = bytes(10)
        if s.sides & 1:
            session1 = self.ta11(s.root, s.rs)
            response1, key1 = self.ta12(own.get("session key 1", session1), s.rand1, *masks)
        if s.sides & 2:
            session2 = self.ta21(s.root, s.rs)
            response2, key2 = self.ta22(own.get("session key 2", session2), s.rand2, *masks)
        d = self.tb4(own.get("key 1", key1), own.get("key 2", key2))
        ring = self.ring(s, d, self.ta41(s.root, s.rso), s.c, self.tb7(s.group_key))
        values = (session1, session2, response1, key1, response2, key2, *ring)
        return self.listed(dict(zip(KEYS, values)))

    def listed(self, keys: Keys) -> Keys:
        """What is written down of the keys."""
        return keys

    # ---- sealing (5.8, 5.10, 5.14, 5.16)

    def ta31(self, cipher_key: bytes, version: int, sealing_key: bytes) -> bytes:
        """Kind 1."""
        self.algorithm = "TA31"
        data = self.zero_behind(self.exp1(cipher_key))
        return self.dropped(self.bl1(self.short_key(sealing_key, version), data))

    def ta51(self, cipher_key: bytes, version: int, sealing_key: bytes, number: int) -> bytes:
        """Kinds 2 and 5."""
        self.algorithm = "TA51"
        data = self.joined(cipher_key, self.number_byte(number))
        return self._sealed(self.zero_behind(self.exp3(data)), version, sealing_key)

    def ta81(self, cipher_key: bytes, version: int, sealing_key: bytes, number: int) -> bytes:
        """Kinds 3 and 6."""
        self.algorithm = "TA81"
        return self._sealed(
            self.x16(self.joined(cipher_key, number.to_bytes(2, "big"))), version, sealing_key
        )

    def ta91(self, group_key: bytes, version: int, sealing_key: bytes) -> bytes:
        """Kind 4."""
        self.algorithm = "TA91"
        return self._sealed(self.x16(group_key), version, sealing_key)

    def _sealed(self, data: bytes, version: int, sealing_key: bytes) -> bytes:
        return self.dropped(self.bl1(self.long_key(sealing_key, version), data))

    def short_key(self, sealing_key: bytes, version: int) -> bytes:
        """The core's key from a sealing key of ten bytes."""
        return self.exp4(self.core_key(sealing_key, self.repeated(version, 5)))

    def long_key(self, sealing_key: bytes, version: int) -> bytes:
        """The core's key from a sealing key of sixteen bytes."""
        return self.core_key(sealing_key, self.repeated(version, 8))

    def number_byte(self, number: int) -> bytes:
        """Three zero bits, then the number's five."""
        return bytes([number])

    def joined(self, cipher_key: bytes, number: bytes) -> bytes:
        """The key, then the number."""
        return cipher_key + number

    def zero_behind(self, data: bytes) -> bytes:
        """A zero byte at the right."""
        return data + b"\0"

    def repeated(self, version: int, copies: int) -> bytes:
        """So many copies of the version, the high byte first."""
        return version.to_bytes(2, "big") * copies

    def core_key(self, sealing_key: bytes, repeated: bytes) -> bytes:
        """The sealing key ⊕ the repeated version."""
        return xor(sealing_key, repeated)

    def dropped(self, output: bytes) -> bytes:
        """BL1's output without byte 8, which has index 7 from the left."""
        return output[:7] + output[8:]

    def entry(self, entry: Entry) -> Entry:
        """What sealing takes from the plain record."""
        return entry

    def sealed_as(self, entry: Entry) -> Entry:
        """Of those, what the text seals."""
        return entry

    def sealing_key(self, ring: Ring, kind: int) -> bytes:
        """D for kind 1, O for kinds 2 to 4, G for kinds 5 and 6."""
        key: bytes = getattr(ring, KINDS[kind].sealing_key)
        return key

    def text(self, entry: Entry, ring: Ring) -> bytes:
        """An entry's sealed text."""
        kind = KINDS[entry.kind]
        inputs: tuple[Any, ...] = (entry.key, entry.version, self.sealing_key(ring, entry.kind))
        if kind.number:
            inputs += (entry.number,)
        made: bytes = getattr(self, kind.seal)(*inputs)
        return made

    def record(self, entry: Entry, identity: bytes, text: bytes) -> bytes:
        """Kind, encrypted identity, version, sealed text."""
        return bytes([entry.kind]) + identity + entry.version.to_bytes(2, "big") + text

    def sealed(self, entry: Entry, ring: Ring, strings: Blocks) -> bytes:
        """An entry's sealed record; the strings are C's."""
        taken = self.entry(entry)
        text = self.text(self.sealed_as(taken), ring)
        return self.record(taken, self.encrypted(strings, taken.identity.to_bytes(3, "big")), text)

    # ---- identities (5.12)

    def k_strings(self, common_key: bytes) -> Blocks:
        """K1, K2 and K3."""
        self.algorithm = "TA61"
        return self.strings(self.bc(self.exp4(common_key), self.shrunk_key(common_key)))

    def shrunk_key(self, common_key: bytes) -> bytes:
        """Each byte ⊕ the one two places to its right."""
        return xor(common_key[:8], common_key[2:])

    def bc(self, key: bytes, block: bytes) -> bytes:
        """One block, encrypted."""
        return self.encrypt(key, block)

    def strings(self, output: bytes) -> Blocks:
        """B7 B4 B1, B6 B3 B0 and B5 B2 B7."""
        return tuple(bytes(output[7 - i] for i in of) for of in ((7, 4, 1), (6, 3, 0), (5, 2, 7)))

    def mixed(self, identity: bytes, string: bytes) -> bytes:
        """The identity ⊕ a K-string."""
        return xor(identity, string)

    def p(self, a: bytes) -> bytes:
        """The permutation of three bytes."""
        return bytes(S[(2 * sum(a) - 3 * a[place]) & 0xFF] for place in (2, 1, 0))

    def p_inverse(self, b: bytes) -> bytes:
        """P undone: the three sums, taken together, are 3 (a2 + a1 + a0)."""
        sums = [S_INVERSE[byte] for byte in b]
        total = sum(sums) * THIRD
        return bytes((2 * total - sums[place]) * THIRD & 0xFF for place in (2, 1, 0))

    def encrypted(self, strings: Blocks, identity: bytes) -> bytes:
        """An identity: ⊕, P, ⊕, P, ⊕."""
        one, two, three = strings
        return self.mixed(self.p(self.mixed(self.p(self.mixed(identity, one)), two)), three)

    def decrypted(self, strings: Blocks, identity: bytes) -> bytes:
        """The same back: ⊕, P undone, ⊕, P undone, ⊕."""
        one, two, three = strings
        back = self.p_inverse(self.mixed(identity, three))
        return self.mixed(self.p_inverse(self.mixed(back, two)), one)

    def ta61(self, common_key: bytes, identity: int) -> int:
        """An identity, encrypted."""
        return whole(self.encrypted(self.k_strings(common_key), identity.to_bytes(3, "big")))

    def ta61_inverse(self, common_key: bytes, identity: int) -> int:
        """The identity that TA61 encrypted."""
        return whole(self.decrypted(self.k_strings(common_key), identity.to_bytes(3, "big")))

    # ---- unsealing (5.3, 5.9, 5.11, 5.15, 5.17)

    def bl2(self, key: bytes, data: bytes) -> bytes:
        """Two blocks back: 15 bytes."""
        left = data[:8]
        right = self.right_back(key, data[8:])
        return self.left_back(key, self.left_mended(left, right)) + self.unchained(right, left)

    def right_back(self, key: bytes, block: bytes) -> bytes:
        """The right block, decrypted."""
        return self.decrypt(key, block)

    def left_mended(self, left: bytes, right: bytes) -> bytes:
        """The left block with its last byte ⊕ the decrypted right block's."""
        return left[:7] + xor(left[7:], right[7:])

    def left_back(self, key: bytes, block: bytes) -> bytes:
        """The left block, decrypted."""
        return self.decrypt(key, block)

    def unchained(self, right: bytes, left: bytes) -> bytes:
        """The decrypted right block's first seven bytes ⊕ the left block's."""
        return xor(right[:7], left[:7])

    def zero_back(self, text: bytes) -> bytes:
        """A zero byte in the place of byte 8."""
        return text[:7] + b"\0" + text[7:]

    def shrunk(self, data: bytes, sizes: tuple[int, ...]) -> bytes:
        """The groups without the bytes inserted after them."""
        return b"".join(group[:-1] for group in groups(data, [size + 1 for size in sizes]))

    def failed(self, data: bytes, sizes: tuple[int, ...]) -> int:
        """A bit for each inserted byte, bit 0 leftmost, set where it is not its group's ⊕."""
        cut = groups(data, [size + 1 for size in sizes])
        return sum(1 << i for i, group in enumerate(cut) if xored(group))

    def failed_bits(self, number: int) -> int:
        """Whether one of the number byte's three highest bits is set."""
        return int(number > 31)

    def five_bits(self, number: int) -> int:
        """The number byte's five low bits."""
        return number & 31

    def ta32(self, text: bytes, sealing_key: bytes, version: int) -> Unsealed:
        """Kind 1."""
        self.algorithm = "TA32"
        block = self.zero_back(text)
        data = self.bl2(self.short_key(sealing_key, version), block)
        return Unsealed(self.shrunk(data, PAIRS), None, self.failed(data, PAIRS))

    def ta52(self, text: bytes, sealing_key: bytes, version: int) -> Unsealed:
        """Kinds 2 and 5."""
        self.algorithm = "TA52"
        data = self._unsealed(text, sealing_key, version)
        body = self.shrunk(data, EXP3_GROUPS)
        failed = self.failed(data, EXP3_GROUPS) | self.failed_bits(body[10]) << 4
        return Unsealed(body[:10], self.five_bits(body[10]), failed)

    def ta82(self, text: bytes, sealing_key: bytes, version: int) -> Unsealed:
        """Kinds 3 and 6."""
        self.algorithm = "TA82"
        data = self._unsealed(text, sealing_key, version)
        body = self.shrunk(data, FOURS)
        return Unsealed(body[:10], whole(body[10:]), self.failed(data, FOURS))

    def ta92(self, text: bytes, sealing_key: bytes, version: int) -> Unsealed:
        """Kind 4."""
        self.algorithm = "TA92"
        data = self._unsealed(text, sealing_key, version)
        return Unsealed(self.shrunk(data, FOURS), None, self.failed(data, FOURS))

    def _unsealed(self, text: bytes, sealing_key: bytes, version: int) -> bytes:
        block = self.zero_back(text)
        return self.bl2(self.long_key(sealing_key, version), block)

    def fields(self, record: bytes) -> tuple[int, bytes, int, bytes]:
        """What opening takes from the sealed record: kind, identity, version, text."""
        return record[0], record[1:4], whole(record[4:6]), record[6:]

    def opened(self, record: bytes, ring: Ring, strings: Blocks) -> Opened:
        """A sealed record of a kind that there is, opened; the strings are C's."""
        number, identity, version, text = self.fields(record)
        sealing_key = self.sealing_key(ring, number)
        unsealed = getattr(self, KINDS[number].unseal)(text, sealing_key, version)
        plain = whole(self.decrypted(strings, identity))
        return self.written(Opened(number, plain, version, *unsealed))

    def written(self, opened: Opened) -> Opened:
        """What is written down of an opened record."""
        return opened
