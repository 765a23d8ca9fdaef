"""Candidates' mistakes: steps of the reference working, altered as a candidate would err.

A slip alters one step wherever it occurs (a few alter the like step of several kinds). Its name
is for tests; its words are a custodian's. `altered` is the working of a candidate who makes one
slip or more.
"""

from __future__ import annotations

from functools import lru_cache
from itertools import permutations
from typing import Any, Callable, Dict, List, NamedTuple, Sequence, Tuple, cast

from reference import (
    S,
    SCHEDULE_A,
    SCHEDULE_D,
    SHORT_NUMBER,
    ZERO,
    Entry,
    Working,
    fold,
    groups,
    xor,
)

Step = Callable[..., Any]
PAIRS = (2,) * 5
EXP3 = (2, 3, 3, 3)
FOURS = (4,) * 3
THREES = (3,) * 4


class Slip(NamedTuple):
    """A mistake: its name, its words, and the steps that are altered."""

    name: str
    mistake: str
    steps: Dict[str, Step]


# HURDLE-II's own steps.
CIPHER = {"registers", "turn", "schedule_constant", "round_keys", "f", "choose_bits", "rounds"}


@lru_cache(maxsize=None)
def _worked(decrypting: bool, key: bytes, block: bytes) -> bytes:
    """A block; very many candidates have the same ones to work."""
    work = Working()
    return work.decrypt(key, block) if decrypting else work.encrypt(key, block)


class Remembering(Working):
    """The right working, in which no block is worked twice."""

    def encrypt(self, key: bytes, block: bytes) -> bytes:
        """As in the reference."""
        return _worked(False, key, block)

    def decrypt(self, key: bytes, block: bytes) -> bytes:
        """As in the reference."""
        return _worked(True, key, block)


def altered(*slips: Slip) -> Working:
    """The working of a candidate who makes these slips, each in steps of its own."""
    steps: Dict[str, Step] = {}
    for slip in slips:
        if steps.keys() & slip.steps.keys():
            raise ValueError(f"{slip.name} alters a step that is altered already")
        steps.update(slip.steps)
    base = Working if steps.keys() & CIPHER else Remembering
    return cast(Working, type("Altered", (base,), dict(steps))())


def slip(name: str, mistake: str, **steps: Step) -> Slip:
    """A slip."""
    return Slip(name, mistake, steps)


def added(left: bytes, right: bytes) -> bytes:
    """The byte sums of two strings."""
    return bytes((one + other) % 256 for one, other in zip(left, right))


def total(string: bytes) -> int:
    """The sum of a string's bytes."""
    return sum(string) % 256


# Redundancy bytes in another place. Each takes the parts of a string and what is made of a part.


def before(parts: Sequence[bytes], made: Callable[[bytes], int] = fold) -> bytes:
    """Each part after its byte."""
    return b"".join(bytes([made(part)]) + part for part in parts)


def behind(parts: Sequence[bytes], made: Callable[[bytes], int] = fold) -> bytes:
    """Each part before its byte."""
    return b"".join(part + bytes([made(part)]) for part in parts)


def at_end(parts: Sequence[bytes], made: Callable[[bytes], int] = fold) -> bytes:
    """All the bytes after all the parts."""
    return b"".join(parts) + bytes(made(part) for part in parts)


def at_front(parts: Sequence[bytes], made: Callable[[bytes], int] = fold) -> bytes:
    """All the bytes before all the parts."""
    return bytes(made(part) for part in parts) + b"".join(parts)


PLACES = (
    ("before", "before its part", before),
    ("at-end", "all at the end", at_end),
    ("at-front", "all at the front", at_front),
)


def outermost(data: bytes) -> List[bytes]:
    """Pairs of the first and the last byte, the second and the last but one, and so on."""
    return [bytes([data[place], data[9 - place]]) for place in range(5)]


def exp4_of(parts: Sequence[bytes], pairs: Sequence[bytes]) -> bytes:
    """EXP4 where these parts stand after the sums of these pairs."""
    sums = bytes(total(pair) for pair in pairs)
    return bytes([fold(sums)]) + b"".join(
        bytes([one]) + part for one, part in zip(sums, parts)
    )


def exp4_after(data: bytes) -> bytes:
    """EXP4 with each sum after its pair."""
    parts = groups(data, PAIRS)
    return bytes([fold(bytes(total(part) for part in parts))]) + behind(parts, total)


def exp4_right(data: bytes) -> bytes:
    """EXP4 with the ⊕ of the sums rightmost."""
    made = Working().exp4(data)
    return made[1:] + made[:1]


def exp4_xor(data: bytes) -> bytes:
    """EXP4 with ⊕ for the sums."""
    parts = groups(data, PAIRS)
    return bytes([fold(data)]) + before(parts)


# BL1 in other ways


def core(chained: bool, decrypting: bool) -> Step:
    """BL1 with or without its chaining, in either mode of the cipher."""

    def run(work: Working, key: bytes, data: bytes) -> bytes:
        cipher = work.decrypt if decrypting else work.encrypt
        left = cipher(key, data[:8])
        return left + cipher(key, xor(data[8:], left) if chained else data[8:])

    return run


def core_decrypted(work: Working, key: bytes, data: bytes) -> bytes:
    """Decryption of both blocks, the left input ⊕ the right one's: a chain undone."""
    return work.decrypt(key, data[:8]) + xor(work.decrypt(key, data[8:]), data[:8])


def core_input(work: Working, key: bytes, data: bytes) -> bytes:
    """BL1, chained with the left input."""
    return work.encrypt(key, data[:8]) + work.encrypt(key, xor(data[8:], data[:8]))


def core_from_right(work: Working, key: bytes, data: bytes) -> bytes:
    """BL1, begun at the right block."""
    right = work.encrypt(key, data[8:])
    return work.encrypt(key, xor(data[:8], right)) + right


def core_exchanged(work: Working, key: bytes, data: bytes) -> bytes:
    """BL1, its output blocks exchanged."""
    made = Working.bl1(work, key, data)
    return made[8:] + made[:8]


def cores() -> List[Slip]:
    """Another core: throughout, in the seals alone, and in the derivations alone."""
    made: List[Slip] = []
    ways: Tuple[Tuple[str, str, Step], ...] = (
        ("unchained", "no chaining in BL1", core(False, False)),
        ("decrypting", "decryption for encryption in BL1, chained", core(True, True)),
        ("decrypting-unchained", "decryption for encryption in BL1, unchained", core(False, True)),
        ("decrypting-cbc", "BL1 as the decryption of a chain, left input ⊕", core_decrypted),
        ("input-chained", "BL1 chained with the left block's input, not its output", core_input),
        ("from-the-right", "BL1 begun at the right block", core_from_right),
        ("blocks-exchanged", "BL1's output blocks exchanged", core_exchanged),
    )
    for name, mistake, run in ways:
        made += [
            slip(name, mistake, bl1=run),
            slip(f"{name}-in-seals", f"{mistake}: in the seals only", seal=sealing(run)),
            slip(f"{name}-in-keys", f"{mistake}: in the derivations only", derive=deriving(run)),
        ]
    return made


def sealing(run: Step) -> Step:
    """The seals with this core."""
    return lambda work, key, data: work.drop(run(work, key, data))


def deriving(run: Step) -> Step:
    """The derivations with this core."""
    return lambda work, key, data: run(work, key, work.exp2(data))


def ciphers() -> List[Slip]:
    """Mistakes inside HURDLE-II: no working from right blocks can show them."""
    zero_e = SCHEDULE_D.replace(b"\x1e", b"\x0e")

    def unpermuted(work: Working, chain: Sequence[int]) -> bytes:
        nibbles = 0
        for byte in reversed(chain):
            nibbles = nibbles << 4 | byte & 15
        return nibbles.to_bytes(4, "big")

    def backwards(work: Working, chain: Sequence[int]) -> bytes:
        string = int.from_bytes(unpermuted(work, chain), "big")
        output = 0
        for place in range(32):
            output |= (string >> place & 1) << (place % 8 * 4 + place // 8)
        return output.to_bytes(4, "big")

    def unswapped(work: Working, block: bytes, round_keys: Any) -> bytes:
        made = Working.rounds(work, block, round_keys)
        return made[4:] + made[:4]

    def f_unchained(work: Working, half: bytes, round_key: bytes) -> bytes:
        x3, x2, x1, x0 = half
        expanded = (x0, x1, x2, x3, x0, x2, x1, x3, x2, x0, x3, x1)
        chain = [S[(byte + round_key[11 - n]) % 256] for n, byte in enumerate(expanded)]
        return work.choose_bits(chain[4:])

    def d_first(work: Working, key: bytes) -> List[bytes]:
        made = [key]
        for places in SCHEDULE_A:
            made.append(work.turn(xor(made[-1], SCHEDULE_D), places))
        return made

    return [
        slip(
            "schedule-0e",
            'the "le" in the schedule\'s D read as 0e',
            schedule_constant=lambda _: zero_e,
        ),
        slip(
            "schedule-right",
            "the schedule's register rotated right",
            turn=lambda _, register, places: register[-places:] + register[:-places],
        ),
        slip("schedule-d-first", "the schedule's D ⊕ before the rotation", registers=d_first),
        slip(
            "round-keys-left",
            "round keys from the register's leftmost twelve bytes",
            round_keys=lambda work, key: [one[:12] for one in work.registers(key)[:16]],
        ),
        slip(
            "round-keys-late",
            "round key 1 from Q2, and so on",
            round_keys=lambda work, key: [one[4:] for one in work.registers(key)[1:]],
        ),
        slip("f-unpermuted", "f's nibbles as they stand, unpermuted", choose_bits=unpermuted),
        slip("f-transposed", "f's bit permutation the other way round", choose_bits=backwards),
        slip("f-unchained", "f's bytes substituted without the chain", f=f_unchained),
        slip("halves-unswapped", "the halves not exchanged at the end", rounds=unswapped),
        slip(
            "f-high-nibbles",
            "the left nibbles chosen in f",
            choose_bits=lambda work, chain: Working.choose_bits(work, [one >> 4 for one in chain]),
        ),
    ]


def expansions() -> List[Slip]:
    """Mistakes in EXP1 to EXP4, X16 and TB7."""
    made = [
        slip(
            "exp2-xor",
            "EXP2's last byte as ⊕ of the five, not their sum",
            exp2=lambda work, data: work.exp1(data) + bytes([fold(data)]),
        ),
        slip(
            "exp2-sum-of-input",
            "EXP2's last byte as the sum of the ten input bytes",
            exp2=lambda work, data: work.exp1(data) + bytes([total(data)]),
        ),
        slip(
            "exp2-zero",
            "EXP2 as EXP1 and a zero byte",
            exp2=lambda work, data: work.exp1(data) + ZERO,
        ),
        slip(
            "exp2-left",
            "EXP2's sum at the left",
            exp2=lambda work, data: rotated(Working.exp2(work, data)),
        ),
        slip("exp4-for-exp2", "EXP4 for EXP2", exp2=lambda work, data: work.exp4(data)),
        slip(
            "exp1-sums",
            "EXP1 with sums for ⊕",
            exp1=lambda work, data: behind(groups(data, PAIRS), total),
        ),
        slip(
            "exp3-sums",
            "EXP3 with sums for ⊕",
            exp3=lambda work, data: behind(groups(data, EXP3), total),
        ),
        slip(
            "exp3-3332",
            "EXP3's parts three, three, three and two bytes",
            exp3=lambda work, data: behind(groups(data, (3, 3, 3, 2))),
        ),
        slip("x16-tb7", "TB7 for X16", x16=lambda work, data: Working.tb7(work, data)),
        slip(
            "x16-sums",
            "X16 with sums for ⊕",
            x16=lambda work, data: behind(groups(data, FOURS), total) + ZERO,
        ),
        slip(
            "zero-in-front",
            "the seals' zero byte in front, not at the end",
            ta31_data=lambda work, key: ZERO + work.exp1(key),
            ta51_data=lambda work, key, number: ZERO + work.exp3(key + bytes([number])),
            x16=lambda work, data: ZERO + behind(groups(data, FOURS)),
        ),
        slip("g-x16", "G as X16 of the group key, not TB7", tb7=lambda work, data: work.x16(data)),
        slip(
            "g-zeros",
            "G as the group key and four zero bytes",
            tb7=lambda _, data: data + bytes(4),
        ),
        slip(
            "g-zeros-in-front",
            "G as four zero bytes and the group key",
            tb7=lambda _, data: bytes(4) + data,
        ),
        slip(
            "tb7-sums",
            "TB7 with sums for ⊕",
            tb7=lambda _, data: behind(groups(data, THREES), total),
        ),
    ]
    for place, words, put in PLACES:
        made += [
            slip(f"exp1-{place}", f"EXP1's ⊕ bytes {words}, in EXP2 too", exp1=placed(put, PAIRS)),
            slip(
                f"exp1-{place}-in-ta31",
                f"EXP1's ⊕ bytes {words}, in TA31 only",
                ta31_data=lambda _, key, put=put: put(groups(key, PAIRS)) + ZERO,
            ),
            slip(f"exp3-{place}", f"EXP3's ⊕ bytes {words}", exp3=placed(put, EXP3)),
            slip(
                f"x16-{place}",
                f"X16's ⊕ bytes {words}",
                x16=lambda _, data, put=put: put(groups(data, FOURS)) + ZERO,
            ),
            slip(f"tb7-{place}", f"TB7's ⊕ bytes {words}", tb7=placed(put, THREES)),
        ]
    for name, mistake, run in (
        ("exp2-for-exp4", "EXP2 for EXP4", lambda work, data: Working.exp2(work, data)),
        (
            "exp4-outermost",
            "EXP4's pairs the outermost bytes, laid out as pairs",
            lambda _, data: exp4_of(outermost(data), outermost(data)),
        ),
        (
            "exp4-outermost-sums",
            "EXP4's sums of the outermost bytes, the bytes where they were",
            lambda _, data: exp4_of(groups(data, PAIRS), outermost(data)),
        ),
        ("exp4-after", "EXP4's sums after their pairs", lambda _, data: exp4_after(data)),
        ("exp4-right", "EXP4's ⊕ of the sums at the right", lambda _, data: exp4_right(data)),
        ("exp4-xor", "EXP4 with ⊕ for the sums", lambda _, data: exp4_xor(data)),
    ):
        made += [
            slip(name, f"{mistake}, in TA31 and TA61", exp4=run),
            slip(f"{name}-in-ta31", f"{mistake}, in TA31 only", short_core_key=short_key(run)),
            slip(f"{name}-in-ta61", f"{mistake}, in TA61 only", ta61_strings=strings_with(run)),
        ]
    return made


def rotated(string: bytes) -> bytes:
    """The last byte in front."""
    return string[-1:] + string[:-1]


def placed(put: Step, sizes: Sequence[int]) -> Step:
    """An expansion with its bytes in another place."""
    return lambda _, data: put(groups(data, sizes))


def short_key(run: Step) -> Step:
    """Kind 1's core key with another EXP4."""
    return lambda work, under, version: run(work, xor(work.version_bytes(version, 10), under))


def strings_with(run: Step) -> Step:
    """TA61's strings with another EXP4."""

    def strings(work: Working, common_key: bytes) -> Tuple[bytes, bytes, bytes]:
        return cut(work.encrypt(run(work, common_key), xor(common_key[:8], common_key[2:])))

    return strings


def cut(block: bytes) -> Tuple[bytes, bytes, bytes]:
    """K1, K2 and K3 of a block."""
    b7, b6, b5, b4, b3, b2, b1, b0 = block
    return bytes([b7, b4, b1]), bytes([b6, b3, b0]), bytes([b5, b2, b7])


def dropped(place: int) -> Step:
    """A text without the byte at this place from the left."""
    return lambda _, output: output[:place] + output[place + 1 :]


def digits(number: int, most: int) -> int:
    """A number's decimal digits taken for hexadecimal ones, where that has room."""
    wrong = int(str(number), 16)
    return wrong if wrong <= most else number


def with_sitting(**exchanged: str) -> Step:
    """The recipe with values of the sitting taken for others."""
    return lambda work, sitting: Working.recipe(
        work, sitting._replace(**{name: getattr(sitting, of) for name, of in exchanged.items()})
    )


def derivations() -> List[Slip]:
    """Mistakes in TA11, TA12, TA21, TA22, TA41 and TB4, and in what they take."""

    def turned(name: str) -> Step:
        run = getattr(Working, name)
        return lambda work, session, challenge, *masks: run(work, session, challenge[::-1], *masks)

    def session_o(work: Working, sitting: Any) -> Any:
        keys = Working.recipe(work, sitting)
        o = work.ta41(keys.session1 or keys.session2 or b"", sitting.rso)
        return keys._replace(ring=keys.ring._replace(o=o))

    def mirrored(_: Working, output: bytes, mask: int) -> bytes:
        return bytes(byte for place, byte in enumerate(output) if mask >> place & 1)

    def leftmost(work: Working, output: bytes, response_mask: int, _: int) -> Tuple[bytes, bytes]:
        return work.choose(output, response_mask), output[:10]

    def middle(work: Working, output: bytes, response_mask: int, _: int) -> Tuple[bytes, bytes]:
        return work.choose(output, response_mask), output[3:13]

    def rest(work: Working, output: bytes, response_mask: int, _: int) -> Tuple[bytes, bytes]:
        return work.choose(output, response_mask), work.choose(output, ~response_mask)[:10]

    return [
        slip("ta22-reversed", "TA22's challenge reversed as TA21's seed", ta22=turned("ta22")),
        slip("ta12-reversed", "TA12's challenge reversed", ta12=turned("ta12")),
        slip(
            "challenges-reversed",
            "both challenges reversed",
            ta12=turned("ta12"),
            ta22=turned("ta22"),
        ),
        slip(
            "ta21-unreversed",
            "TA21's seed not reversed, so session key 1 for TA22 as well",
            ta21=lambda work, root, seed: work.derive(root, seed),
        ),
        slip(
            "ta21-digits",
            "TA21's seed reversed by hexadecimal digits, not by bytes",
            ta21=lambda work, root, seed: work.derive(root, bytes.fromhex(seed.hex()[::-1])),
        ),
        slip(
            "ta11-reversed",
            "TA11's seed reversed as well",
            ta11=lambda work, root, seed: work.derive(root, seed[::-1]),
        ),
        slip(
            "ta41-reversed",
            "TA41's seed reversed",
            ta41=lambda work, root, seed: work.derive(root, seed[::-1]),
        ),
        slip(
            "sessions-exchanged",
            "session keys exchanged (TA11 and TA21)",
            ta11=lambda work, root, seed: work.derive(root, seed[::-1]),
            ta21=lambda work, root, seed: work.derive(root, seed),
        ),
        slip(
            "rands-exchanged",
            "RAND1 and RAND2 exchanged",
            recipe=with_sitting(rand1="rand2", rand2="rand1"),
        ),
        slip("rand1-twice", "RAND1 for both challenges", recipe=with_sitting(rand2="rand1")),
        slip("rand2-twice", "RAND2 for both challenges", recipe=with_sitting(rand1="rand2")),
        slip("rs-for-rso", "RS for RSO", recipe=with_sitting(rso="rs")),
        slip("rso-for-rs", "RSO for RS", recipe=with_sitting(rs="rso")),
        slip(
            "ta12-under-root",
            "TA12 and TA22 under the root, no session key",
            ta11=lambda _, root, seed: root,
            ta21=lambda _, root, seed: root,
        ),
        slip("ta41-under-session", "TA41 under a session key, not the root", recipe=session_o),
        slip("masks-from-left", "masks counted from the left", choose=mirrored),
        slip(
            "masks-low-first",
            "the masks' bytes written with the lower first",
            choose=lambda work, output, mask: Working.choose(work, output, mask)[::-1],
        ),
        slip("key-leftmost", "the key as the output's first ten bytes", split=leftmost),
        slip("key-middle", "the key as the output's middle ten bytes", split=middle),
        slip("key-rest", "the key as the first ten bytes that the response leaves", split=rest),
        slip("tb4-sum", "TB4 as byte sums", tb4=lambda _, left, right: added(left, right)),
        slip("d-key1", "D as key 1 alone, TB4 left out", tb4=lambda _, left, right: left),
        slip("d-key2", "D as key 2 alone, TB4 left out", tb4=lambda _, left, right: right),
        slip(
            "sides-both",
            "both halves worked, though one side proves itself",
            recipe=lambda work, sitting: Working.recipe(work, sitting._replace(sides=3)),
        ),
        slip(
            "sides-other",
            "the other half worked than the side that proves itself",
            recipe=lambda work, sitting: Working.recipe(
                work, sitting._replace(sides={1: 2, 2: 1, 3: 3}[sitting.sides])
            ),
        ),
    ]


def under(choose: Callable[[Working, Any], Dict[int, bytes]]) -> Step:
    """Other sealing keys than the ring's for some kinds."""

    def sealing_key(work: Working, ring: Any, kind: int) -> bytes:
        return choose(work, ring).get(kind, Working.sealing_key(work, ring, kind))

    return sealing_key


def rings() -> List[Slip]:
    """Mistakes in the choice of the sealing key."""

    def kinds(*numbers: int) -> Callable[[bytes], Dict[int, bytes]]:
        return lambda key: {number: key for number in numbers}

    one, long, group = kinds(1), kinds(2, 3, 4), kinds(5, 6)
    return [
        slip(
            "d-o-exchanged",
            "D and O exchanged: D as O's first ten bytes, O as EXP4 of D",
            sealing_key=under(lambda work, ring: {**one(ring.o[:10]), **long(work.exp4(ring.d))}),
        ),
        slip(
            "d-o-exchanged-zeros",
            "D and O exchanged: D as O's first ten bytes, O as D and zeros",
            sealing_key=under(lambda _, ring: {**one(ring.o[:10]), **long(ring.d + bytes(6))}),
        ),
        slip(
            "d-from-o",
            "O's first ten bytes for D (kind 1)",
            sealing_key=under(lambda _, ring: one(ring.o[:10])),
        ),
        slip(
            "o-exp4-d",
            "EXP4 of D for O (kinds 2 to 4)",
            sealing_key=under(lambda work, ring: long(work.exp4(ring.d))),
        ),
        slip(
            "o-d-zeros",
            "D and zeros for O (kinds 2 to 4)",
            sealing_key=under(lambda _, ring: long(ring.d + bytes(6))),
        ),
        slip(
            "o-zeros-d",
            "zeros and D for O (kinds 2 to 4)",
            sealing_key=under(lambda _, ring: long(bytes(6) + ring.d)),
        ),
        slip("kind1-under-c", "C for D (kind 1)", sealing_key=under(lambda _, ring: one(ring.c))),
        slip("g-for-o", "G for O (kinds 2 to 4)", sealing_key=under(lambda _, ring: long(ring.g))),
        slip("o-for-g", "O for G (kinds 5, 6)", sealing_key=under(lambda _, ring: group(ring.o))),
        slip(
            "o-g-exchanged",
            "O and G exchanged",
            sealing_key=under(lambda _, ring: {**long(ring.g), **group(ring.o)}),
        ),
        slip("kind5-under-o", "kind 5 under O", sealing_key=under(lambda _, ring: {5: ring.o})),
        slip("kind4-under-g", "kind 4 under G", sealing_key=under(lambda _, ring: {4: ring.g})),
    ]


def versions() -> List[Slip]:
    """Mistakes with the version."""

    def once(version: int) -> bytes:
        return version.to_bytes(2, "big")

    def swapped(work: Working, ring: Any, entry: Entry) -> bytes:
        exchanged = int.from_bytes(entry.version.to_bytes(2, "little"), "big")
        return Working.sealed_record(work, ring, entry._replace(version=exchanged))

    def record_exchanged(work: Working, ring: Any, entry: Entry) -> bytes:
        made = Working.sealed_record(work, ring, entry)
        return made[:4] + made[5:6] + made[4:5] + made[6:]

    def typed(work: Working, ring: Any, entry: Entry) -> bytes:
        wrong = digits(entry.version, 0xFFFF)
        return Working.sealed_record(work, ring, entry._replace(version=wrong))

    def blank(work: Working, ring: Any, entry: Entry) -> bytes:
        made = Working.sealed_record(work, ring, entry)
        return made[:4] + bytes(2) + made[6:]

    return [
        slip(
            "version-once",
            "the version once, at the left, not repeated",
            version_bytes=lambda _, version, length: once(version) + bytes(length - 2),
        ),
        slip(
            "version-once-right",
            "the version once, at the right, not repeated",
            version_bytes=lambda _, version, length: bytes(length - 2) + once(version),
        ),
        slip(
            "version-five",
            "the version five times in the long keys too, zeros after it",
            version_bytes=lambda _, version, length: (once(version) * 5).ljust(length, ZERO),
        ),
        slip(
            "version-little",
            "the version's bytes exchanged in the core's key, right in the record",
            version_bytes=lambda _, version, length: once(version)[::-1] * (length // 2),
        ),
        slip("version-exchanged", "the version's bytes exchanged all over", sealed_record=swapped),
        slip(
            "version-record-exchanged",
            "the version's bytes exchanged in the record, right in the core's key",
            sealed_record=record_exchanged,
        ),
        slip("version-blank", "the version left out of the record (zeros)", sealed_record=blank),
        slip("version-decimal", "the version's decimal digits as hexadecimal", sealed_record=typed),
        slip(
            "version-omitted",
            "the version not ⊕ into the core's key",
            version_bytes=lambda _, version, length: bytes(length),
        ),
        slip(
            "version-added",
            "the version added, not ⊕",
            short_core_key=lambda work, key, version: work.exp4(added(key, once(version) * 5)),
            long_core_key=lambda work, key, version: added(key, once(version) * 8),
        ),
        slip(
            "version-behind-exp4",
            "EXP4 of D first, then the version eight times (kind 1)",
            short_core_key=lambda work, key, version: xor(work.exp4(key), once(version) * 8),
        ),
        slip(
            "version-for-number",
            "version and key number exchanged in TA81 (kinds 3 and 6)",
            ta81=lambda work, key, version, under, number: Working.ta81(
                work, key, number, under, version
            ),
        ),
    ]


def numbers() -> List[Slip]:
    """Mistakes with the number."""

    def decimal(work: Working, ring: Any, entry: Entry) -> bytes:
        if entry.number is None:
            return Working.sealed_record(work, ring, entry)
        most = 0xFF if entry.kind in SHORT_NUMBER else 0xFFFF
        wrong = digits(entry.number, most)
        return Working.sealed_record(work, ring, entry._replace(number=wrong))

    made = [
        slip(
            f"number-high-{high}",
            f"the number byte with {high << 5:02x} above the five bits (kinds 2 and 5)",
            number_byte=lambda _, number, high=high: high << 5 | number,
        )
        for high in range(1, 8)
    ]
    made += [
        slip(
            "number-shifted",
            "the five-bit number at the left of its byte (kinds 2 and 5)",
            number_byte=lambda _, number: number << 3,
        ),
        slip(
            "number-dropped",
            "the number left out (zero)",
            ta51_data=lambda work, key, number: Working.ta51_data(work, key, 0),
            ta81_data=lambda work, key, number: Working.ta81_data(work, key, 0),
        ),
        slip(
            "number-first",
            "the number before the key",
            ta51_data=lambda work, key, number: work.exp3(bytes([number]) + key) + ZERO,
            ta81_data=lambda work, key, number: work.x16(number.to_bytes(2, "big") + key),
        ),
        slip(
            "number-little",
            "the number's two bytes exchanged (kinds 3 and 6)",
            ta81_data=lambda work, key, number: work.x16(key + number.to_bytes(2, "little")),
        ),
        slip("number-decimal", "the number's decimal digits as hexadecimal", sealed_record=decimal),
    ]
    return made


def drops() -> List[Slip]:
    """Mistakes with the core's output."""
    return [
        slip("drop-last", "the last byte dropped, not byte 8", drop=dropped(15)),
        slip("drop-7", "byte 7 dropped, the eighth from the left counted from 0", drop=dropped(8)),
        slip("drop-first", "the first byte dropped, not byte 8", drop=dropped(0)),
        slip(
            "text-reversed",
            "the sealed text written last byte first",
            seal=lambda work, key, data: Working.seal(work, key, data)[::-1],
        ),
    ]


def identities() -> List[Slip]:
    """Mistakes in TA61."""

    def reordered(order: Tuple[int, ...]) -> Step:
        def strings(work: Working, common_key: bytes) -> Tuple[bytes, ...]:
            made = Working.ta61_strings(work, common_key)
            return tuple(made[place] for place in order)

        return strings

    def from_data(data: Callable[[bytes], bytes]) -> Step:
        return lambda work, key: cut(work.encrypt(work.exp4(key), data(key)))

    def one_permutation(work: Working, common_key: bytes, identity: int) -> int:
        k1, k2, k3 = work.ta61_strings(common_key)
        string = work.permute(xor(identity.to_bytes(3, "big"), k1))
        return int.from_bytes(xor(xor(string, k2), k3), "big")

    def unsubstituted(_: Working, string: bytes) -> bytes:
        a2, a1, a0 = string
        sums = (2 * a2 + 2 * a1 - a0, 2 * a2 + 2 * a0 - a1, 2 * a1 + 2 * a0 - a2)
        return bytes(one % 256 for one in sums)

    def backwards(work: Working, common_key: bytes, identity: int) -> int:
        turned = int.from_bytes(identity.to_bytes(3, "little"), "big")
        return Working.ta61(work, common_key, turned)

    made = [
        slip(
            "ta61-k" + "".join(str(place + 1) for place in order),
            "TA61's strings in the order " + ", ".join(f"K{place + 1}" for place in order),
            ta61_strings=reordered(order),
        )
        for order in permutations(range(3))
        if order != (0, 1, 2)
    ]
    made += [
        slip(
            "ta61-decrypting",
            "decryption for encryption in TA61",
            ta61_strings=lambda work, key: cut(
                work.decrypt(work.exp4(key), xor(key[:8], key[2:]))
            ),
        ),
        slip(
            "ta61-neighbours",
            "TA61's input as ⊕ of neighbours, A(j+1) and Aj",
            ta61_strings=from_data(lambda key: xor(key[:8], key[1:9])),
        ),
        slip(
            "ta61-first-eight",
            "TA61's input as C's first eight bytes",
            ta61_strings=from_data(lambda key: key[:8]),
        ),
        slip("ta61-one-p", "TA61 with one P", ta61=one_permutation),
        slip("ta61-p-without-s", "P without S", permute=unsubstituted),
        slip(
            "ta61-p-reversed",
            "P's output bytes in the opposite order",
            permute=lambda work, string: Working.permute(work, string)[::-1],
        ),
        slip("identity-plain", "identities not encrypted", ta61=lambda _, key, identity: identity),
        slip(
            "identity-inverse",
            "identities decrypted, not encrypted",
            ta61=lambda work, key, identity: work.ta61_inverse(key, identity),
        ),
        slip("identity-reversed", "the identity's bytes reversed before TA61", ta61=backwards),
        slip(
            "identity-under-d",
            "identities encrypted under D, not C",
            encrypted_identity=lambda work, ring, entry: work.ta61(ring.d, entry.identity),
        ),
    ]
    return made


def kinds() -> List[Slip]:
    """One kind written for another: the entry is sealed as the kind that is written."""

    def written(wrong: int, kind: int) -> Step:
        return lambda work, ring, entry: Working.sealed_record(
            work, ring, entry._replace(kind=wrong) if entry.kind == kind else entry
        )

    def labelled(wrong: int, kind: int) -> Step:
        def sealed_record(work: Working, ring: Any, entry: Entry) -> bytes:
            made = Working.sealed_record(work, ring, entry)
            return bytes([wrong]) + made[1:] if entry.kind == kind else made

        return sealed_record

    return [
        slip("kind-2-for-5", "kind 2 for kind 5", sealed_record=written(2, 5)),
        slip("kind-3-for-6", "kind 3 for kind 6", sealed_record=written(3, 6)),
        slip("kind-6-for-3", "kind 6 for kind 3", sealed_record=written(6, 3)),
        slip("kind-5-labelled-2", "kind 5's records labelled 2", sealed_record=labelled(2, 5)),
    ]


def throughout() -> List[Slip]:
    """Slips that reach into seals, derivations and identities alike."""
    return [
        slip(
            "decrypts-everywhere",
            "decryption for encryption everywhere, in TA61 too",
            encrypt=lambda work, key, block: work.decrypt(key, block),
        ),
    ]


def sealing_slips() -> Dict[str, List[Slip]]:
    """Every slip of sealing, by its group."""
    return {
        "core": cores() + throughout(),
        "expansion": expansions(),
        "derivation": derivations(),
        "ring": rings(),
        "version": versions(),
        "number": numbers(),
        "drop": drops(),
        "identity": identities(),
        "kind": kinds(),
        "cipher": ciphers(),
    }
