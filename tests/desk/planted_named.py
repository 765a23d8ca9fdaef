"""Mistakes inside the cipher, and others that the papers' readers make, by the reference's hands.

Each is a hand-in of the sitting "both", and what must be said of it.
"""

from __future__ import annotations

from dataclasses import dataclass, field
from typing import Any, Callable, Dict, Iterator, Optional, Tuple

from exams import RIGHT, SEALED, Exam, exam, exams
from planted_keys import values_of
from reference import Entry, Keys, Ring, Sitting, Working, plain_record, records, xor
from wrong_ciphers import MISCOPIED, MISCOPIED_S, NAMELESS, WRONG, WRONG_BACK, s_working, working
from wrong_steps import IN_P, WRONG_OPENING, WRONG_STEPS

Values = Dict[str, bytes]
# A mistake that gives another's bytes here and there, and so has its name for these.
IN_PART = {("both", "a carry of E + k added at the right"): ("sums of E and the round key modulo 255",)}
NO_BOOK = b"my book is with my neighbour\n"
# Slips that are others in one algorithm: encryption with the round keys of decryption is decryption.
SAME_IN_TA61 = {
    "bytes of the input block numbered from the left": "TA61's input reversed",
    "bytes of the output block numbered from the left": "TA61's strings of bytes numbered from the left",
}
SAME_IN_OPENING = {"encryption's round keys for decryption's": "encryption for decryption in BL2"}


@dataclass(frozen=True)
class Named:
    """A hand-in, and what the desk has to say of it."""

    group: str
    mistake: str
    exam: Exam
    book: bytes
    slips: Tuple[str, ...]  # that are named, and no others
    values: Values = field(default_factory=dict)  # of keys beside it
    note: str = ""  # that is said of an entry or a key
    opened: Optional[bytes] = None  # what was opened from the model's sealed book, instead


class _InTa61(Working):
    """The right working, with another one's TA61."""

    def __init__(self, other: Working) -> None:
        self.other = other

    def ta61_strings(self, common_key: bytes) -> Tuple[bytes, bytes, bytes]:
        """By the other's cipher."""
        return self.other.ta61_strings(common_key)


class _InSealing(Working):
    """The right working, with another one's cipher for the texts."""

    def __init__(self, other: Working) -> None:
        self.other = other

    def seal(self, core_key: bytes, data: bytes) -> bytes:
        """By the other's cipher."""
        return self.other.seal(core_key, data)


def _worked(work: Working, of: Exam) -> Tuple[Keys, bytes]:
    keys = work.recipe(of.sitting)
    return keys, work.sealed_book(keys.ring, of.entries)


def ciphers(of: Exam) -> Iterator[Named]:
    """Wrong ciphers, in every algorithm and in some alone."""
    for name, steps in {**WRONG, **MISCOPIED}.items():
        if name in MISCOPIED_S:
            continue
        work = working(steps)
        keys, book = _worked(work, of)
        group = "cipher's tables" if name in MISCOPIED else "cipher"
        yield Named(group, name, of, book, (name,))
        if name in MISCOPIED:
            continue
        in_ta61 = _InTa61(work).sealed_book(of.ring, of.entries)
        where = f"{name}, in TA61 alone"
        group = "steps" if name in SAME_IN_TA61 else "cipher, in TA61 alone"
        yield Named(group, where, of, in_ta61, (SAME_IN_TA61.get(name, where),))
    for name, steps in WRONG_BACK.items():
        back = b"".join(_plain(working(steps), of.ring, record) for record in records(of.sealed, SEALED))
        yield Named("opening", f"{name}, in opening", of, b"", (SAME_IN_OPENING.get(name, name),), opened=back)
    back_keys = working({"encrypt": Working.decrypt, "decrypt": Working.encrypt})
    where = "decryption's round keys for encryption's"
    slip = "decryption for encryption everywhere, in TA61 too"
    yield Named("steps", where, of, _worked(back_keys, of)[1], (slip,))
    in_ta61 = _InTa61(back_keys).sealed_book(of.ring, of.entries)
    yield Named("steps", f"{where}, in TA61 alone", of, in_ta61, ("decryption for encryption in TA61",))
    for name in ("halves not exchanged at the end", "D's 1e read as 10", "rotation to the right"):
        work = working(WRONG[name])
        keys, book = _worked(work, of)
        where = f"{name}, and its keys handed in"
        yield Named("cipher", where, of, book, (name,), values_of(keys))
        where = f"{name}, in sealing alone"
        in_seals = _InSealing(work).sealed_book(of.ring, of.entries)
        yield Named("cipher", where, of, in_seals, (where,), values_of(of.keys))
        where = f"{name}, in deriving keys alone"
        in_keys = RIGHT.sealed_book(keys.ring, of.entries)
        yield Named("cipher", where, of, in_keys, (where,))
        opened = b"".join(_plain(work, keys.ring, record) for record in records(of.sealed, SEALED))
        yield Named("cipher", f"{name}, in opening", of, b"", (name,), opened=opened)


def nameless(of: Exam) -> Iterator[Named]:
    """Mistakes that have no name, and so must get no other one."""
    for mistake, altered in NAMELESS.items():
        yield Named("without a name", mistake, of, _worked(working(altered), of)[1], IN_PART.get((of.name, mistake), ()))

    def c_and_version(work: Working, ring: Ring, entry: Entry) -> int:
        return work.ta61(xor(ring.c, work.version_bytes(entry.version, 10)), entry.identity)

    work = working({"encrypted_identity": c_and_version})
    yield Named("without a name", "C ⊕ the version in TA61", of, _worked(work, of)[1], ())


def _plain(work: Working, ring: Ring, record: bytes) -> bytes:
    return plain_record(work.open_record(ring, record)[0])


def _given(of: Exam, name: str, digits: Callable[[str], str]) -> Sitting:
    value: Any = bytes.fromhex(digits(getattr(of.sitting, name).hex()))
    return of.sitting._replace(**{name: value})


def _digit(place: int) -> Callable[[str], str]:
    """Another digit at a place, counted from 1."""

    def change(digits: str) -> str:
        other = f"{(int(digits[place - 1], 16) + 6) % 16:x}"
        return digits[: place - 1] + other + digits[place:]

    return change


def _turned(place: int) -> Callable[[str], str]:
    """The digits at a place and the next one exchanged."""
    return lambda d: d[: place - 1] + d[place] + d[place - 1] + d[place + 1 :]


GIVEN = {
    "root": "root (K)",
    "rs": "RS",
    "rso": "RSO",
    "rand1": "RAND1",
    "rand2": "RAND2",
    "c": "C (CCK)",
    "group_key": "group key (GSKO)",
}


def given(of: Exam) -> Iterator[Named]:
    """Given values that were copied wrongly, and worked with."""
    for name, place in (("root", 12), ("rs", 3), ("rso", 20), ("rand1", 1), ("rand2", 9), ("c", 2), ("group_key", 24)):
        for turn in (False, True):
            right = getattr(of.sitting, name).hex()
            at = place if not turn else next(n for n in range(1, 20) if right[n - 1] != right[n])
            sitting = _given(of, name, _turned(at) if turn else _digit(at))
            has = getattr(sitting, name).hex()
            said = f"one digit differs: {has[at - 1]} for {right[at - 1]} at place {at}"
            if turn:
                pair = right[at - 1 : at + 1]
                said = f"two neighbouring digits are exchanged: {pair[::-1]} for {pair} at places {at} and {at + 1}"
            keys = RIGHT.recipe(sitting)
            book = RIGHT.sealed_book(keys.ring, of.entries)
            slip = f"{GIVEN[name]} miscopied, {said}"
            yield Named("given values", slip, of, book, (slip,))


def _strings(choose: Callable[[bytes], Tuple[bytes, ...]]) -> Working:
    """TA61 with other strings, of BC's output B0 to B7."""

    def strings(work: Working, common_key: bytes) -> Tuple[bytes, ...]:
        data = xor(common_key[:8], common_key[2:])
        return choose(RIGHT.encrypt(RIGHT.exp4(common_key), data)[::-1])

    return working({"ta61_strings": strings})


def identities(of: Exam) -> Iterator[Named]:
    """TA61 with strings left out, taken twice, or of other bytes."""

    def b(out: bytes, *at: int) -> bytes:
        return bytes(out[n] for n in at)

    one, two, three = (7, 4, 1), (6, 3, 0), (5, 2, 7)
    for slip, choose in (
        ("TA61's K1 left out", lambda o: (bytes(3), b(o, *two), b(o, *three))),
        ("TA61's K2 left out", lambda o: (b(o, *one), bytes(3), b(o, *three))),
        ("TA61's K3 left out", lambda o: (b(o, *one), b(o, *two), bytes(3))),
        ("TA61's strings K1 K1 K3, for K1 K2 K3", lambda o: (b(o, *one), b(o, *one), b(o, *three))),
        ("TA61's strings K1 K2 K2, for K1 K2 K3", lambda o: (b(o, *one), b(o, *two), b(o, *two))),
        ("TA61's strings K1 K2 K1, for K1 K2 K3", lambda o: (b(o, *one), b(o, *two), b(o, *one))),
        ("TA61's K3 B5 B2 B0, not B5 B2 B7", lambda o: (b(o, *one), b(o, *two), b(o, 5, 2, 0))),
        ("TA61's K3 B5 B2 B6, not B5 B2 B7", lambda o: (b(o, *one), b(o, *two), b(o, 5, 2, 6))),
        ("TA61's K1 B7 B4 B0, not B7 B4 B1", lambda o: (b(o, 7, 4, 0), b(o, *two), b(o, *three))),
        ("TA61's K2 B6 B3 B1, not B6 B3 B0", lambda o: (b(o, *one), b(o, 6, 3, 1), b(o, *three))),
        (
            "TA61's strings of bytes numbered from the left",
            lambda o: (b(o[::-1], *one), b(o[::-1], *two), b(o[::-1], *three)),
        ),
    ):
        made: Any = choose
        book = _strings(made).sealed_book(of.ring, of.entries)
        yield Named("TA61", slip, of, book, (slip,))


def _with(of: Exam, place: int, record: bytes) -> bytes:
    book = records(of.sealed, SEALED)
    book[place] = record
    return b"".join(book)


def steps(of: Exam) -> Iterator[Named]:
    """Other steps than the cipher's misread."""
    for slip, altered in {**WRONG_STEPS, **IN_P}.items():
        if not slip.startswith("TB4 with key"):  # which masks taken otherwise give as well
            yield Named("steps", slip, of, _worked(working(altered), of)[1], (slip,))
            continue
        made, book = _worked(working(altered), of)
        yield Named("steps", f"{slip}, both right on the sheet", of, book, (slip,), values_of(made))
    for slip, altered in WRONG_OPENING.items():
        opened = b"".join(_plain(working(altered), of.ring, record) for record in records(of.sealed, SEALED))
        yield Named("opening", slip, of, b"", (slip,), opened=opened)


def versions(of: Exam) -> Iterator[Named]:
    """Another entry's version."""
    for place, owner in ((3, 7), (0, 15), (14, 2)):
        entry: Entry = of.entries[place]
        other = entry._replace(version=of.entries[owner].version)
        wrong, model = RIGHT.sealed_record(of.ring, other), RIGHT.sealed_record(of.ring, entry)
        mistake = f"the version of entry {owner} in entry {place}"
        slip = "another entry's version"
        yield Named("versions", mistake, of, _with(of, place, wrong), (slip,))
        labelled = _with(of, place, wrong[:6] + model[6:])
        yield Named("versions", f"{mistake}, in the record alone", of, labelled, (slip,))
        sealed = _with(of, place, model[:6] + wrong[6:])
        slip = "another entry's version in sealing"
        yield Named("versions", f"{mistake}, in sealing alone", of, sealed, (slip,))


def keys(of: Exam) -> Iterator[Named]:
    """Keys in each other's place, and D made otherwise."""
    sitting = of.sitting
    masks = (sitting.response_mask, sitting.key_mask)

    def under(d: bytes) -> bytes:
        return RIGHT.sealed_book(of.ring._replace(d=d), of.entries)

    model = values_of(of.keys)
    assert of.keys.session1 and of.keys.session2
    response1, key1 = RIGHT.ta12(of.keys.session2, sitting.rand1, *masks)
    response2, key2 = RIGHT.ta22(of.keys.session1, sitting.rand2, *masks)
    made = {"response 1": response1, "key 1": key1, "response 2": response2, "key 2": key2, "D": xor(key1, key2)}
    slip = "session keys 1 and 2 exchanged in use"
    values = {**model, **made}
    yield Named("keys", "KS and KS' exchanged in use, both right on the sheet", of, under(made["D"]), (slip,), values)
    for slip, session, side, challenge in (
        ("session key 1 in TA22, too", of.keys.session1, "2", sitting.rand2),
        ("session key 2 in TA12, too", of.keys.session2, "1", sitting.rand1),
    ):
        response, key = RIGHT.ta12(session, challenge, *masks)
        d = xor(key, of.keys.key1 if side == "2" else of.keys.key2)
        values = {**model, f"response {side}": response, f"key {side}": key, "D": d}
        yield Named("keys", f"{slip}, both right on the sheet", of, under(d), (slip,), values)
    for sides in (("1",), ("2",), ("1", "2")):
        values = dict(model)
        for side in sides:
            values[f"response {side}"], values[f"key {side}"] = model[f"key {side}"], model[f"response {side}"]
        said = " and ".join(f"response {side} and key {side}" for side in sides)
        slip = f"{said} in each other's lines"
        yield Named("keys", slip, of, of.sealed, (slip,), values)
    one, two = of.keys.key1, of.keys.key2
    for name, d in (
        ("the first half of key 1 and the second of key 2", one[:5] + two[5:]),
        ("the first half of key 2 and the second of key 1", two[:5] + one[5:]),
        ("the first halves of key 1 and key 2", one[:5] + two[:5]),
        ("the second halves of key 1 and key 2", one[5:] + two[5:]),
    ):
        yield Named("keys", f"TB4 as {name}", of, under(d), (f"TB4 as {name}",))

    reversed_d = {**model, "D": of.ring.d[::-1]}
    yield Named("keys", "D reversed, both keys right on the sheet", of, under(of.ring.d[::-1]), ("D reversed",), reversed_d)

    def bl1(work: Working, key: bytes, data: bytes) -> bytes:
        left = work.encrypt(key, data[:8])
        return left + xor(work.encrypt(key, data[8:]), left)

    slip = "BL1's ⊕ after the encryption of the right block"
    yield Named("keys", slip, of, _worked(working({"bl1": bl1}), of)[1], (slip,))


def keys_alone(of: Exam) -> Iterator[Named]:
    """Keys beside a book that can't be read."""
    for name, steps in (
        ("T0 without S", WRONG["T0 without S"]),
        ("D's 1e read as 10", WRONG["D's 1e read as 10"]),
        ("RS for RAND1", WRONG_STEPS["RS for RAND1"]),
        ("masks' bits counted from 1", WRONG_STEPS["masks' bits counted from 1"]),
    ):
        values = values_of(working(steps).recipe(of.sitting))
        yield Named("keys alone", f"{name}, the book not read", of, NO_BOOK, (name,), values)


def pen(of: Exam) -> Iterator[Named]:
    """Digits of what is handed in."""
    record = RIGHT.sealed_record(of.ring, of.entries[4])

    def written(start: int, stop: int, change: Callable[[str], str]) -> bytes:
        part = change(record[start:stop].hex())
        return _with(of, 4, record[:start] + bytes.fromhex(part) + record[stop:])

    digits, identity = record[6:].hex(), record[1:4].hex()
    wrong = _digit(12)(digits)
    note = f"text: one digit differs: {wrong[11]} for {digits[11]} at place 12"
    yield Named("digits", "a digit of a text", of, written(6, 21, _digit(12)), (), note=note)
    at = next(n for n in range(3, 20) if digits[n - 1] != digits[n])
    pair = digits[at - 1 : at + 1]
    note = f"text: two neighbouring digits are exchanged: {pair[::-1]} for {pair} at places {at} and {at + 1}"
    yield Named("digits", "two digits of a text exchanged", of, written(6, 21, _turned(at)), (), note=note)
    wrong = _digit(2)(identity)
    note = f"encrypted identity: one digit differs: {wrong[1]} for {identity[1]} at place 2"
    yield Named("digits", "a digit of an encrypted identity", of, written(1, 4, _digit(2)), (), note=note)
    plain = of.entries[4]
    said = f"{plain.identity:06x}"
    other = plain._replace(identity=int(_digit(5)(said), 16))
    note = f"identity: one digit differs: {_digit(5)(said)[4]} for {said[4]} at place 5"
    book = _with(of, 4, RIGHT.sealed_record(of.ring, other))
    yield Named("digits", "a digit of an identity, sealed so", of, book, (), note=note)
    model = values_of(of.keys)
    digits = model["O"].hex()
    values = {**model, "O": bytes.fromhex(_digit(7)(digits))}
    note = f"one digit differs: {_digit(7)(digits)[6]} for {digits[6]} at place 7"
    yield Named("digits", "a digit of O on the sheet of keys", of, of.sealed, (), values, note=note)


def named() -> Iterator[Named]:
    """All of them."""
    of = exam("both")
    for make in (ciphers, given, identities, steps, versions, keys, keys_alone, pen):
        yield from make(of)
    for one in exams():
        yield from nameless(one)
    for name, at in MISCOPIED_S.items():
        for one in (exam("both"), exam("network"), exam("radio")):
            work = s_working(*at)
            yield Named("cipher's tables", name, one, _worked(work, one)[1], (name,))
