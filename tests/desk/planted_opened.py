"""What candidates opened from a sealed book that was handed out, with planted mistakes.

Some entries of the handed-out book have their flag set. A candidate writes lines, `entry I flag`
where the flag is set, or a plain book's bytes, which can't say it.
"""

from __future__ import annotations

from dataclasses import dataclass
from functools import lru_cache
from typing import Any, Callable, Dict, Iterator, List, NamedTuple, Optional, Sequence, Tuple

from exams import RIGHT, SEALED, Exam, exam, line
from mistakes import Slip, Step, altered, slip
from planted_sealed import miscounted, slips
from reference import Entry, Unsealed, Working, groups, plain_book, records, xor

# A candidate's answer to each entry: what was opened, or None for "flag".
Answers = Dict[int, Optional[Entry]]


@dataclass(frozen=True)
class OpenedBook:
    """What a candidate hands in of a sealed book."""

    name: str
    group: str
    exam: Exam
    sealed: bytes  # what was handed out
    slips: Tuple[str, ...]
    mistake: str
    handed: bytes  # a file's contents: lines, or a plain book's bytes
    right: int  # entries right: opened and so written, or flagged and so said
    missed: int  # flags missed: a line has an entry where the flag is set
    invented: int  # flags invented: "flag" is written where it is clear
    say: str


class HandedOut(NamedTuple):
    """A sealed book with flags set in it, and what it opens to."""

    exam: Exam
    sealed: bytes
    truth: Answers
    behind: List[Tuple[Entry, int]]  # each entry as it unseals, and its failed checks


# The book with damaged entries


def _damaged(of: Exam) -> bytes:
    """The model's sealed book with entries 1, 3, 4, 6, 8, 10 and 15 damaged."""
    made = records(of.sealed, SEALED)

    def resealed(place: int, **steps: Step) -> bytes:
        return altered(Slip("", "", steps)).sealed_record(of.ring, of.entries[place])

    def high(bits: int) -> Step:
        return lambda _, number: bits | number

    made[1] = resealed(1, number_byte=high(0x20))
    made[3] = resealed(3, number_byte=high(0xE0))
    made[4] = resealed(4, bl1=miscounted(8))
    made[6] = made[6][:12] + bytes([made[6][12] ^ 0x10]) + made[6][13:]
    made[8] = resealed(8, bl1=miscounted(14))
    made[10] = resealed(10, bl1=miscounted(14))
    made[15] = made[15][:4] + b"\x9c\x41" + made[15][6:]
    return b"".join(made)


@lru_cache(maxsize=None)
def handed_out(name: str, damage: bool) -> HandedOut:
    """A sitting's sealed book, whole or with damaged entries."""
    of = exam(name)
    sealed = _damaged(of) if damage else of.sealed
    behind = [RIGHT.open_record(of.ring, record) for record in records(sealed, SEALED)]
    return HandedOut(of, sealed, _flagging(behind), behind)


# Slips of opening


def _put(place: int) -> Step:
    """The zero byte put back at another place from the left."""
    return lambda _, text: text[:place] + b"\0" + text[place:]


def _bl2(
    restore: Callable[[bytes, bytes], bytes], right: Callable[[bytes, bytes, bytes], bytes]
) -> Step:
    """BL2 with another left block to decrypt, or with another right output."""

    def run(work: Working, key: bytes, data: bytes) -> bytes:
        left, opened = data[:8], work.decrypt(key, data[8:])
        first = work.decrypt(key, restore(left, opened))
        return first + right(left, opened, first)

    return run


def _restored(left: bytes, opened: bytes) -> bytes:
    return left[:7] + xor(left[7:], opened[7:])


def _chained(left: bytes, opened: bytes, first: bytes) -> bytes:
    return xor(left[:7], opened[:7])


def _encrypting(work: Working, key: bytes, data: bytes) -> bytes:
    """BL2 with encryption for decryption."""
    left, opened = data[:8], work.encrypt(key, data[8:])
    return work.encrypt(key, _restored(left, opened)) + xor(left[:7], opened[:7])


def _first_bytes(_: Working, opened: bytes, sizes: Sequence[int]) -> Tuple[bytes, List[bool]]:
    """The first bytes for the key, the inserted ones among them; the checks are right."""
    right = Working().parts(opened, sizes)
    return opened[: len(right[0])], right[1]


def _summed(_: Working, opened: bytes, sizes: Sequence[int]) -> Tuple[bytes, List[bool]]:
    """Sums where the checks want ⊕."""
    parts = groups(opened, [size + 1 for size in sizes])
    wrong = [sum(part[:-1]) % 256 != part[-1] for part in parts]
    return b"".join(part[:-1] for part in parts), wrong


def _last_byte(work: Working, text: bytes, under: bytes, version: int) -> Unsealed:
    """Kind 2's number from the last byte, which is an inserted one."""
    opened = work.unseal(work.long_core_key(under, version), text)
    return Working.ta52(work, text, under, version)._replace(number=opened[14] & 31)


def _turned(work: Working, text: bytes, under: bytes, version: int) -> Unsealed:
    made = Working.ta82(work, text, under, version)
    turned = int.from_bytes((made.number or 0).to_bytes(2, "big"), "little")
    return made._replace(number=turned)


def _opening() -> List[Slip]:
    """Slips that only opening has."""
    return [
        slip("zero-at-end", "the zero byte put back at the end instead of at byte 8", put_back=_put(15)),
        slip("zero-in-front", "the zero byte put back in front instead of at byte 8", put_back=_put(0)),
        slip("zero-at-7", "the zero byte put back at byte 7, one too far right", put_back=_put(8)),
        slip(
            "three-bits",
            "kinds 2 and 5 checked without the three zero bits",
            high_bits_fail=lambda _, byte: False,
        ),
        slip(
            "whole-byte",
            "the whole number byte as the number, its three bits unchecked",
            high_bits_fail=lambda _, byte: False,
            number_of=lambda _, byte: byte,
        ),
        slip(
            "bl2-unchained",
            "BL2's right output not ⊕ the left input",
            bl2=_bl2(_restored, lambda left, opened, first: opened[:7]),
        ),
        slip(
            "bl2-blocks-alone",
            "each of BL2's blocks decrypted by itself, with no ⊕ at all",
            bl2=_bl2(lambda left, opened: left, lambda left, opened, first: opened[:7]),
        ),
        slip(
            "bl2-unrestored",
            "BL2's left block decrypted with the zero byte in it",
            bl2=_bl2(lambda left, opened: left, _chained),
        ),
        slip(
            "bl2-all-restored",
            "BL2's left block ⊕ all eight bytes of the right one",
            bl2=_bl2(xor, _chained),
        ),
        slip(
            "bl2-output-chained",
            "BL2's right output ⊕ the left output, not the left input",
            bl2=_bl2(_restored, lambda left, opened, first: xor(first[:7], opened[:7])),
        ),
        slip("bl2-encrypting", "encryption for decryption in BL2", bl2=_encrypting),
        slip(
            "bl1-for-bl2",
            "BL1 for BL2",
            bl2=lambda work, key, data: work.bl1(key, data)[:15],
        ),
        slip("first-bytes", "the first bytes for the key, redundancy left in", parts=_first_bytes),
        slip("sums-checked", "the redundancy checked as sums", parts=_summed),
        slip("number-last-byte", "the number from the last byte (kinds 2, 5)", ta52=_last_byte),
        slip("number-bytes-turned", "the number's bytes exchanged (kinds 3, 6)", ta82=_turned),
        slip(
            "identity-kept",
            "identities left encrypted",
            ta61_inverse=lambda _, key, identity: identity,
        ),
        slip(
            "identity-again",
            "identities encrypted again, not decrypted",
            ta61_inverse=lambda work, key, identity: work.ta61(key, identity),
        ),
    ]


# Slips that sealing has too.
SHARED = (
    "version-once",
    "version-little",
    "version-omitted",
    "version-behind-exp4",
    "exp2-for-exp4-in-ta31",
    "exp4-outermost-in-ta31",
    "exp2-xor",
    "ta22-reversed",
    "tb4-sum",
    "rs-for-rso",
    "g-x16",
    "d-o-exchanged",
    "d-o-exchanged-zeros",
    "o-for-g",
    "ta61-k213",
    "ta61-k321",
)


@lru_cache(maxsize=None)
def opening_slips() -> Dict[str, Slip]:
    """Every slip of opening by its name."""
    made = _opening() + [slips()[name] for name in SHARED]
    return {one.name: one for one in made}


def opened_with(work: Working, out: HandedOut) -> List[Tuple[Entry, int]]:
    """What a candidate who works so gets of each record, with the failed checks."""
    ring = work.recipe(out.exam.sitting).ring
    return [work.open_record(ring, record) for record in records(out.sealed, SEALED)]


# What is handed in


def written(answers: Answers) -> bytes:
    """Answers in lines."""
    text = "".join(
        f"entry {place} flag\n" if entry is None else line(place, entry)
        for place, entry in answers.items()
    )
    return (text + f"entries {len(answers)}\n").encode()


def planted(
    out: HandedOut, name: str, group: str, mistake: str, answers: Answers, say: str, **more: Any
) -> OpenedBook:
    """A planted book, counted. The answers are written in lines unless `handed` is given."""
    both = [(answers[place], wanted) for place, wanted in out.truth.items() if place in answers]
    right = sum(got == wanted for got, wanted in both)
    return OpenedBook(
        name=f"{out.exam.name}/{name}",
        group=group,
        exam=out.exam,
        sealed=out.sealed,
        slips=more.get("slips", ()),
        mistake=mistake,
        handed=more.get("handed", written(answers)),
        right=right,
        missed=sum(wanted is None and got is not None for got, wanted in both)
        * (group != "bytes"),
        invented=sum(wanted is not None and got is None for got, wanted in both),
        say=f"{right} of {len(out.truth)} entries right; {say}",
    )


def _flagging(got: List[Tuple[Entry, int]]) -> Answers:
    """The answers of a candidate who writes "flag" where the checks fail."""
    return {place: None if failed else entry for place, (entry, failed) in enumerate(got)}


def _silent(got: List[Tuple[Entry, int]]) -> Answers:
    """The answers of a candidate who never does."""
    return {place: entry for place, (entry, _) in enumerate(got)}


def _slipped(out: HandedOut) -> Iterator[OpenedBook]:
    """Each slip, by a candidate who writes flags and by one who doesn't."""
    only_flags: Dict[bytes, Tuple[Answers, List[str]]] = {}
    for one in opening_slips().values():
        got = opened_with(altered(one), out)
        flagging, silent = _flagging(got), _silent(got)
        wrong = {place for place, entry in flagging.items() if entry != out.truth[place]}
        if any(flagging[place] for place in wrong):
            yield planted(
                out, one.name, "flagging", one.mistake, flagging, one.mistake, slips=(one.name,)
            )
        elif wrong:
            only_flags.setdefault(written(flagging), (flagging, []))[1].append(one.name)
        if silent not in (flagging, _silent(out.behind)):
            yield planted(
                out,
                f"{one.name}-no-flags",
                "no flags",
                f"{one.mistake}; no flag written",
                silent,
                f"{one.mistake}; flags are missed where there are any",
                slips=(one.name,),
            )
    for answers, names in only_flags.values():
        yield planted(
            out,
            f"{names[0]}-flags",
            "only flags",
            f"flags where a slip makes the checks fail: {', '.join(names)}",
            answers,
            "flags invented; from flags alone none of these slips can be told from the others",
            slips=tuple(names),
        )


def _edited(out: HandedOut) -> Iterator[OpenedBook]:
    """The right working, wrongly written."""
    truth = out.truth
    places = list(truth)
    clear = [place for place in places if truth[place] is not None]
    flagged = [place for place in places if truth[place] is None]

    def changed(place: int, **fields: Any) -> Answers:
        entry = truth[place]
        assert entry is not None
        return {**truth, place: entry._replace(**fields)}

    def of(place: int) -> Entry:
        entry = truth[place]
        assert entry is not None
        return entry

    def plant(name: str, mistake: str, answers: Answers, say: str, **more: Any) -> OpenedBook:
        return planted(out, name, "edited", mistake, answers, say, **more)

    behind = _silent(out.behind)
    one, other = clear[0], clear[1]
    yield plant("right", "nothing", truth, "all right")
    yield plant(
        "flags-missed",
        "no flag written, the entries as they unseal",
        behind,
        f"{len(flagged)} flags missed",
    )
    yield plant(
        "flag-missed-once",
        "one flag missed",
        {**truth, flagged[0]: behind[flagged[0]]},
        f"the flag of entry {flagged[0]} is missed",
    )
    yield plant(
        "flags-invented",
        "two flags invented",
        {**truth, one: None, other: None},
        f"the flags of entries {one} and {other} are invented",
    )
    yield plant(
        "stopped",
        "nothing opened after the first flag",
        {place: truth[place] for place in places if place <= flagged[0]},
        f"the entries after entry {flagged[0]} are missing",
    )
    yield plant(
        "flags-only-behind",
        "every entry after the first flag flagged",
        {place: truth[place] if place < flagged[0] else None for place in places},
        "flags invented",
    )
    yield plant(
        "flags-left-out",
        "flagged entries left out, without a word",
        {place: truth[place] for place in clear},
        f"{len(flagged)} entries missing, whose flag is set",
    )
    nothing = "flags invented, nothing opened"
    yield plant("all-flagged", "every entry flagged", dict.fromkeys(places), nothing)
    yield plant(
        "version-wrong",
        "a version copied wrongly",
        changed(one, version=of(one).version ^ 2),
        f"entry {one}: the version is wrong, all else is right",
    )
    yield plant(
        "identity-wrong",
        "a digit of an identity wrong",
        changed(one, identity=of(one).identity ^ 0x100),
        f"entry {one}: the identity is wrong, all else is right",
    )
    yield plant(
        "key-digit",
        "a digit of a key wrong",
        changed(other, key=bytes([of(other).key[0] ^ 1]) + of(other).key[1:]),
        f"entry {other}: the key is wrong, all else is right",
    )
    numbered = next(place for place in clear if of(place).kind in (3, 6))
    yield plant(
        "number-wrong",
        "a number wrong by one",
        changed(numbered, number=(of(numbered).number or 0) ^ 1),
        f"entry {numbered}: the number is wrong, all else is right",
    )
    yield plant(
        "keys-exchanged",
        "the keys of two entries exchanged",
        {**changed(one, key=of(other).key), other: of(other)._replace(key=of(one).key)},
        f"the keys of entries {one} and {other} are exchanged",
    )
    yield plant(
        "entry-missing",
        "an entry left out",
        {place: truth[place] for place in places if place != one},
        f"entry {one} is missing",
    )
    backwards = {place: truth[place] for place in reversed(places)}
    yield plant("lines-reversed", "the last line first, and so on", backwards, "all right")
    lines = written(truth).decode()
    yield plant(
        "counted-from-1",
        "entries counted from 1, not from 0",
        truth,
        "the lines are numbered one too high: said, whether it costs or not",
        handed=written({place + 1: truth[place] for place in places}),
    )
    yield plant(
        "upper-case", "lines in capital letters", truth, "read alike", handed=lines.upper().encode()
    )
    yield plant(
        "crlf",
        "lines with 0d 0a ends",
        truth,
        "read alike",
        handed=lines.replace("\n", "\r\n").encode(),
    )
    yield plant(
        "byte-order-mark",
        "lines with a byte order mark",
        truth,
        "read alike",
        handed=b"\xef\xbb\xbf" + lines.encode(),
    )
    yield plant("utf-16", "lines in UTF-16", truth, "read alike", handed=lines.encode("utf-16"))


def _in_bytes(out: HandedOut) -> Iterator[OpenedBook]:
    """A plain book's bytes, which can't say "flag"."""
    behind = _silent(out.behind)
    clear = {place: entry for place, entry in out.truth.items() if entry is not None}

    def plant(name: str, mistake: str, answers: Answers, handed: bytes, say: str) -> OpenedBook:
        return planted(out, name, "bytes", mistake, answers, say, handed=handed)

    whole = plain_book(entry for entry, _ in out.behind)
    said = "bytes can't say a flag"
    yield plant("bytes", "a plain book, flagged entries as they unseal", behind, whole, said)
    yield plant(
        "bytes-hex",
        "a plain book in hexadecimal, a record a line",
        behind,
        "".join(record.hex() + "\n" for record in records(whole, 18)).encode(),
        said,
    )
    yield plant(
        "bytes-left-out",
        "a plain book without the flagged entries",
        dict(clear),
        plain_book(clear.values()),
        f"{said}; the flagged entries are missing",
    )
    zeros = b"".join(
        bytes(18) if entry is None else plain_book([entry]) for entry in out.truth.values()
    )
    yield plant(
        "bytes-zeros",
        "a plain book, zeros for the flagged entries",
        dict(clear),
        zeros,
        f"{said}; records of zeros are no entries",
    )
    yield plant(
        "bytes-sealed",
        "the sealed book itself handed back",
        {},
        out.sealed,
        "not marked, or nothing right: this is the book that was handed out",
    )


def opened_books() -> Iterator[OpenedBook]:
    """Every planted opened book."""
    out = handed_out("both", True)
    yield from _slipped(out)
    yield from _slipped(handed_out("network", False))
    yield from _edited(out)
    yield from _in_bytes(out)
