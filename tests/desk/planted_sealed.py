"""Sealed books with planted mistakes."""

from __future__ import annotations

import random
from collections import Counter
from dataclasses import dataclass
from functools import lru_cache
from typing import Callable, Dict, Iterable, Iterator, List, Tuple

from exams import MOST, SEALED, Exam, drawn, exam, exams
from mistakes import Slip, Step, altered, sealing_slips
from reference import Working, records


@dataclass(frozen=True)
class SealedBook:
    """A sealed book that a candidate hands in."""

    name: str
    group: str
    exam: Exam
    slips: Tuple[str, ...]  # the names in mistakes.py, or none
    mistake: str
    book: bytes
    say: str
    alike: Tuple[str, ...] = ()  # slips that give the same book: any of them may be named

    @property
    def right(self) -> int:
        """How many of the model's entries are in it, whatever their order."""
        return right(self.exam.sealed, self.book)


def right(model: bytes, book: bytes) -> int:
    """How many of the model's records are in a book."""
    both = Counter(records(model, SEALED)) & Counter(records(book, SEALED))
    return sum(both.values())


def sealed_with(work: Working, of: Exam) -> bytes:
    """The book of a candidate who works so."""
    return work.sealed_book(work.recipe(of.sitting).ring, of.entries)


@lru_cache(maxsize=None)
def slips() -> Dict[str, Slip]:
    """Every slip of sealing by its name."""
    return {slip.name: slip for group in sealing_slips().values() for slip in group}


@lru_cache(maxsize=None)
def _slipped(name: str) -> Dict[str, bytes]:
    """A sitting's book for each slip that makes a difference there."""
    of = exam(name)
    made = {slip.name: sealed_with(altered(slip), of) for slip in slips().values()}
    return {slip: book for slip, book in made.items() if book != of.sealed}


def slipped_book(name: str, slip: str) -> bytes:
    """The book of a sitting with one slip."""
    return _slipped(name)[slip]


def _counted(of: Exam, book: bytes) -> str:
    return f"{right(of.sealed, book)} of {len(of.entries)} entries right"


def _one_slip(of: Exam) -> Iterator[SealedBook]:
    """Each slip alone, wherever it occurs."""
    books = _slipped(of.name)
    by_book: Dict[bytes, List[str]] = {}
    for name, book in books.items():
        by_book.setdefault(book, []).append(name)
    for group, made in sealing_slips().items():
        for slip in made:
            if slip.name not in books:
                continue
            book = books[slip.name]
            wrong = len(of.entries) - right(of.sealed, book)
            say = f"{_counted(of, book)}; {slip.mistake}: explains {wrong} of {wrong}"
            yield SealedBook(
                f"{of.name}/{slip.name}",
                group,
                of,
                (slip.name,),
                slip.mistake,
                book,
                say,
                tuple(other for other in by_book[book] if other != slip.name),
            )


# Slips made together, each in a part of the book of its own (texts under D, O and G; identities).
TOGETHER = (
    ("ta22-reversed", "rs-for-rso"),
    ("rands-exchanged", "g-x16"),
    ("ta41-reversed", "g-zeros"),
    ("tb4-sum", "ta61-k213"),
    ("exp3-at-end", "identity-plain"),
    ("exp2-xor", "g-x16"),
    ("exp2-xor", "ta61-k132"),
    ("version-once", "identity-inverse"),
    ("exp1-before-in-ta31", "number-high-1"),
    ("d-o-exchanged", "g-x16"),
    ("drop-last", "ta61-k321"),
    ("unchained-in-seals", "ta61-decrypting"),
    ("exp2-for-exp4-in-ta31", "x16-tb7"),
    ("d-key1", "o-for-g"),
    ("rand1-twice", "ta41-reversed", "g-x16"),
    ("ta22-reversed", "rs-for-rso", "g-x16", "ta61-k213"),
)
# Slips made together in the same part: what each gives alone is not there, or only in part.
ENTANGLED = (
    ("exp2-xor", "ta22-reversed"),
    ("exp2-xor", "drop-last"),
    ("version-once", "unchained-in-seals"),
    ("exp3-before", "number-high-3"),
    ("exp3-at-end", "x16-tb7"),
    ("exp3-at-end", "number-little"),
)
# A slip made in some of the entries only.
SOMETIMES: Tuple[Tuple[str, Tuple[int, ...]], ...] = (
    ("version-little", (0, 1, 2)),
    ("exp3-at-end", (1, 8, 17)),
    ("identity-plain", (13,)),
    ("number-high-2", (7,)),
    ("drop-last", (15, 16, 17, 18, 19)),
    ("unchained-in-seals", tuple(range(0, 20, 2))),
    ("kind5-under-o", (8, 16)),
    ("number-little", (2,)),
)


def _several_slips(of: Exam) -> Iterator[SealedBook]:
    """Several slips at once."""
    for group, sets in (("together", TOGETHER), ("entangled", ENTANGLED)):
        for names in sets:
            made = [slips()[name] for name in names]
            book = sealed_with(altered(*made), of)
            mistake = "; ".join(slip.mistake for slip in made)
            say = f"{_counted(of, book)}; each named with the entries that it explains: {mistake}"
            if group == "entangled":
                say = f"{_counted(of, book)}; a slip is named only for entries that it gives alone"
            yield SealedBook(f"{of.name}/{'+'.join(names)}", group, of, names, mistake, book, say)


def _sometimes(of: Exam) -> Iterator[SealedBook]:
    """A slip in some entries."""
    for name, places in SOMETIMES:
        slipped = records(_slipped(of.name)[name], SEALED)
        model = records(of.sealed, SEALED)
        for place in places:
            model[place] = slipped[place]
        book = b"".join(model)
        wrong = len(of.entries) - right(of.sealed, book)
        yield SealedBook(
            f"{of.name}/{name}-sometimes",
            "sometimes",
            of,
            (name,),
            f"{slips()[name].mistake}, in entries {', '.join(map(str, places))}",
            book,
            f"{_counted(of, book)}; {slips()[name].mistake}: explains {wrong} of {wrong}",
        )


def _and_more(of: Exam) -> Iterator[SealedBook]:
    """A slip throughout, and something else that is wrong with the book."""

    def mistyped(book: List[bytes]) -> List[bytes]:
        return book[:1] + [book[1][:-1] + bytes([book[1][-1] ^ 1])] + book[2:]

    changes: Tuple[Tuple[str, str, Callable[[List[bytes]], List[bytes]]], ...] = (
        ("mistyped", "the last digit of entry 1 mistyped as well", mistyped),
        ("backwards", "and the last entry first", lambda book: book[::-1]),
        ("missing", "and entry 2 left out", lambda book: book[:2] + book[3:]),
        ("doubled", "and entry 9 again at the end", lambda book: book + book[9:10]),
    )
    for name in ("exp2-xor", "drop-last", "identity-plain"):
        for change, words, run in changes:
            book = b"".join(run(records(_slipped(of.name)[name], SEALED)))
            mistake = f"{slips()[name].mistake}; {words}"
            say = f"{_counted(of, book)}; both are said: {mistake}"
            yield SealedBook(
                f"{of.name}/{name}-{change}", "and more", of, (name,), mistake, book, say
            )


def _fields(of: Exam) -> Iterator[SealedBook]:
    """An entry rightly sealed with a field that is not the model's, or with wrong redundancy."""
    entries = of.entries

    def planted(name: str, mistake: str, place: int, record: bytes, say: str) -> SealedBook:
        book = records(of.sealed, SEALED)
        book[place] = record
        joined = b"".join(book)
        say = f"{_counted(of, joined)}; entry {place}: {say}"
        return SealedBook(f"{of.name}/{name}", "fields", of, (), mistake, joined, say)

    for name, mistake, place, entry, say in (
        (
            "key-misread",
            "a digit of a key misread",
            0,
            entries[0]._replace(key=bytes([entries[0].key[0] ^ 1]) + entries[0].key[1:]),
            "opens, but to another key",
        ),
        (
            "key-of-next",
            "the next entry's key sealed",
            11,
            entries[11]._replace(key=entries[12].key),
            "opens, but to entry 12's key",
        ),
        (
            "version-misread",
            "a version misread",
            7,
            entries[7]._replace(version=8),
            "the version is 8, not 7; all else fits",
        ),
        (
            "identity-misread",
            "an identity misread",
            2,
            entries[2]._replace(identity=entries[2].identity ^ 0x10),
            "the identity is another; all else fits",
        ),
        (
            "number-misread",
            "a number misread",
            10,
            entries[10]._replace(number=6),
            "opens, but with number 6, not 9",
        ),
    ):
        yield planted(name, mistake, place, altered().sealed_record(of.ring, entry), say)
    for place, byte, check in ((0, 5, 1), (1, 14, 3), (2, 4, 0), (6, 14, 2)):
        work = altered(Slip("", "", {"bl1": miscounted(byte)}))
        yield planted(
            f"redundancy-{place}",
            "one redundancy byte wrongly worked, the key and the rest right",
            place,
            work.sealed_record(of.ring, entries[place]),
            f"seals no key: check {check} fails, and no other",
        )


def miscounted(byte: int) -> Step:
    """BL1 of an input in which one byte is wrong."""
    return lambda work, key, data: Working.bl1(
        work, key, data[:byte] + bytes([data[byte] ^ 0x5A]) + data[byte + 1 :]
    )


def _edited(of: Exam) -> Iterator[SealedBook]:
    """Records that are right in themselves, or nearly, in a wrong book."""
    model = records(of.sealed, SEALED)

    def exchanged(one: int, other: int, start: int, end: int) -> List[bytes]:
        made = list(model)
        for to, source in ((one, other), (other, one)):
            made[to] = model[to][:start] + model[source][start:end] + model[to][end:]
        return made

    def retyped(place: int, nibble: int, change: Callable[[str], str]) -> List[bytes]:
        text = model[place].hex()
        wrong = text[:nibble] + change(text[nibble : nibble + 2]) + text[nibble + 2 :]
        return model[:place] + [bytes.fromhex(wrong)] + model[place + 1 :]

    def planted(name: str, mistake: str, book: Iterable[bytes], say: str) -> SealedBook:
        joined = b"".join(book)
        say = f"{_counted(of, joined)}; {say}"
        return SealedBook(f"{of.name}/{name}", "edited", of, (), mistake, joined, say)

    yield planted("right", "nothing", model, "all right")
    yield planted(
        "texts-exchanged",
        "the texts of two entries of one kind exchanged",
        exchanged(1, 7, 6, 21),
        "the texts of entries 1 and 7 are exchanged",
    )
    yield planted(
        "texts-exchanged-kinds",
        "the texts of two entries of two kinds exchanged",
        exchanged(2, 9, 6, 21),
        "the texts of entries 2 and 9 are exchanged",
    )
    yield planted(
        "identities-exchanged",
        "the identities of two entries exchanged",
        exchanged(3, 5, 1, 4),
        "the identities of entries 3 and 5 are exchanged",
    )
    yield planted(
        "versions-exchanged",
        "the versions of two entries exchanged in their records",
        exchanged(1, 7, 4, 6),
        "the versions of entries 1 and 7 are exchanged",
    )
    texts = [record[6:] for record in model]
    yield planted(
        "texts-shifted",
        "each text in the record of the entry after it",
        (record[:6] + text for record, text in zip(model, texts[-1:] + texts)),
        "the texts stand one entry too late",
    )
    yield planted(
        "text-twice",
        "an entry's text in the next record too",
        model[:5] + [model[5][:6] + texts[4]] + model[6:],
        "entry 5 has entry 4's text",
    )
    other = "all right, in another order"
    by_kind = sorted(model, key=_kind)
    yield planted("order-reversed", "the last entry first, and so on", reversed(model), other)
    yield planted("order-rotated", "the first entry last", model[1:] + model[:1], other)
    yield planted("order-by-kind", "the entries sorted by kind", by_kind, other)
    yield planted(
        "doubled",
        "an entry in another one's place",
        model[:4] + [model[2]] + model[5:],
        "the model's entry 2 again; its entry 4 is missing",
    )
    yield planted(
        "missing", "an entry left out", model[:6] + model[7:], "the model's entry 6 is missing"
    )
    yield planted(
        "missing-last",
        "the last entry left out",
        model[:-1],
        f"the model's entry {len(model) - 1} is missing",
    )
    yield planted(
        "half",
        "only the first half handed in",
        model[: len(model) // 2],
        "the second half is missing",
    )
    yield planted(
        "digit",
        "one digit of a text mistyped",
        retyped(3, 20, _mistyped),
        "entry 3 seals no key, or differs by one digit",
    )
    yield planted(
        "digits-exchanged",
        "two neighbouring digits of a text exchanged",
        retyped(2, _unlike(model[2]), lambda two: two[::-1]),
        "entry 2 seals no key, or differs by two digits",
    )
    yield planted(
        "identity-digit",
        "one digit of an encrypted identity mistyped",
        retyped(1, 4, _mistyped),
        "entry 1: the identity is another, all else is right",
    )
    draw = random.Random(f"edited {of.name}")
    yield planted(
        "random",
        "bytes drawn at random after the kinds",
        (record[:1] + drawn(draw, 20) for record in model),
        "nothing is right and no slip is claimed",
    )
    yield planted("empty", "an empty file", (), "every entry is missing")


def _kind(record: bytes) -> int:
    """A record's kind."""
    return record[0]


def _mistyped(two: str) -> str:
    """Two digits, the first one wrong."""
    return f"{int(two[0], 16) ^ 1:x}{two[1]}"


def _unlike(record: bytes) -> int:
    """A place in a text at which two neighbouring digits differ."""
    text = record.hex()
    return next(place for place in range(12, 41) if text[place] != text[place + 1])


def _extra(of: Exam) -> Iterator[SealedBook]:
    """More records than the model has."""
    model = records(of.sealed, SEALED)
    draw = random.Random(f"extra {of.name}")
    variants = of.sealed + b"".join(_slipped(of.name).values())
    foreign = bytes([2]) + drawn(draw, 20)
    for name, mistake, book in (
        ("extra-repeated", "an entry once more at the end", of.sealed + model[0]),
        ("extra-foreign", "a record of no entry at the end", of.sealed + foreign),
        ("extra-in-front", "a record of no entry in front", foreign + of.sealed),
        ("extra-twice", "every entry twice", of.sealed * 2),
        ("extra-variants", "every entry right, and in every variant", variants[: MOST * SEALED]),
        ("extra-1025", "1,025 records, more than a book may have", _repeated(variants, MOST + 1)),
    ):
        more = len(book) // SEALED - len(model)
        say = f"{_counted(of, book)}, but {more} records are extra, which is said first and costs"
        yield SealedBook(f"{of.name}/{name}", "extra", of, (), mistake, book, say)


def _repeated(book: bytes, count: int) -> bytes:
    """A book's records again and again, so many."""
    size = count * SEALED
    return (book * (size // len(book) + 1))[:size]


def sealed_books() -> Iterator[SealedBook]:
    """Every planted sealed book. Several slips and edited records are in the sitting "both"."""
    for of in exams():
        yield from _one_slip(of)
    of = exam("both")
    yield from _several_slips(of)
    yield from _sometimes(of)
    yield from _and_more(of)
    yield from _fields(of)
    yield from _edited(of)
    yield from _extra(of)
