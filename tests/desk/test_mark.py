"""Marking: planted slips, each found, and what else can be wrong with a book."""

from __future__ import annotations

import json
import random
import re
import time
import unittest
from typing import Any
from unittest import mock

from common import CLASS, DESK, ENTRIES, PLAIN_BOOK, ROOT, Case, book_sheet, here, ring_for, taa1
from common import SITTING as SAMPLE
from common import seal as sealed_under
from taa1 import Sitting
from taa1.binding import Binding
from taa1_desk.command.inputs import read_sitting
from taa1_desk.marking.clauses import STEPS
from taa1_desk.marking.sealed import SealedMarker
from taa1_desk.marking.slipped import work
from taa1_desk.marking.slips import SLIPS, slips_of
from taa1_desk.reading.sittings import sitting_bytes
from taa1_desk.records import KINDS, SEALED, Entry, split
from taa1_desk.sheet import Sheet

# The sample's masks are the same from either end.
SITTING = SAMPLE._replace(response_mask=0x1221, key_mask=0x4DDE)
RING = ring_for(SITTING)
MARKER = SealedMarker(DESK, SITTING, RING, PLAIN_BOOK)
MODEL = MARKER.model

# Exchanged masks make a D of four bytes, and no book; with both sides, the other is no slip.
NO_BOOK = {"masks exchanged", "both sides for one"}
NO_BOOK |= {f"{value}s 1 and 2 exchanged" for value in ("session key", "response", "key")}
LINES = {side: f"response {side} and key {side}" for side in (1, 2)}
NO_BOOK |= {f"{which} in each other's lines" for which in (*LINES.values(), " and ".join(LINES.values()))}


def seal(sitting: Sitting = SITTING, plain: bytes = PLAIN_BOOK) -> bytes:
    return sealed_under(sitting, plain)


def swapped(number: int) -> int:
    return int.from_bytes(number.to_bytes(2, "little"), "big")


def book(entries: list[Entry]) -> bytes:
    return b"".join(entry.data for entry in entries)


def sealed_with(**inputs: object) -> bytes:
    """The model's book under a sitting with other inputs."""
    return seal(SITTING._replace(**inputs))  # type: ignore[arg-type]


def under(**keys: bytes) -> bytes:
    """The model's book under a ring with other keys."""
    sealed: bytes = DESK.call("seal_book", RING._replace(**keys).data, PLAIN_BOOK)["out"]
    return sealed


def with_kinds(**kinds: int) -> bytes:
    """The model's book with kinds taken for others."""
    taken = {int(old[1:]): new for old, new in kinds.items()}
    return seal(plain=book([e._replace(kind=taken.get(e.kind, e.kind)) for e in ENTRIES]))


def d_from(call1: str, call2: str) -> bytes:
    """D with session keys from these calls."""
    s = SITTING
    masks = (s.response_mask, s.key_mask)
    one = DESK.call("ta12", DESK.call(call1, s.root, s.rs)["bytes"], s.rand1, *masks)["key"]
    two = DESK.call("ta22", DESK.call(call2, s.root, s.rs)["bytes"], s.rand2, *masks)["key"]
    return bytes(a ^ b for a, b in zip(one, two))


def reversed_bits(mask: int) -> int:
    return sum(1 << 15 - i for i in range(16) if mask >> i & 1)


# Books as candidates would have made them, worked apart from the table of slips: for
# each the slip's name.
S = SITTING
PLANTED: dict[str, bytes] = {
    "RAND1 and RAND2 exchanged": sealed_with(rand1=S.rand2, rand2=S.rand1),
    "RAND1 for RAND2": sealed_with(rand2=S.rand1),
    "RAND2 for RAND1": sealed_with(rand1=S.rand2),
    "TA12's challenge reversed (RAND1)": sealed_with(rand1=S.rand1[::-1]),
    "TA22's challenge reversed (RAND2)": sealed_with(rand2=S.rand2[::-1]),
    "RS and RSO exchanged": sealed_with(rs=S.rso, rso=S.rs),
    "RS for RSO": sealed_with(rso=S.rs),
    "RSO for RS": sealed_with(rs=S.rso),
    "RS reversed": sealed_with(rs=S.rs[::-1]),
    "RSO reversed": sealed_with(rso=S.rso[::-1]),
    "root reversed": sealed_with(root=S.root[::-1]),
    "C reversed": sealed_with(c=S.c[::-1]),
    "group key reversed": sealed_with(group_key=S.group_key[::-1]),
    "TA12 alone": sealed_with(sides=1),
    "TA22 alone": sealed_with(sides=2),
    "bytes of the masks exchanged": sealed_with(
        response_mask=swapped(S.response_mask), key_mask=swapped(S.key_mask)
    ),
    "masks counted from the left": sealed_with(
        response_mask=reversed_bits(S.response_mask), key_mask=reversed_bits(S.key_mask)
    ),
    "TA11 for TA21": under(d=d_from("ta11", "ta11")),
    "TA21 for TA11": under(d=d_from("ta21", "ta21")),
    "C for D": under(d=RING.c),
    "D for C": under(c=RING.d),
    "C and D exchanged": under(c=RING.d, d=RING.c),
    "O for G": under(g=RING.o),
    "G for O": under(o=RING.g),
    "G and O exchanged": under(g=RING.o, o=RING.g),
    "group key filled with zeros for its TB7 form": under(g=bytes(S.group_key) + bytes(4)),
    "root for O": under(o=S.root),
    "kind 2 for kind 5": with_kinds(k5=2),
    "kind 5 for kind 2": with_kinds(k2=5),
    "kind 3 for kind 6": with_kinds(k6=3),
    "kind 6 for kind 3": with_kinds(k3=6),
    "kind 3 for kind 2": with_kinds(k2=3),
    "kind 6 for kind 5": with_kinds(k5=6),
    "bytes of the version exchanged": seal(
        plain=book([e._replace(version=swapped(e.version)) for e in ENTRIES])
    ),
    "key reversed": seal(plain=book([e._replace(key=e.key[::-1]) for e in ENTRIES])),
    "text reversed": b"".join(r[:6] + r[6:][::-1] for r in MODEL),
    "identity not encrypted": b"".join(
        r[:1] + e.data[1:4] + r[4:] for r, e in zip(MODEL, ENTRIES)
    ),
    "encrypted identity reversed": b"".join(r[:1] + r[1:4][::-1] + r[4:] for r in MODEL),
    "kind 3 for kind 4": b"".join(b"\3" + r[1:] if r[0] == 4 else r for r in MODEL),
    "kind 4 for kind 3": b"".join(b"\4" + r[1:] if r[0] == 3 else r for r in MODEL),
}


def single(kind: int, call: str, sealing_key: bytes, *more: str, **fields: object) -> bytes:
    """The model's book, where the texts of a kind are from a single call."""
    made = b""
    for record, entry in zip(MODEL, ENTRIES):
        if entry.kind == kind:
            entry = entry._replace(**fields)  # type: ignore[arg-type]
            number = [entry.number] if "number" in more else []
            text = DESK.call(call, entry.key, entry.version, sealing_key, *number)["bytes"]
            record = record[:6] + text
        made += record
    return made


PLANTED.update(
    {
        "D for O or G, by TA31": single(2, "ta31", RING.d),
        "TA81 for TA51": single(5, "ta81", RING.g, "number"),
        "version left out in sealing": single(4, "ta91", RING.o, version=0),
        "number left out": seal(
            plain=book([e._replace(number=0) if e.kind == 6 else e for e in ENTRIES])
        ),
    }
)


def records_of(sheet: Sheet, state: str) -> list[int]:
    return [entry.index for entry in sheet.entries if entry.state == state]


class Slips(unittest.TestCase):
    """Each slip is found by what it does."""

    def test_table(self) -> None:
        """A name each; every slip alters an entry of the model, but for those that can't."""
        names = [slip.name for slip in SLIPS]
        self.assertEqual(len(set(names)), len(names))
        for slip in SLIPS:
            self.assertLessEqual(set(slip.altered), {*STEPS, "keys"}, slip.name)
            if slip.step_in(3) not in (*STEPS.values(), slip.at):  # several steps that take an input
                self.assertTrue(slip.inputs, slip.name)
                steps = {name for name, _ in STEPS.values()}
                self.assertLessEqual(set(re.split(", | and ", slip.step_in(3)[0])), steps, slip.name)
        worked = {each.slip.name: each for each in work(DESK, SITTING, PLAIN_BOOK)}
        self.assertEqual(list(worked), names)
        self.assertEqual({name for name, each in worked.items() if not each.records}, NO_BOOK)
        self.assertTrue(worked["masks exchanged"].keys)
        one_side = S._replace(sides=1)
        one_sided = {each.slip.name: each for each in work(DESK, one_side, PLAIN_BOOK)}
        self.assertTrue(one_sided["both sides for one"].records)

    def test_one_side(self) -> None:
        """Where one side runs, slips and their steps name its algorithms alone."""
        for sides, derives, answers, others in ((1, "TA11", "TA12", "TA2"), (2, "TA21", "TA22", "TA1")):
            same = "TA21 for TA11" if sides == 1 else "TA11 for TA21"
            sitting = SITTING._replace(sides=sides)
            marker = SealedMarker(DESK, sitting, ring_for(sitting), PLAIN_BOOK)
            (slip,) = book_sheet(marker, "a", seal(sitting._replace(rs=SITTING.rs[::-1]))).slips
            self.assertEqual({slip.name, *slip.others}, {"RS reversed", same})
            steps = {each.name: each.step_in(sides) for each in slips_of(sitting)}
            self.assertEqual(steps["RS reversed"], (derives, f"5.6.{sides}"))
            clause = "5.6.1" if sides == 1 else "5.6"
            self.assertEqual(steps["root reversed"], (f"{derives} and TA41", clause))
            name = "EXP2's last byte as ⊕, in {} alone"
            self.assertIn(name.format(f"{derives} and TA41"), steps)
            self.assertIn(name.format(answers), steps)
            limited = [each for each in steps if each.endswith(" alone") and f" in {others}" in each]
            self.assertEqual(limited, [])

    def test_versions_exchanged(self) -> None:
        """Two entries' versions exchanged, in the records alone or in sealing, too."""
        one, two = ENTRIES[4], ENTRIES[7]
        self.assertNotEqual(one.version, two.version)
        sealed = list(ENTRIES)
        sealed[4], sealed[7] = one._replace(version=two.version), two._replace(version=one.version)
        written = list(MODEL)
        written[4], written[7] = (
            MODEL[at][:4] + MODEL[other][4:6] + MODEL[at][6:] for at, other in ((4, 7), (7, 4))
        )
        for records in (seal(plain=book(sealed)), b"".join(written)):
            (slip,) = book_sheet(MARKER, "a", records).slips
            self.assertEqual((slip.name, slip.entries), ("two entries' versions exchanged", (4, 7)))

    def test_clauses(self) -> None:
        """A slip's step stands in the clauses of the algorithms in which it shows."""
        slip = next(each for each in SLIPS if each.name == "number before the key")
        worked = next(each for each in work(DESK, SITTING, PLAIN_BOOK) if each.slip is slip)
        for kinds, clause in (
            ((2, 5), "5.10.1"),
            ((3,), "5.14.1"),
            ((6,), "5.14.1"),
            ((2, 3), "5.10.1 and 5.14.1"),
        ):
            book = [
                worked.records[at] if entry.kind in kinds else MODEL[at]
                for at, entry in enumerate(ENTRIES)
            ]
            (found,) = book_sheet(MARKER, "a", b"".join(book)).slips
            self.assertEqual((found.name, found.step), (slip.name, ("key and number joined", clause)))

    def test_planted(self) -> None:
        """Books worked apart from the table: the slip explains every wrong entry."""
        for name, sealed in PLANTED.items():
            with self.subTest(name):
                sheet = book_sheet(MARKER, name, sealed)
                wrong = records_of(sheet, "wrong")
                self.assertTrue(wrong)
                self.assertEqual(len(wrong) + sheet.right, len(MODEL))
                self.assertEqual(len(sheet.slips), 1)
                slip = sheet.slips[0]
                self.assertIn(name, (slip.name, *slip.others))
                self.assertEqual(list(slip.entries), wrong)

    def test_worked(self) -> None:
        """So does every slip of the table in the book that it makes."""
        for each in work(DESK, SITTING, PLAIN_BOOK):
            if not each.records:
                continue
            with self.subTest(each.slip.name):
                sealed = b"".join(each.records.get(i, record) for i, record in enumerate(MODEL))
                sheet = book_sheet(MARKER, "book", sealed)
                named = {name for slip in sheet.slips for name in (slip.name, *slip.others)}
                self.assertIn(each.slip.name, named)
                explained = sorted(i for slip in sheet.slips for i in slip.entries)
                self.assertEqual(explained, sorted(each.records))

    def test_two_slips(self) -> None:
        """Two slips in different entries are both named."""
        one, other = (split(PLANTED[name], SEALED) for name in ("RSO reversed", "kind 2 for kind 5"))
        mixed = [b if entry.kind == 5 else a for entry, a, b in zip(ENTRIES, one, other)]
        sheet = book_sheet(MARKER, "book", b"".join(mixed))
        self.assertEqual(
            [(slip.name, len(slip.entries)) for slip in sheet.slips],
            [("RSO reversed", 6), ("kind 2 for kind 5", 2)],
        )

    def test_one_identity(self) -> None:
        """A model of one radio's entries: texts show which entry is meant, wherever it stands."""
        plain = book([entry._replace(identity=0x00A001) for entry in ENTRIES])
        marker = SealedMarker(DESK, SITTING, RING, plain)
        slipped = split(seal(SITTING._replace(rso=SITTING.rs), plain), SEALED)
        sheet = book_sheet(marker, "book", b"".join(slipped[1:]))
        self.assertEqual((sheet.right, sheet.missing), (5, (0,)))
        self.assertEqual([(s.name, len(s.entries)) for s in sheet.slips], [("RS for RSO", 6)])

    def test_the_likelier(self) -> None:
        """RS for RSO leaves D right, and RS and RSO exchanged would not."""
        sheet = book_sheet(MARKER, "book", PLANTED["RS for RSO"])
        self.assertEqual([(s.name, s.others) for s in sheet.slips], [("RS for RSO", ())])


class Books(unittest.TestCase):
    """What else can be wrong."""

    def mark(self, records: list[bytes], left: bytes = b"") -> Sheet:
        return book_sheet(MARKER, "book", b"".join(records) + left)

    def test_right(self) -> None:
        sheet = self.mark(MODEL)
        self.assertTrue(sheet.perfect)
        self.assertEqual((sheet.right, sheet.size, sheet.refused), (12, 12, None))

    def test_order(self) -> None:
        """Whatever the order, all entries are right, and the book opens."""
        shuffled = MODEL[:]
        draw = random.Random(1)
        for _ in range(20):
            draw.shuffle(shuffled)
            sheet = self.mark(shuffled)
            self.assertEqual((sheet.right, sheet.refused, sheet.missing), (12, None, ()))
            self.assertEqual(
                [entry.model for entry in sheet.entries], [MODEL.index(r) for r in shuffled]
            )
        moved = self.mark([MODEL[11], *MODEL[:11]])
        self.assertEqual([entry.index for entry in moved.entries if entry.moved], [0])
        self.assertTrue(moved.perfect)

    def test_missing(self) -> None:
        """The entries after a missing one are not in another order."""
        sheet = self.mark(MODEL[:3] + MODEL[4:])
        self.assertEqual((sheet.right, sheet.missing, sheet.perfect), (11, (3,), False))
        self.assertFalse(any(entry.moved for entry in sheet.entries))
        nothing = self.mark([])
        self.assertEqual((nothing.right, len(nothing.missing), nothing.refused), (0, 12, None))

    def test_doubled_and_extra(self) -> None:
        other = seal(plain=ENTRIES[0]._replace(identity=1, version=9, key=bytes(10)).data)
        sheet = self.mark([*MODEL, MODEL[4], other])
        self.assertEqual((sheet.right, sheet.missing), (12, ()))
        self.assertEqual([(e.state, e.model) for e in sheet.entries[12:]], [("doubled", 4), ("extra", None)])
        self.assertFalse(sheet.perfect)

    def test_wrong_in_place(self) -> None:
        """A text that is another entry's is wrong in its own entry's place, not a further
        attempt, where the identity, or kind and version, are that entry's."""
        identity = MODEL[9][:4] + MODEL[0][4:]
        head = MODEL[9][:1] + bytes(3) + MODEL[9][4:6] + MODEL[0][6:]
        for record in (identity, head):
            sheet = self.mark([*MODEL[:9], record, *MODEL[10:]])
            self.assertEqual((sheet.entries[9].state, sheet.entries[9].model), ("wrong", 9))
            self.assertEqual((sheet.extra, sheet.missing), (0, ()))

    def test_alike_entries(self) -> None:
        """A model that has an entry twice wants it twice."""
        plain = ENTRIES[0].data * 2 + ENTRIES[1].data
        marker = SealedMarker(DESK, SITTING, RING, plain)
        records = split(seal(plain=plain), SEALED)
        self.assertTrue(book_sheet(marker, "book", b"".join(records[::-1])).perfect)
        self.assertEqual(book_sheet(marker, "book", b"".join(records[1:])).missing, (1,))
        third = book_sheet(marker, "book", b"".join([*records, records[0]]))
        self.assertEqual(records_of(third, "doubled"), [3])

    def test_fields(self) -> None:
        """Each field that differs is named, with what it has and what it should have."""
        for at, field, value in (
            (2, "identity", 0x123456),
            (3, "version", 8),
            (4, "key", bytes(10)),
            (8, "number", 7),
            (6, "key", bytes(12)),
        ):
            entry = ENTRIES[at]._replace(**{field: value})  # type: ignore[arg-type]
            record = split(seal(plain=entry.data), SEALED)[0]
            sheet = self.mark([*MODEL[:at], record, *MODEL[at + 1 :]])
            self.assertEqual((sheet.right, records_of(sheet, "wrong")), (11, [at]))
            differences = sheet.entries[at].differences
            self.assertEqual([difference.field for difference in differences], [field])
            self.assertIsNone(sheet.refused)

    def test_checks(self) -> None:
        """An altered text fails the checks that the engine says it fails."""
        for at, entry in enumerate(ENTRIES):
            kind = KINDS[entry.kind]
            text = bytearray(MODEL[at])
            text[20] ^= 1
            failed = DESK.call(
                kind.unseal, bytes(text[6:]), getattr(RING, kind.sealing_key), entry.version
            )["failed_checks"]
            sheet = self.mark([*MODEL[:at], bytes(text), *MODEL[at + 1 :]])
            opened = sheet.entries[at].opened
            assert opened is not None and sheet.refused is not None
            self.assertEqual(sum(1 << bit for bit in opened.failed), failed)
            self.assertNotEqual(failed, 0)
            self.assertEqual((sheet.refused.number, sheet.refused.index), (6, at))
            self.assertEqual(sheet.right, 11)

    def test_no_kind(self) -> None:
        record = bytes([9]) + MODEL[5][1:]
        sheet = self.mark([*MODEL[:5], record, *MODEL[6:]])
        assert sheet.refused is not None
        self.assertEqual((sheet.refused.number, sheet.refused.index, sheet.right), (3, 5, 11))
        self.assertEqual([d.field for d in sheet.entries[5].differences], ["kind"])

    def test_lengths(self) -> None:
        cut = self.mark(MODEL[:11], MODEL[11][:20])
        assert cut.refused is not None
        self.assertEqual((cut.refused.number, cut.right, cut.left, cut.missing), (2, 11, 20, (11,)))
        long = self.mark(MODEL * 90)
        assert long.refused is not None
        self.assertEqual((long.refused.number, long.right, len(long.entries)), (1, 12, 1080))

    def test_time(self) -> None:
        """Fifty candidates' books of a hundred entries, half of them noise, in seconds."""
        draw = random.Random(2)
        entries = [
            entry._replace(identity=draw.randrange(1 << 24), key=draw.randbytes(len(entry.key)))
            for entry in (ENTRIES * 9)[:100]
        ]
        start = time.monotonic()
        marker = SealedMarker(DESK, SITTING, RING, book(entries))
        for _ in range(50):
            records = [r if draw.random() < 0.5 else draw.randbytes(SEALED) for r in marker.model]
            self.assertEqual(len(book_sheet(marker, "book", b"".join(records)).entries), 100)
        self.assertLess(time.monotonic() - start, 30)


class Command(Case):
    """taa1 mark, and from the drawing to the mark sheets."""

    def test_samples(self) -> None:
        """The sample class has the mark sheet that stands beside it."""
        names = sorted(path.name for path in CLASS.glob("*.book"))
        self.assertEqual(len(names), 6)
        place = CLASS.relative_to(ROOT)
        inputs = [place / name for name in ("sitting.txt", "model.txt", *names)]
        done = taa1("mark", *inputs, cwd=ROOT)
        self.assertEqual((done.status, done.error), (0, ""))
        self.assertEqual(done.out.decode(), (CLASS / "mark.txt").read_text())

    def test_a_day(self) -> None:
        """A sitting drawn, a model book, candidates with planted slips, each found."""
        drawn = self.folder / "sitting.txt"
        self.accepted("draw", "--sides", 3, "-o", drawn)
        model = self.file("model.txt", (CLASS / "model.txt").read_text())
        sitting = read_sitting(str(drawn))
        slips = {
            "TA12's challenge reversed (RAND1)": sitting._replace(rand1=sitting.rand1[::-1]),
            "RS for RSO": sitting._replace(rso=sitting.rs),
            "group key reversed": sitting._replace(group_key=sitting.group_key[::-1]),
        }
        for number, other in enumerate(slips.values()):
            name = self.file(f"{number}.txt", sitting_bytes(other))
            self.accepted("seal", name, model, "-o", self.folder / f"{number}.book")
        books = [self.folder / f"{number}.book" for number in range(len(slips))]
        said = json.loads(self.accepted("mark", drawn, model, *books, "--json"))
        found = [[slip["slip"] for slip in sheet["slips"]] for sheet in said["sheets"]]
        self.assertEqual(found, [[name] for name in slips])
        self.assertEqual(said["class"]["candidates"], 3)

    def test_unreadable(self) -> None:
        """One unreadable book doesn't stop the others; the status is 1."""
        good = self.file("good.book", seal(SAMPLE))
        odd = self.file("odd.book", "012")
        missing = self.folder / "missing.book"
        inputs = (CLASS / "sitting.txt", CLASS / "model.txt")
        done = taa1("mark", *inputs, missing, good, odd, "--json")
        self.assertEqual(done.status, 1)
        lines = done.error.splitlines()
        self.assertEqual(lines[0], f"taa1: {missing}: No such file or directory")
        words = "this looks like an odd number of hexadecimal digits, 3 "
        words += "(a record is wanted in 42 digits)"
        self.assertEqual(lines[1], f"taa1: {odd}: {words}; --as {odd}=bytes marks it all the same")
        sheets = json.loads(done.out)["sheets"]
        self.assertEqual([sheet["right"] for sheet in sheets], [0, 12, 0])
        self.assertEqual(sheets[0]["problem"], "No such file or directory")
        self.assertEqual([sheet["opens"] for sheet in sheets], [False, True, False])

    def test_hexadecimal(self) -> None:
        digits = self.file("a.book", seal(SAMPLE).hex("\n", 21))
        said = self.accepted("mark", CLASS / "sitting.txt", CLASS / "model.txt", digits)
        self.assertIn(b"12 of 12 entries right; opens", said)

    def test_ring(self) -> None:
        """A ring is made once, by one call, for whatever is marked with it; argue makes another,
        of an altered sitting."""
        answer, made = Binding.answer, []

        def counted(binding: Binding, name: str, *values: Any, **options: Any) -> dict[str, Any]:
            if name == "ring":
                made.append(values)
            return answer(binding, name, *values, **options)

        inputs, ann = (CLASS / "sitting.txt", CLASS / "model.txt"), CLASS / "ann.book"
        opened = ("mark", "--opened", inputs[0], ann, CLASS / "gus.opened")
        for command in (("mark", *inputs, ann), opened, ("argue", *inputs)):
            with self.subTest(command), mock.patch.object(Binding, "answer", counted):
                made.clear()
                self.assertLess(here(*command, cwd=self.folder).status, 2)
                self.assertEqual([made.count(values) for values in made], [1] * (2 if command[0] == "argue" else 1))
