"""Keys that are handed in beside a book, and points."""

from __future__ import annotations

import json
import random
import unittest
from dataclasses import replace
from fractions import Fraction
from typing import Optional
from unittest import mock

from common import CLASS, DESK, ENTRIES, LINES, PLAIN_BOOK, RING, SITTING, Case, book_sheet, ring_for, seal, taa1
from said import SEALING
from taa1_desk.asked import KEYS
from taa1_desk.handed import KeyFile
from taa1_desk.marking.counting import counts, summary
from taa1_desk.marking.scoring import IDENTITIES, TEXTS, score
from taa1_desk.marking.sealed import SealedMarker
from taa1_desk.marking.slipped import work
from taa1_desk.marking.slips import SLIPS
from taa1_desk.marking.working import Steps
from taa1_desk.names import field
from taa1_desk.points import Points, said
from taa1_desk.problems import Problem
from taa1_desk.reading.keyfile import parse
from taa1_desk.reading.schemes import DEFAULT
from taa1_desk.reading.schemes import parse as parse_scheme
from taa1_desk.records import KINDS, SEALED, split
from taa1_desk.showing.result import key_result
from taa1_desk.showing.sheet_text import sheet_text

MARKER = SealedMarker(DESK, SITTING, RING, PLAIN_BOOK)
MODEL = MARKER.model
VALUES = {name: value or b"" for name, value in Steps(DESK).keys(SITTING).items()}
SCHEME = parse_scheme(DEFAULT, "the default")


def points(records: list[bytes], scheme: str = "", keys: dict[str, bytes] = {}) -> Points:
    """The points of a book by a scheme, where no keys are asked for."""
    sheet = book_sheet(MARKER, "book", b"".join(records), KeyFile(keys))
    return score(parse_scheme(scheme, "scheme"), sheet)


def items(made: Points) -> dict[str, tuple[Fraction, Optional[Fraction]]]:
    """The points of each item, and of how many."""
    return {item.what: (item.points, item.most) for item in made.items}


class Files(unittest.TestCase):
    """How NAME.keys is read."""

    def test_names(self) -> None:
        """Both sets of names, in any writing."""
        for name in KEYS:
            for written in (name, name.upper(), name.replace(" ", "_"), name.replace(" ", "")):
                read = parse(f"{written}: 0x{VALUES[name].hex(' ')}")
                self.assertEqual(read, KeyFile({name: VALUES[name]}))
        fields = parse("KS = 00\nKS' = 01\nRES1 = 02\nDCK1 = 03\nDCK = 04\nKSO = 05\nEGSKO = 06\n")
        names = ["session key 1", "session key 2", "response 1", "key 1", "D", "O", "G"]
        self.assertEqual((list(fields.values), fields.problems), (names, ()))

    def test_no_equals(self) -> None:
        """The = may be missing, where the value has its length."""
        for name in KEYS:
            for line in (f"{name} {VALUES[name].hex(' ')}", f"{field(name)}\t0x{VALUES[name].hex()}"):
                self.assertEqual(parse(line), KeyFile({name: VALUES[name]}), line)
        self.assertEqual(parse(f"D {VALUES['O'].hex()}").values, {})

    def test_left_blank(self) -> None:
        """A line without a value hands none in, as a row of the form that is left blank."""
        self.assertEqual(parse("D = 01\nO =\nG = \t # later\n"), KeyFile({"D": b"\1"}))

    def test_bad_lines(self) -> None:
        for line, problem in (
            ("D", "no line of the form NAME = HEXADECIMAL"),
            ("E = 00", "no name 'E': the names are " + ", ".join(KEYS)),
            ("O = 0x", "O: 0 hexadecimal digits, not 32"),
            ("O = 012", "O: 3 hexadecimal digits, not 32"),
            ("O = 0O", "O: 'O' is no hexadecimal digit"),
            ("D = 00", "D for the second time; the first one counts"),
        ):
            read = parse(f"D = 01  # mine\n\n{line}\n")
            unread = {"O": b""} if line.startswith("O") else {}
            self.assertEqual(read, KeyFile({"D": b"\1", **unread}, (f"keys, line 3: {problem}",)))
        self.assertEqual(parse("O = 1\nO = 02\n").values, {"O": b"\2"})


class Values(unittest.TestCase):
    """What is said of values, beyond the planted ones."""

    def said(self, **values: bytes) -> list[str]:
        file = KeyFile({name.replace("_", " "): value for name, value in values.items()})
        return sheet_text(book_sheet(MARKER, "book", b"".join(MODEL), file)).splitlines()[1:]

    def test_another(self) -> None:
        """A value that is another one of the model's is called so."""
        lines = self.said(key_1=VALUES["key 2"], D=VALUES["D"])
        has, wants = VALUES["key 2"].hex(), VALUES["key 1"].hex()
        self.assertEqual(lines, [f"  key 1: {has}, which is key 2, not {wants}", "  right: D"])

    def test_exchanged(self) -> None:
        """Two values exchanged in the list; RS reversed if the rest is worked from them."""
        for value in ("session key", "response", "key"):
            one, two = f"{value} 1", f"{value} 2"
            values = {**VALUES, one: VALUES[two], two: VALUES[one]}
            (slip,) = book_sheet(MARKER, "book", b"".join(MODEL), KeyFile(values)).slips
            self.assertEqual((slip.name, slip.keys), (f"{value}s 1 and 2 exchanged", (one, two)))
        sitting = SITTING._replace(rs=SITTING.rs[::-1])
        made = {name: value or b"" for name, value in Steps(DESK).keys(sitting).items()}
        (slip,) = book_sheet(MARKER, "book", seal(sitting), KeyFile(made)).slips
        self.assertEqual(slip.name, "RS reversed")

    def test_refuted(self) -> None:
        """A value that is right under the candidate's own speaks against a slip."""
        own = {"session key 1": bytes(16)}
        sitting = SITTING._replace(rand2=SITTING.rand2[::-1])
        made = {name: value or b"" for name, value in Steps(DESK).keys(sitting, own).items()}
        (slip,) = book_sheet(MARKER, "book", b"".join(MODEL), KeyFile({**made, **own})).slips
        self.assertEqual((slip.name, slip.others), (SEALING["ta22-reversed"], ()))

    def test_one_challenge(self) -> None:
        """Where one side runs, no slip speaks of both challenges."""
        sitting = SITTING._replace(sides=1)
        marker = SealedMarker(DESK, sitting, ring_for(sitting), PLAIN_BOOK)
        for rand1, name in (
            (SITTING.rand1[::-1], SEALING["ta12-reversed"]),
            (SITTING.rand2, "RAND2 for RAND1"),
        ):
            (slip,) = book_sheet(marker, "book", seal(sitting._replace(rand1=rand1))).slips
            self.assertEqual((slip.name, slip.others), (name, ()))

    def test_slips_under_own_keys(self) -> None:
        """A slip after a wrong D is found with the D that was handed in, and joined with
        what it gives elsewhere."""
        own = bytes([VALUES["D"][0] ^ 1]) + VALUES["D"][1:]
        ring = RING._replace(d=own)
        follows = split(DESK.call("seal_book", ring.data, PLAIN_BOOK)["out"], SEALED)
        ones = tuple(i for i, entry in enumerate(ENTRIES) if entry.kind == 1)
        for name, places in (
            ("last byte dropped, not byte 8", tuple(range(12))),
            ("version once, at the left, not repeated", ones),
            ("version once, at the left, not repeated", ones[:1]),
        ):
            steps = Steps(DESK, next(slip for slip in SLIPS if slip.name == name).altered)
            strings = steps.k_strings(ring.c)
            book = [
                steps.sealed(entry, ring, strings) if place in places else follows[place]
                for place, entry in enumerate(ENTRIES)
            ]
            sheet = book_sheet(MARKER, "book", b"".join(book), KeyFile({"D": own}))
            (slip,) = sheet.slips
            self.assertEqual((slip.name, slip.entries, slip.own, slip.part), (name, places, True, ""))
            self.assertEqual(sheet.following, len(set(ones) - set(places)))
            self.assertIn(", worked from the candidate's own keys\n", sheet_text(sheet))

    def test_follows_by_bytes(self) -> None:
        """A record follows that is some entry's under own keys, byte for byte, wherever it stands
        and whatever stands in that entry's place; each entry counts once, and none that is right."""
        own = KeyFile({"D": bytes(range(10))})
        under = split(DESK.call("seal_book", RING._replace(d=bytes(range(10))).data, PLAIN_BOOK)["out"], SEALED)
        decoy = MODEL[0][:6] + bytes(15)
        for records, follow, right in (
            ([decoy, *MODEL[2:], under[0]], 1, 10),  # the decoy has the entry's place, and its head
            ([under[1], under[0], *MODEL[2:]], 2, 10),
            ([under[0], under[0], *MODEL[2:]], 1, 10),
            ([under[0], *MODEL[:2], *MODEL[2:]], 0, 12),
            ([under[0], MODEL[1], *MODEL[2:]], 1, 11),
        ):
            sheet = book_sheet(MARKER, "book", b"".join(records), own)
            self.assertEqual((sheet.following, sheet.right), (follow, right))
            made = score(SCHEME, sheet)
            self.assertEqual(made.of("entries right under own keys"), Fraction(follow, 2))

    def test_guess_decides_no_point(self) -> None:
        """Whatever a wrong record is taken for, the points are the same."""
        draw = random.Random(7)
        scheme = parse_scheme("text = 2/5\nidentity = 3/11\nredundancy byte = 1/7\norder = -1/3\n", "scheme")
        ring = RING._replace(o=bytes(range(16)), d=bytes(range(10)))
        under = split(DESK.call("seal_book", ring.data, PLAIN_BOOK)["out"], SEALED)
        slips = [worked.records for worked in work(DESK, SITTING, PLAIN_BOOK)]
        file = KeyFile({"D": ring.d, "O": ring.o})
        different = parts = 0
        for _ in range(60):
            pool = [*MODEL, *under, *(record for _ in range(3) for record in draw.choice(slips).values())]
            records = draw.choices(pool, k=draw.randint(1, 16))
            for at in range(0, len(records), 3):
                other = draw.choice(MODEL)
                named = other[:1] + draw.choice(MODEL)[1:4] + other[4:]  # a text under another's identity, or its own
                kept = (records[at], records[at][:6] + other[6:], other[:6] + draw.randbytes(15), named)
                records[at] = draw.choice(kept)
            book = b"".join(records)
            found = []
            for sign in (1, -1, 0):
                signs = MARKER.book.signs_of
                turned = lambda record, sign=sign, signs=signs: {at: sign * w for at, w in signs(record).items() if sign}  # noqa: E731
                with mock.patch.object(MARKER.book, "signs_of", turned):
                    sheet = book_sheet(MARKER, "book", book, file)
                made = score(scheme, sheet)
                lines = tuple(item[:3] for item in made.items)
                parts += any(item.points for item in made.items if item.what in (TEXTS, IDENTITIES))
                found.append((lines, made.most, sheet.right, sheet.following, sheet.extra, len(sheet.missing)))
                different += [entry.model for entry in sheet.entries] != [
                    entry.model for entry in book_sheet(MARKER, "book", book, file).entries
                ]
            self.assertEqual(found[0], found[1], records)
            self.assertEqual(found[0], found[2], records)
        self.assertGreater(different, 10)  # the guess did matter elsewhere
        self.assertGreater(parts, 60)  # and parts were won

    def test_unread(self) -> None:
        """A value that can't be read is handed in, and wrong."""
        for digits in ("0" * 31, "hello", "0102"):
            file = parse(f"O = {digits}\nG = {VALUES['G'].hex()}\n")
            sheet = book_sheet(MARKER, "book", b"".join(MODEL), file)
            self.assertEqual([mark.state for mark in sheet.keys.marks], ["wrong", "right"])
            made = score(SCHEME, sheet)
            self.assertEqual((made.sum, made.most, sheet.slips), (13, 15, ()))
            self.assertEqual(sheet_text(sheet).count("  O: ") + len(sheet.keys.problems), 1)
            self.assertIn("wrong: ", key_result(sheet.keys.marks[0]))

    def test_idle_side(self) -> None:
        """What a side has that does not run is not asked for: it gives and costs nothing."""
        for sides, idle in ((1, "2"), (2, "1")):
            sitting = SITTING._replace(sides=sides)
            marker = SealedMarker(DESK, sitting, ring_for(sitting), PLAIN_BOOK)
            values = {n: v for n, v in Steps(DESK).keys(sitting).items() if v and n[-1] != idle}
            names = [f"{name} {idle}" for name in ("session key", "response", "key")]
            zeros = dict(zip(names, (bytes(16), bytes(4), bytes(10))))
            other = {name: VALUES[name] for name in names}
            none: dict[str, bytes] = {}
            for more in (none, zeros, other):
                sheet = book_sheet(marker, "book", b"".join(marker.model), KeyFile({**values, **more}))
                made = score(SCHEME, sheet)
                self.assertEqual((made.sum, made.most), (12 + 8, 12 + 8))
                states = {mark.name: mark.state for mark in sheet.keys.marks}
                self.assertEqual([n for n, s in states.items() if s == "idle"], sorted(more, key=KEYS.index))
                said = sheet_text(sheet)
                self.assertEqual(said.count("not asked for, since this side does not run"), len(more))

    def test_derived_ring(self) -> None:
        """Without D in the file, the candidate's own D is worked from the own keys."""
        own = bytes(10)
        ring = RING._replace(d=DESK.call("tb4", own, VALUES["key 2"])["bytes"])
        sealed = DESK.call("seal_book", ring.data, PLAIN_BOOK)["out"]
        sheet = book_sheet(MARKER, "book", sealed, KeyFile({"key 1": own}))
        self.assertEqual([entry.follows for entry in sheet.entries[:3]], ["D", "D", ""])

    def test_given_key(self) -> None:
        """C is given; a wrong one explains identities."""
        own = bytes(range(10))
        sealed = DESK.call("seal_book", RING._replace(c=own).data, PLAIN_BOOK)["out"]
        sheet = book_sheet(MARKER, "book", sealed, KeyFile({"C": own}))
        self.assertEqual((sheet.right, sheet.following), (0, 12))


class Schemes(unittest.TestCase):
    """Points in exact fractions."""

    def test_default(self) -> None:
        self.assertEqual(points(MODEL), ((("entries right", 12, 12, ()),), 12))
        self.assertEqual(SCHEME["follow-through"], Fraction(1, 2))
        self.assertEqual(parse_scheme("", "scheme"), SCHEME)
        self.assertEqual(parse_scheme(DEFAULT, "scheme"), SCHEME)

    def test_bad_lines(self) -> None:
        for line, problem in (
            ("entry", "no line of the form NAME = POINTS, as in entry = 1"),
            ("entries = 1", "no name 'entries': the names are " + ", ".join((*SCHEME, "pass"))),
            ("entry = 0.5", "entry: '0.5' is no whole number nor a fraction, as 2, 1/2 or -1"),
            ("entry = 1/0", "entry: '1/0' is no whole number nor a fraction, as 2, 1/2 or -1"),
        ):
            with self.assertRaisesRegex(Exception, f"^scheme, line 1: {problem}$"):
                parse_scheme(line, "scheme")
        with self.assertRaisesRegex(Exception, "^scheme, line 2: order for the second time, after line 1$"):
            parse_scheme("order = -1\norder = -2", "scheme")

    def test_signs(self) -> None:
        """No fault is rewarded, nothing right costs, and a share is no more than all."""
        for line, wanted in (
            ("extra = 1", "0 or less"),
            ("order = 1/2", "0 or less"),
            ("follow-through = 2", "0 to 1"),
            ("follow-through = -1/2", "0 to 1"),
            ("entry = -1", "0 or more"),
            ("D = -1", "0 or more"),
        ):
            name, value = line.split(" = ")
            said = f"^scheme, line 1: {name}: {value}, where {wanted} is wanted$"
            with self.assertRaisesRegex(Exception, said):
                parse_scheme(line, "scheme")
        for line in ("extra = 0", "order = 0", "follow-through = 1", "follow-through = 0", "entry = 0"):
            parse_scheme(line, "scheme")

    def test_written(self) -> None:
        written = {"0": "0", "27/2": "13 1/2", "1/3": "1/3", "-1": "-1", "-3/2": "-1 1/2"}
        for value, words in written.items():
            self.assertEqual(said(Fraction(value)), words)

    def test_thirds(self) -> None:
        """No point is lost by rounding."""
        self.assertEqual(points(MODEL[:10], "entry = 1/3").sum, Fraction(10, 3))
        self.assertEqual(points(MODEL, "entry = 1/3").sum, 4)

    def test_extra(self) -> None:
        """Extra records cost; trying every variant wins nothing; never below 0."""
        self.assertEqual(points([*MODEL, MODEL[0]]).sum, 11)
        noise = [record[:6] + bytes([i]) * 15 for i in range(3) for record in MODEL]
        tried = points([*MODEL, *noise])
        self.assertEqual((tried.of("entries right"), tried.of("extra records")), (12, -36))
        self.assertEqual(tried.sum, 0)
        few = points([*noise[:6], *noise[12:18]])  # six entries tried twice: 12 records
        self.assertEqual((few.of("extra records"), few.sum), (0, Fraction(6, 4)))  # six identities
        self.assertEqual(points([*MODEL, MODEL[0]], "extra = 0").sum, 12)

    def test_in_the_place(self) -> None:
        """A copy in the place of other entries costs these and no more; beyond the number of the
        model's entries each record costs. The words, the counts and the points agree."""
        for often in (1, 2, 11, 12, 20):
            book = [MODEL[0]] * often + MODEL[often:]
            sheet = book_sheet(MARKER, "book", b"".join(book))
            made, extra = points(book), max(0, often - 12)
            self.assertEqual((sheet.extra, counts(sheet).extra, made.of("extra records")), (extra, extra, -extra))
            self.assertEqual(made.sum, max(0, 13 - min(often, 12) - extra))
            self.assertEqual(counts(sheet)[:4], (13 - min(often, 12), 0, 0, min(often, 12) - 1))
            lines = sheet_text(sheet).splitlines()
            self.assertEqual([line for line in lines if "extra record" in line],
                             ["  8 extra records: 20 records, where the model has 12 entries"] * (often == 20))
            again = [line for line in lines if "the model's entry 0 again" in line]
            self.assertEqual(len(again), often > 1)
        other = [*MODEL[:7], MODEL[0][:6] + bytes(15), *MODEL[8:]]  # not a copy: an attempt at entry 0
        self.assertEqual((points(other).sum, points(other).of("extra records")), (11, 0))
        self.assertEqual(book_sheet(MARKER, "book", b"".join(other)).entries[7].state, "further")
        self.assertEqual(points([*MODEL, MODEL[3]]).of("extra records"), -1)

    def test_repeated_redundancy(self) -> None:
        """A text that is properly sealed gives its redundancy's points once, also beside
        other identities; entries that are wrong by their identity alone keep theirs."""
        scheme = "entry = 0\nredundancy byte = 1"
        wrong = ENTRIES[2]._replace(version=999)  # of kind 2: five checks
        record = DESK.call("seal_book", RING.data, wrong.data)["out"]
        self.assertEqual(points([record] * 12, scheme).sum, 5)
        others = [record[:1] + bytes([i] * 3) + record[4:] for i in range(12)]
        self.assertEqual(points(others, scheme).sum, 5)
        checks = sum(KINDS[entry.kind].checks for entry in ENTRIES)
        renamed = [each[:1] + bytes([each[1] ^ 1]) + each[2:] for each in MODEL]
        self.assertEqual(points(renamed, scheme).sum, checks)
        self.assertEqual(points(MODEL[:3] + [MODEL[2]] * 9, scheme).sum, 15)
        fewer = next(at for at, entry in enumerate(ENTRIES) if KINDS[entry.kind].checks == 3)
        unlike = DESK.call("seal_book", RING.data, wrong._replace(key=bytes(10), identity=1).data)["out"]
        alone = points([*MODEL[:fewer], unlike, *MODEL[fewer + 1 :]], scheme)
        self.assertEqual(alone.sum, checks)  # of the five checks no more than the entry has

    def test_parts_of_scheme(self) -> None:
        """Text and identity come to less than an entry; what is left out goes by the entry."""
        for lines, text, identity in (
            ("", "1/2", "1/4"),
            ("entry = 2", "1", "1/2"),
            ("entry = 1/3", "1/6", "1/12"),
            ("entry = 0", "0", "0"),
            ("text = 2/3", "2/3", "1/4"),
            ("text = 0\nidentity = 0", "0", "0"),
            ("entry = 0\ntext = 0\nidentity = 0", "0", "0"),
            ("identity = 9/10\ntext = 0", "0", "9/10"),
        ):
            made = parse_scheme(lines, "scheme")
            self.assertEqual((made["text"], made["identity"]), (Fraction(text), Fraction(identity)), lines)
        for lines, line, text, identity, both, entry in (
            ("text = 3/4", 1, "3/4", "1/4", "1", "1"),
            ("entry = 1\nidentity = 1/2", 2, "1/2", "1/2", "1", "1"),
            ("entry = 0\ntext = 1/2", 2, "1/2", "0", "1/2", "0"),
            ("identity = 1\nentry = 2\n\ntext = 1", 1, "1", "1", "2", "2"),
        ):
            with self.assertRaises(Problem) as raised:
                parse_scheme(lines, "scheme")
            said = f"scheme, line {line}: text {text} and identity {identity} come to {both}, where less than entry, "
            self.assertEqual(str(raised.exception), f"{said}{entry}, is wanted: lessen one of them, or make both 0")

    def test_order(self) -> None:
        self.assertEqual(points(MODEL[1:] + MODEL[:1]).sum, 12)
        self.assertEqual(points(MODEL[1:] + MODEL[:1], "order = -1/4").sum, Fraction(47, 4))

    def test_redundancy(self) -> None:
        """A mark for each check that does not fail, of right and wrong entries alike."""
        checks = sum({1: 5, 2: 5, 3: 3, 4: 3, 5: 5, 6: 3}[entry.kind] for entry in ENTRIES)
        whole = points(MODEL, "redundancy byte = 1/10")
        self.assertEqual((whole.sum, whole.most), (12 + Fraction(checks, 10),) * 2)
        number = Steps(DESK, {"number_byte": lambda steps, number: bytes([0x20 | number])})
        text = number.text(ENTRIES[2], RING)  # of kind 2: one of five checks fails
        book = [*MODEL[:2], MODEL[2][:6] + text, *MODEL[3:]]
        made = points(book, "redundancy byte = 1/10")
        self.assertEqual(made.sum, 11 + Fraction(checks - 1, 10) + Fraction(1, 4))  # the identity is right

    def test_keys(self) -> None:
        """Values that are handed in count, and what follows from a wrong one counts in part."""
        all_right = points(MODEL, "", VALUES)
        self.assertEqual((all_right.sum, all_right.most), (24, 24))
        own = Steps(DESK).keys(SITTING, {"session key 1": bytes(16)})
        values = {**{name: value or b"" for name, value in own.items()}, "session key 1": bytes(16)}
        ring = RING._replace(d=values["D"])
        book = split(DESK.call("seal_book", ring.data, PLAIN_BOOK)["out"], SEALED)
        made = points(book, "", values)
        halves = Fraction(1, 2) * (2 + 3)  # two entries; response 1, key 1 and D
        self.assertEqual((made.sum, made.most), (10 + halves + 2 + 1 + 1 + 2 + 1, 24))
        none = points(book, "follow-through = 0", values)  # then showing keys costs no part either
        self.assertEqual(none.sum, made.sum - halves + Fraction(2, 4))

    def test_all_right(self) -> None:
        """All right is who has all that counts: who has every entry right and a key wrong, or one
        that is asked for and not handed in, has not."""
        lacks_d = {name: value for name, value in VALUES.items() if name != "D"}
        for keys, asked, perfect in (
            (KeyFile({}), 0, True),
            (KeyFile({}), 1, False),
            (KeyFile(VALUES), 0, True),
            (KeyFile(VALUES), 1, True),
            (KeyFile(lacks_d), 0, True),
            (KeyFile(lacks_d), 1, False),
            (KeyFile({**VALUES, "D": bytes(10)}), 0, False),
            (KeyFile({**VALUES, "O": bytes(2)}), 0, False),
            (parse("O = 0102030"), 0, False),
        ):
            marks = book_sheet(MARKER, "book", b"".join(MODEL), keys)
            made = score(parse_scheme(f"keys asked = {asked}", "scheme"), marks, MARKER.asked)
            sheet = replace(marks, points=made)
            self.assertEqual((sheet.right, sheet.perfect), (12, perfect))
            self.assertEqual(summary([sheet]).perfect, int(perfect))
        marks = book_sheet(MARKER, "book", b"".join(MODEL), KeyFile(lacks_d))
        no_d = score(parse_scheme("D = 0", "scheme"), marks, MARKER.asked)
        self.assertTrue(no_d.whole)  # it counts for nothing


class Command(Case):
    """taa1 mark with NAME.keys and --scheme, and taa1 scheme."""

    def test_command(self) -> None:
        book = self.file("ann.book", seal())
        self.file("ann.keys", f"D = {VALUES['D'].hex()}\nO = 00\n")
        sitting, model = CLASS / "sitting.txt", self.file("model.txt", LINES)
        scheme = self.file("scheme.txt", "entry = 1/3  # each\nD = 5\n")
        done = self.accepted("mark", sitting, model, book, "--scheme", scheme)
        self.assertEqual(
            done.decode(),
            f"{book}: 12 of 12 entries right; opens\n  O: 1 byte, not 16\n  right: D\n"
            "  not handed in: session key 1, session key 2, response 1, response 2, key 1, key 2 and G\n"
            "  points 9 of 20 (entries right: 4 of 4; session keys: 0 of 4; responses: 0 of 2; keys: 0 of 2; "
            "D: 5 of 5; O: 0 of 2; G: 0 of 1)\n  argument not yet marked, of 10; total 9 of 30 so far\n",
        )
        (sheet,) = json.loads(self.accepted("mark", sitting, model, book, "--json"))["sheets"]
        self.assertEqual(sheet["points"]["sum"], "13")
        self.assertEqual([key["state"] for key in sheet["keys"]], ["right", "wrong"])
        pages = self.folder / "pages"
        self.accepted("mark", sitting, model, book, "--html", pages)
        said = "13 of 24 points for book and keys; argument not yet marked, of 10. Total 13 of 34 so far. All 12 entries right; 1 of 2 keys wrong; 7 keys not handed in."
        self.assertIn(said, (pages / "ann.book.html").read_text())

    def test_scheme(self) -> None:
        self.assertEqual(self.accepted("scheme").decode(), DEFAULT)
        scheme = self.file("scheme.txt", "entries = 1\n")
        inputs = [CLASS / name for name in ("sitting.txt", "model.txt", "ann.book")]
        done = taa1("mark", *inputs, "--scheme", scheme)
        self.assertEqual((done.status, done.out), (2, b""))
        self.assertIn(f"taa1: {scheme}, line 1: no name 'entries': the names are entry, ", done.error)


if __name__ == "__main__":
    unittest.main()
