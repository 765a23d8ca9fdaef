"""Points of books that the reference made: what is asked, what is extra, and the parts of an entry."""

from __future__ import annotations

import json
import random
import unittest
from collections import Counter
from dataclasses import replace
from fractions import Fraction

from common import CLASS, DESK, Case, book_sheet, here
from exams import RIGHT, Exam, exam, exams
from planted import key_files, sealed_books
from planted_keys import values_of
from reference import plain_book, records
from taa1 import Sitting
from taa1_desk.handed import HandIn, KeyFile
from taa1_desk.marking.opened import OpenedMarker
from taa1_desk.marking.scoring import FOLLOWING, IDENTITIES, TEXTS, score
from taa1_desk.marking.sealed import SealedMarker
from taa1_desk.points import Lost, Points
from taa1_desk.reading.keyfile import read as read_keys
from taa1_desk.reading.schemes import DEFAULT, parse
from taa1_desk.records import KINDS, Ring
from taa1_desk.sheet import Sheet

SCHEME = parse(DEFAULT, "the default")
ENTRY, TEXT, IDENTITY = Fraction(1), Fraction(1, 2), Fraction(1, 4)
ASKED = {"both": 9, "network": 6, "radio": 6}  # values, of the sides that run
WORTH = {"both": 12, "network": 8, "radio": 8}


def marker(of: Exam) -> SealedMarker:
    """What marks an exam's books."""
    if of.name not in _MARKERS:
        _MARKERS[of.name] = SealedMarker(DESK, Sitting(*of.sitting), Ring(*of.ring), of.plain)
    return _MARKERS[of.name]


_MARKERS: dict[str, SealedMarker] = {}


def handed(of: Exam) -> KeyFile:
    """Every value that is asked for, right."""
    return KeyFile({name: value for name, value in values_of(of.keys).items() if value})


def marked(of: Exam, book: list[bytes], keys: KeyFile, scheme: str = "") -> Sheet:
    """A book, with its points."""
    sheet = book_sheet(marker(of), "book", b"".join(book), keys)
    return replace(sheet, points=score(parse(scheme, "scheme"), sheet, marker(of).asked))


def points(of: Exam, book: list[bytes], scheme: str = "") -> Points:
    """The points of a book with every key right, but for those of the keys."""
    made = marked(of, book, handed(of), scheme).points
    assert made
    return made


def without_keys(made: Points, of: Exam) -> Fraction:
    return made.sum - WORTH[of.name]


def other(record: bytes, at: int) -> bytes:
    """A record under another identity: no entry's."""
    return record[:1] + bytes([record[1] ^ 0x55, at, 0]) + record[4:]


class Asked(unittest.TestCase):
    """What is asked and not handed in counts in what can be reached."""

    def test_sides(self) -> None:
        """Each sitting asks for what its sides give, and no more."""
        for of in exams():
            model = records(of.sealed, 21)
            whole, none = (marked(of, model, keys) for keys in (handed(of), KeyFile({})))
            assert whole.points and none.points
            most = len(model) + WORTH[of.name]
            self.assertEqual((whole.points.sum, whole.points.most, whole.perfect), (most, most, True))
            self.assertEqual((none.points.sum, none.points.most, none.perfect), (len(model), most, False))
            names = [each.what for each in none.points.not_handed_in]
            self.assertEqual(len(names), ASKED[of.name])
            self.assertEqual(set(names), set(handed(of).values) - {"C"})
            alone = marked(of, model, KeyFile({}), "keys asked = 0")
            assert alone.points
            self.assertEqual((alone.points.sum, alone.points.most, alone.perfect), (len(model), len(model), True))

    def test_shown_and_wrong(self) -> None:
        """Who shows keys and errs does not stand below who shows none."""
        for file in key_files():
            keys = read_keys("keys", file.text)
            shown, hidden = (marked(file.exam, records(file.book, 21), each).points for each in (keys, KeyFile({})))
            assert shown and hidden
            if len(file.book) % 21 == 0:
                self.assertGreaterEqual(shown.sum, hidden.sum, file.name)
                self.assertEqual(shown.most, hidden.most, file.name)


class Extra(unittest.TestCase):
    """Records beyond the number of the model's entries cost."""

    def test_rule(self) -> None:
        for of in exams():
            model = records(of.sealed, 21)
            size = len(model)
            copy = [*model[:3], model[0], *model[4:]]
            wrong = [*model[:3], model[0][:6] + bytes(15), *model[4:]]
            for book, sum_, extra in (
                (copy, size - 1, 0),
                (wrong, size - 1, 0),
                ([*model, model[0]], size - 1, 1),
                ([*model, bytes(21)], size - 1, 1),
                ([*copy, model[0]], size - 2, 1),
                ([*model, *model], 0, size),
            ):
                made = points(of, book)
                self.assertEqual((without_keys(made, of), -made.of("extra records")), (sum_, extra))
            sheet = marked(of, copy, handed(of))
            self.assertEqual((sheet.entries[3].state, sheet.extra, sheet.missing), ("doubled", 0, (3,)))

    def test_opened(self) -> None:
        """Answers of what was opened likewise: a second one about an entry, in the place of
        another, costs that one and no more."""
        of = exam("both")
        lines = of.model_text().splitlines()[:-1]
        mark = OpenedMarker(DESK, Sitting(*of.sitting), Ring(*of.ring), of.sealed, "sealed")
        for answers, sum_, extra in (
            ([*lines[:5], lines[0], *lines[6:]], 19, 0),
            ([*lines, lines[0]], 19, 1),
            ([*lines, lines[0], lines[1]], 18, 2),
        ):
            marks = mark.mark(HandIn("a", "\n".join(answers).encode()))
            made = score(SCHEME, marks, mark.asked)
            self.assertEqual((marks.extra, made.sum, made.most), (extra, sum_, 20))


class Parts(unittest.TestCase):
    """Texts and identities in the place of entries."""

    def test_identity_wrong(self) -> None:
        """Twelve right texts under wrong identities are half of the book."""
        of = exam("network")
        model = records(of.sealed, 21)
        self.assertEqual(len(model), 12)
        ring = of.ring._replace(c=of.ring.d)
        for book in ([other(each, at) for at, each in enumerate(model)],
                     records(RIGHT.sealed_book(ring, of.entries), 21)):  # fmt: skip
            made = points(of, book)
            self.assertEqual(without_keys(made, of), 12 * TEXT)
            self.assertEqual((made.of("entries right"), made.of(TEXTS), made.of(IDENTITIES)), (0, 6, 0))

    def test_text_wrong(self) -> None:
        """Right identities are a quarter; a version alone is nothing."""
        of = exam("both")
        model = records(of.sealed, 21)
        self.assertEqual(points(of, [each[:6] + bytes(15) for each in model]).of(IDENTITIES), 20 * IDENTITY)
        blank = [each[:1] + bytes(3) + each[4:6] + bytes(15) for each in model]
        self.assertEqual(without_keys(points(of, blank), of), 0)
        kind = [bytes([7]) + each[1:] for each in model]  # a text of another kind is none of the entry's
        self.assertEqual(without_keys(points(of, kind), of), 20 * IDENTITY)

    def test_capped(self) -> None:
        """Each counts at most as often as entries have it that are left."""
        of = exam("both")
        model = records(of.sealed, 21)
        texts = [other(model[0], at) for at in range(20)]
        self.assertEqual(without_keys(points(of, texts), of), TEXT)
        identities = [model[0][:6] + bytes([at] * 15) for at in range(20)]
        self.assertEqual(without_keys(points(of, identities), of), IDENTITY)
        taken = [model[0], *texts[1:10], *identities[1:11]]  # the entry has its record
        self.assertEqual(without_keys(points(of, taken), of), ENTRY)

    def test_one_radio(self) -> None:
        """In a book for one radio each entry has the identity; copies of what is right win none."""
        of = exam("network")
        entries = [entry._replace(identity=0x00A001) for entry in of.entries]
        mark = SealedMarker(DESK, Sitting(*of.sitting), Ring(*of.ring), plain_book(entries))
        model = records(RIGHT.sealed_book(of.ring, entries), 21)
        for book, won in (
            ([model[0]] * 12, ENTRY),
            ([model[0], *(each[:6] + bytes(15) for each in model[1:])], ENTRY + 11 * IDENTITY),
            ([each[:6] + bytes(15) for each in model[:4]], 4 * IDENTITY),
        ):
            made = score(SCHEME, book_sheet(mark, "book", b"".join(book)))
            self.assertEqual(made.sum, won)

    def test_of_two_entries(self) -> None:
        """A text of one entry and the identity of another in one record win both."""
        of = exam("both")
        model = records(of.sealed, 21)
        book = [model[1][:1] + model[0][1:4] + model[1][4:], model[0][:1] + model[1][1:4] + model[0][4:], *model[2:]]
        self.assertEqual(without_keys(points(of, book), of), 18 + 2 * (TEXT + IDENTITY))

    def test_following(self) -> None:
        """What follows through wins no part, but its share; without a share it is as any other."""
        of = exam("both")
        own = bytes(range(10))
        book = records(RIGHT.sealed_book(of.ring._replace(d=own), of.entries), 21)
        keys = KeyFile({**handed(of).values, "D": own})
        ones = sum(entry.kind == 1 for entry in of.entries)
        for scheme, share, identities in (("", Fraction(1, 2), 0), ("follow-through = 0", Fraction(0), ones)):
            made = marked(of, book, keys, scheme).points
            assert made
            self.assertEqual((made.of(FOLLOWING), made.of(IDENTITIES)), (ones * share, identities * IDENTITY))

    def test_lost(self) -> None:
        """What was lost where is said by the entries and the values."""
        of = exam("both")
        model = records(of.sealed, 21)
        values = {name: value for name, value in handed(of).values.items() if name != "O"}
        book = [*model[:4], other(model[4], 0), *model[5:7], model[7][:6] + bytes(15), *model[8:19]]
        made = marked(of, book, KeyFile({**values, "G": bytes(16)})).points
        assert made
        lost = {item.what: item.lost for item in made.items if item.lost}
        self.assertEqual(lost, {
            "entries right": (Lost("entry 4", "wrong"), Lost("entry 7", "wrong"), Lost("entry 19", "missing")),
            TEXTS: (Lost("entry 7", "no record has it"), Lost("entry 19", "no record has it")),
            IDENTITIES: (Lost("entry 4", "no record has it"), Lost("entry 19", "no record has it")),
            "O": (Lost("O", "not handed in"),),
            "G": (Lost("G", "wrong"),),
        })  # fmt: skip


class Tables(unittest.TestCase):
    """The table of points sums up, and no record has more than a right one."""

    def test_sums(self) -> None:
        """Over the planted books: the items' points are the sum, and what they are of the most."""
        scheme = "redundancy byte = 1/15\norder = -1/9\n"
        for book in sealed_books():
            for lines in ("", scheme):
                made = marked(book.exam, records(book.book, 21), KeyFile({}), lines).points
                assert made
                self.assertEqual(max(0, sum(item.points for item in made.items)), made.sum, book.name)
                self.assertEqual(sum(item.most or 0 for item in made.items), made.most, book.name)
                self.assertLessEqual(made.sum, made.most - WORTH[book.exam.name], book.name)

    def test_never_more(self) -> None:
        """Whatever stands in the place of an entry gives less than the entry."""
        draw = random.Random(11)
        of = exam("both")
        model = records(of.sealed, 21)
        spoilt = records(RIGHT.sealed_book(of.ring, [e._replace(key=e.key[::-1]) for e in of.entries]), 21)
        scheme = "entry = 1\ntext = 1/2\nidentity = 49/100\nredundancy byte = 1\n"
        full = [1 + KINDS[each[0]].checks for each in model]
        for _ in range(200):
            places = draw.sample(range(20), draw.randint(1, 6))
            book = list(model)
            for at in places:
                one, two = draw.choice(model), draw.choice((*model, *spoilt))
                book[at] = two[:1] + one[1:4] + two[4:]
            counted = Counter(model)
            right = sum(min(often, counted[each]) for each, often in Counter(book).items())
            made = points(of, book, scheme)
            if right < 20:
                self.assertLess(without_keys(made, of), sum(full), places)


class Command(Case):
    """taa1 mark, as examiners meet it."""

    def test_blank_form(self) -> None:
        """A form with every row of the values blank has the book's points, of all that is asked,
        and the rows are named."""
        of = exam("network")
        files = (self.file("sitting.txt", of.sitting_text()), self.file("model.txt", of.model_text()))
        lines = here("paper", *files, "--part", "form", cwd=self.folder).out.decode().splitlines()
        rows = iter(records(of.sealed, 21))
        for number, line in enumerate(lines):
            if line.split()[:1] and line.split()[0].isdecimal() and line.split()[1] == "__":
                for byte in next(rows):
                    line = line.replace("__", f"{byte:02x}", 1)
                lines[number] = line
        form = self.file("ann.form", "\n".join(lines) + "\n")
        done = here("mark", *files, form, cwd=self.folder)
        said = done.out.decode()
        self.assertIn("12 of 12 entries right", said)
        self.assertIn("  left blank on the form: session key 1, response 1, key 1, D, O and G\n", said)
        self.assertIn("  points 12 of 20 (entries right: 12 of 12; session key 1: 0 of 2; response 1: 0 of 1; "
                      "key 1: 0 of 1; D: 0 of 1; O: 0 of 2; G: 0 of 1)\n", said)
        made = json.loads(here("mark", *files, form, "--json", cwd=self.folder).out)
        self.assertEqual(made["class"]["perfect"], 0)
        lost = {item["for"]: item["lost"] for item in made["sheets"][0]["points"]["items"]}
        self.assertEqual(lost["O"], [{"what": "O", "why": "left blank"}])

    def test_opened(self) -> None:
        """What was opened is asked for no keys, and has no parts."""
        sealed = here("seal", CLASS / "sitting.txt", CLASS / "model.txt", "-o", "sealed", cwd=self.folder)
        self.assertEqual(sealed.status, 0)
        lines = (CLASS / "model.txt").read_text().replace("version 513", "version 258")
        for text, said in ((lines, "  points 11 of 12\n"), ((CLASS / "model.txt").read_text(), "  points 12 of 12\n")):
            file = self.file("a.opened", text)
            done = here("mark", "--opened", CLASS / "sitting.txt", "sealed", file, cwd=self.folder)
            self.assertIn(said, done.out.decode())
            self.assertNotIn("handed in", done.out.decode())


if __name__ == "__main__":
    unittest.main()
