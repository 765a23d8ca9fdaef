"""Every page in Chromium, at a screen's, a phone's and a sheet's width."""

from __future__ import annotations

import json
import re
import tempfile
import unittest
from itertools import combinations
from pathlib import Path
from typing import ClassVar

from browser import DPI, MARGIN, MISSING, PHONE, POINTS, SCREEN, Browser, full, pictures, poppler, printed
from common import CLASS, DESK, RING, SITTING, seal, taa1
from taa1_desk.marking.working import Steps, xor
from taa1_desk.records import SEALED, split
from taa1_desk.showing.html import Html, page, tag, text
from taa1_desk.showing.pictures import FILLINGS, HEIGHT, STYLE, Part, bar, fillings

HEADING = "title = Key management, the winter paper\ndate = 3 December\n"
BOOK = CLASS / "model.txt"
ARGUMENTS = "ann = given 1, one entry half, properties 2, was sealed 1/2\nben = 7 1/2\ncho = given 1, properties _\n"
# The pages, and the sheets of paper that each takes at most.
PAGES = {
    "paper": 3, "form": 3, "solution": 13, "model": 6, "argue": 25, "sheets": 26, "index": 3,
    "ann.book": 1, "ben.book": 2, "cho.book": 2, "dee.book": 2, "eve.book": 2, "fay.book": 2,
    "noise.book": 1, "all-wrong.book": 4, "many.book": 2, "gil.txt": 2,
    f"{'e' * 80}.book": 1,
}  # fmt: skip


def _keys(wrong: bytes) -> str:
    """Wrong values, among them long ones, and two that follow from another."""
    steps = Steps(DESK)
    session_key = xor(steps.ta11(SITTING.root, SITTING.rs), wrong)
    made = steps.keys(SITTING, {"session key 1": session_key})
    values = {"session key 1": session_key, "O": xor(RING.o, wrong)}
    values.update({name: made[name] or b"" for name in ("response 1", "key 1")})
    return "".join(f"{name} = {value.hex()}\n" for name, value in values.items())


def _make(folder: Path) -> None:
    """Makes every kind of page, under a title and a date: the setter's, a class's with
    hand-ins that are not marked, wrong in all, too long or opened, and with long names."""
    sitting = folder / "sitting.txt"
    sitting.write_text(HEADING + (CLASS / "sitting.txt").read_text())
    books = {path.stem: path.read_bytes() for path in CLASS.glob("*.book")}
    records = split(seal(), SEALED)
    books["e" * 80] = seal()
    books["noise"] = b"\x8f" * 100
    # Bytes that differ within a group of four digits, in front and after.
    wrong = bytes(8) + b"\x55\0\0\xaa" + bytes(8) + b"\x55"
    books["all-wrong"] = b"".join(xor(record, wrong) for record in records)
    books["many"] = b"".join([*records, *records[:3]])
    for name, data in books.items():
        (folder / f"{name}.book").write_bytes(data)
    (folder / "names").write_text("dee = Deirdre Featherstonehaugh-Cholmondeley of Wotton\n")
    (folder / "ben.keys").write_bytes((CLASS / "ben.keys").read_bytes())
    (folder / "all-wrong.keys").write_text(_keys(wrong[5:]))
    hand_ins = sorted(folder.glob("*.book"))
    sealed, opened = folder / "sealed", folder / "gil.txt"
    sealed.write_bytes(seal())
    opened.write_text(BOOK.read_text().replace("version 513", "version 258").replace("kind 3", "kind 6"))
    (folder / "arguments").write_text(ARGUMENTS)
    (folder / "scheme").write_text("pass = 60%\n")
    argued = ("--arguments", folder / "arguments", "--scheme", folder / "scheme")
    for arguments in (
        ("mark", "--opened", sitting, sealed, opened, "--html", folder),
        ("mark", sitting, BOOK, *hand_ins, "--candidates", folder / "names", *argued, "--html", folder),
        ("paper", sitting, BOOK, "--html", folder / "set", "--solution", folder / "own"),
        ("model", sitting, BOOK, "--html", "-o", folder / "model.html"),
        ("argue", sitting, BOOK, "--html", folder / "argue.html"),
        ("argue", sitting, BOOK, "--candidates", folder / "names", "--html", folder / "sheets.html"),
    ):
        done = taa1(*arguments)
        assert done.status < 2, done.error
    for path in (*folder.glob("set/*"), *folder.glob("own/*")):
        path.rename(folder / path.name)


@unittest.skipIf(MISSING, MISSING)
class Looking(unittest.TestCase):
    """The pages as a person sees them."""

    browser: ClassVar[Browser]
    folder: ClassVar[Path]

    @classmethod
    def setUpClass(cls) -> None:
        """Makes the pages, once."""
        cls.browser = Browser()
        cls.addClassCleanup(cls.browser.close)
        made = tempfile.TemporaryDirectory()
        cls.addClassCleanup(made.cleanup)
        cls.folder = Path(made.name)
        _make(cls.folder)

    def show(self, *parts: str, style: str = "", width: int = SCREEN) -> Path:
        """Opens a page that is none of the desk's."""
        path = self.folder / "other.htm"
        path.write_text(page("Other", *parts, style=style))
        self.browser.open(path, width)
        return path

    def test_book_and_slips(self) -> None:
        """On a phone a candidate's last cell has the whole width."""
        self.browser.open(self.folder / "index.html", PHONE)
        widths = "[...document.querySelectorAll('.candidates td:last-child')].map(cell => cell.clientWidth)"
        answer = self.browser.order("Runtime.evaluate", expression=f"JSON.stringify({widths})")
        found = json.loads(answer["result"]["value"])
        self.assertGreater(len(found), 8)
        self.assertGreater(min(found), 0.85 * PHONE)

    def test_every_page(self) -> None:
        """The pages that are looked at are those that there are."""
        self.assertEqual({path.stem for path in self.folder.glob("*.html")}, set(PAGES))

    def test_screen_and_phone(self) -> None:
        """No text is cut off, broken or over other text, and the picture is not blank."""
        for width in (SCREEN, PHONE):
            self.show(width=width)
            least = 2 * len(self.browser.picture())
            for name in PAGES:
                with self.subTest(name, width=width):
                    self.browser.open(self.folder / f"{name}.html", width)
                    self.assertEqual(self.browser.look(), [])
                    self.assertGreater(len(self.browser.picture()), least)

    def test_one_line(self) -> None:
        """On a screen a key that was handed in stands in one line, as does the one wanted."""
        self.browser.open(self.folder / "all-wrong.book.html")
        high = "JSON.stringify([...document.querySelectorAll('.keys td div')].map(e => e.clientHeight))"
        answer = self.browser.order("Runtime.evaluate", expression=high)
        lines = json.loads(answer["result"]["value"])
        self.assertEqual(len(lines), 8)
        self.assertLess(max(lines), 30)

    def test_paper(self) -> None:
        """On A4 and Letter nothing is lost, no sheet is empty or ends in a heading, and all is grey."""
        for name, most in PAGES.items():
            path = self.folder / f"{name}.html"
            self.browser.open(path)
            for paper in POINTS:
                with self.subTest(name, paper=paper):
                    sheets, wrong = printed(self.browser, path, paper)
                    self.assertEqual(wrong, [])
                    self.assertLessEqual(len(sheets), most)

    def test_sheets(self) -> None:
        """Of books of any length, no sheet of paper, form and solution is printed on less than a
        fifth of it; each sheet of the form has name and number at its head."""
        sitting, made = self.folder / "sitting.txt", self.folder / "sheets"
        words = self.folder / "words"
        words.write_text("Time: 90 minutes.\n\nAids: none, but for TS 104 053-3.\n")
        for entries in (1, 6, 12, 24, 40, 100):
            book = self.folder / f"{entries}.txt"
            book.write_bytes(taa1("draw", "--book", "--kinds", ",".join("123456"[at % 6] for at in range(entries))).out)
            own = () if entries % 12 else ("--words", words)
            done = taa1("paper", sitting, book, "--html", made, "--solution", self.folder / "own", *own)
            self.assertEqual((done.status, done.error), (0, ""))
            for path in (made / "paper.html", made / "form.html", self.folder / "own" / "solution.html"):
                self.browser.open(path)
                for paper in POINTS:
                    with self.subTest(path.stem, entries=entries, paper=paper):
                        pdf = self.browser.print(paper)
                        self.assertGreater(min(full(pdf, paper)), 1 / 5)
                        if path.stem == "form":
                            self.assertGreater(self.heads(pdf), 1)

    def heads(self, pdf: bytes) -> int:
        """How many sheets there are, each with a form's fields within its first sixth."""
        sheets = poppler("pdftotext", pdf, "-bbox").decode().split("<page ")[1:]
        for sheet in sheets:
            high = re.search(r'height="([\d.]+)"', sheet)
            found = re.findall(r'yMax="([\d.]+)">(?:Name|Candidate.*s|number)<', sheet)
            self.assertEqual(len(found), 3)
            assert high
            self.assertLess(max(map(float, found)), float(high[1]) / 6)
        return len(sheets)

    def test_fillings(self) -> None:
        """In grey, and in black and white, each series of a picture differs from the others."""
        bars = [bar([Part(name, 1)], 1) for name in FILLINGS]
        style = "header { display: none; } svg { width: 60px; }"
        self.show(fillings(), *bars, style=STYLE + style)
        pdf = self.browser.print("A4")
        (picture,) = pictures(poppler("pdftoppm", pdf, "-gray", "-r", str(DPI)))
        rows = [picture.points[at : at + picture.wide] for at in range(0, len(picture.points), picture.wide)]
        left = round(MARGIN / 72 * DPI)
        top = next(at for at, row in enumerate(rows) if min(row) < 128)
        cuts = [
            b"".join(row[left + 3 : left + 51] for row in rows[top + HEIGHT * at + 2 :][: HEIGHT - 4])
            for at in range(len(FILLINGS))
        ]
        for (one, cut), (two, other) in combinations(zip(FILLINGS, cuts), 2):
            grey = sum(abs(a - b) for a, b in zip(cut, other)) / len(cut)
            black = sum((a < 128) != (b < 128) for a, b in zip(cut, other)) / len(cut)
            self.assertGreater(grey, 40, f"{one} and {two}")
            self.assertGreater(black, 0.07, f"{one} and {two}")

    def test_faults_are_seen(self) -> None:
        """What the tests above look for is found in pages that have it."""
        wide = text("p", "word " * 300, style="white-space: nowrap")
        over = text("p", "one", style="margin-bottom: -2.4em") + text("p", "two")
        broken = text("p", "entries", style="width: 1em")
        boxed = tag("p", Html("1") + text("b", "23", style="outline: 1px solid") + Html("4"))
        for width in (SCREEN, PHONE):
            for part, said in ((wide, "cut off: word"), (over, "over each other: one two"),
                               (broken, "broken: entries"), (boxed, "a line through: 4")):  # fmt: skip
                self.show(part, width=width)
                self.assertIn(said, self.browser.look())
        style = "h2, .legend { break-after: auto; } p { height: 210mm; margin: 0; break-inside: avoid; }"
        for head in (text("h2", "Next"), text("ul", "Next", class_="legend")):
            path = self.show(text("p", "high"), head, text("p", "far"), style=style)
            wrong = ["sheet 1 ends in the heading 'Next'"]
            self.assertEqual(printed(self.browser, path, "letter").wrong, wrong)
        path = self.show(text("p", "hidden", style="position: absolute; left: 400mm"), text("p", "here"))
        self.assertNotEqual(printed(self.browser, path, "A4").wrong, [])
        for style in ("color: #c00", "border: 1px solid #eef"):
            path = self.show(text("p", "some words", style=style))
            self.assertEqual(printed(self.browser, path, "A4").wrong, ["colours"])
        self.show(text("p", "high", style="height: 200mm; border: 1px solid"), text("p", "far", style="break-before: page"))
        most, least = full(self.browser.print("A4"), "A4")
        self.assertGreater(most, 0.75)
        self.assertLess(least, 0.05)
        path = self.show(text("p", "high", style="height: 260mm"), text("p", "pale", style="opacity: 0.2"))
        self.assertEqual(printed(self.browser, path, "A4").wrong, ["sheet 2 shows nothing"])
