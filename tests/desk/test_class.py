"""A class: names, counts, pictures, and its table and JSON for other programs."""

from __future__ import annotations

import csv
import io
import json
import re
import unittest
from fractions import Fraction
from typing import Any

from common import CLASS, DESK, PLAIN_BOOK, RING, ROOT, SITTING, Case, seal, taa1
from taa1_desk.application import mark_class
from taa1_desk.handed import HandIn, LeftOut
from taa1_desk.marking.counting import COUNTED
from taa1_desk.marking.sealed import SealedMarker
from taa1_desk.problems import Problem
from taa1_desk.reading.candidates import Named
from taa1_desk.reading.schemes import DEFAULT, parse
from taa1_desk.records import PLAIN, SEALED, Entry, split
from taa1_desk.showing import pictures

INPUTS = (CLASS / "sitting.txt", CLASS / "model.txt")
MODEL = split(seal(), SEALED)


def _wrong_version() -> bytes:
    """The model's record 2 with another version, properly sealed."""
    entry = Entry.of(split(PLAIN_BOOK, PLAIN)[2])
    return seal(plain=entry._replace(version=entry.version ^ 1).data)


# Of each hand-in: the book, and its entries right, wrong, failing, missing, not marked, extra.
FAILING = MODEL[4][:-1] + bytes([MODEL[4][-1] ^ 1])
BOOKS = {
    "all": (MODEL, (12, 0, 0, 0, 0, 0)),
    "wrong": ([*MODEL[:2], _wrong_version(), *MODEL[3:]], (11, 1, 0, 0, 0, 0)),
    "fails": ([*MODEL[:4], FAILING, *MODEL[5:]], (11, 0, 1, 0, 0, 0)),
    "short": (MODEL[:9], (9, 0, 0, 3, 0, 0)),
    "twice": ([*MODEL, MODEL[0]], (12, 0, 0, 0, 0, 1)),
    "double": ([*MODEL[:7], MODEL[0], *MODEL[8:]], (11, 0, 0, 1, 0, 0)),
    "tried": ([*MODEL[:5], FAILING, *MODEL[5:]], (12, 0, 0, 0, 0, 1)),
    "noise": ([b"\x8f" * SEALED], (0, 0, 0, 0, 12, 0)),
    "mixed": ([FAILING, _wrong_version(), *MODEL[5:], MODEL[6], MODEL[7]], (7, 1, 1, 3, 0, 0)),
}


class Class(Case):
    """taa1 mark of several candidates."""

    def setUp(self) -> None:
        """Writes the books."""
        super().setUp()
        self.books = [self.file(f"{n}.book", b"".join(records)) for n, (records, _) in BOOKS.items()]

    def test_csv(self) -> None:
        """A line of heads and one for each candidate, each entry counted as what it is."""
        done = taa1("mark", *INPUTS, *self.books, "--csv")
        rows = list(csv.DictReader(io.StringIO(done.out.decode())))
        self.assertEqual(rows[0]["candidate"], "noise")  # which is not marked, and comes first
        self.assertIn("the book is not marked, and counts 0 until somebody decides: ", rows[0]["problem"])
        rows.sort(key=lambda row: list(BOOKS).index(row["candidate"]))
        for row, (_, counts) in zip(rows, BOOKS.values()):
            self.assertEqual(tuple(int(row[name]) for name in COUNTED), counts, row["candidate"])
            self.assertEqual(sum(counts[:5]), int(row["entries"]))
        opens = [row["opens"] for row in rows]
        self.assertEqual(opens, ["yes", "yes", "no", "yes", "yes", "yes", "no", "", "no"])
        self.assertIn("0 of 1 records begin with a kind", rows[7]["problem"])
        points = [(row["points"], row["of points"]) for row in rows]
        sums = ["12", "11 1/4", "11 1/4", "9", "11", "11", "11", "0", "7 1/2"]  # an identity is a quarter
        self.assertEqual(points, [(each, "24") for each in sums])

    def test_formulas(self) -> None:
        """What a spreadsheet would work out has an apostrophe in front; commas are quoted."""
        names = ("=1+1.book", "+a.book", "@b.book", "-c, \"d\".book", "e=f.book", "＝g.book")
        for name in names:
            self.file(name, b"".join(MODEL))
        files = [f"./{name}" for name in names]
        out = taa1("mark", *INPUTS, *files, "--csv", cwd=self.folder).out.decode()
        found = [row[0] for row in csv.reader(io.StringIO(out))][1:]
        self.assertEqual(found, ["'=1+1", "'+a", "'@b", "'-c, \"d\"", "e=f", "'＝g"])

    def test_json(self) -> None:
        """The form has a number, and says of the class what the sheets say."""
        said = json.loads(taa1("mark", *INPUTS, *self.books, "--json").out)
        self.assertEqual((said["form"], said["version"]), ("taa1 mark", 4))
        counts = [tuple(sheet["counts"].values()) for sheet in said["sheets"]]
        self.assertEqual(counts, [counts for _, counts in BOOKS.values()])
        wrong = {each.pop("entry"): tuple(each.values()) for each in said["class"]["wrong_entries"]}
        self.assertEqual(
            wrong,
            {2: (2, 0, 0), 4: (0, 2, 0), 0: (0, 0, 1), 1: (0, 0, 1), 3: (0, 0, 1), 7: (0, 0, 1),
             9: (0, 0, 1), 10: (0, 0, 1), 11: (0, 0, 1)},
        )  # fmt: skip
        points = {"mean": "28/3", "median": "11", "of": "24", "in_percent": False, "candidates": 9, "not_marked": 1}
        self.assertEqual(said["class"]["points"], points)
        for sheet in said["sheets"]:
            self.assertEqual(sheet["extra"], sheet["counts"]["extra"], sheet["candidate"])
        self.fails(2, "mark: --csv or --json, not both", "mark", *INPUTS, *self.books, "--csv", "--json")

    def test_described(self) -> None:
        """docs/desk.md has every key of the JSON, and every head of the table."""
        page = (ROOT / "docs" / "desk.md").read_text()
        described = page[page.index("`--json` is for programs") : page.index("## In class")]
        keys: set[str] = set()

        def walk(value: Any) -> None:
            for each in value.values() if isinstance(value, dict) else value:
                if isinstance(each, (dict, list)):
                    walk(each)
            keys.update(value if isinstance(value, dict) else ())

        walk(json.loads(taa1("mark", *INPUTS, *self.books, *CLASS.glob("*.book"), "--json").out))
        sealed = self.file("sealed", seal())
        opened = taa1("mark", "--opened", INPUTS[0], sealed, CLASS / "gus.opened", "--json")
        walk(json.loads(opened.out))
        self.assertGreater(len(keys), 50)
        self.assertEqual([key for key in sorted(keys) if f"`{key}`" not in described], [])

    def test_unmarked_once(self) -> None:
        """Hand-ins that are not marked for one reason share a row of the class's page."""
        books = [self.file(f"x{at}.book", "not a book\n") for at in range(5)]
        taa1("mark", *INPUTS, *books, self.books[0], "--html", self.folder / "pages")
        page = (self.folder / "pages" / "index.html").read_text()
        self.assertEqual(page.count("this looks like"), 1)
        self.assertIn("<td data-head=\"candidate\">x0 (x0.book), x1 (x1.book), ", page)
        self.assertEqual(page.count("counts 0 until somebody decides"), 1)
        self.assertEqual(page.count('data-head="book and slips">not marked<'), 5)

    def test_bars(self) -> None:
        """Each part of a candidate's bar is as wide as it has entries."""
        taa1("mark", *INPUTS, *self.books, "--html", self.folder / "pages")
        page = (self.folder / "pages" / "index.html").read_text()
        most = max(sum(counts) for _, counts in BOOKS.values())
        for name, (_, counts) in BOOKS.items():
            row = re.search(rf'<a href="{name}.book.html">{name}</a>.*?<svg.*?>(.*?)</svg>', page)
            assert row
            wide = dict.fromkeys(COUNTED, 0.0)
            for width, filling in re.findall(r'width="([\d.]+)%".*?fill="url\(#(.*?)\)"', row[1]):
                wide[filling.replace("-", " ")] += float(width)
            for what, count in zip(COUNTED, counts):
                self.assertAlmostEqual(wide[what], 100 * count / most, 1, (name, what))
        worst = re.findall(r'data-head="entry">entry (\d+)<.*?<title>(.*?)</title>', page)
        self.assertEqual(worst[:3], [("2", "wrong: 2"), ("4", "fails a check: 2"), ("0", "missing: 1")])
        self.assertIn("Nobody got entries 5, 6 and 8 wrong.", page)

    def test_histogram(self) -> None:
        """Every value is in one column, and full points in the last."""
        values = [Fraction(n, 2) for n in range(25)]
        self.assertEqual(pictures.columns(values, Fraction(12)), (2, [4, 4, 4, 4, 4, 5]))
        self.assertEqual(pictures.columns([Fraction(0), Fraction(3)], Fraction(3)), (1, [1, 0, 1]))
        self.assertEqual(pictures.columns([Fraction(0)], Fraction(0)), (1, [1]))
        wide = pictures.columns(values, Fraction(247, 2))
        self.assertEqual((wide.width, len(wide.counts), sum(wide.counts)), (13, 10, 25))
        means = {"mean": Fraction(17, 3), "median": Fraction(6)}
        page = pictures.histogram(values, Fraction(12), means)
        self.assertIn(">mean 5.67<", page)
        self.assertIn('<text x="50.00%" y="160.0" dx="0" text-anchor="middle">▲', page)


class Maxima(Case):
    """What could be reached, where some handed in keys and others did not."""

    def setUp(self) -> None:
        """Ann hands in a book, Ben a book and two keys of which one is wrong."""
        super().setUp()
        self.books = [self.file(f"{name}.book", seal()) for name in ("ann", "ben")]
        ring = DESK.call("ring", *SITTING)["ring"]
        self.file("ben.keys", f"D = {ring[:10].hex()}\nO = {bytes(16).hex()}\n")

    def mark(self, *options: Any) -> list[str]:
        """The sentences about points, of each sheet and of the class."""
        out = taa1("mark", *INPUTS, *self.books, *options).out.decode()
        taa1("mark", *INPUTS, *self.books, *options, "--html", self.folder / "pages")
        page = (self.folder / "pages" / "index.html").read_text()
        return re.findall(r"  (points .*)", out) + re.findall(r"Points[:,].*?(?=\. |\.<|<)", page)

    def test_shares(self) -> None:
        """The class is compared by shares of what each could reach."""
        scheme = self.file("scheme", "keys asked = 0\n")
        share = "Points, in percent of what each could reach"
        self.assertEqual(
            self.mark("--scheme", scheme),
            ["points 12 of 12", "points 13 of 15 (entries right: 12 of 12; D: 1 of 1; O: 0 of 2)",
             f"{share}: mean 93.33, median 93.33 of 100, of all 2 candidates",
             f"{share}, and how many candidates have them, of all 2 candidates"],
        )  # fmt: skip
        said = json.loads(taa1("mark", *INPUTS, *self.books, "--json", "--scheme", scheme).out)["class"]["points"]
        wanted = {"mean": "280/3", "median": "280/3", "of": "100", "in_percent": True, "candidates": 2, "not_marked": 0}
        self.assertEqual(said, wanted)

    def test_asked(self) -> None:
        """Where keys are asked for, as the default has it, one maximum holds for all, and who
        hands in fewer wins nothing."""
        lines = "entries right: 12 of 12; session keys: 0 of 4; responses: 0 of 2; keys: 0 of 2; D: {} of 1; O: 0 of 2"
        self.assertEqual(
            self.mark(),
            [f"points 12 of 24 ({lines.format(0)}; G: 0 of 1)",
             f"points 13 of 24 ({lines.format(1)}; G: 0 of 1)",
             "Points: mean 12.5, median 12.5 of 24, of all 2 candidates",
             "Points, and how many candidates have them, of all 2 candidates"],
        )  # fmt: skip
        self.file("ben.keys", "".join((self.folder / "ben.keys").read_text().splitlines(True)[:1]))
        self.assertIn("points 13 of 24", self.mark()[1])
        bad = self.file("scheme", "keys asked = 2\n")
        said = f"{bad}, line 1: keys asked: 2, where 0 or 1 is wanted"
        self.fails(2, said, "mark", *INPUTS, *self.books, "--scheme", bad)


class Application(unittest.TestCase):
    """What another front needs: one call, without a file."""

    def test_one_call(self) -> None:
        marker = SealedMarker(DESK, SITTING, RING, PLAIN_BOOK)
        hand_ins = iter((HandIn("ann.book", seal()), HandIn("ben.book", Problem("ben.book: no such file"))))
        names = Named(["Ann", "Ben"], ["Cho"], [], [False, True])
        left_out = [LeftOut("", "dee.book", "a link")]
        of = mark_class(marker, hand_ins, parse(DEFAULT, "the default"), names, left_out)
        self.assertEqual([(sheet.candidate, sheet.name) for sheet in of.sheets], [("Ann", "ann.book"), ("Ben", "ben.book")])
        self.assertEqual([sheet.problem for sheet in of.sheets], [None, "no such file"])
        self.assertEqual([sheet.points and sheet.points.sum for sheet in of.sheets], [12, 0])
        self.assertEqual((of.summary.perfect, of.summary.unreadable, of.absent), (0, 1, ("Cho",)))  # no keys
        self.assertEqual((of.left_out, of.has_unread), (tuple(left_out), True))


class Names(Case):
    """Candidates' names, from their files or from a list."""

    def names(self, *books: object, error: str = "", status: int = 0) -> list[str]:
        """The names on the pages."""
        done = taa1("mark", *INPUTS, *books, "--html", "pages", cwd=self.folder)
        self.assertEqual((done.status, done.error), (status, error))
        index = (self.folder / "pages" / "index.html").read_text()
        return re.findall(r'data-head="candidate"><a href="[^"]*">(.*?)</a>', index)

    def test_files(self) -> None:
        for folder in ("one", "two"):
            (self.folder / folder).mkdir()
            self.file(f"{folder}/ann.book", seal())
            self.file(f"{folder}/{folder}.b.hex", seal())
        books = ("one/ann.book", "one/one.b.hex", "two/ann.book", "two/two.b.hex")
        names = ["ann (one-ann.book)", "one.b", "ann (two-ann.book)", "two.b"]
        self.assertEqual(self.names(*books), names)
        title = (self.folder / "pages" / "one-ann.book.html").read_text()
        self.assertIn("<h1>ann (one-ann.book)</h1>", title)

    def test_list(self) -> None:
        """By the file's whole name or its stem; who handed nothing in is named."""
        for name in ("ann.book", "b.c.hex", "dee.book"):
            self.file(name, seal())
        self.file("list", "# the winter class\nann = Ann Archer\nb.c.hex = Bo & Co\ngil = Gil Hart\n")
        books = ("ann.book", "b.c.hex", "dee.book", "--candidates", "list")
        error = "taa1: nothing was handed in by Gil Hart\ntaa1: not on the list of candidates: dee\n"
        self.assertEqual(self.names(*books, error=error, status=1), ["Ann Archer", "Bo &amp; Co", "dee"])
        index = (self.folder / "pages" / "index.html").read_text()
        self.assertIn("Nothing was handed in by Gil Hart.", index)
        out = taa1("mark", *INPUTS, *books, "--json", cwd=self.folder).out
        self.assertEqual([s["name"] for s in json.loads(out)["sheets"]], ["Ann Archer", "Bo & Co", "dee"])
        self.assertEqual(json.loads(out)["class"]["absent"], ["Gil Hart"])
        out = taa1("mark", *INPUTS, *books, "--csv", cwd=self.folder).out
        rows = list(csv.DictReader(io.StringIO(out.decode())))
        self.assertEqual([row["candidate"] for row in rows], ["Ann Archer", "Bo & Co", "dee", "Gil Hart"])
        filled = {head: value for head, value in rows[-1].items() if value}
        self.assertEqual(filled, {"candidate": "Gil Hart", "problem": "nothing was handed in"})
        text = taa1("mark", *INPUTS, *books, cwd=self.folder).out.decode()
        self.assertIn("\nBo & Co (b.c.hex): 12 of 12 entries right", text)

    def test_listed_twice(self) -> None:
        """One file with two names in the list is refused; two files are two candidates'."""
        self.file("ann.book", seal())
        self.file("list", "ann = Ann\nann.book = Anna\n")
        args = ("mark", "--candidates", "list", *INPUTS, "ann.book")
        both = "as ann.book = Anna and as ann = Ann"
        error = f"ann.book: listed twice among the candidates, {both}"
        self.fails(2, error, *args, cwd=self.folder)
        self.file("ann.hex", seal())
        self.assertEqual(taa1(*args, "ann.hex", cwd=self.folder).status, 0)

    def test_bad_list(self) -> None:
        book = self.file("ann.book", seal())
        bad = self.file("list", "ann\n= Ann\nann =\nb = B\nb = C\n")
        lines = [f"{bad}, line {n}: no line of the form FILE = Name" for n in (1, 2, 3)]
        lines.append(f"{bad}, line 5: b for the second time, after line 4")
        self.fails(2, "\ntaa1: ".join(lines), "mark", *INPUTS, book, "--candidates", bad)
