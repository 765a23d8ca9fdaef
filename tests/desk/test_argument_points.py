"""The argument's points: the scheme's lines, the file, the total and passing."""

from __future__ import annotations

import csv
import io
import json
import random
import re
import unittest
from fractions import Fraction
from typing import Any, Optional

from common import CLASS, Case, here, seal, taa1
from taa1_desk.argument import PARTS, Argument, Total
from taa1_desk.problems import Problem
from taa1_desk.reading.argument_points import argument, lines_text, parse, whose, written
from taa1_desk.reading.candidates import Named
from taa1_desk.reading.schemes import DEFAULT, argument_parts, needed, without_argument
from taa1_desk.reading.schemes import parse as parse_scheme
from taa1_desk.records import SEALED, split
from taa1_desk.showing.argued import passing
from taa1_desk.showing.argue import PROPOSED
from taa1_desk.showing.claims import PARTS as RUBRIC

INPUTS = (CLASS / "sitting.txt", CLASS / "model.txt")
MODEL = split(seal(), SEALED)
RULES = argument_parts(parse_scheme(DEFAULT, "the default"))
FULL = "given 1, one entry 3, properties 2, without it 2, was sealed 2"


def points(value: str) -> Optional[Fraction]:
    """What a line's value comes to."""
    return argument(value, RULES).points


class Scheme(unittest.TestCase):
    """The lines of the scheme."""

    def test_rubric(self) -> None:
        """The default's lines are the rubric's parts, in its order, with its points."""
        self.assertEqual([(part.name, part.of) for part in RULES], [(part.name, part.points) for part in RUBRIC])
        self.assertEqual((PARTS, PROPOSED), (tuple(part.name for part in RUBRIC), RULES))

    def test_most(self) -> None:
        """Of 'one entry' and 'one result' one counts, the greater."""
        for text, most in (
            ("", 10), ("one result = 5", 12), ("one entry = 0", 8), ("one entry = 0\none result = 0", 7),
            ("given = 1/2\nwas sealed = 0", Fraction(15, 2)),
        ):  # fmt: skip
            parts = argument_parts(parse_scheme(text, "scheme"))
            self.assertEqual(Argument(parts).most, most, text)

    def test_none(self) -> None:
        """With 0 in all lines the examination has no argument."""
        zeros = parse_scheme("".join(f"{name} = 0\n" for name in PARTS), "scheme")
        self.assertEqual(argument_parts(zeros), ())
        self.assertEqual(zeros, without_argument(parse_scheme(DEFAULT, "the default")))

    def test_pass(self) -> None:
        """Points, or a share of all in exact fractions; nothing without the line."""
        for text, of, wanted in (
            ("", 34, None), ("pass = 20", 34, 20), ("pass = 60%", 34, Fraction(102, 5)),
            ("pass = 200/3 %", 30, 20), ("pass = 41/2", 34, Fraction(41, 2)), ("pass = 100%", 7, 7),
        ):  # fmt: skip
            self.assertEqual(needed(parse_scheme(text, "scheme"), Fraction(of)), wanted, text)
        for line, problem in (
            ("pass = 0", "pass: 0, where more than 0 is wanted"),
            ("pass = -1", "pass: -1, where more than 0 is wanted"),
            ("pass = 101%", "pass in percent: 101, where more than 0 and 100 at most is wanted"),
            ("pass = much", "pass: 'much' is no whole number nor a fraction, as 2, 1/2 or -1"),
            ("given = -1", "given: -1, where 0 or more is wanted"),
        ):
            with self.assertRaisesRegex(Problem, f"^scheme, line 1: {re.escape(problem)}$"):
                parse_scheme(line, "scheme")
        with self.assertRaisesRegex(Problem, "^scheme, line 2: pass for the second time, after line 1$"):
            parse_scheme("pass = 20\npass = 60%", "scheme")


class File(unittest.TestCase):
    """The lines of the file."""

    def test_values(self) -> None:
        """The sum, or the parts in numbers or words; what is blank is not yet marked."""
        for value, wanted in (
            ("7 1/2", Fraction(15, 2)), ("15/2", Fraction(15, 2)), ("7.5", Fraction(15, 2)), ("0", 0), ("10", 10),
            ("none", 0), ("full", 10), (FULL, 10), ("given 1", 1), ("Given: half; ONE  ENTRY = 3/2", 2),
            ("one entry none, one result full, given 1", 2), ("one entry _, one result 1, given none", 1),
            ("one entry 3, one result _", 3), ("properties 0 1/2,", Fraction(1, 2)),
            ("", None), ("_", None), ("given _, one entry 3", None), ("one entry 0, one result _", None),
            ("given , properties 2", None),
        ):  # fmt: skip
            self.assertEqual(points(value), wanted, value)

    def test_blank(self) -> None:
        """The parts that are still blank are known."""
        self.assertEqual(argument("given _, one entry 3, one result _, properties 2", RULES).blank, ["given"])
        self.assertEqual(argument("", RULES).blank, [part.name for part in RUBRIC])
        self.assertEqual(argument("3", RULES).blank, [])

    def test_refused(self) -> None:
        """Each mistake by its line's number, with what to write; all at once."""
        numbers = "write 0 or more as 2, 1/2, 1 1/2 or 1.5, or full, half or none"
        names = "given, one entry, one result, properties, without it, was sealed"
        both = (
            "points for both, and 'one result' stands in the place of 'one entry', where that gets nothing: "
            "give points for one of them"
        )
        cases = (
            ("11", "the argument: 11, where there are 10: write 0 to 10"),
            ("-1", f"the argument: '-1' are no points: {numbers}"),
            ("7,5", "'7,5' is no number: write 7.5"),
            ("given 2", "given: 2, where there are 1: write 0 to 1"),
            ("given -1", f"given: '-1' are no points: {numbers}"),
            ("given some", f"given: 'some' are no points: {numbers}"),
            ("giver 1", f"no part 'giver 1': the parts that have points are {names}"),
            ("given 1, given 1", "given for the second time: write it once"),
            ("one entry 1/2, one result 1", both),
        )
        text = "".join(f"c{at} = {value}\n" for at, (value, _) in enumerate(cases))
        with self.assertRaises(Problem) as caught:
            parse(text + "ben 7\nc1 = 3\n", "file", RULES)
        wanted = [f"file, line {at}: c{at - 1}: {problem}" for at, (_, problem) in enumerate(cases, 1)]
        end = len(cases)
        form = "NAME = POINTS, as in ann = 7 1/2 or ann = given 1, one entry half"
        wanted.append(f"file, line {end + 1}: no line of the form {form}")
        wanted.append(f"file, line {end + 2}: c1 for the second time, after line 2")
        self.assertEqual(list(caught.exception.lines), wanted)

    def test_written(self) -> None:
        """What is written of an argument is read as the same."""
        draw = random.Random(5)
        for _ in range(200):
            given = {
                part.name: draw.choice(("_", "none", "half", "full", f"{draw.randrange(7)}/6"))
                for part in RUBRIC
                if draw.random() < 0.8
            }
            given["one result"] = "none" if given.get("one entry", "_") not in ("_", "none", "0/6") else "_"
            made = argument(", ".join(f"{name} {value}" for name, value in given.items()), RULES)
            self.assertEqual(argument(written(made), RULES), made)
            text = lines_text([("ann", "Ann", made), ("ben", "Ben", argument("5", RULES))], RULES)
            self.assertEqual([line.argument for line in parse(text, "text", RULES)], [made, argument("5", RULES)])

    def test_whose(self) -> None:
        """By the file's name or the candidate's; of the list, of hand-ins and of those without one."""
        listed = {"ann": "Ann Archer", "gil": "Gil Hart"}
        files = ["class/ann.book", "class/zed.b.hex", "class/one/x.book"]
        names = Named(["Ann Archer", "zed.b", "one"], ["Gil Hart"], [], [False, True, True])
        for name, at in (
            ("ann", 0), ("ann.book", 0), ("Ann  Archer", 0), ("zed.b.hex", 1), ("zed", 1), ("zed.b", 1), ("one", 2),
            ("x", 2),
        ):  # fmt: skip
            given = whose(parse(f"{name} = 3", "file", RULES), "file", files, names, listed, {files[2]: "one"})
            self.assertEqual({at: each.points for at, each in given.of.items()}, {at: 3}, name)
        for name in ("gil", "Gil Hart"):
            given = whose(parse(f"{name} = 3", "file", RULES), "file", files, names, listed)
            self.assertEqual((given.of, [name for name, _ in given.others]), ({}, ["Gil Hart"]))

    def test_nobody(self) -> None:
        """Unknown, ambiguous and repeated names are refused."""
        listed = {"ann": "Ann", "bo1": "Bo", "bo2": "Bo"}
        files = ["ann.book", "a/ben.book", "b/ben.book"]
        names = Named(["Ann", "ben (a-ben.book)", "ben (b-ben.book)"], ["Bo", "Bo"], [], [False, True, True])
        with self.assertRaises(Problem) as caught:
            lines = parse("ann = 1\nAnn = 2\nben = 3\nBo = 4\nanm = 5\nxyz = 6\n", "file", RULES)
            whose(lines, "file", files, names, listed)
        self.assertEqual(
            list(caught.exception.lines),
            ["file, line 2: Ann for the second time, after line 1: keep one",
             "file, line 3: 'ben' may be ben (a-ben.book) and ben (b-ben.book): write the whole name of one",
             "file, line 4: 'Bo' may be Bo and Bo: write the whole name of one",
             "file, line 5: no candidate 'anm': is ann meant?",
             "file, line 6: no candidate 'xyz': write a name as in Ann, ann.book, ann"],
        )  # fmt: skip
        given = whose(parse("ben (b-ben.book) = 3\nbo2 = 1", "file", RULES), "file", files, names, listed)
        self.assertEqual((list(given.of), len(given.others)), ([2], 1))


class Passing(unittest.TestCase):
    """Whether it is passed, as far as it is decided."""

    def test_decided(self) -> None:
        """Said exactly where everything that may still come gives the same."""
        half = [Fraction(n, 2) for n in range(9)]
        for points_, open_, border in ((p, o, b) for p in half for o in half for b in half[1:]):
            total = Total(points_, Fraction(8), ("argument",) if open_ else (), open_, border)
            may_be = {points_ + more >= border for more in half if more <= open_}
            self.assertEqual(total.passed, may_be.pop() if len(may_be) == 1 else None)

    def test_words(self) -> None:
        twenty = Fraction(20)
        for total, words in (
            (Total(twenty, Fraction(34), (), Fraction(0), twenty), "passed (20 needed)"),
            (Total(Fraction(39, 2), Fraction(34), (), Fraction(0), twenty), "not passed (20 needed)"),
            (Total(twenty, Fraction(34), ("argument",), Fraction(10), twenty),
             "passed (20 needed), whatever the argument gets"),
            (Total(Fraction(19, 2), Fraction(34), ("argument",), Fraction(10), twenty),
             "not passed (20 needed), whatever the argument gets"),
            (Total(Fraction(10), Fraction(34), ("argument",), Fraction(10), twenty),
             "not yet known whether passed (20 needed, and the argument is not marked)"),
            (Total(Fraction(0), Fraction(34), ("book", "argument"), twenty, twenty),
             "not yet known whether passed (20 needed, and the book and argument are not marked)"),
        ):  # fmt: skip
            self.assertEqual(passing(total), words)


class Marking(Case):
    """taa1 mark --arguments: sheets, pages, the table and JSON."""

    def setUp(self) -> None:
        """Ann, Ben and Cho hand in books, of whom Cho's can't be read; Gil hands in nothing."""
        super().setUp()
        self.file("ann.book", seal())
        self.file("ben.book", b"".join(MODEL[:4]))
        self.file("cho.book", "not a book\n")
        self.file("names", "ann = Ann Archer\nben = Ben Baker\ncho = Cho Min-jun\ngil = Gil Hart\n")
        self.books = ("ann.book", "ben.book", "cho.book", "--candidates", "names")

    def mark(self, *options: Any, arguments: str = "", scheme: str = "") -> Any:
        """Marks the class, without keys, so that the book has 12 points."""
        keys = "keys asked = 0\n"
        self.file("scheme", keys + scheme)
        self.file("arguments", arguments)
        given = ("--arguments", "arguments") if arguments else ()
        return here("mark", *INPUTS, *self.books, "--scheme", "scheme", *given, *options, cwd=self.folder)

    def rows(self, **options: Any) -> dict[str, tuple[str, ...]]:
        """The columns of the table from the points to passing, by the candidates."""
        done = self.mark("--csv", **options)
        names = ("points", "argument", "of argument", "total", "of total", "passed")
        rows = csv.DictReader(io.StringIO(done.out.decode()))
        return {row["candidate"]: tuple(row[name] for name in names) for row in rows}

    def test_not_yet(self) -> None:
        """Without the file the argument is not yet marked, and it is said of what the sum is."""
        text = self.mark().out.decode()
        self.assertIn("\n  points 12 of 12\n  argument not yet marked, of 10; total 12 of 22 so far\n", text)
        self.assertEqual(self.rows()["Ann Archer"], ("12", "", "10", "", "22", ""))
        self.mark("--html", "pages")
        page = (self.folder / "pages" / "ann.book.html").read_text()
        self.assertIn("12 of 12 points for book and keys; argument not yet marked, of 10. Total 12 of 22 so far.", page)
        parts = "given 1, one entry 3, one result 1 in the place of &#x27;one entry&#x27;, properties 2"
        self.assertIn(f"Not yet marked, of 10 points: {parts}", page)
        self.assertIn("<b>Argument, of 10</b>", page)  # places to write on
        index = (self.folder / "pages" / "index.html").read_text()
        self.assertIn("The argument, of 10 points, is not yet marked.", index)
        self.assertNotIn("passed", index)

    def test_no_argument(self) -> None:
        """A scheme with 0 in all its lines: nothing is said of one, and no file is taken."""
        zeros = "".join(f"{name} = 0\n" for name in PARTS)
        for options in ((), ("--html", "pages")):
            done = self.mark(*options, scheme=zeros)
            self.assertNotIn("argument", done.out.decode())
        for page in (self.folder / "pages").iterdir():
            self.assertNotIn("rgument", page.read_text().partition("</head>")[2])
        self.assertEqual(self.rows(scheme=zeros)["Ann Archer"], ("12", "", "", "", "", ""))
        self.assertEqual(self.rows(scheme=f"{zeros}pass = 50%")["Ann Archer"], ("12", "", "", "12", "12", "yes"))
        done = self.mark(scheme=zeros, arguments="ann = 3\n")
        said = "taa1: arguments: the scheme has no points for an argument, so it takes no --arguments\n"
        self.assertEqual((done.status, done.out, done.error), (2, b"", said))

    def test_total(self) -> None:
        """Book and argument, and whether passed, where the border counts as passed."""
        arguments = "ann = 5\nBen Baker = given 1, one entry half, properties 2\ncho = 7\ngil.x = 2\n"
        wrong = "taa1: arguments, line 4: no candidate 'gil.x': is gil meant?\n"
        self.assertEqual(self.mark(arguments=arguments).error, wrong)
        arguments = arguments.replace("gil.x", "gil")
        rows = self.rows(arguments=arguments, scheme="pass = 17")
        self.assertEqual(
            rows,
            {"Ann Archer": ("12", "5", "10", "17", "22", "yes"),
             "Ben Baker": ("4", "4 1/2", "10", "8 1/2", "22", "no"),
             "Cho Min-jun": ("0", "7", "10", "7", "22", "not yet known"),
             "Gil Hart": ("", "2", "10", "2", "22", "no")},
        )  # fmt: skip
        self.assertEqual(self.rows(arguments=arguments, scheme="pass = 35/2")["Ann Archer"][-1], "no")
        share = self.rows(arguments=arguments, scheme="pass = 850/11%")  # 17 of 22
        self.assertEqual([row[-1] for row in share.values()], ["not yet known", "yes", "no", "no"])
        self.assertEqual(share, {name: rows[name] for name in share})

    def test_said(self) -> None:
        """What is not marked counts 0 and is said so, on sheet, page and in JSON; who handed
        nothing in keeps the argument and is named."""
        options = {"arguments": "ann = given 1, one result full\ncho = 7\ngil = 2\n", "scheme": "pass = 50%"}
        done = self.mark(**options)
        text = done.out.decode()
        self.assertIn("\n  argument 2 of 10 (given: 1; one entry: 0; one result: 1; properties: 0; "
                      "without it: 0; was sealed: 0)\n  total 14 of 22: passed (11 needed)\n", text)  # fmt: skip
        self.assertIn("\n  argument not yet marked, of 10; total 4 of 22 so far: not yet known whether passed "
                      "(11 needed, and the argument is not marked)\n", text)  # fmt: skip
        cho = "total 7 of 22, with 0 for the book: not yet known whether passed (11 needed, and the book is not marked)"
        self.assertIn(f"\n  argument 7 of 10\n  {cho}\n", text)
        self.assertIn("\n  1 passed, 0 not passed, 2 not yet known\n", text)
        gil = "no hand-in of Gil Hart is marked: argument 2 of 10; total 2 of 22, with 0 for the book"
        self.assertIn(f"taa1: {gil}", done.error)
        self.assertIn(f"\n  {gil}", text)
        self.assertIn("taa1: argument not yet marked: Ben Baker\n", done.error)
        self.mark("--html", "pages", **options)
        index = (self.folder / "pages" / "index.html").read_text()
        self.assertIn(gil[1:], index)
        self.assertIn("The argument of 1 candidate, of 10 points, is not yet marked.", index)
        self.assertIn("Totals: mean 10.5, median 10.5 of 22, of 2 candidates, 1 of them with 0 for the book.", index)
        said = json.loads(self.mark("--json", **options).out)
        self.assertEqual(said["sheets"][0]["argument"]["points"], "2")
        self.assertEqual(said["sheets"][0]["argument"]["parts"][2], {"part": "one result", "points": "1", "of": "1"})
        total = {"points": "7", "of": "22", "counts_0": ["book"], "needed": "11", "passed": None}
        self.assertEqual(said["sheets"][2]["total"], total)
        self.assertEqual(said["class"]["passing"], {"passed": 1, "not_passed": 0, "not_yet_known": 2})
        self.assertEqual(said["class"]["arguments_not_marked"], 1)
        self.assertEqual(said["class"]["totals"]["mean"], "21/2")
        self.assertEqual([each["name"] for each in said["class"]["arguments_alone"]], ["Gil Hart"])

    def test_nobody_could_pass(self) -> None:
        """A border that nobody can reach is refused; the keys that are asked for count."""
        self.assertEqual(self.mark(scheme="pass = 34").status, 1)
        done = self.mark(scheme="pass = 35")
        said = "taa1: the scheme's pass: 35 points are needed, and 34 can be reached, so nobody could pass\n"
        self.assertEqual((done.status, done.out, done.error), (2, b"", said))

    def test_opened(self) -> None:
        """What was opened is an exercise: its argument is spoken of where points are given."""
        sealed, scheme = self.file("sealed", seal()), self.file("s", "keys asked = 0\n")
        opened = (INPUTS[0], sealed, CLASS / "gus.opened", "--scheme", scheme)
        self.assertNotIn("argument", taa1("mark", "--opened", *opened).out.decode())
        given = self.file("a", "gus = 4\n")
        self.assertIn("argument 4 of 10\n", taa1("mark", "--opened", *opened, "--arguments", given).out.decode())

    def test_written_over(self) -> None:
        """No output replaces the file, nor is it a hand-in of the folder in which it lies."""
        done = self.mark("-o", "arguments", arguments="ann = 3\n")
        self.assertEqual((done.status, (self.folder / "arguments").read_text()), (2, "ann = 3\n"))
        self.assertEqual(here("mark", *INPUTS, "ann.book", "ben.book", ".", "--arguments", "arguments", "--scheme",
                              "scheme", "--candidates", "names", "--dry", cwd=self.folder).error.count("arguments"), 0)  # fmt: skip


class Sheets(Case):
    """taa1 argue --candidates: a sheet for each name, and the file to fill in."""

    def setUp(self) -> None:
        super().setUp()
        self.names = self.file("names", "1017 = Ann Archer\n1018 = Ben & Co\n")

    def test_for_each(self) -> None:
        """Each name stands once over the parts, and what all share is there once."""
        text = self.accepted("argue", *INPUTS, "--candidates", self.names).decode()
        self.assertRegex(text, r"\nAnn Archer \(1017\), 1 of 2\n(?s:.*)\nBen & Co \(1018\), 2 of 2\n")
        self.assertEqual(text.count("Points in all, of 10 ___"), 2)
        for part in RUBRIC:
            self.assertEqual(len(re.findall(rf"\n  {part.name} +{re.escape(part.asks[:20])}.*__", text)), 2)
        self.assertEqual(text.count("The sentences, each with an instance"), 1)
        self.assertEqual(len(re.findall(r"\n1a, false", text)), 1)
        page = self.folder / "argue.html"
        self.accepted("argue", *INPUTS, "--candidates", self.names, "--html", page)
        self.assertEqual(page.read_text().count('<h2 class="new">'), 2)
        self.assertIn('<h2 class="new">Ben &amp; Co (1018), 2 of 2</h2>', page.read_text())

    def test_scheme(self) -> None:
        """The points are the scheme's; a part without points is left out."""
        scheme = self.file("scheme", "given = 3/2\nwas sealed = 0\n")
        text = self.accepted("argue", *INPUTS, "--candidates", self.names, "--scheme", scheme).decode()
        self.assertIn("Points in all, of 8 1/2 ", text)
        self.assertRegex(text, r"\n  given +Say what must be fixed for that\. +1 1/2 +__\n")
        self.assertNotIn("\n  was sealed ", text)
        none = self.file("none", "".join(f"{name} = 0\n" for name in PARTS))
        said = f"{none}: no points for the argument in it, so there is none to mark"
        self.fails(2, said, "argue", *INPUTS, "--scheme", none)

    def test_form(self) -> None:
        """The form is a file in which nobody is marked; filled in, it marks them."""
        form = self.folder / "form"
        self.accepted("argue", *INPUTS, "--candidates", self.names, "--form", "-o", form)
        lines = parse(form.read_text(), "form", RULES)
        self.assertEqual([(line.name, line.argument.points) for line in lines], [("1017", None), ("1018", None)])
        self.file("1017.book", seal())
        given = iter(("full", "3", "_", "half", "2", "none"))
        ann = next(line for line in form.read_text().splitlines() if line.startswith("1017"))
        form.write_text(form.read_text().replace(ann, re.sub("_", lambda _: next(given), ann)))
        done = taa1("mark", *INPUTS, self.folder / "1017.book", "--arguments", form, "--candidates", self.names)
        self.assertIn("\n  argument 7 of 10 (given: 1; one entry: 3; properties: 1; without it: 2; was sealed: 0)", done.out.decode())
        there = f"{form}: it is there already, and may be filled in: give the form another name"
        self.fails(2, there, "argue", *INPUTS, "--candidates", self.names, "--form", "-o", form)
        wants = "argue: --form writes a text with a line for each name, so it wants --candidates and no --html"
        self.fails(2, wants, "argue", *INPUTS, "--form")
        empty = self.file("empty", "# nobody\n")
        self.fails(2, f"{empty}: no line FILE = Name in it", "argue", *INPUTS, "--candidates", empty)


if __name__ == "__main__":
    unittest.main()
