"""The question paper, the form and the solution: nothing that is asked for is in the first two."""

from __future__ import annotations

import json
import re
import stat
from fractions import Fraction as F
from html import unescape
from typing import Optional
from unittest import mock

from common import CLASS, DESK, ENTRIES, LINES, PLAIN_BOOK, SITTING, Case, here, seal, taa1
from reference import SCHEDULE_D
from taa1 import Sitting
from taa1_desk.asked import asked
from taa1_desk.command import files
from taa1_desk.marking.model import model_answer
from taa1_desk.marking.working import Steps
from taa1_desk.names import both
from taa1_desk.points import said as said_points
from taa1_desk.reading import schemes
from taa1_desk.reading.books import format_lines
from taa1_desk.reading.own_words import paragraphs
from taa1_desk.reading.sittings import Heading, format_sitting, sitting_bytes
from taa1_desk.records import KINDS, PLAIN, SEALED, split
from taa1_desk.showing import paper
from taa1_desk.showing.claims import PARTS
from taa1_desk.showing.document import Document, as_page, as_text
from taa1_desk.showing.html import grouped
from taa1_desk.showing.worth import Worth
from test_pages import Page

INPUTS = (CLASS / "sitting.txt", CLASS / "model.txt")
SCHEME = """entry = 2
redundancy byte = 1/8
session key = 7/2
D = 2
O = 4
G = 0
keys asked = 1
follow-through = 1/3
extra = -2
order = -1/4
"""
KEYS = [value.name for _, values in asked(3) for value in values]
_ROOT, *_TENS = (bytes(range(at, at + 16 if at == 60 else at + 10)) for at in (60, 90, 120, 150, 180, 210))
OTHER = Sitting(_ROOT, *_TENS, bytes(range(30, 42)), 3, 0x000F, 0x3FF0)  # type: ignore[call-arg, arg-type]


def examined(sitting: Sitting, plain: bytes = PLAIN_BOOK) -> paper.Examination:
    """A sitting with the sample's book, worked."""
    return paper.examination(DESK, sitting, Heading("A & B", "today"), plain, "f")


def candidates(of: paper.Examination) -> list[Document]:
    """What a candidate gets."""
    return [paper.question_paper(of), paper.answer_form(of)]


def asked_for(of: paper.Examination) -> list[bytes]:
    """Every value that a candidate is to work out."""
    keys = [key for key in of.model["keys"] if key["name"] != "C" and "does not" not in key["how"]]
    records = split(of.model["sealed"], SEALED)
    parts = [part for record in records for part in (record, record[1:4], record[6:])]
    return [key["value"] for key in keys] + parts


def sums(said: str) -> list[F]:
    """The row of points under the paper's last heading."""
    row = said[said.index("\nPoints\n") :].split("\n")[5]
    return [sum(map(F, each.split()), F(0)) for each in re.split(r"\s{2,}", row.strip())]


def digits(text: str) -> str:
    """All hexadecimal digits of a page or a text, whatever stands between them."""
    return "".join(re.findall("[0-9a-f]", unescape(re.sub("<style.*?</style>|<[^>]*>", "", text, flags=re.S)).lower()))


class Paper(Case):
    """taa1 paper."""

    def test_nothing_asked_for(self) -> None:
        """No value is in the candidate's pages, in whatever groups; the solution has each."""
        for sitting in (SITTING, OTHER):
            for sides in (1, 2, 3):
                of = examined(sitting._replace(sides=sides))
                values = asked_for(of)
                self.assertEqual(len(values), (9 if sides == 3 else 6) + 3 * len(ENTRIES))
                for document in candidates(of):
                    for shown in (as_page(document), as_text(document)):
                        have, source = digits(shown), shown.lower()
                        for value in values:
                            self.assertNotIn(value.hex(), have)
                            self.assertNotIn(value.hex(), source)
                for shown in (as_page(paper.solution(of)), as_text(paper.solution(of))):
                    have = digits(shown)
                    for value in values:
                        self.assertIn(value.hex(), have)

    def test_every_grouping_is_found(self) -> None:
        """The search above finds a value in pieces of any size, in cells and in capitals."""
        value = "e8747aa2cbbf900258cfc4ec4fd4d63e"
        for size in (1, 2, 4, 8, 32):
            parts = [value[at : at + size] for at in range(0, 32, size)]
            for text in (" ".join(parts), "</td>\n<td>".join(parts).upper(), "&#32;".join(parts)):
                self.assertIn(value, digits(f"<tr><td>{text}</td></tr>"))

    def test_given(self) -> None:
        """The paper has all that is given, and which bytes the masks choose."""
        said = as_text(paper.question_paper(examined(SITTING)))
        for value in SITTING[:7]:
            self.assertIn(f"  {grouped(value)}\n", said)
        self.assertIn("9009: B15 B12 B3 B0\n", said)
        self.assertIn("6db6: B14 B13 B11 B10 B8 B7 B5 B4 B2 B1\n", said)
        for entry in ENTRIES:
            self.assertRegex(said, rf"{entry.identity:06x} +{entry.version} +(-|{entry.number}) +{grouped(entry.key)}\n")
        for name in ("session key 1", "session key 2", "response 1", "key 2", "D", "O", "G"):
            self.assertIn(both(name), said)
        self.assertIn("The argument\nWhy can a sealed text open to one entry only?", said)

    def test_numbers(self) -> None:
        """In how many bytes versions and numbers are, for the kinds of the book."""
        for kinds, wanted in (
            ((1, 4), "Versions are decimal, two bytes with the high one first."),
            ((1, 2), "a version is two bytes, a number one byte in kind 2; of two bytes the"),
            ((3, 6), "a version is two bytes, a number two bytes in kinds 3 and 6; of two bytes the"),
            (range(1, 7), "a number one byte in kinds 2 and 5, two bytes in kinds 3 and 6; of two bytes the"),
        ):
            plain = b"".join(each for each in split(PLAIN_BOOK, PLAIN) if each[0] in kinds)
            said = as_text(paper.question_paper(examined(SITTING, plain)))
            self.assertIn(wanted, " ".join(said.split()))

    def test_chosen(self) -> None:
        """A mask chooses the bytes that TA12 takes."""
        text = bytes(range(15, -1, -1))
        for mask in (0x9009, 0x6DB6, 0x000F, 0xFFC0):
            named = [int(name[1:]) for name in paper.chosen(mask).split()]
            self.assertEqual(bytes(named), Steps(DESK).chosen(text, mask))

    def test_form(self) -> None:
        """A box for each byte that is asked for, and numbered rows."""
        for sides, boxes, last in ((3, 102, 9), (1, 72, 6), (2, 72, 6)):
            of = examined(SITTING._replace(sides=sides))
            page = as_page(paper.answer_form(of))
            self.assertEqual(page.count("<i></i>"), boxes + 21 * len(ENTRIES))
            rows = [row for _, values in asked(sides) for row in (v.row for v in values)]
            self.assertEqual(rows, list(range(1, last + 1)))
            for name in ("Name", "Candidate's number", "Date", "row", "entry"):
                self.assertIn(name, unescape(page))

    def test_one_side(self) -> None:
        """Nothing is asked of a side that does not run, and what stands for it is said."""
        for sides, idle, absent in ((1, "TA22", ("KS'", "RES2", "DCK2")), (2, "TA12", ("RES1", "DCK1"))):
            for document in candidates(examined(SITTING._replace(sides=sides))):
                for name in absent:
                    self.assertNotIn(f"({name})", as_text(document))
            said = as_text(paper.question_paper(examined(SITTING._replace(sides=sides))))
            self.assertIn(f"{idle} does not run: zeros stand for its key in TB4.\n", said)

    def test_solution(self) -> None:
        """Every part ends with the engine's value, and has the steps that lead to it."""
        of = examined(SITTING)
        said = as_text(paper.solution(of))
        parts = {part.split("\n")[0]: part for part in said.split("\n\n")}
        model = model_answer(DESK, SITTING, PLAIN_BOOK, "f")
        values = {key["name"]: grouped(key["value"]) for key in model["keys"]}
        core = ["EXP1", "EXP2's last byte", "EXP2", "left block", "chaining", "right block", "BL1"]
        wanted: tuple[tuple[str, list[str], list[str]], ...] = (
            ("TA11: session key 1 (KS)", ["session key 1"], core),
            ("TA12: response 1 (RES1) and key 1 (DCK1)", ["response 1", "key 1"],
             [*core, "bytes chosen by a mask", "bytes chosen by a mask"]),
            ("TA21: session key 2 (KS')", ["session key 2"], ["seed reversed", *core]),
            ("TA41: O (KSO)", ["O"], core),
            ("TB4: D (DCK)", ["D"], []),
            ("TB7: G (EGSKO)", ["G"], []),
        )  # fmt: skip
        for title, names, steps in wanted:
            lines = [line for line in parts[title].splitlines()[2:] if not line.endswith("taken")]
            self.assertEqual([self.step(line) for line in lines], [*steps, title.split(":")[0]])
            self.assertIn(" | ".join(values[name] for name in names), lines[-1])
            self.assertTrue(lines[-1].endswith(" | ".join(both(name) for name in names)))
        taken = [re.split(r"\s{2,}", line)[4] for line in said.splitlines() if line.endswith("taken")]
        keys = ("session key 1", "key 1", "key 2")
        for value in (*map(grouped, SITTING[:7]), *(values[name] for name in keys)):
            self.assertIn(value, taken)
        for entry, made in zip(ENTRIES, model["entries"]):
            title = next(name for name in parts if name.startswith(f"Entry {made['entry']}:"))
            lines = parts[title].splitlines()[2:]
            steps = [self.step(line) for line in lines]
            for step in ("left block", "chaining", "right block", "BL1", "byte 8 dropped", made["call"],
                         "identity encrypted"):
                self.assertEqual(steps.count(step), 1, (title, step))
            self.assertEqual((steps.count("P"), steps.count("⊕ with a K-string")), (2, 3))
            self.assertIn(grouped(made["record"]), lines[-1])
            whole = bytes.fromhex(lines[steps.index("BL1")][40:].split("  ")[0].replace(" ", "")[-32:])
            self.assertTrue(lines[steps.index("byte 8 dropped")].endswith(f"which is {whole[7]:02x}"))
            self.assertEqual(whole[:7] + whole[8:], made["text"])
            expansion = {1: "EXP1", 2: "EXP3", 3: "X16", 4: "X16", 5: "EXP3", 6: "X16"}[entry.kind]
            self.assertIn(expansion, steps)

    @staticmethod
    def step(line: str) -> str:
        """The name in a line of the solution."""
        return re.split(r"\s{2,}", re.sub(r"^\s*(\d+|-)\s+", "", line))[0]

    def test_disagreement(self) -> None:
        """A working that is not the engine's answer makes no page."""
        for method, wrong in (
            ("last_byte", 0),
            ("tb7", bytes(16)),
            ("dropped", bytes(15)),
            ("strings", (bytes(3),) * 3),
        ):
            with mock.patch.object(Steps, method, lambda *inputs, wrong=wrong: wrong):
                done = here("paper", *INPUTS, "--html", self.folder / "pages", cwd=self.folder)
            said = "the working, step by step, is not what the engine answers: no page is made"
            self.assertEqual((done.status, done.error), (2, f"taa1: {said}\n"), method)
            self.assertFalse((self.folder / "pages").exists())

    def test_pages(self) -> None:
        """Two pages, and apart from them the solution, its owner's alone."""
        heading = Heading('<b> "Winter" & more', "3 December")
        sitting = self.file("sitting.txt", format_sitting(sitting_bytes(SITTING), heading))
        pages, own = self.folder / "pages", self.folder / "own"
        done = taa1("paper", sitting, INPUTS[1], "--html", pages, "--solution", own)
        self.assertEqual((done.status, done.out, done.error), (0, b"", ""))
        self.assertEqual({path.name for path in pages.iterdir()}, {"paper.html", "form.html"})
        self.assertEqual({path.name for path in own.iterdir()}, {"solution.html"})
        for path, private in ((pages, False), (pages / "paper.html", False), (own, True), (own / "solution.html", True)):
            self.assertEqual(stat.S_IMODE(path.stat().st_mode) & 0o077 == 0, private, path.name)
        for path in (*pages.iterdir(), *own.iterdir()):
            text = path.read_text()
            self.assertEqual(Page(path).links, [])
            self.assertIn("<p>&lt;b&gt; &quot;Winter&quot; &amp; more, 3 December</p>", text)
            for word in ("<script", "src=", "http", "@import", "url(", "<b> "):
                self.assertNotIn(word, text)

    def test_texts(self) -> None:
        """Each part by itself, or all three; a file with the solution is private."""
        parts = [self.accepted("paper", *INPUTS, "--part", part) for part in ("paper", "form", "solution")]
        self.assertEqual(self.accepted("paper", *INPUTS), b"\n\n".join(parts))
        for part, private in (("form", False), ("solution", True)):
            name = self.folder / part
            self.accepted("paper", *INPUTS, "--part", part, "-o", name)
            self.assertEqual(stat.S_IMODE(name.stat().st_mode) & 0o077 == 0, private)

    def test_all_or_none(self) -> None:
        """Where one page can't be written, the others are as they were."""
        pages, own = self.folder / "pages", self.folder / "own"
        folders = ("--html", pages, "--solution", own)
        self.accepted("paper", *INPUTS, *folders)
        shorter = self.file("book.txt", "".join(LINES.splitlines(True)[:3]))
        for bad, kept in ((pages / "form.html", own / "solution.html"), (own / "solution.html", pages / "paper.html")):
            before = {path: path.read_bytes() for path in (*pages.iterdir(), *own.iterdir()) if path != bad}
            content = bad.read_bytes()
            bad.unlink()
            bad.mkdir()
            done = taa1("paper", INPUTS[0], shorter, *folders)
            self.assertEqual((done.status, done.error), (2, f"taa1: {bad}: Is a directory\n"))
            self.assertIn(kept, before)
            now = {path: path.read_bytes() for path in (*pages.iterdir(), *own.iterdir()) if path != bad}
            self.assertEqual(now, before)
            bad.rmdir()
            bad.write_bytes(content)
        new = self.folder / "new"
        bad = self.file("file", "")
        for folders in (("--html", new, "--solution", bad), ("--html", bad, "--solution", new)):
            done = taa1("paper", *INPUTS, *folders)
            self.assertEqual((done.status, done.out), (2, b""))
            self.assertFalse(new.exists())

    def test_solution_apart(self) -> None:
        """No solution lies where candidates' pages do; one of an earlier run is named."""
        apart = "the worked solution is kept apart from the paper: name another folder"
        for inner in ("pages", "pages/own", "./pages/../pages", "link"):
            (self.folder / "link").unlink(missing_ok=True)
            (self.folder / "link").symlink_to("pages")
            said = f"{inner}: {apart} than that of --html, and none in it"
            self.fails(2, said, "paper", *INPUTS, "--html", "pages", "--solution", inner, cwd=self.folder)
            self.assertFalse((self.folder / "pages").exists())
        self.assertEqual(taa1("paper", *INPUTS, "--html", "pages", "--solution", "pages2", cwd=self.folder).error, "")
        said = f"pages: {apart}, since paper.html lies there"
        self.fails(2, said, "paper", *INPUTS, "--solution", "pages", cwd=self.folder)
        self.accepted("paper", *INPUTS, "--solution", ".", cwd=self.folder)
        self.assertEqual((self.folder / "solution.html").read_bytes(), (self.folder / "pages2/solution.html").read_bytes())
        old = self.file("pages/solution.html", "old")
        done = taa1("paper", *INPUTS, "--html", "pages", cwd=self.folder)
        said = "taa1: pages/solution.html: a worked solution of an earlier run lies beside the paper: remove it\n"
        self.assertEqual((done.status, done.error, old.read_text()), (0, said, "old"))

    def test_empty_and_long(self) -> None:
        """A book of no entries has no paper, and one of 1,024 has; a sealed one is called so."""
        self.file("empty.txt", "entries 0\n")
        said = "empty.txt: no entry in it, so there is nothing to ask for"
        self.fails(2, said, "paper", INPUTS[0], "empty.txt", cwd=self.folder)
        self.file("sealed", seal())
        said = "sealed: this looks like a sealed book, where the plain one is wanted"
        for command in ("paper", "model", "mark"):
            more = ["sealed"] if command == "mark" else []
            self.fails(2, said, command, INPUTS[0], "sealed", *more, cwd=self.folder)
        self.file("long.txt", format_lines(PLAIN_BOOK * 85 + PLAIN_BOOK[:72]))
        said = self.accepted("paper", INPUTS[0], "long.txt", "--part", "form", cwd=self.folder).decode()
        self.assertIn("\n   1023  __ ", said)

    def test_misprint(self) -> None:
        """The byte that 000 misprints is the one that the paper names."""
        said = " ".join(as_text(paper.question_paper(examined(SITTING))).split())
        self.assertIn("in clause 6.5 its twelfth byte, D4, is “le”, with a letter l. Read 1e.", said)
        self.assertEqual((SCHEDULE_D[12 - 1], SCHEDULE_D[15 - 4]), (0x1E, 0x1E))

    def test_points(self) -> None:
        """The points on the paper are those of the scheme, and their sum is what marking counts."""
        scheme = self.file("scheme.txt", SCHEME)
        said = self.accepted("paper", *INPUTS, "--part", "paper", "--scheme", scheme).decode()
        values = said[said.index("First generation:") : said.index("Third generation:")]
        rows = re.findall(r"(?m)^ +(\d+)  .*?  +(\d[\d/ ]*)$", values)
        self.assertEqual([(row, each.strip()) for row, each in rows],
                         [*zip("123456789", ("3 1/2", "3 1/2", "1", "1", "1", "1", "2", "4", "0"))])  # fmt: skip
        first, second, book, *_ = sums(said)
        checks = sum(KINDS[entry.kind].checks for entry in ENTRIES)
        self.assertEqual((first, second, book), (7, 10, 2 * len(ENTRIES) + F(1, 8) * checks))
        form = self.accepted("paper", *INPUTS, "--part", "form", "--scheme", scheme).decode()
        self.assertIn(f"the sealed book, {said_points(book)} points\n", form)
        self.assertEqual(re.findall(r"of ([\d/ ]+)\n", form), [each.strip() for _, each in rows])
        keys = {name: value for name, value in Steps(DESK).keys(SITTING).items() if value and name != "C"}
        self.file("ann.keys", "".join(f"{name} = {value.hex()}\n" for name, value in keys.items()))
        self.file("ann.book", seal())
        marked = here("mark", *INPUTS, "ann.book", "--scheme", scheme, "--json", cwd=self.folder)
        points = json.loads(marked.out)["sheets"][0]["points"]
        self.assertEqual((F(points["of"]), F(points["sum"])), (first + second + book,) * 2)
        words = " ".join(said.split())
        for rule in (
            "An entry has 2 points if its record is right in every byte.",
            "Each redundancy byte that is right has 1/8 point, also in a wrong entry.",
            "What is wrong, but right by your own earlier values, has 1/3 of its points.",
            "A row that is left blank has none.",
            "Each record beyond 12 costs 2 points, and each entry out of the order of this paper costs "
            "1/4 point; the sum is never below 0.",
        ):
            self.assertIn(rule, words)
        plain = self.file("plain.txt", "keys asked = 0\nfollow-through = 0\nextra = 0\n")
        words = " ".join(self.accepted("paper", *INPUTS, "--part", "paper", "--scheme", plain).decode().split())
        self.assertIn("A row that is left blank costs nothing: its points are not in what can be reached.", words)
        for rule in ("own earlier", "beyond", "never below", "redundancy"):
            self.assertNotIn(rule, words)
        bad = self.file("bad.txt", "entry = much\n")
        done = taa1("paper", *INPUTS, "--scheme", bad, "--html", self.folder / "none")
        self.assertEqual((done.status, (self.folder / "none").exists()), (2, False))
        self.assertIn("bad.txt, line 1: entry: 'much'", done.error)

    def test_points_of_the_argument(self) -> None:
        """Its parts in the order of the question, the sum of all, and what is needed to pass."""
        parts = {part.name: F(part.points) for part in PARTS}
        scheme: dict[str, F] = {**schemes.parse("", "f"), **parts}
        wanted: tuple[tuple[dict[str, F], Optional[F], str], ...] = (
            ({}, None, ""),
            ({"pass": F(20)}, F(20), "needed to pass"),
            ({"pass in percent": F(60)}, F(102, 5), "needed to pass (60%)"),
        )
        for more, needed, name in wanted:
            of = examined(SITTING)._replace(worth=Worth({**scheme, **more}, KEYS, [e.kind for e in ENTRIES]))
            said = as_text(paper.question_paper(of))
            asked_ = said[said.index("asked  ") : said.index("Points\n")]
            rows = [tuple(re.split(r"\s{2,}", row.strip())) for row in asked_.strip().splitlines()[1:]]
            others = [(part.asks, str(part.points)) for part in PARTS if part.name not in ("one entry", "one result")]
            self.assertEqual(rows, [("Why can a sealed text open to one entry only?", "3"), *others])
            first, second, book, argument, in_all, *last = sums(said)
            self.assertEqual((first, second, book, argument, in_all), (4, 8, 12, 10, 34))
            self.assertEqual(last, [] if needed is None else [needed])
            self.assertEqual("needed to pass" in said, needed is not None)
            self.assertIn(name, said)
            self.assertIn("The argument, 10 points\n", as_text(paper.answer_form(of)))
        none = Worth({**scheme, **dict.fromkeys(parts, F(0))}, KEYS, [e.kind for e in ENTRIES])
        for document in candidates(examined(SITTING)._replace(worth=none)):
            for shown in (as_text(document), as_page(document)):
                self.assertNotIn("argument", shown.lower())

    def test_parts_of_an_entry(self) -> None:
        """What a wrong record may win, as far as the scheme has it."""
        for text, identity, wanted in (
            (F(1, 2), F(1, 4), "A wrong record has 1/2 point for kind, version and sealed text, and 1/4 point for the ESI "
             "of an entry without a right one."),
            (F(1, 2), F(0), "A wrong record has 1/2 point for kind, version and sealed text of an entry without a right one."),
            (F(0), F(1, 4), "A wrong record has 1/4 point for the ESI of an entry without a right one."),
            (F(0), F(0), ""),
        ):  # fmt: skip
            scheme = {**schemes.parse("", "f"), "text": text, "identity": identity}
            of = examined(SITTING)._replace(worth=Worth(scheme, KEYS, [1]))
            words = " ".join(as_text(paper.question_paper(of)).split())
            self.assertIn(wanted, words)
            self.assertEqual("A wrong record" in words, bool(wanted))
            self.assertIn("Each record beyond the first costs 1 point; the sum", words)

    def test_words(self) -> None:
        """The setter's words, in their paragraphs, as text; on the paper alone."""
        given = "Time: <b>90</b> minutes,\nby the clock.\n\n \nAids: none & <script>nothing</script>.  # but this\n"
        shown = ["Time: <b>90</b> minutes, by the clock.", "Aids: none & <script>nothing</script>. # but this"]
        for code in ("utf-8", "utf-8-sig", "utf-16"):
            words = self.file("words.txt", given.encode(code))
            said = self.accepted("paper", *INPUTS, "--words", words, "--part", "paper").decode()
            self.assertEqual(said.split("\n\n")[1:3], shown)
        for part in ("form", "solution"):
            self.assertNotIn("90", self.accepted("paper", *INPUTS, "--words", words, "--part", part).decode().split("\n\n")[1])
        self.accepted("paper", *INPUTS, "--words", words, "--html", self.folder / "pages")
        page = (self.folder / "pages" / "paper.html").read_text()
        self.assertIn("<p>Time: &lt;b&gt;90&lt;/b&gt; minutes, by the clock.</p>", page)
        self.assertNotIn("<script", page)
        for name, content, why in (
            ("empty", b" \n\n", ": no words in it"),
            ("long", b"word " * 801, ": 4,004 letters, where the paper has room for 4,000"),
            ("bell", b"Time\nup\x07\n", ", line 2: '\\x07' can't be printed: take it out"),
            ("latin", "Zeit f\xfcr\n".encode("latin-1"), ", line 1: not UTF-8"),
        ):
            with self.subTest(name):
                self.file(name, content)
                self.fails(2, f"{name}{why}", "paper", *INPUTS, "--words", name, "--html", "none", cwd=self.folder)
        self.assertFalse((self.folder / "none").exists())
        self.assertEqual(len(paragraphs("word " * 800, "f")[0]), 3999)
        said = "standard input: it can stand for one file only"
        self.fails(2, said, "paper", *INPUTS, "--words", "-", "--scheme", "-")
        self.fails(2, f"{words}: {files.READ}", "paper", *INPUTS, "--words", words, "--part", "paper", "-o", words)

    def test_wrong_use(self) -> None:
        for folder in ("--html", "--solution"):
            said = f"paper: {folder} writes pages into its folder: no --part, no -o"
            for options in (("--part", "form"), ("-o", "f")):
                self.fails(2, said, "paper", *INPUTS, folder, "pages", *options, cwd=self.folder)
