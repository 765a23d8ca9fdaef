"""The pages: balanced, escaped, whole in themselves, and what a candidate's page says."""

from __future__ import annotations

import os
import random
import re
import subprocess
from html.parser import HTMLParser
from pathlib import Path
from typing import Optional
from urllib.parse import unquote_to_bytes

from common import CLASS, DESK, ENTRIES, RING, SITTING, Case, seal, taa1
from said import SEALING
from taa1_desk.marking.key_slips import RING_SLIPS
from taa1_desk.marking.slips import SLIPS
from taa1_desk.marking.working import Steps
from taa1_desk.records import SEALED, split
from taa1_desk.showing.comparison import differing
from taa1_desk.showing.html import grouped
from taa1_desk.showing.phrases import FAILS_MEANS, WRONG_MEANS

CANDIDATES = ("ann", "ben", "cho", "dee", "eve", "fay")
VOID = {"meta", "rect", "path", "line", "br", "wbr"}
ALLOWED = {
    "html", "head", "meta", "title", "style", "body", "h1", "h2", "h3", "p", "ul", "li", "a", "b", "u",
    "i", "header", "footer", "section", "div", "span", "table", "thead", "tbody", "tr", "th", "td",
    "wbr", "svg", "defs", "pattern", "path", "rect", "line", "text",
}  # fmt: skip
ATTRIBUTES = {
    "class", "lang", "charset", "name", "content", "href", "data-head", "role", "id", "colspan",
    "x", "y", "dx", "x1", "x2", "y1", "y2", "d", "width", "height", "patternunits", "text-anchor",
    "fill", "stroke", "stroke-width",
}  # fmt: skip


class Page(HTMLParser):
    """Reads a page; an element that is not closed, or not known here, is an error."""

    def __init__(self, path: Path) -> None:
        super().__init__(convert_charrefs=True)
        self.open: list[str] = []
        self.texts: list[str] = []
        self.links: list[str] = []
        self.count: dict[str, int] = {}
        self.marked: dict[str, list[str]] = {"b": [], "u": []}
        self.feed(path.read_text())
        self.close()
        assert not self.open, f"not closed: {self.open}"

    def handle_starttag(self, tag: str, attrs: list[tuple[str, Optional[str]]]) -> None:
        assert tag in ALLOWED, f"an element {tag}"
        self.count[tag] = self.count.get(tag, 0) + 1
        for name, value in attrs:
            assert name in ATTRIBUTES, name
            if name == "href":
                self.links.append(value or "")
        if tag not in VOID:
            self.open.append(tag)

    def handle_startendtag(self, tag: str, attrs: list[tuple[str, Optional[str]]]) -> None:
        assert tag in VOID, f"an element {tag}"
        self.handle_starttag(tag, attrs)

    def handle_endtag(self, tag: str) -> None:
        assert self.open and self.open.pop() == tag, f"{tag} is closed, and was not open"

    def handle_data(self, data: str) -> None:
        if self.open and self.open[-1] != "style":
            self.texts.append(data)
            if "td" in self.open:
                self.marked.get(self.open[-1], []).append(data)


class Pages(Case):
    """taa1 model --html and taa1 mark --html."""

    def mark(self, *candidates: Path, status: int = 0) -> Path:
        """The folder of the class's pages."""
        pages = self.folder / "pages"
        inputs = (CLASS / "sitting.txt", CLASS / "model.txt")
        done = taa1("mark", *inputs, *candidates, "--html", pages)
        self.assertEqual(done.status, status)
        return pages

    def test_model(self) -> None:
        path = self.folder / "model.html"
        self.accepted("model", CLASS / "sitting.txt", CLASS / "model.txt", "--html", "-o", path)
        page = Page(path)
        for line in self.accepted("ring", "--names", CLASS / "sitting.txt").decode().splitlines():
            self.assertIn(grouped(bytes.fromhex(line.split(" = ")[1])), page.texts)
        for record in split(self.accepted("seal", CLASS / "sitting.txt", CLASS / "model.txt"), SEALED):
            self.assertIn(grouped(record[6:]), page.texts)
            self.assertIn(grouped(record[1:4]), page.texts)
        for name in ("session key 2 (KS')", "G (EGSKO)", "text (SGSKO)", "encrypted identity (ESI)"):
            self.assertIn(name, page.texts)
        self.assertEqual(page.links, [])

    def test_class(self) -> None:
        pages = self.mark(*sorted(CLASS.glob("*.book")))
        names = sorted(path.name for path in pages.iterdir())
        self.assertEqual(names, [*(f"{name}.book.html" for name in CANDIDATES), "index.html"])
        index = Page(pages / "index.html")
        self.assertEqual(index.links, names[:-1])
        words = "6 candidates: 1 all right, 3 do not open, 0 not marked. Points: mean 21, median 21.5 of 24"
        self.assertIn(f"{words}, of all 6 candidates.", index.texts)
        for word in ("RS for RSO", "opens; kind 2 for kind 5", "three zero bits"):
            self.assertIn(word, index.texts)
        at = index.texts.index("3, GCK under O (KSO)", index.texts.index("three zero bits"))
        self.assertEqual(index.texts[at + 1 : at + 7], ["3", "3", "3", "-", "-", "-"])
        for name in names[:-1]:
            page = Page(pages / name)
            self.assertEqual(page.links, [])
            self.assertGreater(page.count["tr"], 12)
            self.assertIn("Signature", page.texts)

    def test_candidate(self) -> None:
        """The result comes first; then the slip with its step, and the bytes that differ."""
        heading = "title = Key management\ndate = 3 December\n"
        sitting = self.file("sitting.txt", heading + (CLASS / "sitting.txt").read_text())
        fay = CLASS / "fay.book"
        self.accepted("mark", sitting, CLASS / "model.txt", fay, "--html", self.folder / "pages")
        page = Page(self.folder / "pages" / "fay.book.html")
        said = [text.strip() for text in page.texts if text.strip()]
        self.assertEqual(
            said[:4],
            [
                "fay · Key management, 3 December",
                "Key management, 3 December",
                "fay",
                "20 1/2 of 24 points for book and keys; argument not yet marked, of 10. Total 20 1/2 of 34 so far. "
                "10 of 12 entries right, 2 wrong; 2 keys not handed in. One slip explains 1 of the 2 wrong entries: bytes of the version exchanged.",
            ],
        )
        for words in (
            "fay.book, read as hexadecimal: 12 records",
            "does not open: flag set while opening a book, first at entry 4",
            "the entry's fields (document 01)",
            "Entry 2: kind 2, SCK under O (KSO) by TA51",
            "Entry 4: kind 3, GCK under O (KSO) by TA81",
            "Text: two neighbouring digits are exchanged: fd for df at places 29 and 30; seals no key: all 3 checks fail.",
            f"({WRONG_MEANS}; {FAILS_MEANS})",
        ):
            self.assertIn(words, said)
        self.assertNotRegex(" ".join(said), "refused [0-9]")
        wanted = split(self.accepted("seal", CLASS / "sitting.txt", CLASS / "model.txt"), SEALED)
        has = bytes.fromhex("".join(fay.read_text().split()))
        last = grouped(wanted[4][6:])[:-3]
        self.assertEqual(said[said.index(last) :][:2], [last, f"{has[5 * SEALED - 1]:02x}"])
        self.assertEqual(page.marked["b"][-1], f"{has[5 * SEALED - 1]:02x}")
        self.assertEqual(page.marked["u"][-1], f"{wanted[4][-1]:02x}")

    def test_alone(self) -> None:
        """Nothing leads from a candidate's page to the class, or to another's."""
        pages = self.mark(CLASS / "ben.book", CLASS / "ann.book")
        for name in ("ben", "ann"):
            said = (pages / f"{name}.book.html").read_text()
            self.assertNotIn("href", said)
            self.assertNotIn("index.html", said)
        self.assertIn('href="ben.book.html"', (pages / "index.html").read_text())

    def test_slips_of_inputs(self) -> None:
        """A slip of the sitting's inputs happens where the altered ones are taken."""
        taken = {"rand1": "TA12", "rand2": "TA22", "rso": "TA41", "c": "TA61", "group_key": "TB7"}
        found = {}
        for slip in RING_SLIPS:
            if set(slip.altered) == {"inputs"}:
                made = slip.altered["inputs"](None, SITTING)
                found[slip.name] = slip.step_in(SITTING.sides)
                for name, step in taken.items():
                    if getattr(made, name) != getattr(SITTING, name):
                        self.assertIn(step, found[slip.name][0], slip.name)
        self.assertEqual(found[SEALING["ta22-reversed"]], ("TA22", "5.7"))
        self.assertEqual(found["RAND1 and RAND2 exchanged"], ("TA12 and TA22", "5.7"))
        self.assertEqual(found["RS for RSO"], ("TA41", "5.6.1"))
        self.assertEqual(found["RS reversed"], ("TA11 and TA21", "5.6"))
        self.assertEqual(found["root reversed"], ("TA11, TA21 and TA41", "5.6"))
        self.assertEqual(found["masks exchanged"], ("response and key", "5.7"))
        other = SITTING._replace(rand2=SITTING.rand2[::-1])
        pages = self.mark(self.file("gus.book", seal(other)))
        for name in ("gus.book", "index"):
            self.assertIn("TA22 (clause 5.7)", Page(pages / f"{name}.html").texts)

    def test_clauses_of_the_class(self) -> None:
        """A slip that two candidates made in two algorithms has both clauses on the class's page."""
        slip = next(slip for slip in SLIPS if slip.name == "number before the key")
        steps = Steps(DESK, slip.altered)
        strings = steps.k_strings(RING.c)
        books = []
        for kind in (2, 3):
            records = [
                steps.sealed(entry, RING, strings) if entry.kind == kind else record
                for entry, record in zip(ENTRIES, split(seal(), SEALED))
            ]
            books.append(self.file(f"kind{kind}.book", b"".join(records)))
        pages = self.mark(*books)
        said = "key and number joined (clause{})"
        for name, clauses in (("kind2.book", " 5.10.1"), ("kind3.book", " 5.14.1"), ("index", "s 5.10.1 and 5.14.1")):
            self.assertIn(said.format(clauses), Page(pages / f"{name}.html").texts)

    def test_keys(self) -> None:
        """The keys that were handed in, wrong ones over those that are wanted, and the points."""
        page = Page(self.mark(CLASS / "ben.book") / "ben.book.html")
        for words in ("D (DCK)", "wrong, but right under the candidate's own key 1 and key 2",
                      "entries right under own keys", "right under own keys: entries 0 and 1",
                      "wrong: response 1 and response 2", "right under own keys: D"):  # fmt: skip
            self.assertIn(words, page.texts)
        self.assertEqual(page.texts[page.texts.index("sum") :][1:3], ["18 1/2", "24"])
        self.assertEqual((page.marked["b"][0], page.marked["u"][0]), ("9742 399d", "3eaf 8e4f"))

    def test_keys_alone(self) -> None:
        """Where entries are right and keys are not, the first sentence says so, and why."""
        made = Steps(DESK).keys(SITTING._replace(rand2=SITTING.rand2[::-1]))
        book = self.file("gus.book", seal())
        lines = "".join(f"{name} = {(made[name] or b'').hex()}\n" for name in ("response 2", "key 2"))
        self.file("gus.keys", lines + f"O = {RING.o.hex()}\nG = hello\n")
        page = Page(self.mark(book, status=1) / "gus.book.html")
        said = next(text for text in page.texts if "entries right" in text)
        self.assertTrue(said.endswith(
            "All 12 entries right; 3 of 4 keys wrong; 5 keys not handed in. One slip explains response 2 and key 2: "
            f"{SEALING['ta22-reversed']}."), said)  # fmt: skip
        self.assertIn("wrong: not to be read", page.texts)

    def test_missing(self) -> None:
        """Entries that are missing are shown as they are wanted."""
        book = self.file("short.book", (CLASS / "ann.book").read_bytes()[: 11 * SEALED])
        page = Page(self.mark(book) / "short.book.html")
        last = split((CLASS / "ann.book").read_bytes(), SEALED)[11]
        self.assertIn("What is missing", page.texts)
        self.assertIn(grouped(last[6:]), page.texts)

    def test_opened(self) -> None:
        """A page of what was opened has the plain fields."""
        sealed = self.file("sealed", self.accepted("seal", CLASS / "sitting.txt", CLASS / "model.txt"))
        lines = (CLASS / "model.txt").read_text().replace("version 513", "version 258")
        lines = lines.replace("identity 00b001", "identity 000000")
        opened = self.file("gil.txt", lines)
        pages = self.folder / "pages"
        self.accepted("mark", "--opened", CLASS / "sitting.txt", sealed, opened, "--html", pages)
        page = Page(pages / "gil.txt.html")
        self.assertTrue(any("11 of 12 entries right, 1 wrong." in text for text in page.texts))
        self.assertEqual((page.marked["b"], page.marked["u"]), (["0000", "258"], ["b001", "513"]))
        self.assertIn("key (SCK)", page.texts)
        self.assertEqual({path.stat().st_mode & 0o777 for path in pages.iterdir()}, {0o600})

    def test_flags(self) -> None:
        """A flag that is missed or invented stands beside the one that is wanted."""
        model = (CLASS / "model.txt").read_text()
        damage = ("seal", CLASS / "sitting.txt", CLASS / "model.txt", "--damage", "2:4,6")
        handout = self.file("handout", self.accepted(*damage))
        opened = self.file("gus.opened", "entry 0 flag\n" + "\n".join(model.splitlines()[2:]) + "\n")
        pages = self.folder / "pages"
        self.accepted("mark", "--opened", CLASS / "sitting.txt", handout, opened, "--html", pages)
        page = Page(pages / "gus.opened.html")
        self.assertIn("flag (MF)", page.texts)
        self.assertEqual(page.marked["b"], ["set", "-", "-", "-", "-", "clear", "clear"])
        self.assertEqual(page.marked["u"][-2:], ["set", "set"])
        self.assertIn("Entry 0: kind 1, CCK under D (DCK) by TA32", page.texts)

    def test_differing(self) -> None:
        """The bytes within the element are those that differ, and the rest is as everywhere."""
        draw = random.Random(1)
        for length in range(1, 17):
            for _ in range(50):
                one = draw.randbytes(length)
                other = bytes(b if draw.random() < 0.5 else b ^ 1 for b in one)[: draw.randint(0, 20)]
                made = differing(one, other, "b")
                self.assertEqual(re.sub("<.*?>", "", made), grouped(one))
                inside, marks = False, []
                for token in re.findall("</?b>|[0-9a-f]{2}", made):
                    inside = token == "<b>" or (inside and token != "</b>")
                    marks += [inside] if len(token) == 2 else []
                self.assertEqual(marks, [one[i] != (other[i : i + 1] or b"\0")[0] or i >= len(other)
                                         for i in range(length)])  # fmt: skip

    def test_names(self) -> None:
        """A file's name stays text, whatever it is."""
        book = (CLASS / "ann.book").read_bytes()
        names = ["<script>alert(1)<\\script>", 'a"b&c\'d', "line\nend", "grüße", "e" * 200]
        paths = [self.folder / name for name in names]
        for path in paths:
            path.write_bytes(book)
        raw = bytes(self.folder) + b"/\xff.book"
        with open(raw, "wb") as file:
            file.write(book)
        done = subprocess.run(
            [*taa1_command(), "mark", CLASS / "sitting.txt", CLASS / "model.txt", *paths, raw,
             "--html", self.folder / "pages"],
            capture_output=True, check=False,
        )  # fmt: skip
        self.assertEqual((done.returncode, done.stderr), (0, b""))
        index = Page(self.folder / "pages" / "index.html")
        self.assertEqual(len(index.links), 6)
        self.assertNotIn("script", index.count)
        said = "".join(index.texts)
        for word in ("<script>alert(1)<\\script>", 'a"b&c\'d', "line\\x0aend", "grüße", "\\xff"):
            self.assertIn(word, said)
        for link in index.links:
            Page(self.folder / "pages" / os.fsdecode(unquote_to_bytes(link)))

    def test_no_book(self) -> None:
        """Unreadable and empty books have their pages, too."""
        empty = self.file("empty.book", b"")
        pages = self.mark(self.folder / "missing.book", empty, status=1)
        said = "\n".join(Page(pages / "index.html").texts)
        self.assertIn("\nmissing (missing.book)\nNo such file or directory\n", said)
        Page(pages / "missing.book.html")
        Page(pages / "empty.book.html")

    def test_no_folder(self) -> None:
        taken = self.file("taken", b"")
        inputs = (CLASS / "sitting.txt", CLASS / "model.txt", CLASS / "ann.book")
        self.fails(2, f"{taken}: File exists", "mark", *inputs, "--html", taken)
        self.fails(2, f"{taken}/pages: Not a directory", "mark", *inputs, "--html", f"{taken}/pages")

    def test_whole(self) -> None:
        """Nothing is fetched from elsewhere, and there is no script."""
        pages = self.mark(*sorted(CLASS.glob("*.book")))
        for path in pages.iterdir():
            text = path.read_text().lower().replace("url(#", "")
            for word in ("<script", "src=", "http", "@import", "url(", "javascript:", "onload"):
                self.assertNotIn(word, text, path.name)


def taa1_command() -> list[str]:
    """The command, for arguments that are no text."""
    from common import COMMAND

    return COMMAND
