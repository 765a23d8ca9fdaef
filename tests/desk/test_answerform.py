"""Answer forms, filled in and handed in as text."""

from __future__ import annotations

import json
import re
import unittest
from typing import Callable, Iterable, Mapping, Optional

from common import CLASS, DESK, PLAIN_BOOK, RING, SITTING, Case, here, ring_for, seal, sheet_of
from said import SEALING
from taa1_desk.handed import KeyFile
from taa1_desk.marking.opened import OpenedMarker
from taa1_desk.marking.sealed import SealedMarker
from taa1_desk.marking.working import Steps
from taa1_desk.reading import answerform, schemes
from taa1_desk.reading.sittings import Heading
from taa1_desk.records import SEALED, split
from taa1_desk.sheet import Sheet
from taa1_desk.showing import paper
from taa1_desk.showing.document import as_text
from taa1_desk.showing.phrases import others
from taa1_desk.showing.sheet_text import sheet_text

INPUTS = (CLASS / "sitting.txt", CLASS / "model.txt")
HEADING = Heading("Key management", "3 December")
READER = SealedMarker(DESK, SITTING, RING, PLAIN_BOOK)
RECORDS = split(seal(), SEALED)
KEYS = {name: value for name, value in Steps(DESK).keys(SITTING).items() if value and name != "C"}
FORM = as_text(paper.answer_form(paper.examination(DESK, SITTING, HEADING, PLAIN_BOOK, "f")))
SCHEME = schemes.parse("session key = 27/2\nO = 2/3\n", "f")
PRICED = as_text(paper.answer_form(paper.examination(DESK, SITTING, HEADING, PLAIN_BOOK, "f", SCHEME)))


def filled(
    records: Iterable[Optional[bytes]] = RECORDS,
    keys: Mapping[str, bytes] = KEYS,
    written: Callable[[int], str] = "{:02x}".format,
    form: str = FORM,
) -> str:
    """The form as a candidate fills it in, box by box; what is None stays blank."""
    lines, rows = [], iter(records)
    for line in form.splitlines():
        name = re.match(r" +\d+  (.*?) \(", line)
        values = keys.get(name[1]) if name else None
        if re.match(r" +\d+  __ ", line):
            values = next(rows, None)
        for byte in values or b"":
            line = line.replace("__", written(byte), 1)
        lines.append(line)
    return "\n".join(lines) + "\n"


def mark(text: str, keys: Optional[KeyFile] = None) -> Sheet:
    return sheet_of(READER, "ann.txt", text.encode(), "", keys)


class Forms(unittest.TestCase):
    """What is read of a form."""

    def test_points(self) -> None:
        """The points that a form prints are none of what is filled in."""
        for words in ("of 13 1/2\n", "of 2/3\n", "of 1\n", "the sealed book, 12 points\n", "bytes   "):
            self.assertIn(words, PRICED)
        text = filled(form=PRICED)
        wanted = answerform.read(filled(), answerform.asked_rows(3))
        for name, given in (
            ("as printed", text),
            ("set to the left", re.sub(r"(?m)^ +", "", text)),
            ("tabs", re.sub(" {2,}", "\t", text)),
            ("bars", re.sub(" {2,}", " | ", text)),
            ("broken lines", re.sub(r" +of ", "\nof ", text)),
            ("capitals", text.upper()),
        ):
            with self.subTest(name):
                read = answerform.read(given, answerform.asked_rows(3))
                self.assertEqual(read, wanted)
                self.assertTrue(mark(given).perfect)
        blank = answerform.read(PRICED, answerform.asked_rows(3))
        self.assertEqual((len(blank.blank), blank.is_blank), (9 + len(RECORDS), True))
        text = text.replace(f"{KEYS['O'][-1]:02x}  of 2/3", "__  of 2/3")
        said = [problem.split(": ", 1)[1] for problem in answerform.read(text, answerform.asked_rows(3)).keys.problems]
        self.assertEqual(said, ["15 of 16 boxes are filled in"])

    def test_whole(self) -> None:
        """Every box filled in, in any writing."""
        text = filled()
        for name, given, how in (
            ("as printed", text.encode(), ""),
            ("DOS", text.replace("\n", "\r\n").encode(), ""),
            ("UTF-16", text.encode("utf-16"), " in UTF-16"),
            ("a byte order mark", text.encode("utf-8-sig"), " after a byte order mark"),
            ("capitals", filled(written="{:02X}".format).encode(), ""),
            ("no zero in front", filled(written="{:x}".format).encode(), ""),
            ("0x", filled(written="0x{:02x}".format).encode(), ""),
            ("set to the left", re.sub(r"(?m)^ +", "", text).encode(), ""),
            ("tabs", re.sub(" {2,}", "\t", text).encode(), ""),
            ("bars", re.sub(" {2,}", " | ", text).encode(), ""),
            ("no spaces", re.sub(r"(?<=[0-9a-f]{2}) (?=[0-9a-f]{2}\b)", "", text).encode(), ""),
            ("the paper in front", b"Question paper, Key management\n\n" + text.encode(), ""),
            ("an argument", text.replace("_" * 96, "12 entries, since 3 is no 4.", 2).encode(), ""),
        ):
            with self.subTest(name):
                sheet = sheet_of(READER, "ann.txt", given)
                self.assertEqual((sheet.problem, sheet.read_as), (None, f"an answer form{how}"))
                self.assertTrue(sheet.perfect, sheet_text(sheet))
                states = {mark.name: mark.state for mark in sheet.keys.marks}
                self.assertEqual(states, dict.fromkeys(KEYS, "right"))

    def test_slips(self) -> None:
        """A wrong book and wrong keys are explained as ever, and follow from each other."""
        other = SITTING._replace(rand2=SITTING.rand2[::-1])
        keys = {name: value or b"" for name, value in Steps(DESK).keys(other).items()}
        sheet = mark(filled(split(seal(other), SEALED), keys))
        (slip,) = sheet.slips
        self.assertEqual(slip.name, SEALING["ta22-reversed"])
        self.assertEqual((slip.entries, slip.keys), ((0, 1), ("response 2", "key 2", "D")))
        self.assertEqual((sheet.right, sheet.following), (10, 2))

    def test_blank_rows(self) -> None:
        """A row that is left blank is missing, and the others keep their numbers."""
        wrong = RECORDS[9][:-1] + bytes([RECORDS[9][-1] ^ 1])
        rows = [None if at in (3, 7) else wrong if at == 9 else r for at, r in enumerate(RECORDS)]
        sheet = mark(filled(rows))
        self.assertEqual((sheet.right, sheet.missing, sheet.problems), (9, (3, 7), ()))
        self.assertEqual([e.index for e in sheet.entries], [0, 1, 2, 4, 5, 6, 8, 9, 10, 11])
        self.assertEqual([e.index for e in sheet.entries if e.state == "wrong"], [9])
        assert sheet.refused
        self.assertEqual((sheet.refused.number, sheet.refused.index), (6, 9))
        self.assertIn("  entry 9: text: one digit differs: b for a at place 30; seals no key: all 5 checks fail\n", sheet_text(sheet))
        self.assertIn("  left blank on the form: entries 3 and 7\n", sheet_text(sheet))
        keys = {name: value for name, value in KEYS.items() if name != "D"}
        self.assertIn("  left blank on the form: D and entry 3\n", sheet_text(mark(filled(
            [None if at == 3 else record for at, record in enumerate(RECORDS)], keys
        ))))  # fmt: skip

    def test_no_record(self) -> None:
        """Of a form with the values alone it is not said that its book opens."""
        said = sheet_text(mark(filled([None] * len(RECORDS))))
        self.assertIn("ann.txt: 0 of 12 entries right; no record; read as an answer form\n", said)

    def test_bad_rows(self) -> None:
        """A row that can't be read is named, and costs itself alone."""
        text = filled().splitlines()
        at = next(i for i, line in enumerate(text) if line.startswith("      4  "))
        key = next(i for i, line in enumerate(text) if "DCK)" in line)
        for line, said in (
            (text[at][:-3] + " __", "20 of 21 boxes are filled in"),
            (text[at][:-3], "40 hexadecimal digits, not 42"),
            (text[at][:-2] + "9o", "'o' is no hexadecimal digit"),
        ):
            sheet = mark("\n".join([*text[:at], line, *text[at + 1 :]]))
            self.assertEqual((sheet.right, sheet.missing, sheet.unread), (11, (), (4,)))
            self.assertIn(f"line {at + 1}, entry 4: {said}", others(sheet))
            self.assertNotIn("missing: the model's", sheet_text(sheet))
            self.assertFalse(sheet.perfect)
        for line, said in (
            (text[key][:-3], "18 hexadecimal digits, not 20"),
            (text[key][:-2] + "__", "9 of 10 boxes are filled in"),
        ):
            sheet = mark("\n".join([*text[:key], line, *text[key + 1 :]]))
            self.assertEqual([m.name for m in sheet.keys.marks if m.state == "wrong"], ["D"])
            self.assertEqual(sheet.keys.problems, (f"line {key + 1}, D: {said}",))
            self.assertEqual(sheet.right, 12)

    def test_names_of_rows(self) -> None:
        """A row's number or either of its names is enough, with any apostrophe, in any case;
        what names no row is named by its line."""
        text = filled().splitlines()
        at = {name: next(i for i, line in enumerate(text) if f" {name} (" in line) for name in KEYS}
        for name, starts in {
            "D": ("7", "7 D", "DCK", "d", "row 7:", "7. D (DCK)", "DCK (D)", "7 dck"),
            "session key 2": ("2 KS\u2019", "ks\u2032", "Session Key 2", "2", "SESSION KEY 2 (KS`)"),
            "O": ("8", "KSO", "o", "O (KSO)"),
        }.items():
            for start in starts:
                for between in (" ", ""):
                    line = f"  {start}  {KEYS[name].hex(between) if between else KEYS[name].hex()}"
                    sheet = mark("\n".join([*text[: at[name]], line, *text[at[name] + 1 :]]))
                    states = {mark.name: mark.state for mark in sheet.keys.marks}
                    self.assertEqual(states, dict.fromkeys(KEYS, "right"), line)
                    self.assertEqual(sheet.keys.problems, (), line)
        line = f"  my key  {KEYS['D'].hex(' ')}"
        sheet = mark("\n".join([*text[: at["D"]], line, *text[at["D"] + 1 :]]))
        (said,) = sheet.keys.problems
        self.assertRegex(said, f"line {at['D'] + 1}: the form asks for no value 'my key ")
        row = next(i for i, line in enumerate(text) if line.startswith("      4  "))
        line = text[row].replace("4", "A", 1)
        sheet = mark("\n".join([*text[:row], line, *text[row + 1 :]]))
        self.assertIn(f"line {row + 1}: no entry's number in front, so it is not read", others(sheet))
        short = "  DCK  " + " ".join(["d", *(f"{byte:x}" for byte in range(9))])
        sheet = mark("\n".join([*text[: at["D"]], short, *text[at["D"] + 1 :]]))
        found = next(mark.has for mark in sheet.keys.marks if mark.name == "D")
        self.assertEqual(found, bytes([0xD, *range(9)]))

    def test_decimal_versions(self) -> None:
        """Versions in decimal, as the paper has them, are read where one shows that they are:
        a word of three digits or five."""

        def decimal(line: str) -> str:
            found = re.match(r"( +\d+  )0?(\w+)    (\w\w \w\w \w\w)  (\w\w) (\w\w)    (.*)", line)
            if not found:
                return line
            start, kind, identity, high, low, text = found.groups()
            return f"{start}{kind}    {identity}  {int(high + low, 16)}     {text}"

        text = "\n".join(map(decimal, filled().splitlines()))
        self.assertRegex(text, r"\n +2  2    .. .. ..  513     ")
        sheet = mark(text)
        self.assertEqual(sheet.read_as, "an answer form, its versions in decimal")
        self.assertTrue(sheet.perfect, sheet_text(sheet))

    def test_order(self) -> None:
        """Rows have numbers, so their order in the text counts for nothing."""
        lines = filled().splitlines()
        at = next(i for i, line in enumerate(lines) if "sealed text" in line) + 1
        sheet = mark("\n".join([*lines[:at], *lines[at : at + 12][::-1], *lines[at + 12 :]]))
        self.assertTrue(sheet.perfect)
        self.assertEqual([entry.moved for entry in sheet.entries], [False] * 12)

    def test_broken_rows(self) -> None:
        """Rows that a mail program broke in two are joined."""
        text = "\n".join(re.sub(r"^(.{60}\S*) ", r"\1\n", line) for line in filled().splitlines())
        self.assertGreater(text.count("\n"), filled().count("\n") + 10)
        self.assertTrue(mark(text).perfect)

    def test_parts(self) -> None:
        """The keys alone, the book alone, or nothing."""
        sheet = mark(filled([]))
        self.assertEqual((sheet.problem, len(sheet.missing), len(sheet.keys.marks)), (None, 12, 9))
        sheet = mark(filled(keys={}))
        self.assertEqual((sheet.right, sheet.keys.marks), (12, ()))
        self.assertEqual(mark(FORM).problem, answerform.NOTHING)

    def test_keys_beside(self) -> None:
        """Values of NAME.keys count before the form's, and a difference is said."""
        file = KeyFile({"D": bytes(10), "O": KEYS["O"]})
        sheet = mark(filled(keys={"D": KEYS["D"], "G": KEYS["G"]}), file)
        states = {mark.name: mark.state for mark in sheet.keys.marks}
        self.assertEqual(states, {"D": "wrong", "O": "right", "G": "right"})
        said = ("D: NAME.keys and the answer form differ; that of NAME.keys counts",)
        self.assertEqual(sheet.keys.problems, said)

    def test_others(self) -> None:
        """Another sitting's form, one for what was opened, and what is no form."""
        other = SITTING._replace(
            root=bytes(range(16)), rs=bytes(10), rso=bytes(range(10)), c=bytes(range(50, 60)), group_key=bytes(12)
        )
        sheet = mark(filled(split(seal(other), SEALED), {}))
        self.assertIn("this looks like another sitting's book", "".join(sheet.problems))
        self.assertEqual((sheet.problem, sheet.right), (None, 0))
        said = "it can't be read as form: it has no table of the answer form"
        self.assertEqual(sheet_of(READER, "ann.txt", seal().hex().encode(), "form").problem, said)
        text = filled(split(seal(other), SEALED), {}).encode()
        self.assertEqual(sheet_of(READER, "ann.txt", text, "form").problem, None)
        opened = OpenedMarker(DESK, SITTING, ring_for(SITTING), seal(), "handout")
        said = "this looks like an answer form with a sealed book, where what was opened is wanted"
        self.assertIn(said, sheet_of(opened, "ann.txt", filled().encode()).problem or "")
        of = paper.examination(DESK, SITTING, HEADING, PLAIN_BOOK, "f")
        for document, what in (
            (paper.question_paper(of), "the question paper, with no answer in it"),
            (paper.solution(of), "the worked solution, which is no candidate's"),
        ):
            said = mark(as_text(document)).problem or ""
            self.assertTrue(said.startswith(f"this looks like {what}"), said)


class Command(Case):
    """taa1 mark of forms."""

    def test_command(self) -> None:
        """The printed form, filled in, has the marks of its book and keys."""
        printed = here("paper", *INPUTS, "--part", "form", cwd=self.folder).out.decode()
        of = paper.examination(DESK, SITTING, HEADING, PLAIN_BOOK, "f", schemes.parse("", "f"))
        wanted = as_text(paper.answer_form(of))
        self.assertEqual(printed.splitlines()[3:], wanted.splitlines()[3:])
        self.file("ann.form", filled())
        done = here("mark", *INPUTS, "ann.form", cwd=self.folder)
        self.assertEqual((done.status, done.error), (0, ""))
        first, right, points, *_ = done.out.decode().splitlines()
        self.assertEqual(first, "ann.form: 12 of 12 entries right; opens; read as an answer form")
        self.assertEqual(points.split(" (")[0], "  points 24 of 24")
        out = here("mark", *INPUTS, "ann.form", "--json", cwd=self.folder).out
        self.assertEqual(len(json.loads(out)["sheets"][0]["keys"]), 9)
        self.file("ben.form", FORM)
        done = here("mark", *INPUTS, "ben.form", cwd=self.folder)
        self.assertEqual((done.status, done.error), (1, f"taa1: ben.form: {answerform.NOTHING}\n"))


if __name__ == "__main__":
    unittest.main()
