"""A day of thirty candidates, from draw to verify, as docs/desk.md tells it."""

from __future__ import annotations

import csv
import io
import json
import re
import shutil
import unittest
from fractions import Fraction
from typing import Any, NamedTuple

from common import Case, taa1
from reference import Entry, Keys, Sitting, Working

NUMBERS = ("sides", "response_mask", "key_mask")
WORKING = Working()
KINDS = "1,2,3,4,5,6"


class HandedIn(NamedTuple):
    """What a candidate hands in, and what it is to come to."""

    file: str
    content: bytes
    keys: str = ""  # NAME.keys beside it
    right: int = 6  # entries
    slip: str = ""


def read_sitting(text: str) -> Sitting:
    """A sitting as the desk drew it, for the reference."""
    given = dict(line.split("=", 1) for line in text.splitlines() if "=" in line)
    values = {name.strip(): value.strip() for name, value in given.items()}
    made: dict[str, Any] = {name: bytes.fromhex(values[name]) for name in Sitting._fields if name not in NUMBERS}
    made.update({name: int(values[name], 10 if name == "sides" else 16) for name in NUMBERS})
    return Sitting(**made)


def read_model(text: str) -> list[Entry]:
    """A model book's lines, for the reference."""
    pattern = r"kind (\d) identity (\w+) version (\d+) key (\w+) number (\S+)"
    return [
        Entry(int(kind), int(identity, 16), int(version), bytes.fromhex(key), None if number == "-" else int(number))
        for kind, identity, version, key, number in re.findall(pattern, text)
    ]


def key_lines(keys: Keys) -> str:
    """The values of the first two generations, as NAME.keys has them."""
    return "".join(f"{name} = {value.hex()}\n" for name, value in values_of(keys).items())


def values_of(keys: Keys) -> dict[str, bytes]:
    """The values by their names."""
    return {
        "session key 1": keys.session1 or b"", "session key 2": keys.session2 or b"",
        "response 1": keys.response1, "key 1": keys.key1, "response 2": keys.response2, "key 2": keys.key2,
        "D": keys.ring.d, "O": keys.ring.o, "G": keys.ring.g,
    }  # fmt: skip


def filled(form: str, keys: Keys, book: bytes) -> str:
    """The blank answer form, filled in box by box."""
    records = iter(book[at : at + 21] for at in range(0, len(book), 21))
    lines = []
    for line in form.splitlines():
        name = re.match(r" +\d+  (.*?) \(", line)
        values = values_of(keys).get(name[1], b"") if name else b""
        if re.match(r" +\d+  __ ", line):
            values = next(records, b"")
        for byte in values:
            line = line.replace("__", f"{byte:02x}", 1)
        lines.append(line)
    return "\n".join(lines) + "\n"


def class_of(sitting: Sitting, entries: list[Entry], form: str) -> list[HandedIn]:
    """Thirty hand-ins, worked by the reference: right ones, slips, forms and what can't be read."""
    right = WORKING.recipe(sitting)
    book = WORKING.sealed_book(right.ring, entries)
    slips = {
        "RAND1 and RAND2 exchanged": sitting._replace(rand1=sitting.rand2, rand2=sitting.rand1),
        "RS for RSO": sitting._replace(rso=sitting.rs),
    }
    made = []
    for at in range(30):
        file, what = f"c{at:02}", at % 10
        if what == 0:
            made.append(HandedIn(f"{file}.book", book, key_lines(right)))
        elif what == 1:
            made.append(HandedIn(f"{file}.txt", filled(form, right, book).encode()))
        elif what in (2, 3, 4):
            slip = list(slips)[what % 2]
            keys = WORKING.recipe(slips[slip])
            wrong = WORKING.sealed_book(keys.ring, entries)
            count = sum(book[n : n + 21] == wrong[n : n + 21] for n in range(0, len(book), 21))
            if what == 4:
                made.append(HandedIn(f"{file}.txt", filled(form, keys, wrong).encode(), "", count, slip))
            else:
                made.append(HandedIn(f"{file}.book", wrong, key_lines(keys), count, slip))
        elif what == 5:
            made.append(HandedIn(f"{file}.hex", book.hex().encode(), key_lines(right)))
        elif what == 6:
            made.append(HandedIn(f"{file}.book", book[:-21], key_lines(right), 5))
        elif what == 7:
            made.append(HandedIn(f"{file}.book", book[-21:] + book[:-21], key_lines(right)))
        elif what == 8:
            made.append(HandedIn(f"{file}.book", b"\x89PNG\r\n\x1a\n picture", key_lines(right), 0))
        else:
            made.append(HandedIn(f"{file}.book", book))
    return made


class Thirty(Case):
    """The day."""

    def run_(self, *args: Any, status: int = 0) -> str:
        """A command of the day."""
        done = taa1(*args, cwd=self.folder)
        self.assertEqual(done.status, status, done.error)
        return done.out.decode()

    def test_day(self) -> None:
        self.run_("draw", "--sides", "3", "--title", "Key management", "--date", "3 December", "-o", "sitting.txt")
        self.run_("draw", "--book", "--kinds", KINDS, "-o", "model.txt")
        exam = ("sitting.txt", "model.txt")
        self.run_("paper", *exam, "--html", "paper")
        form = self.run_("paper", *exam, "--part", "form")
        sitting = read_sitting((self.folder / "sitting.txt").read_text())
        entries = read_model((self.folder / "model.txt").read_text())
        handed = class_of(sitting, entries, form)
        (self.folder / "class").mkdir()
        for each in handed:
            self.file(f"class/{each.file}", each.content)
            if each.keys:
                self.file(f"class/{each.file.partition('.')[0]}.keys", each.keys)
        stems = [each.file.partition(".")[0] for each in handed]
        self.file("names.txt", "".join(f"{stem} = Candidate {stem[1:]}\n" for stem in stems) + "zoe = Zoe\n")
        self.run_("argue", *exam, "--html", "argue.html")
        more = self.arguments(exam, stems)
        marking = ("mark", *exam, "class", "--candidates", "names.txt", *more)
        self.run_(*marking, "--html", "pages", "--csv", "-o", "marks.csv", "--record", "record.json", status=1)
        rows = {row["file"]: row for row in csv.DictReader(io.StringIO((self.folder / "marks.csv").read_text()))}
        for each in handed:
            row = rows[f"class/{each.file}"]
            with self.subTest(each.file):
                self.assertEqual(row["right"], str(each.right))
                self.assertIn(each.slip, row["slips"])
        self.assertEqual(rows[""]["candidate"], "Zoe")
        self.assertEqual(len(list((self.folder / "pages").glob("*.html"))), 31)
        self.kept(marking, rows)

    def arguments(self, exam: tuple[str, str], stems: list[str]) -> list[str]:
        """The points of the arguments: each candidate's are as many as the number's last digit says,
        and one is not yet marked."""
        self.run_("argue", *exam, "--candidates", "names.txt", "--form", "-o", "arguments.txt")
        blank = (self.folder / "arguments.txt").read_text()
        for stem in stems[1:]:
            blank, count = re.subn(rf"(?m)^{stem} .*$", f"{stem} = {int(stem[-1]) / 2:g}".replace(".5", " 1/2"), blank)
            self.assertEqual(count, 1)
        self.file("arguments.txt", blank)
        self.file("scheme.txt", "pass = 50%\n")
        return ["--arguments", "arguments.txt", "--scheme", "scheme.txt"]

    def kept(self, marking: tuple[str, ...], rows: dict[str, dict[str, str]]) -> None:
        """The record is verified, also elsewhere; an appeal is marked, and its record, too."""
        made = json.loads((self.folder / "record.json").read_text())
        self.assertEqual(len(made["hand_ins"]), 30)
        for sheet in made["marks"]["sheets"]:
            row = rows[f"class/{sheet['candidate']}"]
            whole, _, part = row["points"].partition(" ")
            self.assertEqual(Fraction(sheet["points"]["sum"]), Fraction(whole) + Fraction(part or 0))
        self.assertIn("as it was: every file, every mark", self.run_("verify", "record.json", "."))
        shutil.copytree(self.folder, self.folder / "away" / "day")
        self.assertIn("as it was: every file, every mark", self.run_("verify", "record.json", "away"))
        shutil.rmtree(self.folder / "away")
        shutil.copy(self.folder / "class" / "c00.book", self.folder / "class" / "c08.book")
        self.assertIn("Candidate 08: right: 6, was 0\n", self.run_("verify", "record.json", ".", status=1))
        appeal = ("--against", "record.json", "--reason", "the book came by mail", "--record", "second.json")
        said = self.run_(*marking, "--html", "pages", *appeal, status=1)
        self.assertIn("  1 of 30 candidates changed.\n", said)
        self.assertIn("as it was: every file, every mark", self.run_("verify", "second.json", "."))
        self.assertIn("Candidate 08", (self.folder / "pages" / "appeal.html").read_text())


if __name__ == "__main__":
    unittest.main()
