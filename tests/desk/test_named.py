"""What the desk says of mistakes inside the cipher, and of others; docs/slips.md is the table.

    PYTHONPATH=python:desk python3 tests/desk/test_named.py --write    writes the table
"""

from __future__ import annotations

import sys
import unittest
from functools import lru_cache

from common import ROOT, sheet_of
from exams import exams
from planted_keys import text_of
from planted_named import NO_BOOK, Named, named
from taa1_desk.reading.keyfile import parse
from taa1_desk.sheet import Sheet
from taa1_desk.showing.phrases import explanation
from taa1_desk.showing.sheet_text import sheet_text
from test_attributed import marker, opened_marker
from wrong_ciphers import working

PAGE = ROOT / "docs" / "slips.md"
HEAD = """# What the desk says of mistakes

Hand-ins with these mistakes are made by tests/desk/reference.py, an implementation by other hands than the engine's and the desk's, and marked; `PYTHONPATH=python:desk python3 tests/desk/test_named.py --write` writes this table from what the desk says. The slips that are older stand in tests/desk/said.py, and `taa1 slips` lists all names.
"""


def marked(one: Named) -> Sheet:
    """The sheet of a hand-in, read as the desk reads it."""
    keys = parse(text_of(one.values).decode()) if one.values else None
    if one.opened is not None:
        return sheet_of(opened_marker(one.exam, one.exam.sealed), "hand-in", one.opened, keys=keys)
    return sheet_of(marker(one.exam), "hand-in", one.book, keys=keys)


@lru_cache(maxsize=None)
def sheets() -> list[tuple[Named, Sheet]]:
    return [(one, marked(one)) for one in named()]


def says(one: Named, sheet: Sheet) -> str:
    """What the desk says, in a cell."""
    said = [explanation(slip, sheet) for slip in sheet.slips]
    if one.note:
        said += [line.strip() for line in sheet_text(sheet).splitlines() if one.note in line]
    return "<br>".join(said) or "nothing"


def table() -> str:
    rows: dict[str, list[str]] = {}
    for one, sheet in sheets():
        if one.exam.name == "both":
            rows.setdefault(one.group, []).append(f"| {one.mistake} | {says(one, sheet)} |\n")
    made = [HEAD]
    for group, lines in rows.items():
        title = group[0].upper() + group[1:]
        made.append(f"\n## {title}\n\n| mistake | what is said |\n|---|---|\n{''.join(lines)}")
    return "".join(made)


class Mistakes(unittest.TestCase):
    """Each has its name."""

    maxDiff = None

    def test_named(self) -> None:
        for one, sheet in sheets():
            with self.subTest(f"{one.group}: {one.mistake}"):
                self.assertEqual(sheet.problem is None, one.book != NO_BOOK)
                self.assertEqual(tuple(slip.name for slip in sheet.slips), one.slips)
                wrong = {entry.index for entry in sheet.entries if entry.state == "wrong"}
                told = {index for slip in sheet.slips for index in slip.entries}
                if one.slips:
                    self.assertLessEqual(wrong, told)
                if one.note:
                    self.assertIn(one.note, sheet_text(sheet))

    def test_steps(self) -> None:
        """A slip of the cipher has its step and clause."""
        for one, sheet in sheets():
            if one.group.startswith("cipher"):
                for slip in sheet.slips:
                    self.assertTrue(slip.step[1].startswith("6."), one.mistake)

    def test_byte_kept(self) -> None:
        """Who drops no byte is told so; records of the right size are not said to have another."""
        for of in exams():
            book = working({"drop": lambda work, output: output}).sealed_book(of.ring, of.entries)
            problem = sheet_of(marker(of), "hand-in", book).problem or ""
            self.assertIn("records of 22 bytes, where a sealed one has 21: byte 8 of BL1's output is still in each text", problem)

    def test_in_part(self) -> None:
        """A slip that gives all identities and some texts does not claim the rest."""
        slips = [slip for one, sheet in sheets() if one.group == "without a name" for slip in sheet.slips]
        self.assertEqual([slip.part for slip in slips], ["identities and 2 of 20 texts"])

    def test_table(self) -> None:
        """The page is what the desk says."""
        self.assertEqual(PAGE.read_text(), table())


if __name__ == "__main__":
    if sys.argv[1:] == ["--write"]:
        PAGE.write_text(table())
    else:
        unittest.main()
