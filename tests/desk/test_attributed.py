"""What the desk says of the planted hand-ins: what is right, and which slip explains the rest."""

from __future__ import annotations

import unittest
from functools import lru_cache
from typing import Union

import said
from common import DESK, book_sheet, ring_for, sheet_of
from exams import Exam
from planted import KeyFile, OpenedBook, SealedBook, key_files, opened_books, sealed_books
from taa1_desk.marking.opened import OpenedMarker
from taa1_desk.marking.sealed import SealedMarker
from taa1_desk.reading.decoding import decoded as text_of
from taa1_desk.reading.keyfile import parse
from taa1_desk.reading.sittings import parse_sitting
from taa1_desk.sheet import Sheet
from taa1_desk.showing.sheet_text import sheet_text


@lru_cache(maxsize=None)
def marker(exam: Exam) -> SealedMarker:
    """Marks books beside a planted sitting's model."""
    sitting = parse_sitting(exam.sitting_text().encode(), exam.name)[0]
    return SealedMarker(DESK, sitting, ring_for(sitting), exam.plain)


@lru_cache(maxsize=None)
def opened_marker(exam: Exam, sealed: bytes) -> OpenedMarker:
    """Marks what was opened from a planted book."""
    sitting = parse_sitting(exam.sitting_text().encode(), exam.name)[0]
    return OpenedMarker(DESK, sitting, ring_for(sitting), sealed, exam.name)


def named(sheet: Sheet) -> set[str]:
    """Every slip that a sheet names."""
    return {name for slip in sheet.slips for name in (slip.name, *slip.others)}


def wrong(sheet: Sheet) -> list[int]:
    return [entry.index for entry in sheet.entries if entry.state == "wrong"]


def explained(sheet: Sheet) -> list[int]:
    return sorted({index for slip in sheet.slips for index in slip.entries})


def called(book: Union[SealedBook, OpenedBook, KeyFile], slip: str) -> str:
    """What the desk calls a planted slip."""
    names = {**said.SEALING, **(said.OPENING if isinstance(book, OpenedBook) else {})}
    return said.ONE_SIDED.get((book.exam.name, slip), names[slip])


class SealedBooks(unittest.TestCase):
    """Books that candidates sealed."""

    def test_planted(self) -> None:
        seen = set()
        for book in sealed_books():
            with self.subTest(book.name):
                sheet = book_sheet(marker(book.exam), book.name, book.book)
                self.assertEqual(sheet.right, book.right)
                getattr(self, f"_{book.group.replace(' ', '_')}", self._one_slip)(book, sheet)
                seen.add(book.group)
        self.assertLessEqual({"core", "together", "entangled", "cipher", "edited", "extra"}, seen)

    def _one_slip(self, book: SealedBook, sheet: Sheet) -> None:
        """One slip explains everything, and no more is claimed."""
        self.assertEqual(len(sheet.slips), 1)
        self.assertEqual(explained(sheet), wrong(sheet))
        self.assertIn(called(book, book.slips[0]), named(sheet))

    def _together(self, book: SealedBook, sheet: Sheet) -> None:
        """Each slip has parts of its own, and both explain everything."""
        self.assertEqual(len(sheet.slips), len(book.slips))
        self.assertEqual(explained(sheet), wrong(sheet))
        self.assertLessEqual({called(book, slip) for slip in book.slips}, named(sheet))

    def _entangled(self, book: SealedBook, sheet: Sheet) -> None:
        """None but the slips that were made is named."""
        self.assertLessEqual(named(sheet), {called(book, slip) for slip in book.slips})

    def _and_more(self, book: SealedBook, sheet: Sheet) -> None:
        """The slip explains everything, but for a text that is mistyped as well."""
        self.assertEqual(len(sheet.slips), 1)
        self.assertIn(called(book, book.slips[0]), named(sheet))
        mistyped = {1} if book.name.endswith("-mistyped") else set()
        self.assertLessEqual(set(wrong(sheet)) - mistyped, set(explained(sheet)))

    def _edited(self, book: Union[SealedBook, OpenedBook], sheet: Sheet) -> None:
        slip, entries = said.EDITED.get(book.name.partition("/")[2], ("", 0))
        found = [(each.name, len(each.entries)) for each in sheet.slips]
        self.assertEqual(found, [(slip, entries)] if slip else [])

    def _fields(self, book: SealedBook, sheet: Sheet) -> None:
        """One field that differs, or one check that fails, and the entry that it is in."""
        self._edited(book, sheet)
        (entry,) = (entry for entry in sheet.entries if entry.state != "right")
        opened = entry.opened
        assert opened is not None
        self.assertEqual(len(entry.differences) + len(opened.failed), 1)

    def _extra(self, book: SealedBook, sheet: Sheet) -> None:
        """Extra records are counted, and that is said first."""
        records = len(book.book) // 21
        more = records - len(book.exam.entries)
        self.assertEqual((sheet.extra, sheet.perfect), (more, False))
        line = f"  {more} extra record{'s' * (more > 1)}: {records} records, where the model has 20"
        self.assertEqual(sheet_text(sheet).splitlines()[1], f"{line} entries")


class KeyFiles(unittest.TestCase):
    """Keys beside a book: what is wrong, what follows from it, and the slip."""

    def test_planted(self) -> None:
        for file in key_files():
            with self.subTest(file.name):
                text = text_of(file.text)
                keys = parse(text[0] if text else "")
                sheet = book_sheet(marker(file.exam), file.name, file.book, keys)
                states = {mark.name: mark.state for mark in sheet.keys.marks}
                short = {"D"} if file.name == "both/short" else set()
                unread = {name for name, value in keys.values.items() if not value}
                wrong = {name for name in states if states[name] in ("wrong", "follows")}
                self.assertEqual(wrong, set(file.wrong) | short | unread)
                follows = {name for name in states if states[name] == "follows"}
                self.assertEqual(follows, set(file.followed))
                self.assertEqual((sheet.right, sheet.following), (file.right, file.entries_followed))
                self.assertEqual(bool(keys.problems), file.group == "bad" and not short)
                getattr(self, f"_{file.group.replace(' ', '_')}", self._no_slip)(file, sheet)

    def _no_slip(self, file: KeyFile, sheet: Sheet) -> None:
        """Files as such, whose values are the model's, or not asked for."""
        self.assertEqual(sheet.slips, ())

    def _edited(self, file: KeyFile, sheet: Sheet) -> None:
        """The slip that gives the file's values or the book's entries, if there is one."""
        slip = said.EDITED_KEYS.get(file.name.partition("/")[2])
        self.assertEqual(named(sheet), {slip} if slip else set())

    def _one_step(self, file: KeyFile, sheet: Sheet) -> None:
        """The slip is named with every value and entry that it gives; typing errors have none."""
        slip = said.KEYS.get(file.slips[0], "")
        if file.exam.name != "both":  # where TA22 does not run, in TA12 alone is everywhere
            slip = slip.replace(", in TA12 alone", "")
        self.assertEqual(named(sheet), {slip} if slip else set())
        if slip:
            self.assertEqual(explained(sheet), wrong(sheet))
            self.assertEqual(set(sheet.slips[0].keys), set(file.wrong))

    def _throughout(self, file: KeyFile, sheet: Sheet) -> None:
        slip = said.KEYS.get(file.slips[0], called(file, file.slips[0]))
        if file.slips[0] == "sessions-exchanged" and file.exam.name == "both":
            slip = "RS reversed"  # the session keys show it
        self.assertIn(slip, named(sheet))
        self.assertEqual(explained(sheet), wrong(sheet))

    def _several(self, file: KeyFile, sheet: Sheet) -> None:
        """Each slip, also of a value that is worked from a wrong one."""
        slips = {said.KEYS.get(name) or said.SEALING.get(name) for name in file.slips} - {None}
        self.assertLessEqual(slips, named(sheet))
        for slip in sheet.slips:
            own = file.slips[0].endswith("-digit") or slip.name.startswith("key 1")
            self.assertEqual(slip.own, own)


class OpenedBooks(unittest.TestCase):
    """What candidates opened from a book that was handed out."""

    def test_planted(self) -> None:
        for book in opened_books():
            with self.subTest(book.name):
                sheet = sheet_of(opened_marker(book.exam, book.sealed), book.name, book.handed)
                flags = sheet.flags
                assert flags is not None
                self.assertEqual(sheet.right, book.right)
                self.assertEqual((len(flags.missed), len(flags.invented)), (book.missed, book.invented))
                getattr(self, f"_{book.group.replace(' ', '_')}")(book, sheet)

    def _flagging(self, book: OpenedBook, sheet: Sheet) -> None:
        """One slip explains everything, also the flags that it makes."""
        self.assertEqual(len(sheet.slips), 1)
        self.assertEqual(explained(sheet), wrong(sheet))
        self.assertIn(called(book, book.slips[0]), named(sheet))

    def _no_flags(self, book: OpenedBook, sheet: Sheet) -> None:
        """The slip, and that nothing was checked where flags are missed."""
        self.assertEqual(explained(sheet), wrong(sheet))
        missed = {"redundancy not checked"} if sheet.flags and sheet.flags.missed else set()
        self.assertLessEqual({called(book, book.slips[0])} | missed, named(sheet))
        self.assertEqual(len(sheet.slips), 1 + len(missed))

    def _only_flags(self, book: OpenedBook, sheet: Sheet) -> None:
        """Very many slips set flags, so that none is claimed for flags alone."""
        self.assertEqual(sheet.slips, ())

    _edited = SealedBooks._edited

    def _bytes(self, book: OpenedBook, sheet: Sheet) -> None:
        """Bytes can't say a flag, and the sheet says so."""
        if book.handed == book.sealed:
            wanted = "this is the sealed book that was handed out, not an opened one"
            self.assertEqual(sheet.problem, wanted)
            return
        assert sheet.flags is not None
        self.assertEqual((len(sheet.flags.unsaid), sheet.missing), (7, ()))
        said_of_flags = "7 flags set, which bytes can't say (lines can: entry I flag)"
        self.assertIn(said_of_flags, sheet_text(sheet).splitlines()[0])


if __name__ == "__main__":
    unittest.main()
