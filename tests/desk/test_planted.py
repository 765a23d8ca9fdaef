"""The planted hand-ins themselves: alike in each run, each wrong in the way that it says."""

from __future__ import annotations

import shutil
import subprocess
import unittest
from functools import partial
from typing import Any, Callable, Dict, Iterator, List, Tuple

import dumps
import planted
from exams import RIGHT
from reference import Working, records


class Planted(unittest.TestCase):
    """What the four functions have in common."""

    def test_names(self) -> None:
        """Each hand-in has a name of its own, and is made alike again."""
        makers: List[Callable[[], Iterator[Any]]] = [
            planted.sealed_books,
            planted.opened_books,
            planted.key_files,
            planted.hand_ins,
        ]
        for make in makers:
            made = list(make())
            self.assertEqual(len({one.name for one in made}), len(made))
            self.assertEqual(made, list(make()))


class SealedBooks(unittest.TestCase):
    """Books that candidates sealed."""

    def test_redundancy(self) -> None:
        """One redundancy byte wrongly worked is one check that fails, the one that is said."""
        books = [book for book in planted.sealed_books() if "/redundancy-" in book.name]
        for book in books:
            opened = [RIGHT.open_record(book.exam.ring, one) for one in records(book.book, 21)]
            (failed,) = [failed for _, failed in opened if failed]
            self.assertIn(f"check {failed.bit_length() - 1} fails, and no other", book.say)
            self.assertEqual(failed & failed - 1, 0)
        self.assertEqual(len(books), 4)

    def test_remembered(self) -> None:
        """The blocks that are remembered are those of the working without memory."""
        for exam in planted.exams():
            self.assertEqual(Working().recipe(exam.sitting), exam.keys)
            self.assertEqual(Working().sealed_book(exam.ring, exam.entries), exam.sealed)

    def test_slips(self) -> None:
        """A slip's book is wrong, and no other slip's unless it says so."""
        seen: Dict[Tuple[str, bytes], List[str]] = {}
        for book in planted.sealed_books():
            if len(book.slips) == 1:
                self.assertLess(book.right, len(book.exam.entries), book.name)
                for other in seen.get((book.exam.name, book.book), ()):
                    self.assertIn(other, book.alike, book.name)
                seen.setdefault((book.exam.name, book.book), []).append(book.slips[0])

    def test_lengths(self) -> None:
        """Every sealed book has whole records: other lengths are among the hand-ins."""
        for book in planted.sealed_books():
            self.assertEqual(len(book.book) % planted.SEALED, 0, book.name)


class OpenedBooks(unittest.TestCase):
    """What candidates opened from a handed-out book."""

    def test_slips(self) -> None:
        """A slip's answers are wrong, and no other slip's."""
        seen: Dict[Tuple[str, bytes], str] = {}
        for book in planted.opened_books():
            if book.slips:
                self.assertLess(book.right, len(book.exam.entries), book.name)
                self.assertNotIn((book.exam.name, book.handed), seen, book.name)
                seen[book.exam.name, book.handed] = book.name

    def test_damage(self) -> None:
        """The handed-out book has flags set in every kind but 6, and single checks that fail."""
        book = next(planted.opened_books())
        opened = [RIGHT.open_record(book.exam.ring, one) for one in records(book.sealed, 21)]
        flagged = [(entry.kind, failed) for entry, failed in opened if failed]
        self.assertEqual({kind for kind, _ in flagged}, {1, 2, 3, 4, 5})
        self.assertEqual([failed for kind, failed in flagged if kind in (2, 5)], [16, 16, 8])


class HandIns(unittest.TestCase):
    """Files as they reach the desk."""

    def test_readings(self) -> None:
        """What must be marked has a book of whole records."""
        for file in planted.hand_ins():
            if file.marked:
                self.assertTrue(file.book, file.name)
            if file.book is not None:
                self.assertEqual(len(file.book) % planted.SEALED, 0, file.name)


class KeyFiles(unittest.TestCase):
    """Files of keys beside a book."""

    def test_slips(self) -> None:
        """A slip's values are wrong; after the first wrong one, the others follow."""
        for file in planted.key_files():
            if file.slips:
                self.assertTrue(file.wrong, file.name)
            self.assertLessEqual(set(file.followed), set(file.wrong), file.name)
            if file.group == "one step":
                wrong = len(file.exam.entries) - file.right
                self.assertEqual(file.entries_followed, wrong, file.name)
                self.assertNotIn(file.wrong[0], file.followed, file.name)

    def test_seeds(self) -> None:
        """No seed or challenge hides EXP2's slip: sum and ⊕ of its five bytes differ."""
        files = {file.name: file for file in planted.key_files()}
        for exam in planted.exams():
            names = [name for name, _ in files[f"{exam.name}/exp2-xor"].values if name != "G"]
            self.assertEqual(list(files[f"{exam.name}/exp2-xor"].wrong), names)


class Dumps(unittest.TestCase):
    """The dumps, against the programs whose output they are."""

    def same(self, made: Callable[[bytes], str], *command: str) -> None:
        """Compares some strings' dumps."""
        if shutil.which(command[0]) is None:
            self.skipTest(f"no {command[0]}")
        book = planted.exam("both").sealed
        for data in (book, book[:50], book[:1], bytes(range(256)), bytes(100), book[:21] * 3):
            done = subprocess.run(command, input=data, stdout=subprocess.PIPE, check=True)
            self.assertEqual(made(data), done.stdout.decode(), command)

    def test_od(self) -> None:
        """od, its types, addresses and widths."""
        self.same(dumps.od, "od")
        for kind in ("x1", "u1", "o1", "o2", "x2", "x4", "c"):
            self.same(partial(dumps.od, kind=kind), "od", "-t", kind)
        for address in "odxn":
            self.same(partial(dumps.od, kind="x1", address=address), "od", "-tx1", "-A", address)
        self.same(partial(dumps.od, kind="x1", width=21), "od", "-tx1", "-w21")
        shown = partial(dumps.od, kind="x1", characters=True, whole=True)
        self.same(shown, "od", "-v", "-tx1z")

    def test_xxd(self) -> None:
        """xxd, its widths, groups and styles."""
        self.same(dumps.xxd, "xxd")
        self.same(partial(dumps.xxd, upper=True), "xxd", "-u")
        self.same(partial(dumps.xxd, width=21, group=1), "xxd", "-c", "21", "-g", "1")
        self.same(partial(dumps.xxd, width=21, group=0), "xxd", "-c", "21", "-g", "0")
        self.same(partial(dumps.xxd, group=4, little=True), "xxd", "-e")
        self.same(dumps.xxd_bits, "xxd", "-b")
        self.same(dumps.xxd_plain, "xxd", "-p")
        self.same(partial(dumps.xxd_plain, width=21), "xxd", "-p", "-c", "21")
        self.same(dumps.xxd_include, "xxd", "-i")

    def test_hexdump(self) -> None:
        """hexdump in both styles."""
        self.same(dumps.hexdump, "hexdump", "-v")
        self.same(dumps.hexdump_canonical, "hexdump", "-v", "-C")


if __name__ == "__main__":
    unittest.main()
