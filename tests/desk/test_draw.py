"""Drawn model books: well formed, within their limits, never the same twice."""

from __future__ import annotations

from collections import Counter

from common import CLASS, Case
from taa1_desk.command.files import THERE
from taa1_desk.names import KIND_NAMES
from taa1_desk.reading.books import format_lines
from taa1_desk.records import KINDS, PLAIN, Entry, split
from taa1_desk.setting.draw import draw_book, draw_kinds


class Books(Case):
    """taa1 draw --book."""

    def drawn(self, *options: object) -> list[Entry]:
        """The entries of a book that is drawn."""
        made = self.accepted("draw", "--book", *options)
        plain = self.accepted("book", stdin=made)
        self.assertEqual(self.accepted("book", "--lines", stdin=plain), made)
        return [Entry.of(record) for record in split(plain, PLAIN)]

    def test_kinds(self) -> None:
        entries = self.drawn("--kinds", "1,1,2,5, 4")
        self.assertEqual([entry.kind for entry in entries], [1, 1, 2, 5, 4])
        self.assertEqual(len({entry.key for entry in entries}), 5)

    def test_entries(self) -> None:
        for options, count in (((), 12), (("--entries", 6), 6), (("--entries", 1024), 1024)):
            entries = self.drawn(*options)
            self.assertEqual(len(entries), count)
            self.assertEqual({entry.kind for entry in entries}, set(KINDS))
            self.assertEqual(len({entry.identity for entry in entries}), count)

    def test_evenly(self) -> None:
        """Each kind as often as the others or once more, in ascending order; which of them once
        more is drawn."""
        self.assertEqual(draw_kinds(6), [*KINDS])
        for count in (7, 12, 20, 100, 1024):
            kinds = draw_kinds(count)
            self.assertEqual((len(kinds), kinds), (count, sorted(kinds)))
            often = Counter(kinds)
            self.assertEqual(set(often), set(KINDS))
            self.assertLessEqual(set(often.values()), {count // 6, -(-count // 6)})
        self.assertEqual({Counter(draw_kinds(7)).most_common(1)[0][0] for _ in range(300)}, set(KINDS))

    def test_like(self) -> None:
        """The kinds of a model in its order, in whatever form it is; all else is new."""
        mixed = draw_book([5, 1, 1, 3, 6, 2, 4, 4])
        model = [Entry.of(record) for record in split(mixed, PLAIN)]
        for name, content in (
            ("bytes", mixed),
            ("hexadecimal", mixed.hex().encode()),
            ("lines", format_lines(mixed).encode()),
            ("UTF-16", format_lines(mixed).encode("utf-16")),
        ):
            with self.subTest(name):
                entries = self.drawn("--like", self.file(name, content))
                self.assertEqual([entry.kind for entry in entries], [5, 1, 1, 3, 6, 2, 4, 4])
                for field in ("identity", "key"):
                    before = {getattr(entry, field) for entry in model}
                    now = {getattr(entry, field) for entry in entries}
                    self.assertEqual((before & now, len(now)), (set(), 8))
                self.assertNotEqual([e.version for e in entries], [e.version for e in model])
                self.assertNotEqual([e.number for e in entries], [e.number for e in model])
        self.assertEqual(len(self.drawn("--bytes", "--like", self.folder / "bytes")), 8)
        made = self.accepted("draw", "--book", "--like", "-", stdin=mixed)
        self.assertIn(b"entries 8", made)

    def test_identities_are_new(self) -> None:
        """No identity of the model's is drawn again, however many it has."""
        taken = set(range(1 << 17))  # chance would hit some eight of them
        entries = [Entry.of(record) for record in split(draw_book([1] * 1024, taken), PLAIN)]
        found = {entry.identity for entry in entries}
        self.assertEqual((len(found), found & taken), (1024, set()))

    def test_limits(self) -> None:
        """Numbers, versions and identities reach over their ranges, and not beyond."""
        entries = [Entry.of(r) for r in split(draw_book(draw_kinds(1024) * 20), PLAIN)]
        for kind, names in KIND_NAMES.items():
            found = [entry.number or 0 for entry in entries if entry.kind == kind and names.number]
            self.assertTrue(all(number <= names.highest for number in found))
            if names.highest == 31:
                self.assertEqual(set(found), set(range(32)))
            elif names.number:
                self.assertGreater(max(found), 60000)
        for values, bits in (([e.version for e in entries], 16), ([e.identity for e in entries], 24)):
            self.assertGreater(max(values), 7 << bits - 3)
            self.assertLess(min(values), 1 << bits - 3)

    def test_seals(self) -> None:
        name = self.folder / "book.txt"
        self.accepted("draw", "--book", "-o", name)
        sealed = self.accepted("seal", CLASS / "sitting.txt", name)
        opened = self.accepted("open", "--lines", CLASS / "sitting.txt", stdin=sealed)
        self.assertEqual(opened, name.read_bytes())

    def test_replaces_nothing(self) -> None:
        name = self.file("book.txt", "the examination's\n")
        said = f"{name}: {THERE}"
        self.fails(2, said, "draw", "--book", "-o", name)
        self.assertEqual(name.read_text(), "the examination's\n")

    def test_bad(self) -> None:
        room = "with every kind in it a book has 6 to 1,024; --kinds draws others"
        for error, options in (
            (f"draw: argument --entries: 5 entries: {room}", ("--book", "--entries", 5)),
            (f"draw: argument --entries: 1025 entries: {room}", ("--book", "--entries", 1025)),
            ("draw: argument --kinds: a kind is 1 to 6, not '7'", ("--book", "--kinds", "1,7")),
            ("draw: argument --kinds: a kind is 1 to 6, not ''", ("--book", "--kinds", "")),
            (
                "draw: argument --kinds: 1,025 kinds, where a book has at most 1,024 entries",
                ("--book", "--kinds", ",".join("1" * 1025)),
            ),
            ("draw: --kinds is for a book: draw --book", ("--kinds", "1")),
            ("draw: --like is for a book: draw --book", ("--like", "f")),
            ("draw: --bytes is for --like, whose model it reads as bytes", ("--book", "--bytes")),
            ("draw: argument --kinds: not allowed with argument --like", ("--book", "--like", "f", "--kinds", "1")),
            ("draw: argument --like: not allowed with argument --entries", ("--book", "--entries", "9", "--like", "f")),
            ("/dev/null: no entry in it, so there is nothing to draw", ("--book", "--like", "/dev/null")),
            ("draw: --sides is for a sitting, and --book draws none", ("--book", "--sides", 1)),
        ):
            with self.subTest(error):
                self.fails(2, error, "draw", *options)
