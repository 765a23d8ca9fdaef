"""The words of a mark sheet: which checks fail, and one line for many like entries."""

from __future__ import annotations

import random
import unittest

from common import DESK, ENTRIES, PLAIN_BOOK, RING, SITTING, book_sheet
from taa1_desk.marking.sealed import SealedMarker
from taa1_desk.records import SEALED
from taa1_desk.showing.phrases import MOST_LINES
from taa1_desk.showing.sheet_text import sheet_text
from taa1_desk.words import failed_checks, spans

MARKER = SealedMarker(DESK, SITTING, RING, PLAIN_BOOK)
MODEL = MARKER.model


def said(*records: bytes) -> list[str]:
    """The lines of a book's sheet."""
    return sheet_text(book_sheet(MARKER, "book", b"".join(records))).splitlines()


def failing(kind: int, *failed: int) -> str:
    return failed_checks(kind, failed)


class Words(unittest.TestCase):
    """What is said, word for word."""

    def test_spans(self) -> None:
        for words, indexes in (
            ("7", [7]),
            ("0 and 1", [0, 1]),
            ("0 to 2", [0, 1, 2]),
            ("0 to 3 and 19", [0, 1, 2, 3, 19]),
            ("0, 1, 3 to 5 and 9", [0, 1, 3, 4, 5, 9]),
            ("0, 2, 4, 6, 8, 10, 12, 14, 16, 18, 20, 22 and 3 more", list(range(0, 30, 2))),
        ):
            self.assertEqual(spans(indexes), words)

    def test_checks(self) -> None:
        """How many fail, and which: kinds 2 and 5 have the three zero bits for the last."""
        for words, kind, failed in (
            ("1 of 5 checks fails: the three zero bits", 2, (4,)),
            ("1 of 5 checks fails: the three zero bits", 5, (4,)),
            ("1 of 5 checks fails: redundancy byte 4", 1, (4,)),
            ("1 of 3 checks fails: redundancy byte 2", 3, (2,)),
            ("3 of 5 checks fail: redundancy bytes 0 and 2 and the three zero bits", 5, (0, 2, 4)),
            ("2 of 3 checks fail: redundancy bytes 0 and 1", 4, (0, 1)),
            ("4 of 5 checks fail: redundancy bytes 0 to 3", 2, (0, 1, 2, 3)),
            ("all 5 checks fail", 2, (0, 1, 2, 3, 4)),
            ("all 3 checks fail", 6, (0, 1, 2)),
        ):
            self.assertEqual(failing(kind, *failed), words)

    def test_number_above_31(self) -> None:
        """A number with bits above the fifth fails that check alone."""
        entry = ENTRIES[2]
        number = bytes([entry.number | 0x20])  # type: ignore[operator]
        stretched = b"".join(
            part + bytes([_xor(part)])
            for part in _cut(entry.key + number, (2, 3, 3, 3))
        )
        text = _core(stretched + b"\0", RING.o, entry.version)
        record = MODEL[2][:6] + text
        self.assertIn(
            "  entry 2: seals no key: 1 of 5 checks fails: the three zero bits",
            said(*MODEL[:2], record, *MODEL[3:]),
        )


class Lines(unittest.TestCase):
    """Like entries have one line."""

    def test_like(self) -> None:
        noise = [record[:6] + bytes(15) for record in MODEL]
        book = [*noise[:2], *MODEL[2:8], *noise[8:10], *MODEL[10:]]
        self.assertEqual(said(*book)[1:], ["  entries 0, 1, 8 and 9: seal no key: all 5 checks fail"])

    def test_away(self) -> None:
        """Entries in other places than the model's, all as far away."""
        noise = [record[:6] + bytes(15) for record in MODEL]
        lines = said(MODEL[0], *noise[2:4], *MODEL[4:])
        self.assertIn("  entries 1 and 2 (the model's 2 and 3): seal no key: all 5 checks fail", lines)

    def test_twice(self) -> None:
        """A book stapled to itself."""
        lines = said(*MODEL, *MODEL)
        first = "  12 extra records: 24 records, where the model has 12 entries"
        again = "  entries 12 to 23: are the model's entries 0 to 11 again"
        self.assertEqual(lines[1:], [first, again])

    def test_more(self) -> None:
        extra = [bytes([9]) + bytes(20)] * 2
        words = "more than the model has; there is no such kind"
        self.assertIn(f"  entries 12 and 13: {words}", said(*MODEL, *extra))
        self.assertIn(f"  entry 12: one {words}", said(*MODEL, extra[0]))

    def test_zeros(self) -> None:
        """Zeros in the place of records that were not worked are called so, in one line."""
        sheet = book_sheet(MARKER, "book", b"".join(MODEL[:9]) + bytes(3 * SEALED))
        self.assertIn("  entries 9 to 11: zero bytes alone\n", sheet_text(sheet))

    def test_further_attempts(self) -> None:
        """Right texts under other identities, in the place of other entries."""
        book = [*MODEL[:6], *(r[:1] + bytes([0, 0, i]) + r[4:] for i, r in enumerate(MODEL[:6]))]
        lines = said(*book)[1:]
        again = "  entries 6 to 11: more attempts at the model's entries 0 to 5"
        self.assertEqual(lines, [again, "  missing: the model's entries 6 to 11"])

    def test_very_many(self) -> None:
        """A book of 1,025 records: some lines, and every record is counted."""
        draw = random.Random(3)
        entries = [entry._replace(identity=draw.getrandbits(24)) for entry in ENTRIES * 10]
        marker = SealedMarker(DESK, SITTING, RING, b"".join(entry.data for entry in entries))
        noise = b"".join(draw.randbytes(SEALED) for _ in range(1025))
        lines = sheet_text(book_sheet(marker, "book", noise)).splitlines()
        self.assertLess(len(lines), 5 + MOST_LINES)
        self.assertRegex(lines[1], "^  905 extra records: 1025 records, where the model has 120 entries$")
        self.assertIn("more: more than the model has; there is no such kind", "\n".join(lines))
        self.assertLess(max(map(len, lines)), 300)
        self.assertLess(len(said(*(MODEL * 86)[:1025])), 5 + MOST_LINES)


def _xor(part: bytes) -> int:
    made = 0
    for byte in part:
        made ^= byte
    return made


def _cut(data: bytes, lengths: tuple[int, ...]) -> list[bytes]:
    ends = [sum(lengths[: i + 1]) for i in range(len(lengths))]
    return [data[end - length : end] for end, length in zip(ends, lengths)]


def _core(text: bytes, sealing_key: bytes, version: int) -> bytes:
    """A text under a sealing key and version: two encryptions, byte 8 dropped."""
    pair = version.to_bytes(2, "big")
    key = bytes(byte ^ pair[at % 2] for at, byte in enumerate(sealing_key))
    left: bytes = DESK.call("encrypt", key, text[:8])["bytes"]
    right: bytes = DESK.call("encrypt", key, bytes(a ^ b for a, b in zip(text[8:], left)))["bytes"]
    out = left + right
    return out[:7] + out[8:]
