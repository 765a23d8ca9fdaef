"""Hand-ins in every form: read where that is certain, else named, and never a silent 0."""

from __future__ import annotations

import ast
import csv
import json
import os
import random
import re
import shutil
import subprocess
import threading
import time
import unittest
from pathlib import Path
from typing import Any, Callable

import planted
from common import CLASS, DESK, ENTRIES, PLAIN_BOOK, RING, SITTING, Case, here, ring_for, seal, sheet_of
from taa1 import Sitting
from taa1_desk.command.folders import LINK, NO_BOOK, page_names
from taa1_desk.marking.opened import OpenedMarker
from taa1_desk.marking.sealed import SealedMarker
from taa1_desk.reading import answerform, answers, decoding, forms, handin, keyfile
from taa1_desk.reading import lines as line_reading
from taa1_desk.reading.books import format_lines
from taa1_desk.reading.decoding import MOST_BYTES
from taa1_desk.reading.forms import FORMS
from taa1_desk.reading.lineends import LINE_ENDS
from taa1_desk.reading.sittings import Heading
from taa1_desk.records import SEALED, split
from taa1_desk.sheet import Sheet
from taa1_desk.showing import paper
from taa1_desk.showing.document import as_text
from taa1_desk.showing.phrases import others
from taa1_desk.showing.sheet_text import sheet_text

INPUTS = (CLASS / "sitting.txt", CLASS / "model.txt")
BOOK = seal()
RECORDS = split(BOOK, SEALED)
READER = SealedMarker(DESK, SITTING, RING, PLAIN_BOOK)
OTHER = SITTING._replace(
    root=SITTING.root[::-1], rs=bytes(10), rso=bytes(range(10)), c=bytes(range(50, 60)), group_key=bytes(12)
)  # another sitting
HEX = "hexadecimal"
DUMP, WORDS = (FORMS[name].what for name in ("dump", "words"))


def dumped(*command: str, data: bytes = BOOK) -> bytes:
    """What a command that dumps bytes says."""
    return subprocess.run(command, input=data, stdout=subprocess.PIPE, check=True).stdout


def lines(size: int, between: str = "", data: bytes = BOOK) -> str:
    """Digits, so many bytes a line."""
    rows = [data[at : at + size] for at in range(0, len(data), size)]
    return "".join(row.hex(between) + "\n" if between else row.hex() + "\n" for row in rows)


# Forms that are certain: what is handed in, and how it is read.
CERTAIN: dict[str, tuple[Any, str]] = {
    "bytes": (BOOK, ""),
    "digits": (BOOK.hex(), HEX),
    "upper case": (BOOK.hex().upper(), HEX),
    "a record a line": (lines(21), HEX),
    "CRLF in text": (lines(21).replace("\n", "\r\n"), HEX),
    "CR in text": (lines(21).replace("\n", "\r"), HEX),
    "lines of an odd length": ("\n".join(BOOK.hex()[at : at + 75] for at in range(0, 504, 75)), HEX),
    "spaces between bytes": (BOOK.hex(" "), HEX),
    "colons between bytes": (BOOK.hex(":"), HEX),
    "commas": (", ".join(f"{byte:02x}" for byte in BOOK), HEX),
    "0x": (" ".join(f"0x{byte:02X}" for byte in BOOK), HEX),
    "0x and commas": (",".join(f"0x{byte:02x}" for byte in BOOK), HEX),
    "0x in front": ("0x" + BOOK.hex(), HEX),
    "a list": (str([hex(byte) for byte in BOOK]), HEX),
    "no zero in front": (" ".join(f"{byte:x}" for byte in BOOK), HEX),
    "escapes": ("".join(f"\\x{byte:02x}" for byte in BOOK), HEX),
    "comments": ("# mine\n" + lines(21).replace("\n", "  # a record\n"), HEX),
    "C's comments": ("/* my\nbook */\n" + lines(21).replace("\n", " // a record\n"), HEX),
    "a byte order mark": ("\ufeff" + lines(21), f"{HEX} after a byte order mark"),
    "UTF-16": (lines(21).encode("utf-16"), f"{HEX} in UTF-16"),
    "UTF-16 without its mark": (lines(21).encode("utf-16-le"), f"{HEX} in UTF-16"),
    "UTF-16, the high byte first": (b"\xfe\xff" + lines(21).encode("utf-16-be"), f"{HEX} in UTF-16"),
    "Latin-1": (("# pr\xfcfung\n" + lines(21)).encode("latin-1"), f"{HEX} in Latin-1"),
    "Python's bytes": (f"{BOOK!r}\n", "Python's b'..'"),
    "od -An -tx1": (dumped("od", "-An", "-v", "-tx1"), HEX),
    "od -tx1": (dumped("od", "-v", "-tx1"), DUMP),
    "od -tx1 -Ax": (dumped("od", "-v", "-Ax", "-tx1"), DUMP),
    "od -tx1 -Ad": (dumped("od", "-v", "-Ad", "-tx1"), DUMP),
    "od -tx1z": (dumped("od", "-v", "-Ax", "-tx1z"), DUMP),
    "od -x": (dumped("od", "-x"), WORDS),
    "od -An -x": (dumped("od", "-An", "-x"), WORDS),
    "od -tx4": (dumped("od", "-tx4"), WORDS),
    "od -tu1": (dumped("od", "-tu1"), FORMS["decimal"].what),
    "decimal": (", ".join(map(str, BOOK)), FORMS["decimal"].what),
    "base64": (dumped("base64"), "base64"),
    "labels": (
        "".join(f"entry {i}: {record.hex()}\n" for i, record in enumerate(RECORDS)),
        FORMS["records"].what,
    ),
    "fields": (
        "".join(
            f"{r[0]} {r[1:4].hex()} {int.from_bytes(r[4:6], 'big')} {r[6:].hex(' ')}\n" for r in RECORDS
        ),
        FORMS["fields"].what,
    ),
    "numbered fields": (
        "".join(
            f"{i}, {r[0]:02}, {r[1:4].hex()}, {int.from_bytes(r[4:6], 'big')}, {r[6:].hex()}\n"
            for i, r in enumerate(RECORDS)
        ),
        FORMS["fields"].what,
    ),
    "a header of text": ("Ann, candidate 17\n" + lines(21), FORMS["records"].what),
    "a header in front": (b"BOOK\0\1\0\0" + BOOK, "bytes, but for 8 bytes in front"),
    "a long header": (
        b"Candidate: Ann\nBook of the sitting:\n" + BOOK,
        "bytes, but for 36 bytes in front",
    ),
}
for tool, given in (
    ("xxd", {"": DUMP, "-p": HEX, "-u": DUMP, "-g1": DUMP, "-c 21": DUMP, "-i": HEX}),
    ("hexdump", {"-C": DUMP, "": WORDS}),
):
    if shutil.which(tool):
        for options, read_as in given.items():
            CERTAIN[f"{tool} {options}"] = (dumped(tool, *options.split()), read_as)

RECORD = bytes.fromhex("01cbf75900019a81ed3bc4fff774c3df0b6bfd5399")  # the sample's entry 0
# A pattern's repeat: right after another one, or of a group that ends in one.
_ONE = r"(?:\\.|\[[^\]]*\]|[^\\()\[\]|*+?{}])"
SLOW = re.compile(rf"{_ONE}[*+]\??{_ONE}[*+]|[*+]\)[*+{{]")
FIXED = {  # what the tools print of it, where they are not installed
    "xxd": (
        "00000000: 01cb f759 0001 9a81 ed3b c4ff f774 c3df  ...Y.....;...t..\n"
        "00000010: 0b6b fd53 99                             .k.S.\n"
    ),
    "xxd -i": (
        "unsigned char ann_book[] = {\n"
        "  0x01, 0xcb, 0xf7, 0x59, 0x00, 0x01, 0x9a, 0x81, 0xed, 0x3b, 0xc4, 0xff,\n"
        "  0xf7, 0x74, 0xc3, 0xdf, 0x0b, 0x6b, 0xfd, 0x53, 0x99\n"
        "};\nunsigned int ann_book_len = 21;\n"
    ),
    "hexdump -C": (
        "00000000  01 cb f7 59 00 01 9a 81  ed 3b c4 ff f7 74 c3 df  |...Y.....;...t..|\n"
        "00000010  0b 6b fd 53 99                                    |.k.S.|\n00000015\n"
    ),
    "hexdump": (
        "0000000 cb01 59f7 0100 819a 3bed ffc4 74f7 dfc3\n0000010 6b0b 53fd 0099               \n0000015\n"
    ),
}

# Hand-ins that are not certain: what is said, and the form that marks it all the same.
WANTED = ", where a sealed one is wanted (mark --opened marks what was opened)"
DAMAGED = (
    "this looks like a book that was damaged when it was copied (ask for it anew, best in hexadecimal)"
)
ANOTHER = (
    "this looks like another sitting's book, or one worked by a wrong cipher: no entry and no "
    "identity is the model's, though kinds and versions are"
)
STRANGE: dict[str, tuple[bytes, str, str]] = {
    "a plain book": (PLAIN_BOOK, f"this looks like a plain book{WANTED}", "bytes"),
    "a plain book in digits": (
        PLAIN_BOOK.hex().encode(),
        f"this looks like a plain book{WANTED}",
        "hex",
    ),
    "lines": (format_lines(PLAIN_BOOK).encode(), f"this looks like a plain book in lines{WANTED}", "bytes"),
    "converted to UTF-8": (
        BOOK.decode("latin-1").encode(),
        f"{DAMAGED}: it was converted to UTF-8, and each byte above 7f is two now",
        "bytes",
    ),
    "another sitting's": (
        seal(OTHER, b"".join(entry._replace(version=entry.version ^ 0x5A5A).data for entry in ENTRIES)),
        "this looks like another sitting's book: no entry and no identity is the model's",
        "bytes",
    ),
    "noise": (
        bytes(range(100, 226)),
        "this looks like no sealed book: 0 of 6 records begin with a kind",
        "bytes",
    ),
    "short": (b"\1\2\3", "this looks like no sealed book: 3 bytes, where a record has 21", "bytes"),
    "comments": (b"# nothing yet\n", "this looks like a text without a digit", "bytes"),
    "the first byte lost": (
        BOOK[1:],
        "this looks like a book after 20 bytes, or one whose first record is cut short",
        "bytes",
    ),
    "by columns": (
        DESK.call("sealed_to_columns", BOOK)["out"],
        "this looks like a book filed by columns (taa1 columns sealed --back puts it back)",
        "bytes",
    ),
    "od's lines, one lost": (
        b"".join(dumped("od", "-tx1").splitlines(True)[1:]),
        "this looks like a dump of bytes, but in no form that is known, or with lines lost or "
        "doubled (od -An -v -tx1 makes one that is read)",
        "bytes",
    ),
    "a letter for a digit": (
        b"O" + BOOK.hex()[1:].encode(),
        "this looks like text that is no hexadecimal: line 1, column 1: 'O' is no hexadecimal digit "
        "(a record is wanted in 42 digits)",
        "bytes",
    ),
    "a letter": (
        b"Dear Sir,\nthe dog ate it.\n",
        "this looks like text that is no hexadecimal: line 1, column 4: 'r' is no hexadecimal digit "
        "(a record is wanted in 42 digits)",
        "bytes",
    ),
    "odd": (
        b"012",
        "this looks like an odd number of hexadecimal digits, 3 (a record is wanted in 42 digits)",
        "bytes",
    ),
}
# Books of which at least half of the records have a kind and version of the model's: they are
# marked, with what is said beside it, and the entries that are right.
CUT = "this looks like a book that was cut short (ask for it anew): 2 records and 8 bytes"
OURS: dict[str, tuple[bytes, str, int]] = {
    "another sitting's, of the same entries": (seal(OTHER), ANOTHER, 0),
    "another sitting's in digits": (seal(OTHER).hex().encode(), ANOTHER, 0),
    "another sitting's dump": (dumped("od", "-tx1", data=seal(OTHER)), ANOTHER, 0),
    "zeros in every text": (b"".join(r[:1] + bytes(3) + r[4:6] + bytes(15) for r in RECORDS), ANOTHER, 0),
    "seven bits": (bytes(byte & 0x7F for byte in BOOK), f"{DAMAGED}: no byte is above 7f", 0),
    "cut": (BOOK[:50], CUT, 2),
    "half of it": (b"".join(r if at < 6 else b"\x8f" * 21 for at, r in enumerate(split(seal(OTHER), SEALED))),
                   "this looks like another sitting's book: no entry and no identity is the model's", 0),
}  # fmt: skip


def _with_line_ends() -> tuple[bytes, bytes]:
    """A plain book, and its sealed one, that has 0a, 0d and 0d 0a in records of their own."""
    draw = random.Random(10)
    made = []
    for end in (b"\n", b"\r", b"\r\n"):
        version = 0x0D0A if end == b"\r\n" else 7
        while True:
            entry = ENTRIES[2]._replace(identity=draw.getrandbits(24), version=version, key=draw.randbytes(10))
            if end in seal(plain=entry.data):
                break
        made.append(entry)
    book = b"".join(entry.data for entry in [*ENTRIES[:2], *made, *ENTRIES[3:]])
    return book, seal(plain=book)


def noted(sheet: Sheet) -> str:
    """Why a hand-in is not marked, or what is said beside its marks."""
    return (sheet.problem or "; ".join(sheet.problems)).partition("; --as ")[0]


class Forms(unittest.TestCase):
    """What is certain, and what is not."""

    def test_certain(self) -> None:
        for name, (content, how) in CERTAIN.items():
            with self.subTest(name):
                data = content.encode() if isinstance(content, str) else content
                sheet = sheet_of(READER, "ann.book", data)
                self.assertIsNone(sheet.problem)
                self.assertTrue(sheet.perfect)
                self.assertEqual(sheet.read_as, how)

    def test_tools(self) -> None:
        """What tools print of a record, also where they are not installed."""
        self.assertEqual(RECORDS[0], RECORD)
        for name, text in FIXED.items():
            with self.subTest(name):
                self.assertEqual(READER.reader.read(text.encode()).book, RECORD)

    def test_repeated(self) -> None:
        """A line `*` of a dump stands for lines like the one before, up to the next address."""
        data = RECORD[:5] + bytes(100) + RECORD
        text = dumped("od", "-tx1", data=data).decode()
        self.assertIn("*", text)
        self.assertEqual(FORMS["dump"].read(text), data)

    def test_strange(self) -> None:
        for name, (data, said, form) in STRANGE.items():
            with self.subTest(name):
                sheet = sheet_of(READER, "ann.book", data)
                advice = f"; --as ann.book={form} marks it all the same"
                self.assertEqual(sheet.problem, said + advice)
                self.assertEqual((sheet.right, sheet.entries), (0, ()))
                self.assertIsNone(sheet_of(READER, "ann.book", data, form).problem)

    def test_ours(self) -> None:
        """Who fails gets a number: a book with half of the model's kinds and versions, each as
        often as the model has it, is this sitting's; with one fewer, or one too often, it is not."""
        for name, (data, said, right) in OURS.items():
            with self.subTest(name):
                sheet = sheet_of(READER, "ann.book", data)
                self.assertEqual((sheet.problem, sheet.problems, sheet.right), (None, (said,), right))
                self.assertTrue(sheet.has_unread)
        other = split(seal(OTHER), SEALED)
        few = [record if at < 5 else b"\x8f" * SEALED for at, record in enumerate(other)]
        often = [*other[:5], *[other[0]] * 7]
        for records in (few, often):
            self.assertIn("no sealed book" if records is few else "another sitting's",
                          sheet_of(READER, "ann.book", b"".join(records)).problem or "")  # fmt: skip

    def test_left_bytes(self) -> None:
        """With bytes after the last record, at least half of the records must share something."""
        noise = [b"\x8f" * SEALED for _ in RECORDS]
        for shared, marked in ((6, True), (5, False)):
            book = b"".join([*[RECORDS[0]] * shared, *noise[shared:]]) + b"??"
            sheet = sheet_of(READER, "a", book)
            self.assertEqual(sheet.problem is None, marked, sheet.problem)
        whole = b"".join([RECORDS[0], *noise[1:]])
        self.assertIsNone(sheet_of(READER, "a", whole).problem)

    def test_hopeless(self) -> None:
        """No form is offered for what can be no book in any."""
        for data, said in (
            (b"", "the file is empty"),
            (b" \n", "the file is empty"),
            (b"%PDF-1.7\n\xff", "this looks like a PDF document"),
            (b"PK\3\4" + BOOK, "this looks like a zip archive or an office document"),
        ):
            self.assertEqual(sheet_of(READER, "ann.book", data).problem, said)

    def test_one_bad_row(self) -> None:
        """Of a record in each line, a line that has too few or too many digits is named, and
        the others are marked."""
        rows = lines(21).splitlines()
        spaced = lines(21, " ").splitlines()
        for given, bad, digits in (
            (rows, rows[5][:-2], 40),
            (rows, rows[5][:-1], 41),
            (rows, rows[5] + "00", 44),
            (spaced, spaced[5][:-3], 40),
            (rows, f"0x{rows[5][2:]}  # entry 5", 40),
        ):
            sheet = sheet_of(READER, "a", "\n".join([*given[:5], bad, *given[6:]]).encode())
            self.assertEqual((sheet.problem, sheet.right, sheet.missing, sheet.unread), (None, 11, (), (5,)))
            self.assertIn(f"line 6 has {digits} digits, not 42", others(sheet))
            self.assertIn("in a line that can't be read: the model's entry 5", others(sheet))
            self.assertEqual(sheet.read_as, f"{HEX}, a record in each line")
        self.assertEqual(sheet_of(READER, "a", "\n".join([*rows[:5], *rows[6:]]).encode()).read_as, HEX)
        for line in ("Candidate 17, Ann", "kind,ESI,version,text"):
            sheet = sheet_of(READER, "a", "\n".join([*spaced[:5], line, *spaced[6:]]).encode())
            self.assertEqual((sheet.problem, sheet.right, sheet.missing), (None, 11, (5,)))
            said = "line 6 has other than hexadecimal digits, and is not read"
            self.assertIn(said, others(sheet))
        labelled = [f"entry {at}: {row}" for at, row in enumerate(rows)]
        for given in (rows, spaced, labelled, [f"record {at} = {row}" for at, row in enumerate(rows)]):
            for letter in "Olx":
                bad = given[5][:-4] + letter + given[5][-3:]
                sheet = sheet_of(READER, "a", "\n".join([*given[:5], bad, *given[6:]]).encode())
                self.assertEqual((sheet.problem, sheet.right, sheet.missing, sheet.unread), (None, 11, (), (5,)))
                self.assertIn(f"line 6: {letter!r} is no hexadecimal digit, so it is not read", others(sheet))
                self.assertNotIn("missing", sheet_text(sheet))

    def test_tables(self) -> None:
        """A table as a spreadsheet saves it, and labelled fields."""
        cells = [(f"{r[0]:02x}", r[1:4].hex(), r[4:6].hex(), r[6:].hex()) for r in RECORDS]
        decimal = [(str(r[0]), r[1:4].hex(), str(int.from_bytes(r[4:6], "big")), r[6:].hex()) for r in RECORDS]
        for given in (cells, decimal):
            for between in (",", ";", "\t"):
                for quote in ("", '"'):
                    for numbered in (False, True):
                        heads = ["entry"] * numbered + ["kind", "ESI", "version", "sealed text"]
                        table = [[*[str(at)] * numbered, *row] for at, row in enumerate(given)]
                        lines_ = [between.join(f"{quote}{cell}{quote}" for cell in row) for row in (heads, *table)]
                        sheet = sheet_of(READER, "a", "\r\n".join(lines_).encode())
                        self.assertTrue(sheet.perfect, (lines_[:2], sheet.problem, sheet.problems))
                        self.assertEqual(sheet.problems, ())
            for put in (
                "Entry {}: kind {}, ESI {}, version {}, text {}\n",
                "Entry {}\n  kind: {}\n  ESI: {}\n  version: {}\n  sealed text: {}\n",
                "entry={}; kind={}; identity={}; version={}; text={}\n",
            ):
                text = "".join(put.format(at, *row) for at, row in enumerate(given))
                sheet = sheet_of(READER, "a", text.encode())
                self.assertTrue(sheet.perfect, (text[:90], sheet.problem, sheet.problems))
        rows_ = ["kind;ESI;version;text", *(";".join(row) for row in cells)]
        rows_[6] = rows_[6][:-3] + "O" + rows_[6][-2:]
        sheet = sheet_of(READER, "a", "\n".join(rows_).encode())
        self.assertEqual((sheet.problem, sheet.right, sheet.missing, sheet.unread), (None, 11, (), (5,)))
        self.assertEqual(sheet.problems, ("line 7: text: 'O' is no hexadecimal digit, so it is not read",))
        head = "kind, ESI, version, text\n"
        listed = head + "".join(f"{r[0]:02x}, {r[1:4].hex()}, {r[4:6].hex()}, {r[6:].hex()}\n" for r in RECORDS)
        self.assertTrue(sheet_of(READER, "a", listed.encode()).perfect)

    def test_last_digit(self) -> None:
        """Digits that lack the last one are read, but for the last byte; a digit that is
        lost elsewhere shifts the rest, and is named."""
        for text in (BOOK.hex()[:-1], lines(16)[:-2]):
            sheet = sheet_of(READER, "a", text.encode())
            self.assertEqual((sheet.problem, sheet.right, sheet.left), (None, 11, 20))
            self.assertIn("the last byte has one digit, and is not read", others(sheet))
        said = "this looks like an odd number of hexadecimal digits, 503 (a record is wanted in 42 digits)"
        lost = BOOK.hex()[:99] + BOOK.hex()[100:]
        self.assertEqual(sheet_of(READER, "a", lost.encode()).problem, f"{said}; --as a=bytes marks it all the same")

    def test_line_ends(self) -> None:
        """Changed line ends are said, and not repaired."""
        record = bytes.fromhex("02") + RECORDS[2][1:10] + b"\n\n" + RECORDS[2][12:]
        book = b"".join([*RECORDS[:2], record, *RECORDS[3:]])
        self.assertEqual(sheet_of(READER, "a", book).right, 11)
        sheet = sheet_of(READER, "a", book.replace(b"\n", b"\r\n"))
        said = f"{DAMAGED}: bytes were lost or added within it; records in place: 3 counted from the start, 9 counted from the end"
        self.assertEqual(sheet.problem, f"{said}; --as a=bytes marks it all the same")
        forced = sheet_of(READER, "a", book.replace(b"\n", b"\r\n"), "bytes")
        self.assertEqual((forced.problem, forced.right), (None, 2))

    def test_line_ends_of_the_model(self) -> None:
        """Every change of line ends that a right record shows is named; one that none shows
        is damage all the same, and no bytes in front."""
        plain, sealed = _with_line_ends()
        reader = SealedMarker(DESK, SITTING, RING, plain)
        records = split(sealed, SEALED)
        ends = f"{DAMAGED}: {LINE_ENDS}"
        zeros = sheet_of(reader, "a", sealed.replace(b"\0", b"")).problem or ""
        self.assertTrue(zeros.startswith(f"{DAMAGED}: each 00 is lost;"), zeros)
        identities = b"".join(r[:1] + bytes([r[1] ^ 0x80]) + r[2:] for r in records)
        self.assertIn(ends, noted(sheet_of(reader, "a", identities.replace(b"\r", b"\n"))))
        for old, new in (
            (b"\n", b"\r\n"), (b"\n", b"\r"), (b"\n", b""), (b"\r\n", b"\n"), (b"\r", b"\n"), (b"\r", b"")
        ):  # fmt: skip
            wrong = records[0][:6] + b"\x8f" * 15
            for book in (sealed, b"".join([wrong, *records[1:]]), b"".join(records[1:])):
                damaged = book.replace(old, new)
                self.assertNotEqual(damaged, book)
                said_of = noted(sheet_of(reader, "a", damaged))
                self.assertIn(ends, said_of)
            self.assertTrue(sheet_of(reader, "a", sealed).perfect)

    def test_bytes_within(self) -> None:
        """Bytes that were lost or added within a book, wherever that is."""
        for at in (1, 5, 10):
            for damaged in (BOOK[: 21 * at + 9] + BOOK[21 * at + 10 :], BOOK[: 21 * at] + b"?" + BOOK[21 * at :]):
                sheet = sheet_of(READER, "a", damaged)
                first, last = (at + 1, 11 - at) if len(damaged) < len(BOOK) else (at, 12 - at)
                counted = f"records in place: {first} counted from the start, {last} counted from the end"
                said = f"{DAMAGED}: bytes were lost or added within it; {counted}"
                self.assertEqual(noted(sheet), said)
                self.assertEqual(sheet.problem is None, 2 * first >= len(damaged) // SEALED)
                said = f"this looks like a book with bytes lost or added within it; {counted}"
                self.assertEqual(noted(sheet_of(READER, "a", damaged.hex().encode())), said)

    def test_truncated(self) -> None:
        """The whole records are marked, and the cut one is said."""
        for cut in (1, 10, 20):
            sheet = sheet_of(READER, "a", BOOK[:-cut])
            self.assertEqual((sheet.problem, sheet.right, sheet.left), (None, 11, 21 - cut))
            self.assertIn(f"the last record is cut short: {21 - cut} of 21 bytes", others(sheet))
        sheet = sheet_of(READER, "a", BOOK + b"\n")
        self.assertEqual((sheet.problem, sheet.right, sheet.left), (None, 12, 1))
        self.assertEqual(others(sheet), ["1 more byte after the last record"])

    def test_wrong_but_ours(self) -> None:
        """A book of this sitting is marked, however wrong: one right identity is enough."""
        wrong = b"".join(record[:6] + bytes(15) for record in RECORDS)
        self.assertEqual(sheet_of(READER, "a", wrong).problem, None)
        slip = seal(SITTING._replace(c=SITTING.c[::-1], root=SITTING.root[::-1]))
        one = slip[:-21] + RECORDS[11]
        self.assertEqual(sheet_of(READER, "a", one).problem, None)
        for worked in ("C reversed", "root reversed"):
            other = {"C reversed": {"c": SITTING.c[::-1]}, "root reversed": {"root": SITTING.root[::-1]}}
            sheet = sheet_of(READER, "a", seal(SITTING._replace(**other[worked])))  # type: ignore[arg-type]
            self.assertEqual((sheet.problem, sheet.slips[0].name), (None, worked))

    def test_bad_content(self) -> None:
        """Whatever a file holds, it is marked or something is said of it, in little time."""
        draw = random.Random(4)
        texts = [content if isinstance(content, bytes) else content.encode() for content, _ in CERTAIN.values()]
        for _ in range(300):
            data = bytearray(draw.choice(texts))
            for _ in range(draw.randint(1, 5)):
                at = draw.randrange(len(data))
                data[at : at + draw.randint(0, 3)] = draw.randbytes(draw.randint(0, 3))
            sheet = sheet_of(READER, "a", bytes(data))
            self.assertTrue(sheet.problem is None or sheet.problem.isprintable())
        start = time.process_time()
        for part in (b"/* ", b"{", b"b'", b"0x", b"00000000 01\n", b"*\n", b"01 ", b"b\"\\", b"\1", b"# \r"):
            self.assertIsNotNone(sheet_of(READER, "a", part * (MOST_BYTES // len(part))).problem, part)
        self.assertLess(time.process_time() - start, 30)

    def test_in_time(self) -> None:
        """Twice as much takes twice as long, also of what is written to be slow."""
        reader = OpenedMarker(DESK, SITTING, RING, BOOK, "handout")
        form = "row value bytes\n7 D " + "00 " * 1000 + "\n"
        book = "entry kind ESI version sealed text\n0 " + "00 " * 1000 + "\n"
        for start, part, end in (
            ("a", " ", "!"), ("", "a", "="), ("", "a\n", ""), ("D ", "00 ", "x"), ("", "\r", ""),
            ("a", "\r", "="), ("", "0000000 ", "x"), ("00000000", " ", ""), ("", "b'", ""),
            ("", "{", ""), ("entry 0 ", "kind ", ""), ("", "entry 0 flag\n", ""), (form, "00\n", ""),
            (book, "00\n", ""), (book, "x y\n", ""), ("row value bytes\n", "D (", ""),
            ("entry kind ESI version sealed text\n", "1", "a"), ("kind,ESI,version,text\n", "1,", "a"),
            ("", '"', ""), ("", "kind: ", ""), ("", "1;2;3;4\n", ""), ("", "/* ", ""),
        ):  # fmt: skip
            reads: tuple[Callable[[bytes], object], ...] = (
                lambda data: sheet_of(READER, "a", data),
                lambda data: sheet_of(reader, "a", data),
                lambda data: keyfile.read("a", data),
            )
            for read in reads:
                took = []
                most = MOST_BYTES if part == " " else MOST_BYTES // 4
                for size in (most // 2, most):
                    data = (start + part * (size // len(part)) + end).encode()
                    begun = time.process_time()
                    read(data)
                    took.append(time.process_time() - begun)
                with self.subTest(start=start[:20], part=part, end=end):
                    self.assertLess(took[1], 3 * took[0] + 0.5)

    def test_patterns(self) -> None:
        """No pattern over what a candidate wrote has a repeat within another, nor two that
        follow each other and take the same letters."""
        count = 0
        for module in (handin, forms, answerform, keyfile, answers, line_reading, decoding):
            tree = ast.parse(Path(module.__file__ or "").read_text())
            for node in ast.walk(tree):
                if not (isinstance(node, ast.Call) and isinstance(node.func, ast.Attribute)):
                    continue
                if isinstance(node.func.value, ast.Name) and node.func.value.id == "re" and node.args:
                    if isinstance(node.args[0], ast.Constant) and isinstance(node.args[0].value, str):
                        count += 1
                        self.assertFalse(SLOW.search(node.args[0].value), node.args[0].value)
        self.assertGreater(count, 12)

    def test_too_many(self) -> None:
        """A book of many times the model's records is refused before it is paired, and no line
        is echoed whole."""
        for data in (RECORDS[0][:6] * 8 * 10_000, bytes([1]) * 21 * 30_000):
            begun = time.process_time()
            problem = sheet_of(READER, "a", data).problem or ""
            self.assertIn(" records, where the model has 12 and at most 2,048 are compared: ask for", problem)
            self.assertLess(time.process_time() - begun, 5)
        self.assertEqual(sheet_of(READER, "a", BOOK * 5).right, 12)
        long = "Z" * 900_000
        for text in (long, f"{long} = 00", f"entry {long}", f"entry 0 {long}"):
            said = sheet_text(sheet_of(READER, "a", BOOK, "", keyfile.read("a", text.encode())))
            said += sheet_text(sheet_of(READER, "a", text.encode()))
            reader = OpenedMarker(DESK, SITTING, RING, BOOK, "handout")
            said += sheet_text(sheet_of(reader, "a", text.encode()))
            self.assertLess(len(said), 5000)

    def test_forced(self) -> None:
        """A form that is given is not questioned; what can't be read so is said."""
        self.assertEqual(sheet_of(READER, "a", BOOK.hex().encode(), "bytes").problem, None)
        said = "it can't be read as hex: it is no text"
        self.assertEqual(sheet_of(READER, "a", BOOK, "hex").problem, said)
        said = "it can't be read as hex: line 1, column 2: 'o' is no hexadecimal digit"
        self.assertEqual(sheet_of(READER, "a", b"dog", "hex").problem, said)


class Planted(unittest.TestCase):
    """Hand-ins made by a working that shares no code with the desk's."""

    def test_planted(self) -> None:
        """Each is marked or not as it must be; what is marked is read right, and what is
        not says what it looks like."""
        readers: dict[str, SealedMarker] = {}
        count = 0
        for each in planted.hand_ins():
            count += 1
            exam = each.exam
            if exam.name not in readers:
                sitting = Sitting(*exam.sitting)
                readers[exam.name] = SealedMarker(DESK, sitting, ring_for(sitting), exam.plain)
            with self.subTest(each.name):
                sheet = sheet_of(readers[exam.name], "ann", each.content)
                if each.marked is not None:
                    self.assertEqual(sheet.problem is None, each.marked, sheet.problem)
                if sheet.problem is None:
                    self.assertEqual(sheet.right, each.right)
                else:
                    known = "^(this looks like |this is an answer form, |the file is empty)"
                    self.assertRegex(sheet.problem, known)
        self.assertGreater(count, 100)


class Command(Case):
    """taa1 mark with hand-ins in many forms."""

    def mark(self, *args: Any) -> Any:
        return here("mark", *INPUTS, *args, cwd=self.folder)

    def test_dry(self) -> None:
        """Each file's reading, and nothing else; the status says if one is not marked."""
        self.file("ann.book", BOOK)
        self.file("ben.hex", BOOK.hex())
        done = self.mark("ann.book", "ben.hex", "--dry")
        said = "ann.book: read as bytes: 12 records\nben.hex: read as hexadecimal: 12 records\n"
        self.assertEqual((done.status, done.out.decode(), done.error), (0, said, ""))
        for option in (("--html", "pages"), ("--csv",), ("--json",)):
            done = self.mark("ann.book", "--dry", *option)
            error = "mark: --dry says how hand-ins are read and marks none, so it takes no"
            self.assertEqual((done.status, done.error), (2, f"taa1: {error} {option[0]}\n"))
        self.assertFalse((self.folder / "pages").exists())
        self.file("cho.book", PLAIN_BOOK)
        self.file("dee.book", BOOK[:-1])
        done = self.mark("cho.book", "dee.book", "--dry")
        first, second = done.out.decode().splitlines()
        self.assertTrue(first.startswith("cho.book: not marked: this looks like a plain book, where"))
        self.assertEqual(second, "dee.book: read as bytes: 11 records and 20 bytes")
        self.assertEqual((done.status, done.error), (1, ""))

    def test_said(self) -> None:
        """Text, JSON and pages say how it was read."""
        self.file("ben.hex", BOOK.hex())
        words = "12 of 12 entries right; opens; read as hexadecimal"
        alone = ("--scheme", self.file("scheme.txt", "keys asked = 0\n"))
        argument = "argument not yet marked, of 10; total 12 of 22 so far"
        said = f"ben.hex: {words}\n  points 12 of 12\n  {argument}\n"
        self.assertEqual(self.mark("ben.hex", *alone).out.decode(), said)
        sheet = json.loads(self.mark("ben.hex", "--json").out)["sheets"][0]
        self.assertEqual(sheet["read_as"], "hexadecimal")
        self.mark("ben.hex", "--html", "pages")
        page = (self.folder / "pages" / "ben.hex.html").read_text()
        self.assertIn("ben.hex, read as hexadecimal: 12 records", page)

    def test_as(self) -> None:
        """A form for one hand-in, or for all."""
        self.file("ann.book", BOOK)
        self.file("ben.book", PLAIN_BOOK)
        self.assertEqual(self.mark("ann.book", "ben.book").status, 1)
        done = self.mark("ann.book", "ben.book", "--as", "ben.book=bytes")
        said = "the last record is cut short: 6 of 21 bytes"
        self.assertEqual((done.status, done.error), (1, f"taa1: ben.book: {said}\n"))
        self.assertIn("ann.book: 12 of 12 entries right", done.out.decode())
        self.assertIn("ben.book: 0 of 12 entries right", done.out.decode())
        done = self.mark(self.folder / "ben.book", "--as", "ben.book=bytes")
        self.assertIn("ben.book: 0 of 12 entries right", done.out.decode())
        self.file("cho.hex", BOOK.hex())
        done = self.mark("ann.book", "cho.hex", "--as", "bytes")
        said = "as bytes, which --as or --bytes gave, it shows nothing of the model; as hexadecimal it does"
        self.assertEqual((done.status, done.out.decode().count(said)), (1, 1))
        self.assertEqual(self.mark("ann.book", "--as", "bytes").status, 0)
        rows = csv.DictReader(self.mark("ann.book", "cho.hex", "--as", "bytes", "--csv").out.decode().splitlines())
        self.assertEqual([said in row["problem"] for row in rows], [False, True])
        known = ", ".join(["bytes", *FORMS, "form"])
        for error, form in (
            (f"mark: argument --as: no form 'hexa': they are {known}", "hexa"),
            ("mark: argument --as: no hand-in is called 'cho.book'", "cho.book=hex"),
        ):
            done = self.mark("ann.book", "--as", form)
            self.assertEqual((done.status, done.out, done.error), (2, b"", f"taa1: {error}\n"))

    def test_no_model(self) -> None:
        """A model without entries marks nothing."""
        self.file("none.txt", "entries 0\n")
        self.file("ann.book", BOOK)
        error = "none.txt: no entry in it, so there is nothing to mark"
        self.fails(2, error, "mark", INPUTS[0], "none.txt", "ann.book", cwd=self.folder)


class Folders(Case):
    """A folder as an argument, and the names of pages."""

    def setUp(self) -> None:
        super().setUp()
        self.room = self.folder / "class"
        (self.room / "below").mkdir(parents=True)
        for name in ("ann.book", "ben.hex", "cho", ".hidden", "ann.keys", "notes.txt", "below/dee.book"):
            (self.room / name).write_bytes(BOOK)
        (self.room / "ann.keys").write_text(f"D = {DESK.call('ring', *SITTING)['ring'][:10].hex()}\n")
        (self.room / "model").write_bytes(PLAIN_BOOK)

    def mark(self, *args: Any) -> Any:
        return here("mark", INPUTS[0], self.room / "model", *args, cwd=self.folder)

    def test_folder(self) -> None:
        """Its regular, unhidden files and those of candidates' folders in it, but for *.keys,
        *.txt that are no hand-ins, and those named beside it."""
        (self.room / "notes.txt").write_text("Dear colleague,\nplease mark these.\n")
        (self.room / "Ned.txt").write_text(BOOK.hex())
        (self.room / "none").mkdir()
        (self.room / "below" / "deeper").mkdir()
        done = self.mark("class", "--dry")
        wanted = ["class/Ned.txt: read as hexadecimal: 12 records"]
        names = ("ann.book", "ben.hex", "cho", "below/dee.book")
        wanted += [f"class/{name}: read as bytes: 12 records" for name in names]
        notes = "this looks like text that is no hexadecimal: line 1, column 4: 'r' is no hexadecimal digit"
        wanted += [
            "class/.hidden: left out: hidden",
            "class/ann.keys: read as the keys of class/ann.book",
            "class/model: left out here: it is named on the command line",
            f"class/notes.txt: left out: {notes} (a record is wanted in 42 digits) (named by itself, it is marked)",
            "class/below/deeper: left out: a folder (name it by itself, if hand-ins are in it)",
            "class/below: the folder of a candidate",
            "class/none: left out: no hand-in in this folder",
        ]
        self.assertEqual((done.status, done.out.decode().splitlines()), (1, wanted))
        self.assertEqual(done.error, "")

    def test_candidates_folders(self) -> None:
        """A folder for each candidate, as learning platforms export them: its name is theirs.
        Every listed candidate has a row, and who is not on the list is said to be none of it."""
        for name, file in (("Ann Archer_17", "book.txt"), ("Ben Baker_18", "book.txt")):
            (self.folder / "all" / name).mkdir(parents=True)
            (self.folder / "all" / name / file).write_text(BOOK.hex())
        (self.folder / "all" / "Ben Baker_18" / "book.keys").write_text("D = 00\n")
        (self.folder / "all" / "readme.txt").write_text("Exported on Monday.\n")
        done = self.mark("all", "--csv")
        rows = list(csv.DictReader(done.out.decode().splitlines()))
        self.assertEqual(done.status, 1)
        self.assertEqual([row["candidate"] for row in rows], ["", "Ann Archer_17", "Ben Baker_18"])
        self.assertIn("left out: this looks like text", rows[0]["problem"])
        self.file("names", "Ann Archer_17 = Ann\nreadme = Ray\nfay = Fay\n")
        options = ("all", "--candidates", "names")
        rows = list(csv.DictReader(self.mark(*options, "--csv").out.decode().splitlines()))
        self.assertEqual([row["candidate"] for row in rows], ["Ray", "Ann", "Ben Baker_18", "Fay"])
        self.assertEqual(rows[2]["problem"].partition(";")[0], "not on the list of candidates")
        said = json.loads(self.mark(*options, "--json").out)
        self.assertEqual([sheet["unlisted"] for sheet in said["sheets"]], [False, False, True])
        done = self.mark(*options, "--html", "pages")
        self.assertIn("not on the list of candidates: Ben Baker_18\n", done.error)
        index = (self.folder / "pages" / "index.html").read_text()
        self.assertIn("Not marked, for somebody to decide", index)
        self.assertIn("Ann Archer_17-book.txt.html", [path.name for path in (self.folder / "pages").iterdir()])

    def rows(self, name: str, files: dict[str, bytes]) -> tuple[list[dict[str, str]], Any]:
        """The rows of a class with one candidate's folder, and what the command did."""
        for file, content in files.items():
            (self.folder / name / "ann").mkdir(parents=True, exist_ok=True)
            (self.folder / name / "ann" / file).write_bytes(content)
        done = self.mark(name, "--csv")
        return list(csv.DictReader(done.out.decode().splitlines())), done

    def test_one_row(self) -> None:
        """A candidate's folder is one row: its book, and its keys or answer form whatever they are
        called, if there is one of each. What is more than that is named."""
        ring: bytes = DESK.call("ring", *SITTING)["ring"]
        keys = f"D = {ring[:10].hex()}\nO = {ring[10:26].hex()}\n".encode()
        of = paper.examination(DESK, SITTING, Heading(), PLAIN_BOOK, "f")
        blank = as_text(paper.answer_form(of))
        form = re.sub("(?m)^( *[0-9]+  D \\(DCK\\) +)[_ ]+$", lambda row: row[1] + ring[:10].hex(" "), blank).encode()
        self.assertNotEqual(form, blank.encode())
        letter = b"Dear colleague,\nhere is my work.\n"
        for number, (files, points, status) in enumerate((
            ({"work.bin": BOOK, "values.txt": keys}, "15", 0),
            ({"work.bin": BOOK, "x.keys": keys}, "15", 0),
            ({"work.txt": BOOK.hex().encode(), "form.txt": form}, "13", 0),
            ({"work.bin": BOOK, "values.txt": keys, "scan.pdf": b"%PDF-1.7"}, "15", 1),
            ({"work.bin": BOOK, "letter.txt": letter}, "12", 1),
            ({"a.keys": keys, "work.bin": BOOK, "b.keys": keys}, "12", 1),
            ({"a.keys": keys, "a.bin": BOOK, "b.keys": keys}, "15", 1),
            ({"scan.pdf": b"%PDF-1.7", "values.txt": keys}, "3", 1),
            ({"values.txt": keys}, "3", 1),
            ({"a.book": BOOK, "b.book": BOOK, "values.txt": keys}, "3", 1),
            ({"a.book": BOOK, "b.book": BOOK, "form.txt": form}, "1", 1),
            ({"a.book": BOOK, "form.txt": form, "more.txt": form}, "12", 1),
            ({"form.txt": form, "more.txt": form}, "0", 1),
        )):  # fmt: skip
            with self.subTest(sorted(files)):
                rows, done = self.rows(f"class{number}", files)
                mine = [row for row in rows if row["candidate"] == "ann"]
                self.assertEqual([(row["points"], done.status) for row in mine], [(points, status)], done.error)
                for name in files:  # each is marked, read as keys or named
                    said = self.mark(f"class{number}", "--dry").out.decode()
                    self.assertIn(name, said)
        blank = json.loads(self.mark("class2", "--json").out)["sheets"][0]["blank"]
        self.assertEqual((len(blank), "O" in blank, "D" in blank), (8, True, False))
        for number, what, names in ((9, "books", "a.book, b.book"), (12, "answer forms", "form.txt, more.txt")):
            said = f"2 {what} in this folder, {names}: keep one, or name the one that counts by itself"
            done = self.mark(f"class{number}", "--csv")
            self.assertIn(said, next(csv.DictReader(done.out.decode().splitlines()))["problem"])
            self.assertIn(f"class{number}/ann: ", done.error)

    def test_keys_beside_unmarked(self) -> None:
        """Keys count whatever the book is, and the book counts 0 until somebody decides."""
        ring: bytes = DESK.call("ring", *SITTING)["ring"]
        (self.folder / "gus.book").write_bytes(b"%PDF-1.7")
        (self.folder / "gus.keys").write_text(f"D = {ring[:10].hex()}\nO = {ring[10:26].hex()}\n")
        done = self.mark("gus.book", "--csv")
        row = next(csv.DictReader(done.out.decode().splitlines()))
        self.assertEqual((row["right"], row["points"], row["of points"], done.status), ("0", "3", "24", 1))
        self.assertIn("the book is not marked, and counts 0 until somebody decides", row["problem"])

    def test_passed_over(self) -> None:
        """Whatever may be somebody's work and is not marked is named, and its candidate."""
        (self.room / "dee.keys").write_text("D = 00\n")
        (self.room / "eve.book").symlink_to("nothing")
        self.file("names", "ann = Ann\ndee = Dee\neve = Eve\nfay = Fay\nnotes = Ned\n")
        done = self.mark("class", "--candidates", "names", "--json")
        said = [
            f"class/dee.keys: {NO_BOOK}",
            f"class/eve.book: {LINK}",
            "nothing was handed in by Fay",
            "not on the list of candidates: ben, cho",
            "nothing was marked of what was handed in by Eve (class/eve.book)",
        ]
        self.assertEqual((done.status, done.error), (1, "".join(f"taa1: {line}\n" for line in said)))
        self.assertEqual(json.loads(done.out)["class"]["absent"], ["Fay", "Eve"])
        left_out = json.loads(done.out)["class"]["left_out"]
        self.assertEqual([(each["name"], each["file"]) for each in left_out],
                         [("", "class/dee.keys"), ("Eve", "class/eve.book")])  # fmt: skip
        done = self.mark("class", "--candidates", "names", "--csv")
        names = [row["candidate"] for row in csv.DictReader(done.out.decode().splitlines())]
        self.assertEqual(names, ["", "Eve", "Ann", "ben", "cho", "Ned", "Dee", "Fay"])

    def test_keys_that_are_no_file(self) -> None:
        """A link to nothing and a folder in the place of NAME.keys are said, not passed over."""
        (self.room / "ben.keys").symlink_to("nothing")
        (self.room / "cho.keys").mkdir()
        (self.room / "ann.keys").write_bytes(BOOK)
        (self.room / "dee.book").write_bytes(BOOK)
        (self.room / "dee.keys").write_bytes(b"\n")
        (self.room / "eve.book").write_bytes(BOOK)
        (self.room / "eve.keys").write_bytes(b"%PDF-1.7\n\xff")
        (self.room / "fay.book").write_bytes(BOOK)
        (self.room / "fay.keys").write_text("none of it\nworked\n")
        why = {
            "class/ann.keys": "it is no text",
            "class/ben.keys": "a link, which may lead to another's file",
            "class/cho.keys": "a folder",
            "class/dee.keys": "the file is empty",
            "class/eve.keys": "this looks like a PDF document",
            "class/fay.keys": "no value in it",
        }
        books = [f"class/{name}" for name in
                 ("ann.book", "ben.hex", "cho", "dee.book", "eve.book", "fay.book")]  # fmt: skip
        done = self.mark(*books)
        lines = [
            f"{name}: {what}, where lines of keys are wanted (NAME = HEXADECIMAL)"
            for name, what in why.items()
        ]
        self.assertEqual((done.status, done.error), (1, "".join(f"taa1: {line}\n" for line in lines)))
        for line in (*lines, "keys, line 1: no line of the form NAME = HEXADECIMAL"):
            self.assertIn(f"  {line}\n", done.out.decode())
        self.assertEqual(done.out.decode().count("12 of 12 entries right"), 6)
        self.assertIn("candidates 6: 0 all right, 0 do not open, 0 not marked, keys not read 6\n", done.out.decode())
        done = self.mark(*books, "--dry")
        self.assertEqual((done.status, done.error), (1, ""))
        self.assertIn(f"class/cho: read as bytes: 12 records; its keys are not read: {lines[2]}\n", done.out.decode())
        self.mark(*books, "--html", "pages")
        page = (self.folder / "pages" / "ann.book.html").read_text()
        self.assertIn("All 12 entries right; the file of keys can&#x27;t be read.", page)
        done = self.mark(*books, "--csv")
        problems = [row["problem"] for row in csv.DictReader(done.out.decode().splitlines())]
        for problem, line in zip(problems, lines):
            self.assertIn(line, problem)
        self.assertEqual(done.status, 1)
        (self.room / "ann.book").write_bytes(b"")
        self.assertIn(f"taa1: {lines[0]}\n", self.mark("class/ann.book").error)

    def test_keys_named(self) -> None:
        """Where a shell names the keys among the hand-ins, they are those of their book."""
        names = sorted(path.relative_to(self.folder) for path in self.room.glob("ann.*"))
        self.assertEqual([name.name for name in names], ["ann.book", "ann.keys"])
        for given in (names, names[::-1], [*names, Path("class/ben.hex")]):
            done = self.mark(*given)
            self.assertEqual((done.status, done.error), (0, ""))
            self.assertIn("class/ann.book: 12 of 12 entries right; opens\n  right: D\n", done.out.decode())
        done = self.mark(*names, "--dry")
        self.assertIn("class/ann.keys: read as the keys of class/ann.book\n", done.out.decode())
        done = self.mark("class/ann.keys")
        said = "this looks like names and values (keys lie in NAME.keys beside a hand-in NAME.book)"
        self.assertEqual(done.status, 1)
        self.assertIn(said, done.error)

    def test_keys_by_old_lines(self) -> None:
        """Lines of keys may end as a Mac's or a DOS machine's, in UTF-16."""
        ring: bytes = DESK.call("ring", *SITTING)["ring"]
        text = f"D = {ring[:10].hex()}\rO = {ring[10:26].hex()}\r"
        for data in (text.encode(), text.replace("\r", "\r\n").encode("utf-16")):
            (self.room / "ann.keys").write_bytes(data)
            done = self.mark("class/ann.book")
            self.assertEqual((done.status, done.error), (0, ""))
            self.assertIn("  right: D and O\n", done.out.decode())

    def test_twice(self) -> None:
        """A file is one candidate's, however often it is named; a link to it is another's."""
        (self.room / "ann2.book").symlink_to("ann.book")
        books = ("class/ann.book", "class/ann.book", "class/../class/ann.book", "class/ann2.book")
        done = self.mark(*books, "--json")
        names = [sheet["candidate"] for sheet in json.loads(done.out)["sheets"]]
        self.assertEqual(names, ["class/ann.book", "class/ann2.book"])
        said = "".join(f"taa1: {name}: named more than once, and marked once\n" for name in books[1:3])
        self.assertEqual((done.status, done.error), (0, said))

    def test_own_pages(self) -> None:
        """The desk's pages among the hand-ins are no hand-ins, but a candidate's is one."""
        (self.room / "notes.txt").unlink()
        shutil.rmtree(self.room / "below")
        for _ in range(2):
            done = self.mark("class", "--html", "class")
            self.assertEqual((done.status, done.error), (0, ""))
            self.assertIn(b"candidates 3: ", done.out)
        (self.room / "dee.html").write_text("<!DOCTYPE html><title>mine</title>")
        done = self.mark("class", "--html", "class")
        self.assertIn(b"candidates 4: ", done.out)

    def test_named_beside_it(self) -> None:
        (self.room / "notes.txt").unlink()
        shutil.rmtree(self.room / "below")
        done = self.mark("class", "class/ann.book", "--json")
        names = [sheet["candidate"] for sheet in json.loads(done.out)["sheets"]]
        self.assertEqual(names, ["class/ben.hex", "class/cho", "class/ann.book"])
        (self.room / "scheme").write_bytes(self.accepted("scheme"))
        for _ in range(2):  # the second time, the first one's sheets are there
            done = self.mark("class", "--scheme", "class/scheme", "-o", "class/marks")
            self.assertEqual((done.status, done.error), (0, ""))

    def test_links_and_pipes(self) -> None:
        """A link in a folder may be to another's book, and is named; so is a pipe. One that is
        named by hand does not keep anybody waiting."""
        (self.room / "mallory.book").symlink_to("ann.book")
        (self.room / "mallory.keys").symlink_to("ann.keys")
        (self.room / "elsewhere").symlink_to(self.room / "below")
        os.mkfifo(self.room / "fifo")
        done = self.mark("class", "--dry")
        for name in ("mallory.book", "elsewhere"):
            self.assertIn(f"class/{name}: {LINK}\n", done.out.decode())
        self.assertIn("class/fifo: left out: no regular file\n", done.out.decode())
        self.assertNotIn("class/mallory.book: read", done.out.decode())
        done = self.mark("class/fifo")
        said = "class/fifo: a pipe to which nobody writes: name a file"
        self.assertEqual((done.status, done.error), (1, f"taa1: {said}\n"))
        (self.room / "mallory.book").unlink()
        (self.room / "mallory.book").write_bytes(BOOK)
        done = self.mark("class/mallory.book")
        self.assertIn("class/mallory.keys: a link, which may lead to another's file", done.error)
        writer = threading.Thread(target=lambda: (self.room / "fifo").write_bytes(BOOK))
        writer.start()
        self.assertIn(b"12 of 12 entries right", self.mark("class/fifo").out)
        writer.join()

    def test_no_hand_in(self) -> None:
        (self.folder / "none").mkdir()
        error = "none: no hand-in in this folder"
        done = self.mark("none")
        self.assertEqual((done.status, done.out, done.error), (2, b"", f"taa1: {error}\n"))

    def test_page_names(self) -> None:
        """After the file; a late one renames nobody; equal names get their folder's."""
        for names, wanted in (
            (["x/ann.book", "ben.hex"], ["ann.book.html", "ben.hex.html"]),
            (["a/ann.book", "late.book", "b/ann.book"], ["a-ann.book.html", "late.book.html", "b-ann.book.html"]),
            (["a/index", "a/b"], ["a-index.html", "b.html"]),
            (["a/x", "a/x"], ["a-x.html", "a-x-2.html"]),
            (["a/X", "b/x"], ["a-X.html", "b-x.html"]),
            (["-"], ["standard input.html"]),
            (["n" * 250], ["n" * 200 + ".html"]),
        ):
            self.assertEqual(page_names(names, ["index.html"]), wanted)

    def test_links(self) -> None:
        """The class's page leads to each candidate's, whatever the file is called."""
        for name in ("a b#c?.book", "50%.book", "grüße.book"):
            (self.room / name).write_bytes(BOOK)
        done = self.mark("class", "--html", "pages")
        self.assertEqual(done.status, 0)
        index = (self.folder / "pages" / "index.html").read_text()
        for link in ("a%20b%23c%3F.book.html", "50%25.book.html", "gr%C3%BC%C3%9Fe.book.html"):
            self.assertIn(f'href="{link}"', index)

    def test_earlier_pages(self) -> None:
        """Pages of an earlier run are named, and removed with --clean; others are not touched."""
        (self.room / "notes.txt").unlink()
        shutil.rmtree(self.room / "below")
        pages = self.folder / "pages"
        self.assertEqual(self.mark("class", "--html", "pages").error, "")
        for name in ("model.html", "notes.html"):
            (pages / name).write_text("<!DOCTYPE html><title>mine</title>")
        (self.room / "cho").rename(self.room / "dee")
        done = self.mark("class", "--html", "pages")
        said = "not of this run, but of an earlier one: cho.html (--clean removes such pages)"
        self.assertEqual((done.status, done.error), (0, f"taa1: pages: {said}\n"))
        ours = ["ann.book.html", "ben.hex.html", "cho.html", "dee.html", "index.html"]
        others = ["model.html", "notes.html"]
        self.assertEqual(sorted(path.name for path in pages.iterdir()), ours + others)
        done = self.mark("class", "--html", "pages", "--clean")
        self.assertEqual((done.status, done.error), (0, ""))
        ours.remove("cho.html")
        self.assertEqual(sorted(path.name for path in pages.iterdir()), ours + others)
        done = self.mark("class", "--clean")
        error = "mark: --clean is about pages, so it wants --html"
        self.assertEqual((done.status, done.out, done.error), (2, b"", f"taa1: {error}\n"))
