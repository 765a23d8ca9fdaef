"""Hand-ins as they reach the desk: the files of candidates, tutors and clerks.

The book in them is right but where the name says otherwise, so that a right reading shows.
"""

from __future__ import annotations

import base64
import gzip
import io
import random
import zipfile
from dataclasses import dataclass
from typing import Iterator, List, Optional, Tuple

import dumps
from exams import RIGHT, SEALED, Exam, drawn, exam, line
from planted_sealed import right, slipped_book, slips
from reference import records


@dataclass(frozen=True)
class HandIn:
    """A file that is handed in as a sealed book."""

    name: str
    group: str
    exam: Exam
    content: bytes
    done: str  # what was done to the book
    book: Optional[bytes]  # the sealed book that a right reading gives, if there is one
    marked: Optional[bool]  # True: it must be marked; False: it must not; None: either
    say: str

    @property
    def right(self) -> Optional[int]:
        """The entries that are right in that book."""
        return None if self.book is None else right(self.exam.sealed, self.book)


def _spaced(book: bytes, between: str = " ", before: str = "") -> str:
    """Bytes in hexadecimal with something between them."""
    return between.join(f"{before}{byte:02x}" for byte in book)


def _by_record(book: bytes, put: str = "{}\n") -> str:
    """A line a record."""
    return "".join(put.format(record.hex()) for record in records(book, SEALED))


def _texts(of: Exam) -> Iterator[HandIn]:
    """Hexadecimal in all its dresses: the reading is certain."""
    book, digits = of.sealed, of.sealed.hex()
    lines = _by_record(book)
    commented = "# candidate 17\n" + _by_record(book, "{}  # sealed\n") + "# end\n"
    wrapped = "".join(f"{_spaced(row)}\n" for row in _cut(book, 16))
    for name, done, text in (
        ("hex", "hexadecimal in one line", f"{digits}\n"),
        ("hex-no-newline", "hexadecimal without a line end", digits),
        ("hex-upper", "capital digits", f"{digits.upper()}\n"),
        ("hex-spaces", "spaces between bytes", f"{_spaced(book)}\n"),
        ("hex-pairs", "spaces between pairs of bytes", " ".join(_digits(digits, 4)) + "\n"),
        ("hex-record-lines", "a record a line", lines),
        ("hex-record-spaces", "a record a line, spaces between bytes", _each(book, " ")),
        ("hex-sixteen", "sixteen bytes a line, as an editor shows them", wrapped),
        ("hex-blank-lines", "a blank line between records", lines.replace("\n", "\n\n")),
        ("hex-indented", "lines set in with tabs", lines.replace("\n", "\n\t").rstrip("\t")),
        ("hex-0x", "0x in front of the whole", f"0x{digits}\n"),
        ("hex-0x-records", "0x in front of each record", _by_record(book, "0x{}\n")),
        ("hex-0x-bytes", "0x in front of each byte", _spaced(book, " ", "0x")),
        ("hex-0x-commas", "0x and commas, as in C", _spaced(book, ", ", "0x") + ","),
        ("hex-0X-upper", "0X and capital digits", _spaced(book, ", ", "0x").upper()),
        ("hex-commas", "commas between bytes", _spaced(book, ",")),
        ("hex-comments", "comments after #", commented),
        ("hex-crlf", "hexadecimal with 0d 0a line ends", lines.replace("\n", "\r\n")),
        ("hex-cr", "hexadecimal with old Mac line ends", lines.replace("\n", "\r")),
    ):
        yield HandIn(f"text/{name}", "text", of, text.encode(), done, book, True, "read as text")
    for name, done, encoding in (
        ("hex-bom", "a byte order mark in front", "utf-8-sig"),
        ("hex-utf16", "UTF-16 with its mark", "utf-16-le"),
        ("hex-utf16-be", "UTF-16, high byte first, with its mark", "utf-16-be"),
    ):
        mark = "\ufeff" if encoding.startswith("utf-16") else ""
        content = (mark + lines).encode(encoding)
        say = "read as text, and the encoding is said"
        yield HandIn(f"text/{name}", "text", of, content, done, book, True, say)


def _digits(digits: str, count: int) -> List[str]:
    """Digits in parts."""
    return [digits[at : at + count] for at in range(0, len(digits), count)]


def _cut(book: bytes, width: int) -> List[bytes]:
    """Bytes in rows, the last one shorter."""
    return [book[at : at + width] for at in range(0, len(book), width)]


def _each(book: bytes, between: str) -> str:
    """A record a line, something between its bytes."""
    return "".join(f"{_spaced(record, between)}\n" for record in records(book, SEALED))


def _odd_texts(of: Exam) -> Iterator[HandIn]:
    """Texts that a reader may understand, or must say that it doesn't."""
    book, digits = of.sealed, of.sealed.hex()
    lines = _by_record(book)
    numbered = "".join(
        f"entry {place} {record.hex()}\n" for place, record in enumerate(records(book, SEALED))
    )
    counted = "".join(
        f"{place}: {record.hex()}\n" for place, record in enumerate(records(book, SEALED))
    )
    quoted = "".join(f"\\x{byte:02x}" for byte in book)
    looks = "marked with its reading said, or not marked: this looks like"
    for name, done, text, like in (
        ("hex-colons", "colons between bytes", _spaced(book, ":"), "bytes with colons"),
        ("hex-dashes", "dashes between bytes, as .NET has", _spaced(book, "-").upper(), "dashes"),
        ("hex-escapes", "\\x in front of each byte", quoted, "escapes"),
        ("hex-literal", "a Python literal", f"book = b'{quoted}'\n", "a program's literal"),
        ("hex-nbsp", "unbreaking spaces, from a text processor", _spaced(book, "\xa0"), "text"),
        ("hex-numbered", "entry and index before each record", numbered, "numbered records"),
        ("hex-counted", "index and colon before each record", counted, "numbered records"),
        ("hex-quoted", "a mail's marks before each line", _by_record(book, "> {}\n"), "a mail"),
        ("hex-fenced", "a fence of backquotes around it", f"```\n{lines}```\n", "a fenced text"),
        ("hex-slashes", "comments after //", f"// candidate 17\n{lines}", "a comment"),
        ("hex-ctrl-z", "a control-Z after it", f"{lines}\x1a", "a DOS text's end"),
        ("decimal-list", "a list of decimal numbers", str(list(book)), "decimal numbers"),
        ("fields", "kind, identity, version and text, two in decimal", _by_fields(book), "fields"),
        ("headed", "a line of heads over fields in digits", _headed(book), "digits under heads"),
        ("decimal-words", "decimal numbers between spaces", " ".join(map(str, book)), "decimals"),
        ("base64", "base64, as mail has it", base64.encodebytes(book).decode(), "base64"),
        ("html", "a web page around it", f"<html><pre>{lines}</pre></html>\n", "a web page"),
    ):
        yield HandIn(
            f"text/{name}", "odd text", of, text.encode(), done, book, None, f"{looks} {like}"
        )
    utf16 = lines.encode("utf-16-le")
    done = "UTF-16 without its mark"
    yield HandIn("text/hex-utf16-bare", "odd text", of, utf16, done, book, None, f"{looks} UTF-16")
    for name, done, text, say in (
        ("hex-letter-o", "the letter O for a zero", digits.replace("0", "O", 1), "the O is named"),
        ("hex-letter-l", "the letter l for a one", digits.replace("1", "l", 1), "the l is named"),
        ("hex-digit-lost", "a digit lost in record 3", _without(digits, 150), "odd digits named"),
        ("hex-question", "?? for bytes not worked", f"{digits[:400]}??{digits[402:]}", "?? named"),
    ):
        yield HandIn(f"text/{name}", "bad text", of, text.encode(), done, None, False, say)
    say = "the digit that is left alone is named, and the last record is cut short"
    odd, whole = digits[:-1].encode(), book[:-SEALED]
    yield HandIn("text/hex-odd", "bad text", of, odd, "the last digit lost", whole, True, say)
    done, say = "a digit lost in one of the lines", "line 4 is named: it has 41 digits"
    others = book[: 3 * SEALED] + book[4 * SEALED :]
    text = _without(lines, 150)
    yield HandIn("text/hex-line-odd", "bad text", of, text.encode(), done, others, True, say)


def _by_fields(book: bytes) -> str:
    """A line a record: kind and version in decimal, as the paper has them."""
    return "".join(
        f"{r[0]} {r[1:4].hex()} {int.from_bytes(r[4:6], 'big')} {r[6:].hex()}\n"
        for r in records(book, SEALED)
    )


def _headed(book: bytes) -> str:
    """Fields in digits, with commas between, under their names."""
    rows = (f"{r[:1].hex()},{r[1:4].hex()},{r[4:6].hex()},{r[6:].hex()}" for r in records(book, SEALED))
    return "\n".join(["kind,ESI,version,text", *rows]) + "\n"


def _without(text: str, place: int) -> str:
    """A text with a character lost."""
    return text[:place] + text[place + 1 :]


def _dumps(of: Exam) -> Iterator[HandIn]:
    """Dumps. Those by bytes are certain; words depend on the machine that wrote them."""
    book = of.sealed
    certain: Tuple[Tuple[str, str], ...] = (
        ("od -tx1", dumps.od(book, "x1")),
        ("od -v -tx1", dumps.od(book, "x1", whole=True)),
        ("od -An -v -tx1", dumps.od(book, "x1", "n", whole=True)),
        ("od -Ax -tx1", dumps.od(book, "x1", "x")),
        ("od -Ad -tx1", dumps.od(book, "x1", "d")),
        ("od -Ax -tx1z -v", dumps.od(book, "x1", "x", characters=True, whole=True)),
        ("od -tx1 -w21", dumps.od(book, "x1", width=21)),
        ("od -An -tx1 -w21", dumps.od(book, "x1", "n", 21)),
        ("od -tx1 -w32", dumps.od(book, "x1", width=32)),
        ("xxd", dumps.xxd(book)),
        ("xxd -u", dumps.xxd(book, upper=True)),
        ("xxd -g1", dumps.xxd(book, group=1)),
        ("xxd -c 21", dumps.xxd(book, 21)),
        ("xxd -c 21 -g 0", dumps.xxd(book, 21, 0)),
        ("xxd -c 32", dumps.xxd(book, 32)),
        ("xxd -p", dumps.xxd_plain(book)),
        ("xxd -p -c 21", dumps.xxd_plain(book, 21)),
        ("xxd -i", dumps.xxd_include(book)),
        ("xxd -i book_bin", dumps.xxd_include(book, "book_bin")),
        ("hexdump -C", dumps.hexdump_canonical(book)),
    )
    uncertain: Tuple[Tuple[str, str], ...] = (
        ("od", dumps.od(book)),
        ("od -x", dumps.od(book, "x2")),
        ("od -tx4", dumps.od(book, "x4")),
        ("od -b", dumps.od(book, "o1")),
        ("od -An -tu1", dumps.od(book, "u1", "n")),
        ("od -c", dumps.od(book, "c")),
        ("xxd -b", dumps.xxd_bits(book)),
        ("xxd -e", dumps.xxd(book, group=4, little=True)),
        ("hexdump", dumps.hexdump(book)),
        ("Format-Hex", dumps.format_hex(book)),
    )
    for command, text in certain:
        say = f"read as the output of {command.split()[0]}"
        done = f"the output of {command}"
        yield HandIn(f"dump/{command}", "dump", of, text.encode(), done, book, True, say)
    for command, text in uncertain:
        say = f"marked so, or not marked: this looks like the output of {command.split()[0]}"
        done = f"the output of {command}"
        yield HandIn(f"dump/{command}", "odd dump", of, text.encode(), done, book, None, say)
    crlf = dumps.xxd(book).replace("\n", "\r\n").encode("utf-16")
    done = "the output of xxd, from a shell that writes UTF-16"
    yield HandIn("dump/xxd in UTF-16", "dump", of, crlf, done, book, True, "read as xxd's")
    head, *rest = dumps.od(book, "x1").splitlines(keepends=True)
    for name, done, text in (
        ("od without its first line", "od's output, its first line lost", "".join(rest)),
        ("od lines twice", "od's output with a line twice", head + head + "".join(rest)),
    ):
        say = "not marked: a dump, but its places don't fit"
        yield HandIn(f"dump/{name}", "bad dump", of, text.encode(), done, None, False, say)
    done, say = "the first half of xxd's output, cut in a line", "marked, and said to be cut short"
    text = dumps.xxd(book)[:901]
    yield HandIn("dump/xxd cut", "cut dump", of, text.encode(), done, book[: 10 * SEALED], True, say)
    thrice = book[:SEALED] + book[:SEALED] * 2 + book[SEALED:]
    done = "od -tx1 -w21 of a book with an entry three times, written as *"
    say = "read with the repeated lines, or not marked: od's * stands for lines left out"
    text = dumps.od(thrice, "x1", width=21)
    yield HandIn("dump/od with *", "odd dump", of, text.encode(), done, thrice, None, say)


def _others(of: Exam) -> Iterator[HandIn]:
    """Something else than a sealed book."""
    plain, keys, entries = of.plain, of.keys, of.entries
    packed = io.BytesIO()
    with zipfile.ZipFile(packed, "w") as archive:
        archive.writestr(zipfile.ZipInfo("ann.book", (2024, 7, 1, 12, 0, 0)), of.sealed)
    columns = bytes(byte for place in range(SEALED) for byte in of.sealed[place::SEALED])
    unnumbered = "".join(line(place, entry).split(" ", 2)[2] for place, entry in enumerate(entries))
    session = f"session key 1 = {(keys.session1 or b'').hex()}\nd = {keys.ring.d.hex()}\n"
    for name, done, content, like in (
        ("plain", "the plain book", plain, "a plain book"),
        ("plain-hex", "the plain book in hexadecimal", plain.hex().encode(), "a plain book"),
        ("plain-14", "14 plain records, as long as 12 sealed ones", plain[:252], "a plain book"),
        ("plain-dump", "xxd of the plain book", dumps.xxd(plain).encode(), "a plain book"),
        ("lines", "the entries' lines", of.model_text().encode(), "lines of entries"),
        ("lines-unnumbered", "the lines without entry", unnumbered.encode(), "lines of entries"),
        ("columns", "the sealed book by columns (02, 9)", columns, "a book by columns"),
        ("ring", "the ring, 52 bytes", b"".join(keys.ring), "no book: 52 bytes, a ring's"),
        ("sitting", "the sitting's text", of.sitting_text().encode(), "a sitting"),
        ("keys", "the .keys file", session.encode(), "names and values"),
        ("gzip", "compressed by gzip", gzip.compress(of.sealed, mtime=0), "gzip"),
        ("zip", "compressed by zip", packed.getvalue(), "zip"),
        ("pdf", "a PDF", b"%PDF-1.7\n%\xe2\xe3\xcf\xd3\n1 0 obj\n<<>>\nendobj\n", "PDF"),
        ("png", "a photograph", b"\x89PNG\r\n\x1a\n" + bytes(40), "a picture"),
        ("prose", "an excuse", b"Sorry, my machine broke down this morning.\n", "prose"),
        ("spaces", "only blank lines", b"\n \n\t\n", "an empty text"),
        ("comments", "only comments", b"# candidate 17\n# nothing\n", "a text without a byte"),
    ):
        say = f"not marked: this looks like {like}"
        yield HandIn(f"other/{name}", "other", of, content, done, None, False, say)
    kept = b"".join(
        record[:6] + RIGHT.bl1(*_core(of, place)) for place, record in _numbered(of.sealed)
    )
    for name, done, content, like in (
        ("byte-8-kept", "byte 8 not dropped: records of 22 bytes", kept, "records of 22 bytes"),
        (
            "kind-left-out",
            "records without their kind, 20 bytes each",
            b"".join(record[1:] for _, record in _numbered(of.sealed)),
            "records of 20 bytes",
        ),
        (
            "texts-only",
            "the sealed texts alone, 15 bytes each",
            b"".join(record[6:] for _, record in _numbered(of.sealed)),
            "records of 15 bytes, texts alone",
        ),
    ):
        say = f"not marked: no whole records; this looks like {like}"
        yield HandIn(f"other/{name}", "other", of, content, done, None, False, say)
        hexed = content.hex().encode()
        yield HandIn(
            f"other/{name}-hex", "other", of, hexed, f"{done}, in hexadecimal", None, False, say
        )


def _numbered(book: bytes) -> List[Tuple[int, bytes]]:
    """A book's records with their places."""
    return list(enumerate(records(book, SEALED)))


def _core(of: Exam, place: int) -> Tuple[bytes, bytes]:
    """The core's key and input for an entry."""
    entry = of.entries[place]
    under, number = RIGHT.sealing_key(of.ring, entry.kind), entry.number or 0
    if entry.kind == 1:
        return RIGHT.short_core_key(under, entry.version), RIGHT.ta31_data(entry.key)
    key = RIGHT.long_core_key(under, entry.version)
    if entry.kind == 4:
        return key, RIGHT.ta91_data(entry.key)
    data = RIGHT.ta51_data if entry.kind in (2, 5) else RIGHT.ta81_data
    return key, data(entry.key, number)


def _damaged(of: Exam) -> Iterator[HandIn]:
    """A sealed book's bytes after a bad journey. Nothing is repaired silently."""
    book = of.sealed
    draw = random.Random("damaged")
    text, crlf = book.decode("latin-1"), book.replace(b"\n", b"\r\n")
    looks = "not marked: this looks like"
    for name, done, content, say in (
        ("lf-to-crlf", "each 0a made 0d 0a", crlf, f"{looks} changed line ends"),
        ("lf-lost", "each 0a lost", book.replace(b"\n", b""), f"{looks} changed line ends: 0a lost"),
        ("byte-lost", "a byte lost in entry 7", book[:150] + book[151:], f"{looks} bytes lost within"),
        ("utf-8", "each byte from 80 on made two, as UTF-8", text.encode(), f"{looks} UTF-8"),
        (
            "utf-8-lost",
            "bytes that are no UTF-8 replaced by U+FFFD",
            book.decode("utf-8", "replace").encode(),
            f"{looks} a text program's copy: bytes are lost",
        ),
        ("zeros-lost", "the zero bytes lost", book.replace(b"\0", b""), "not marked: no records"),
        ("cut-at-zero", "cut at the first zero byte", book[: book.index(0)], "not marked: short"),
    ):
        yield HandIn(f"damaged/{name}", "damaged", of, content, done, None, False, say)
    # at least half of the records have a kind and version of the model's: it is this sitting's
    for name, done, content, say in (
        ("cr-lost", "each 0d lost", book.replace(b"\r", b""), "changed line ends: 0d lost"),
        ("cr-to-lf", "each 0d made 0a", book.replace(b"\r", b"\n"), "changed line ends"),
        ("cut", "cut after 100 bytes", book[:100], "a cut book: 4 records, 16 bytes"),
    ):
        whole = content[: len(content) // SEALED * SEALED]
        say = f"marked, and this is said: it looks like {say}"
        yield HandIn(f"damaged/{name}", "damaged", of, content, done, whole, True, say)
    seven = bytes(byte & 0x7F for byte in book)
    yield HandIn(
        "damaged/seven-bits",
        "damaged",
        of,
        seven,
        "the top bit of each byte lost, by an old mail program",
        seven,
        None,
        "whole records, but no byte is above 7f: said, not a silent 0",
    )
    cr = book.replace(b"\n", b"\r")
    yield HandIn(
        "damaged/lf-to-cr",
        "damaged",
        of,
        cr,
        "each 0a made 0d",
        cr,
        None,
        "whole records, but no 0a where the model has some: said, and nothing repaired",
    )
    header = b"Candidate 17\n"
    for name, done, content, say in (
        ("newline-behind", "a line end after the book", book + b"\n", "one byte more: 0a"),
        ("crlf-behind", "0d 0a after the book", book + b"\r\n", "two bytes more: 0d 0a"),
        ("padded", "zeros up to 512 bytes", book.ljust(512, b"\0"), "zeros after the book"),
        ("header", "a line of text in front", header + book, "a header of 13 bytes"),
        ("header-16", "sixteen bytes in front", drawn(draw, 16) + book, "a header of 16 bytes"),
        ("header-count", "the number of records in front", b"\0\x14" + book, "a header of 2 bytes"),
        ("header-21", "a line of 21 characters in front", b"Candidate 17, July 1\n" + book, "21"),
        ("footer", "a line of text after", book + b"end of book\n", "more after the book"),
        ("bom", "a byte order mark in front of the bytes", b"\xef\xbb\xbf" + book, "EF BB BF"),
    ):
        say = f"never a silent 0: {say}"
        yield HandIn(f"damaged/{name}", "around", of, content, done, book, None, say)
    for name, done, content in (
        ("truncated", "the last byte lost", book[:-1]),
        ("truncated-20", "of the last record the first byte left", book[:-20]),
        ("truncated-hex", "hexadecimal, the last record cut short", book[:-6].hex().encode()),
    ):
        whole = book[: -SEALED]
        say = f"the last record is cut short; the {len(whole) // SEALED} before it are whole"
        yield HandIn(f"damaged/{name}", "truncated", of, content, done, whole, None, say)
    yield HandIn(
        "damaged/first-byte-lost",
        "truncated",
        of,
        book[1:],
        "the first byte lost",
        None,
        False,
        "not marked: no whole records, and no kind at a record's first byte",
    )
    shifted = book[: 5 * SEALED + 3] + book[5 * SEALED + 4 :] + b"\0"
    yield HandIn(
        "damaged/shifted",
        "shifted",
        of,
        shifted,
        "a byte lost in entry 5 and a zero byte at the end",
        shifted,
        True,
        "marked: 5 entries right, and the rest stands one byte too far left",
    )


def _foreign(of: Exam) -> Iterator[HandIn]:
    """Books of another sitting."""
    other, third = exam("network"), exam("radio")
    entries = tuple(entry._replace(identity=entry.identity ^ 0x5A5A5A) for entry in third.entries)
    rooted = RIGHT.recipe(of.sitting._replace(root=other.sitting.root)).ring
    for name, done, book, marked, say in (
        ("sitting", "another sitting's book", other.sealed, False, "another sitting's"),
        (
            "model",
            "another sitting's entries under this ring",
            RIGHT.sealed_book(of.ring, entries),
            False,
            "opens, but no identity and no entry is the model's: another sitting's",
        ),
        (
            "ring",
            "this sitting's entries under another sitting's ring",
            RIGHT.sealed_book(other.ring, of.entries),
            None,
            "no identity and no entry in common: another sitting's, or another C",
        ),
        (
            "root",
            "this sitting's entries, D and O from another root",
            RIGHT.sealed_book(rooted, of.entries),
            True,
            "marked: identities are right, and the texts under G",
        ),
        (
            "joined",
            "this sitting's book and another one's stapled together",
            of.sealed + other.sealed,
            True,
            "marked: all right, and 12 records extra",
        ),
    ):
        yield HandIn(f"foreign/{name}", "foreign", of, book, done, book, marked, say)


def _boxes(values: bytes, size: int) -> str:
    """Boxes of a form, filled in or blank."""
    return " ".join(f"{byte:02x}" for byte in values) if values else " ".join(["__"] * size)


def _form(of: Exam, records_: List[bytes], keys: bool) -> str:
    """The answer form's text, filled in: an empty record is a row that is left blank."""
    worked = of.keys
    values = (
        ("session key 1 (KS)", worked.session1 or b"", 16),
        ("session key 2 (KS')", worked.session2 or b"", 16),
        ("response 1 (RES1)", worked.response1, 4),
        ("key 1 (DCK1)", worked.key1, 10),
        ("D (DCK)", worked.ring.d, 10),
        ("O (KSO)", worked.ring.o, 16),
    )
    text = "Answer form, a sitting\n======\n\nName  Ann ________\n\n  row  value  bytes\n"
    for row, (name, value, size) in enumerate(values, 1):
        text += f"  {row:3}  {name:20} {_boxes(value if keys else b'', size)}\n"
    text += "\nThird generation: the sealed book\n-----\n\n  entry  kind  ESI  version  sealed text\n"
    for place, record in enumerate(records_):
        cut = (record[:1], 1), (record[1:4], 3), (record[4:6], 2), (record[6:], 15)
        text += f"  {place:5}  " + "  ".join(_boxes(*part) for part in cut) + "\n"
    return text + "\nThe argument\n------------\n\nIt opens once, since 12 and 3 are fixed.\n"


def _forms(of: Exam) -> Iterator[HandIn]:
    """The answer form as text."""
    book, each = of.sealed, records(of.sealed, SEALED)
    blank = [b"" if place in (2, 5) else record for place, record in enumerate(each)]
    wrong = records(slipped_book(of.name, "drop-last"), SEALED)
    for name, done, rows, keys, sealed in (
        ("filled", "filled in", each, True, book),
        ("book-alone", "filled in but for the keys", each, False, book),
        ("rows-blank", "rows 2 and 5 left blank", blank, True, b"".join(blank)),
        ("drop-last", "filled in, the last byte dropped", wrong, True, b"".join(wrong)),
    ):
        text = _form(of, rows, keys)
        say = "read as an answer form, the keys with it"
        yield HandIn(f"form/{name}", "form", of, text.encode(), done, sealed, True, say)
        done = f"{done}, in UTF-16 with 0d 0a line ends"
        dressed = text.replace("\n", "\r\n").encode("utf-16")
        yield HandIn(f"form/{name}-utf16", "form", of, dressed, done, sealed, True, say)
    empty = _form(of, [b""] * len(each), False).encode()
    say = "not marked: an answer form with nothing filled in"
    yield HandIn("form/blank", "form", of, empty, "nothing filled in", None, False, say)


def _wrong_books(of: Exam) -> Iterator[HandIn]:
    """A wrong book in an uncommon dress: read, and then marked as any other."""
    for slip, form in (("exp2-xor", "xxd"), ("kind-2-for-5", "od"), ("drop-last", "utf-16")):
        book = slipped_book(of.name, slip)
        text = {"xxd": dumps.xxd(book), "od": dumps.od(book, "x1")}.get(form, book.hex() + "\n")
        content = text.encode("utf-16" if form == "utf-16" else "ascii")
        done = f"{slips()[slip].mistake}, handed in as {form}"
        say = f"read as {form}, and the slip is named"
        yield HandIn(f"wrong/{slip} as {form}", "wrong", of, content, done, book, True, say)


def hand_ins() -> Iterator[HandIn]:
    """Every planted file, in the sitting "both"."""
    of = exam("both")
    yield HandIn("bytes", "bytes", of, of.sealed, "nothing", of.sealed, True, "all right")
    made_by = (_texts, _odd_texts, _dumps, _others, _damaged, _foreign, _forms, _wrong_books)
    for made in made_by:
        yield from made(of)
