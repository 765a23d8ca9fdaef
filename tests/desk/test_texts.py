"""Sittings, rings, books and lineage sheets as text, to bytes and back."""

from __future__ import annotations

import re

from common import CLASS, DESK, ENTRIES, LINES, PLAIN_BOOK, RING, SITTING, Case, taa1
from taa1 import NAMES
from taa1_desk.command.files import THERE
from taa1_desk.reading.sittings import sitting_bytes
from taa1_desk.records import KINDS

NAMED = (CLASS / "sitting.txt").read_text()


def without(name: str) -> str:
    """The sample sitting without a line."""
    return "".join(line for line in NAMED.splitlines(True) if not line.startswith(f"{name} "))


class Sittings(Case):
    """taa1 sitting and taa1 draw."""

    def test_both_ways(self) -> None:
        data = self.accepted("sitting", stdin=NAMED.encode())
        self.assertEqual(data, sitting_bytes(SITTING))
        self.assertEqual(len(data), 83)
        self.assertEqual(self.accepted("sitting", "--names", stdin=data).decode(), NAMED)
        digits = self.accepted("sitting", "--hex", stdin=NAMED.encode())
        self.assertEqual(bytes.fromhex(digits.decode()), data)
        self.assertEqual(self.accepted("sitting", stdin=digits), data)

    def test_by_hand(self) -> None:
        """Comments, blank lines, spaces, capitals, another order and line ends."""
        lines = NAMED.upper().splitlines()[::-1]
        text = "\ufeff# by hand\r\n\r\n" + "\r\n".join(f"  {line}  # so" for line in lines)
        text = re.sub(r"= (..)(..)", r"= \1 \2 ", text)
        self.assertEqual(self.accepted("sitting", stdin=text.encode()), sitting_bytes(SITTING))

    def test_drawn(self) -> None:
        """What is drawn is a sitting; no two are the same; masks have four and ten ones."""
        drawn: set[bytes] = set()
        for sides in (None, 1, 2, 3):
            name = self.folder / f"{sides}.txt"
            self.accepted("draw", "-o", name, *(("--sides", sides) if sides else ()))
            data = self.accepted("sitting", name)
            self.assertIn(data[78], (sides,) if sides else (1, 2, 3))
            response, key = int.from_bytes(data[79:81], "big"), int.from_bytes(data[81:], "big")
            self.assertEqual((bin(response).count("1"), bin(key).count("1")), (4, 10))
            self.assertEqual(response & key, 0)
            drawn.update(data[at : at + 10] for at in (0, 16, 26, 36, 46, 56, 66))
            self.assertEqual(len(self.accepted("ring", name)), 60)
        self.assertEqual(len(drawn), 28)

    def test_no_sitting_is_replaced(self) -> None:
        name = self.file("sitting.txt", "the examination's\n")
        self.fails(2, f"{name}: {THERE}", "draw", "-o", name)
        self.assertEqual(name.read_text(), "the examination's\n")

    def test_heading(self) -> None:
        """Title and date stay in names; makering's bytes have none."""
        self.file("f", "title = Winter = 2\nDATE = 3 December # a Wednesday\n" + NAMED)
        said = self.accepted("sitting", "--names", "f", cwd=self.folder).decode()
        wanted = "title         = Winter = 2\ndate          = 3 December\n" + NAMED
        self.assertEqual(said, wanted)
        self.assertEqual(self.accepted("sitting", "f", cwd=self.folder), sitting_bytes(SITTING))
        said = self.accepted("draw", "--title", "Grüße ", "--date", "2025-12-03").decode()
        lines = said.splitlines()[:2]
        self.assertEqual(lines, ["title         = Grüße", "date          = 2025-12-03"])
        self.file("f", NAMED + "title =\ndate = 1\ndate = 2\n")
        both = "f, line 11: title: no words\ntaa1: f, line 13: date for the second time, after line 12"
        self.fails(2, both, "sitting", "f", cwd=self.folder)
        for words in ("a # b", " ", "a\nb"):
            done = taa1("draw", "--title", words)
            self.assertEqual((done.status, done.out), (2, b""))
            self.assertIn("no line of words without #", done.error)

    def test_bad_lines(self) -> None:
        for error, text in (
            ("f: no line for rso", without("rso")),
            ("f, line 11: rs for the second time, after line 2", NAMED + "rs = 00\n"),
            ("f, line 11: no line of the form name = hexadecimal", NAMED + "and so on\n"),
            ("f, line 2: rs: 18 hexadecimal digits, not 20", re.sub(r"(?m)^(rs +=) ..", r"\1 ", NAMED)),
            (
                "f, line 2: rs: 19 hexadecimal digits, not 20",
                re.sub(r"(?m)^(rs +=) .", r"\1 ", NAMED),
            ),
            ("f, line 2: rs: 'x' is no hexadecimal digit", re.sub(r"(?m)^(rs +=) .", r"\1 x", NAMED)),
            ("f, line 2: rs: 0 hexadecimal digits, not 20", re.sub(r"(?m)^(rs +=).*", r"\1", NAMED)),
            (
                "f, line 9: response_mask: '36873': wanted 4 hexadecimal digits",
                NAMED.replace("9009", "36873"),
            ),
            ("f, line 9: response_mask: '1': wanted 4 hexadecimal digits", NAMED.replace("9009", "1")),
            (
                "f, line 8: sides: '256': wanted a decimal number up to 255",
                re.sub(r"(sides +=).*", r"\1 256", NAMED),
            ),
        ):
            with self.subTest(error):
                self.file("f", text)
                self.fails(2, error, "sitting", "f", cwd=self.folder)

    def test_all_bad_lines(self) -> None:
        """Every one is reported."""
        self.file("f", "root = 1\nroof = 2\nrs\n")
        said = taa1("ring", "f", cwd=self.folder)
        self.assertEqual((said.status, said.out), (2, b""))
        lines = said.error.splitlines()
        self.assertTrue(all(line.startswith("taa1: f") for line in lines))
        self.assertEqual([line for line in lines if ", line " in line][:3], lines[:3])
        self.assertEqual(len(lines), 3 + 9)

    def test_refused(self) -> None:
        """What the engine refuses in a sitting is a refusal of its file."""
        for number, name, value in (
            (13, "sides", "4"),
            (7, "response_mask", "0001"),
            (8, "response_mask", "6c00"),
        ):
            self.file("f", re.sub(rf"(?m)^({name} *=).*", rf"\1 {value}", NAMED))
            done = taa1("ring", "f", cwd=self.folder)
            self.assertEqual((done.status, done.out), (1, b""))
            self.assertIn(f"taa1: f: refused {number} ({NAMES[number]})", done.error)


class Rings(Case):
    """taa1 ring, and where a ring is taken."""

    def test_forms(self) -> None:
        """A ring in bytes, hexadecimal or names seals as its sitting does."""
        made = self.accepted("ring", CLASS / "sitting.txt")
        self.assertEqual(made[:52], RING.data)
        self.file("made", made)
        self.file("ring", made[:52])
        self.file("hex", made.hex())
        self.file("names", self.accepted("ring", "--names", CLASS / "sitting.txt"))
        self.file("keys", "".join(f"{n} = {v.hex()}\n" for n, v in RING._asdict().items()))
        self.file("sitting", sitting_bytes(SITTING))
        wanted = self.accepted("seal", CLASS / "sitting.txt", CLASS / "model.txt")
        for name in ("made", "ring", "hex", "names", "keys", "sitting"):
            with self.subTest(name):
                self.assertEqual(self.accepted("seal", self.folder / name, CLASS / "model.txt"), wanted)

    def test_bad_rings(self) -> None:
        lengths = "where a ring has 52 or 60, a sitting 83 or names"
        for error, content in (
            (f"f: 0 bytes, {lengths}", b""),
            (f"f: 36 bytes, {lengths}", bytes(36)),
            ("f: an odd number of hexadecimal digits, 103", RING.data.hex()[1:]),
            ("f: no line for g", "".join(f"{n} = {v.hex()}\n" for n, v in list(RING._asdict().items())[:3])),
        ):
            with self.subTest(error):
                self.file("f", content)
                self.fails(2, error, "seal", "f", CLASS / "model.txt", cwd=self.folder)


class Books(Case):
    """taa1 book and check."""

    def test_both_ways(self) -> None:
        self.assertEqual(self.accepted("book", stdin=LINES.encode()), PLAIN_BOOK)
        listing = self.accepted("book", "--lines", stdin=PLAIN_BOOK).decode()
        self.assertEqual(listing, LINES.split("\n", 1)[1])
        self.assertEqual(self.accepted("book", "--lines", stdin=PLAIN_BOOK).decode(), listing)
        self.assertEqual(self.accepted("book", "--lines", stdin=PLAIN_BOOK.hex().encode()).decode(), listing)
        self.assertEqual(self.accepted("book", stdin=listing.encode()), PLAIN_BOOK)
        self.assertEqual({entry.kind for entry in ENTRIES}, set(KINDS))

    def test_by_hand(self) -> None:
        """Without indexes and count."""
        text = "# a book\n\n" + re.sub(r"(?m)^entry \d+ |^entries.*", "", LINES)
        self.assertEqual(self.accepted("book", stdin=text.encode()), PLAIN_BOOK)

    def test_any_order(self) -> None:
        """The words in any order and case, spaces in keys, 0x, and no number where there is none."""
        text = ""
        for entry in ENTRIES:
            pairs = entry.line.split()
            words = [" ".join(pairs[at : at + 2]) for at in range(0, len(pairs), 2)]
            if entry.number is None:
                words.pop()
            words[3] = f"KEY {entry.key.hex(' ').upper()}"
            words[1] = words[1].replace("identity ", "identity 0x")
            words[2] = f"version 0x{entry.version:x}" if entry.kind == 2 else words[2]
            text += " ".join(words[::-1]) + "\n"
        self.assertEqual(self.accepted("book", stdin=text.encode()), PLAIN_BOOK)

    def test_no_entry(self) -> None:
        """Lines of text without an entry are no book of none; nor are an old Mac's lines."""
        form = "an entry is `kind K identity I version V key HEX number N`, in any order"
        for text in ("# a book\n", "\n\n# a book\n", "# a book, soon"):
            self.fails(2, f"standard input: no entry in it: {form}", "seal", CLASS / "sitting.txt", stdin=text.encode())
        mac = "its lines end as an old Mac's, with CR alone: convert them (tr '\\r' '\\n' does so)"
        for text in (LINES.replace("\n", "\r"), "# mine\r" + LINES.replace("\n", "\r", 1)):
            for command in ("book", "check"):
                self.fails(2, f"standard input: {mac}", command, stdin=text.encode())
        names = NAMED.replace("\n", "\r")
        self.fails(2, f"standard input: {mac}", "sitting", stdin=names.encode())

    def test_codes(self) -> None:
        """A text with a byte order mark, in UTF-16, with DOS's line ends."""
        for text in (("\ufeff" + LINES).encode(), LINES.encode("utf-16"), LINES.replace("\n", "\r\n").encode()):
            self.assertEqual(self.accepted("book", stdin=text), PLAIN_BOOK)
        self.assertEqual(self.accepted("sitting", stdin=NAMED.encode("utf-16")), sitting_bytes(SITTING))

    def test_the_example(self) -> None:
        """The listing of the specification's example."""
        record = bytes.fromhex("02123456000701020304050607 08090a0003")
        line = "entry 0 kind 2 identity 123456 version 7 key 0102030405060708090a number 3\n"
        self.assertEqual(self.accepted("book", "--lines", stdin=record).decode(), line + "entries 1\n")

    def test_empty(self) -> None:
        self.assertEqual(self.accepted("book", "--lines", stdin=b""), b"entries 0\n")
        self.assertEqual(self.accepted("book", stdin=b"entries 0\n"), b"")
        self.assertEqual(self.accepted("check", stdin=b"").decode(), "well formed, entries 0\n")

    def test_bad_lines(self) -> None:
        right = ENTRIES[2].line
        form = "an entry is `kind K identity I version V key HEX number N`, in any order"
        for error, line in (
            (f"no identity: wanted 6 hexadecimal digits; {form}", "kind 2"),
            ("entry '1', where entry 0 stands", f"entry 1 {right}"),
            ("entry '', where entry 0 stands", "entry"),
            (f"no kind: wanted 1 to 6; {form}", right.replace("kind 2", "")),
            ("kind 7: wanted 1 to 6", right.replace("kind 2", "kind 7")),
            ("kind 'two': wanted a decimal number up to 255", right.replace("kind 2", "kind two")),
            (f"'knid' is no word of an entry: {form}", right.replace("kind 2", "knid 2")),
            (f"'identiti' is no word of an entry: {form}", right.replace("identity", "identiti")),
            ("kind for the second time", f"{right} kind 2"),
            ("identity 'b001': wanted 6 hexadecimal digits", right.replace("00b001", "b001")),
            ("identity '45057': wanted 6 hexadecimal digits", right.replace("00b001", "45057")),
            ("identity '00g001': wanted 6 hexadecimal digits", right.replace("00b001", "00g001")),
            (
                "version '65536': wanted a decimal number up to 65535",
                right.replace("version 513", "version 65536"),
            ),
            (
                "version '2f': wanted a decimal number up to 65535",
                right.replace("version 513", "version 2f"),
            ),
            ("key of kind 2: 18 hexadecimal digits, not 20", right.replace("1112", "11")),
            ("key of kind 2: 'x' is no hexadecimal digit", right.replace("1112", "11 12 x")),
            ("number '32': wanted a decimal number up to 31", right.replace("number 31", "number 32")),
            ("number '256': wanted a decimal number up to 31", right.replace("number 31", "number 256")),
            ("number '-': wanted a decimal number up to 31", right.replace("number 31", "number -")),
            (f"no number: wanted a decimal number up to 31; {form}", right.replace("number 31", "")),
            ("number '0': kind 1 has none: leave it out", ENTRIES[0].line.replace("number -", "number 0")),
            ("entries 2, where there are 0", "entries 2"),
            ("entries 'two': wanted a decimal number up to 1024", "entries two"),
        ):
            with self.subTest(error):
                self.file("f", "# a bad line\n" + line)
                self.fails(2, f"f, line 2: {error}", "book", "f", cwd=self.folder)

    def test_all_bad_lines(self) -> None:
        right = ENTRIES[2].line
        self.file("f", f"{right}\n{right} more\n{right}\nkind\nentries 4\nentries 4\n")
        said = taa1("seal", CLASS / "sitting.txt", "f", cwd=self.folder)
        self.assertEqual((said.status, said.out), (2, b""))
        lines = [line.split(":")[1].strip() for line in said.error.splitlines()]
        self.assertEqual(lines, ["f, line 2", "f, line 4", "f, line 6"])

    def test_one_bad_line(self) -> None:
        """A line that is no entry, or an index that is left out, makes no later line wrong."""
        rows = [f"entry {i} {entry.line}" for i, entry in enumerate(ENTRIES)]
        for text, line, error in (
            ([*rows[:3], "3a hello", *rows[3:]], 4, "'3a' is no word of an entry: "),
            ([*rows[:3], *rows[4:]], 4, "entry '4', where entry 3 stands"),
        ):
            self.file("f", "\n".join(text))
            done = taa1("check", "f", cwd=self.folder)
            self.assertEqual((done.status, len(done.error.splitlines())), (2, 1), done.error)
            self.assertIn(f"taa1: f, line {line}: {error}", done.error)

    def test_refused(self) -> None:
        bad = bytes([9]) + PLAIN_BOOK[1:]
        for command in ("check", "book"):
            self.fails(1, f"standard input: refused 3 at 0 ({NAMES[3]})", command, stdin=bad)
        short = PLAIN_BOOK[:-1]
        self.fails(1, f"standard input: refused 2 at 0 ({NAMES[2]})", "check", stdin=short)
        long = PLAIN_BOOK[:18] * 1025
        self.fails(1, f"standard input: refused 1 at 0 ({NAMES[1]})", "check", stdin=long)

    def test_masks(self) -> None:
        """Of masks that are refused it is said which, and why."""
        for response, key, number, said in (
            (0x900B, 0x6DB6, 7, "response_mask has 5, not 4"),
            (0x9009, 0x0000, 7, "key_mask has 0, not 10"),
            (0xFFFF, 0x6DB4, 7, "response_mask has 16, not 4; key_mask has 9, not 10"),
            (0x900A, 0x6DB6, 8, "response_mask and key_mask both have bit 1"),
            (0xC006, 0x6DB6, 8, "response_mask and key_mask both have bit 14, 2, 1"),
        ):
            data = sitting_bytes(SITTING._replace(response_mask=response, key_mask=key))
            error = f"standard input: refused {number} ({NAMES[number]}): {said}"
            self.fails(1, error, "ring", "-", stdin=data)


class Sheets(Case):
    """taa1 lineage."""

    TEXT = (
        "k = given 000102030405060708090a0b0c0d0e0f\n"
        "rs = given 0102030405060708090a  # a seed\n"
        "ks = ta11 k rs\n"
        "both = tb4 rs rs\n"
        "last = ta71 rs both\n"
    )

    def test_worked(self) -> None:
        said = self.accepted("lineage", stdin=self.TEXT.encode()).decode().splitlines()
        root, seed = bytes(range(16)), bytes(range(1, 11))
        self.assertEqual(said[2], f"ks = {DESK.call('ta11', root, seed)['bytes'].hex()}  # ta11 k rs")
        self.assertEqual(said[3], f"both = {'00' * 10}  # tb4 rs rs")
        last = DESK.call("ta71", seed, bytes(10))["bytes"].hex()
        self.assertEqual(said[4], f"last = {last}  # ta71 rs both")
        given = bytes(5) + b"\x10" + root + bytes(5) + b"\x0a" + seed + bytes(6)
        sheet = given + bytes([1, 0, 0, 0, 1]) + bytes(17)
        values = self.accepted("lineage", stdin=sheet)
        self.assertEqual(values[32:].hex(), said[2].split()[2])
        digits = self.accepted("lineage", "--hex", stdin=sheet.hex().encode())
        self.assertEqual(bytes.fromhex(digits.decode()), values)
        named = self.accepted("lineage", "--names", stdin=sheet).decode().splitlines()
        self.assertEqual(named[2], said[2].replace("ks", "key2").replace("ta11 k rs", "ta11 key0 key1"))

    def test_bad_lines(self) -> None:
        for error, line in (
            ("no line of the form NAME = OPERATION ..", "ks"),
            ("no operation 'ta12': they are given, ta11, ta21, ta41, tb4, ta71", "x = ta12 k rs"),
            ("no key 'kk'", "x = ta11 kk rs"),
            ("ta11 takes two parents, not 1", "x = ta11 k"),
            ("k for the second time, after line 1", "k = ta11 k rs"),
            ("the key given: 4 hexadecimal digits, not 20", "x = given 0102"),
        ):
            with self.subTest(error):
                self.file("f", self.TEXT + line)
                self.fails(2, f"f, line 6: {error}", "lineage", "f", cwd=self.folder)

    def test_refused(self) -> None:
        for number, line in ((15, "x = ta11 x rs"), (16, "x = ta11 rs k")):
            self.file("f", self.TEXT + line)
            self.fails(1, f"f: refused {number} at 5 ({NAMES[number]})", "lineage", "f", cwd=self.folder)
