"""Every command on good input and on bad: statuses, lines, files and streams."""

from __future__ import annotations

import json
import os
import re
import resource
import secrets
import shlex
import shutil
import subprocess
import sys
from contextlib import nullcontext
from typing import Any
from unittest import mock

from common import CLASS, COMMAND, DESK, PLAIN_BOOK, RING, ROOT, SITTING, Case, Run, here, seal, taa1
from taa1 import NAMES, Refused, __version__
from taa1_desk.cli import parser
from taa1_desk.command import files
from taa1_desk.command.files import THERE, write_file
from taa1_desk.command.overview import EXAMPLES
from taa1_desk.problems import Problem
from taa1_desk.reading.decoding import MOST_BYTES
from taa1_desk.reading.sittings import sitting_bytes

INPUTS = (CLASS / "sitting.txt", CLASS / "model.txt")
SEALED_BOOK = seal()
KEY = bytes(range(16))


class Good(Case):
    """What the commands are for."""

    def test_seal_and_open(self) -> None:
        self.assertEqual(self.accepted("seal", *INPUTS), SEALED_BOOK)
        self.file("ring", self.accepted("ring", INPUTS[0]))
        options = {"stdin": PLAIN_BOOK, "cwd": self.folder}
        self.assertEqual(self.accepted("seal", "ring", **options), SEALED_BOOK)
        digits = self.accepted("seal", "ring", "-", "--hex", **options)
        self.assertEqual(digits.decode(), SEALED_BOOK.hex() + "\n")
        self.assertEqual(self.accepted("open", INPUTS[0], stdin=SEALED_BOOK), PLAIN_BOOK)
        self.assertEqual(self.accepted("open", INPUTS[0], stdin=digits), PLAIN_BOOK)
        listing = self.accepted("book", "--lines", INPUTS[1])
        self.assertEqual(self.accepted("open", "--lines", INPUTS[0], stdin=SEALED_BOOK), listing)
        said = self.accepted("check", INPUTS[1])
        self.assertEqual(said, b"well formed, entries 12\n")

    def test_runs(self) -> None:
        done = taa1("seal", *INPUTS, "--runs")
        self.assertEqual((done.status, done.error), (0, "taa1: 25 cipher runs\n"))
        done = taa1("open", INPUTS[0], "--runs", stdin=SEALED_BOOK)
        self.assertEqual((done.status, done.error), (0, "taa1: 49 cipher runs\n"))

    def test_refused_opening(self) -> None:
        altered = SEALED_BOOK[:73] + bytes([SEALED_BOOK[73] ^ 1]) + SEALED_BOOK[74:]
        with self.assertRaises(Refused) as caught:
            DESK.call("open_book", RING.data, altered)
        self.assertEqual((caught.exception.number, caught.exception.index), (6, 3))
        self.fails(1, f"standard input: {caught.exception}", "open", INPUTS[0], stdin=altered)

    def test_columns(self) -> None:
        for kind, book, size in (("plain", PLAIN_BOOK, 18), ("sealed", SEALED_BOOK, 21)):
            filed = self.accepted("columns", kind, stdin=book)
            self.assertEqual(filed, b"".join(book[at::size] for at in range(size)))
            self.assertEqual(self.accepted("columns", kind, "--back", stdin=filed), book)
        self.fails(1, f"standard input: refused 2 at 0 ({NAMES[2]})", "columns", "plain", stdin=bytes(19))

    def test_card(self) -> None:
        group_key = bytes(range(1, 13))
        card = DESK.call("tb7", group_key)["bytes"]
        smudged = " ".join("??" if at in (0, 6, 15) else f"{b:02x}" for at, b in enumerate(card))
        wanted = f"key {group_key.hex()}\ncard {card.hex()}\n"
        self.assertEqual(self.accepted("card", smudged).decode(), wanted)
        self.assertEqual(self.accepted("card", *smudged.split()).decode(), wanted)
        self.assertEqual(self.accepted("card", "@-", stdin=smudged.encode()).decode(), wanted)
        said = json.loads(self.accepted("card", smudged, "--json"))
        self.assertEqual(said, {"key": group_key.hex(), "card": card.hex()})
        self.fails(1, f"card: refused 18 ({NAMES[18]})", "card", "????" + card.hex()[4:])
        self.fails(1, f"card: refused 19 ({NAMES[19]})", "card", "ff" + card.hex()[2:])
        self.fails(2, "card: 15 bytes, not 16", "card", card.hex()[2:])
        self.fails(2, "card, line 1, column 1: '?' is no hexadecimal digit", "card", "?" + card.hex()[1:])

    def test_cell(self) -> None:
        key = KEY[:10]
        made = DESK.call("tb5", key, 1, 2, 3)["bytes"].hex()
        said = self.accepted("cell", key.hex(), made).decode()
        self.assertEqual(said, "location_area 1\ncarrier 2\ncolour_code 3\n")
        made = DESK.call("tb6", key, 5, 0xABC)["bytes"].hex()
        said = self.accepted("cell", key.hex(), made, "--by", "tb6").decode()
        self.assertEqual(said, "carrier 5\nidentity 000abc\n")
        self.fails(1, f"cell: refused 17 ({NAMES[17]})", "cell", key.hex(), key[::-1].hex())
        said = f"cell: refused 11 ({NAMES[11]}): RESULT has 1 byte, not 10"
        self.fails(1, said, "cell", key.hex(), "00")

    def test_diffusion(self) -> None:
        records = secrets.token_bytes(48)
        tally = DESK.call("diffusion", records)
        said = self.accepted("diffusion", stdin=records).decode()
        self.assertEqual(said, "".join(f"{name} {value}\n" for name, value in tally.items()))
        self.assertEqual(json.loads(self.accepted("diffusion", "--json", stdin=records)), tally)
        letters = b"sixteen byte key8 bytes!"
        self.assertEqual(
            json.loads(self.accepted("diffusion", "--json", "--bytes", stdin=letters)),
            DESK.call("diffusion", letters),
        )
        drawn = json.loads(self.accepted("diffusion", "--draw", 7, "--json"))
        self.assertEqual(drawn["flips"], 7 * 64)
        said = f"the records drawn: refused 1 ({NAMES[1]})"
        self.fails(1, said, "diffusion", "--draw", 10**30)

    def test_schedule(self) -> None:
        lines = self.accepted("schedule", KEY.hex()).decode().splitlines()
        self.assertEqual(len(lines), 17)
        self.assertEqual(lines[0], f"round  1 register {KEY.hex()} round key {KEY[4:].hex()}")
        self.assertEqual(lines[16], f"after 16 register {KEY.hex()}")
        turned = DESK.call("register", KEY, 5)["bytes"]
        self.assertEqual(lines[5].split()[3], turned.hex())
        self.assertEqual(len(json.loads(self.accepted("schedule", KEY.hex(), "--json"))["registers"]), 17)
        said = f"schedule: refused 11 ({NAMES[11]}): KEY has 1 byte, not 16"
        self.fails(1, said, "schedule", "00")

    def test_tables(self) -> None:
        lines = self.accepted("tables").decode().splitlines()
        self.assertEqual(len(lines), 17)
        self.assertEqual(lines[16], "05 0a 0f 04 07 0e 03 08 0d 02 09 0c 01 06 0b 00")

    def test_model(self) -> None:
        """The text and the JSON have the same values, which the engine gives."""
        text = self.accepted("model", *INPUTS).decode()
        model = json.loads(self.accepted("model", *INPUTS, "--json"))
        keys = {key["name"]: key["value"] for key in model["keys"]}
        self.assertEqual((keys["D"], keys["O"], keys["C"], keys["G"]), tuple(k.hex() for k in RING))
        both = DESK.call("tb4", bytes.fromhex(keys["key 1"]), bytes.fromhex(keys["key 2"]))
        self.assertEqual(both["bytes"].hex(), keys["D"])
        self.assertEqual(model["sealed"], SEALED_BOOK.hex())
        self.assertEqual(model["runs"], 25)
        masks = (model["sitting"]["response_mask"], model["sitting"]["key_mask"])
        self.assertEqual((masks, model["sitting"]["sides"]), (("9009", "6db6"), 3))
        for entry in model["entries"]:
            core, version = bytes.fromhex(entry["core_key_input"]), entry["version"].to_bytes(2, "big")
            under = getattr(RING, entry["sealing_key"].lower())
            self.assertEqual(core, bytes(k ^ version[i % 2] for i, k in enumerate(under)))
            self.assertIn(entry["record"], text)
        for value in keys.values():
            self.assertIn(value, text)

    def test_one_sided_model(self) -> None:
        """A side that does not run has no session key, and its key is zeros."""
        for sides, idle in ((1, "2"), (2, "1")):
            name = self.file("sitting", sitting_bytes(SITTING._replace(sides=sides)))
            model = json.loads(self.accepted("model", name, INPUTS[1], "--json"))
            keys = {key["name"]: key for key in model["keys"]}
            self.assertIsNone(keys[f"session key {idle}"]["value"])
            self.assertEqual(keys[f"key {idle}"]["value"], "00" * 10)
            self.assertEqual(keys[f"response {idle}"]["value"], "00" * 4)
            self.assertEqual(keys[f"key {idle}"]["how"], "this side does not run")
            self.accepted("model", name, INPUTS[1])
            self.accepted("model", name, INPUTS[1], "--html")

    def test_slips(self) -> None:
        self.assertIn(b"RAND1 and RAND2 exchanged\n", self.accepted("slips"))

    def test_output_files(self) -> None:
        """A file has the mode that the user's mask gives, or the one that it had; a link stays."""
        name = self.folder / "sealed"
        self.accepted("seal", *INPUTS, "-o", name)
        mask = os.umask(0)
        os.umask(mask)
        self.assertEqual(name.stat().st_mode & 0o777, 0o666 & ~mask)
        name.chmod(0o640)
        self.accepted("seal", *INPUTS, "-o", name, "--hex")
        self.assertEqual(name.stat().st_mode & 0o777, 0o640)
        self.assertEqual(name.read_text().strip(), SEALED_BOOK.hex())
        self.assertEqual(os.listdir(self.folder), ["sealed"])
        link = self.folder / "link"
        link.symlink_to(name)
        self.accepted("seal", *INPUTS, "-o", link)
        self.assertTrue(link.is_symlink())
        self.assertEqual(name.read_bytes(), SEALED_BOOK)

    def test_secrets(self) -> None:
        """What holds secrets is its owner's alone, also in the place of a file that was not."""
        sealed = self.file("sealed", SEALED_BOOK)
        for args in (
            ("draw",),
            ("draw", "--book"),
            ("sitting", INPUTS[0]),
            ("ring", INPUTS[0]),
            ("book", INPUTS[1]),
            ("book", "--lines", INPUTS[1]),
            ("model", *INPUTS),
            ("model", *INPUTS, "--json"),
            ("model", *INPUTS, "--html"),
            ("open", INPUTS[0], sealed),
            ("columns", "plain", "/dev/null"),
            ("lineage", CLASS / "lineage.txt"),
            ("paper", *INPUTS, "--part", "solution"),
            ("mark", *INPUTS, CLASS / "ben.book"),
        ):
            with self.subTest(args=args[:2]):
                name = self.folder / "secret"
                for before in (False, True):
                    if before and args[0] != "draw":
                        name.write_bytes(b"")
                        name.chmod(0o666)
                    self.accepted(*args, "-o", name)
                    self.assertEqual(name.stat().st_mode & 0o777, 0o600)
                    name.unlink()

    def test_two_draw_at_once(self) -> None:
        """Of many that draw into one file at once, one does, and the others say so."""
        name = self.folder / "sitting.txt"
        command = [*COMMAND, "draw", "-o", str(name)]
        runs = [subprocess.Popen(command, stderr=subprocess.PIPE) for _ in range(6)]
        errors = [run.communicate()[1].decode() for run in runs]
        self.assertEqual(sorted(run.returncode for run in runs), [0, 2, 2, 2, 2, 2])
        said = f"taa1: {name}: {files.THERE}\n"
        self.assertEqual(sorted(errors), ["", *[said] * 5])
        self.assertEqual(len(self.accepted("ring", name)), 60)
        self.assertEqual(os.listdir(self.folder), ["sitting.txt"])

    def test_new_file(self) -> None:
        """A new file takes no other's place, also where a file may have one name only."""
        name = self.folder / "new"
        for fails in (False, True):
            patched = mock.patch("taa1_desk.command.files.os.link", side_effect=PermissionError(1, "not permitted"))
            context: Any = patched if fails else nullcontext()
            with context:
                write_file(str(name), b"first", private=True, new=THERE)
                with self.assertRaisesRegex(Problem, "it is there already"):
                    write_file(str(name), b"second", private=True, new=THERE)
            self.assertEqual((name.read_bytes(), name.stat().st_mode & 0o777), (b"first", 0o600))
            self.assertEqual(os.listdir(self.folder), ["new"])
            name.unlink()


# Commands that read one file, as the arguments around it.
READERS: tuple[tuple[Any, ...], ...] = (
    ("sitting", "f"),
    ("sitting", "--names", "f"),
    ("ring", "f"),
    ("book", "f"),
    ("book", "--lines", "f"),
    ("check", "f"),
    ("seal", "f", INPUTS[1]),
    ("seal", INPUTS[0], "f"),
    ("open", "f", CLASS / "ann.book"),
    ("open", INPUTS[0], "f"),
    ("open", INPUTS[0], "f", "--lines"),
    ("columns", "plain", "f"),
    ("columns", "sealed", "f", "--back"),
    ("lineage", "f"),
    ("diffusion", "f"),
    ("model", "f", INPUTS[1]),
    ("model", INPUTS[0], "f"),
    ("mark", "f", INPUTS[1], CLASS / "ann.book"),
    ("mark", INPUTS[0], "f", CLASS / "ann.book"),
    ("mark", *INPUTS, "f"),
    ("card", "@f"),
    ("cell", "@f", "00" * 10),
    ("schedule", "@f"),
    ("call", "tb2", "--input", "@f"),
)
# Commands that write, with input that they accept.
WRITERS: tuple[tuple[Any, ...], ...] = (
    ("call", "tb7", "--group-key", "00" * 12),
    ("draw",),
    ("sitting", INPUTS[0]),
    ("sitting", "--names", INPUTS[0]),
    ("book", INPUTS[1]),
    ("ring", INPUTS[0]),
    ("seal", *INPUTS),
    ("open", INPUTS[0], CLASS / "ann.book"),
    ("book", "--lines", INPUTS[1]),
    ("check", INPUTS[1]),
    ("columns", "plain", "/dev/null", "--hex"),
    ("lineage", CLASS / "lineage.txt"),
    ("card", "00" * 16),
    ("cell", "00" * 10, "00" * 10),
    ("diffusion", "--draw", "1"),
    ("schedule", "00" * 16),
    ("model", *INPUTS),
    ("model", *INPUTS, "--html"),
    ("mark", *INPUTS, CLASS / "ann.book"),
    ("slips",),
)
BAD: dict[str, bytes] = {
    "empty": b"",
    "truncated": INPUTS[0].read_bytes()[:100],
    "truncated bytes": sitting_bytes(SITTING)[:-1],
    "truncated book": SEALED_BOOK[:-1],
    "huge": b"\1" * (MOST_BYTES + 1),
    "huge text": b"00 " * (MOST_BYTES // 3 + 1),
    "long": b"\1" * (1 << 16),
    "binary": bytes(range(256)) * 3,
    "zeros": bytes(1000),
    "not UTF-8": b"root = \xff\xfe\n",
    "another code": "root = é\n".encode("latin-1"),
    "odd": b"012\n",
    "no hexadecimal": b"01 0x 02\n",
    "words": b"entry 0 kind\n",
    "names": b"a = b\nc = d\n",
    "one line": b"=" * 100000,
    "control": b"root = 00\0\x1b[31m\n",
    "surrogate": b"\xed\xa0\x80",
}


class Bad(Case):
    """Each a line that says what and where; nothing is half written."""

    def said(self, done: Run, *statuses: int) -> None:
        """One of the statuses, lines for standard error that begin alike, no output."""
        self.assertIn(done.status, statuses, done.error)
        self.assertNotIn("Traceback", done.error)
        lines = done.error.split("\n")
        self.assertEqual(lines.pop(), "")
        self.assertTrue(all(line.startswith("taa1: ") for line in lines), done.error)
        self.assertTrue(all(line.isprintable() for line in lines), done.error)
        if done.status:
            self.assertTrue(lines)

    def test_content(self) -> None:
        """Every command with every bad content."""
        for name, content in BAD.items():
            self.file("f", content)
            for args in READERS:
                with self.subTest(content=name, args=args[:2]):
                    out = self.folder / "out"
                    done = here(*args, "-o", out, cwd=self.folder)
                    marked = args[0] == "mark" and args[-1] == "f"
                    self.said(done, 0, 1, 2)
                    if done.status and not marked:
                        self.assertEqual(sorted(os.listdir(self.folder)), ["f"])
                    if name.startswith("huge") and not marked:
                        self.assertEqual(done.status, 2)
                        self.assertIn("f: longer than 1,048,576 bytes", done.error)
                    out.unlink(missing_ok=True)

    def test_files(self) -> None:
        """No such file, a folder, a name that is too long, an endless device."""
        for name, reason in (
            ("missing", "No such file or directory"),
            (".", "Is a directory"),
            ("n" * 300, "File name too long"),
            ("/dev/zero", "longer than 1,048,576 bytes"),
        ):
            for args in READERS:
                given = [str(arg).replace("f", name) if arg in ("f", "@f") else arg for arg in args]
                with self.subTest(args=given[:2], reason=reason):
                    done = here(*given, cwd=self.folder)
                    marked = args[0] == "mark" and args[-1] == "f"
                    none = "no hand-in in this folder"
                    folder = marked and name == "."  # it stands for its files
                    self.said(done, 1 if marked and not folder else 2)
                    self.assertEqual(done.error, f"taa1: {name}: {none if folder else reason}\n")

    def test_outputs(self) -> None:
        """A full device, a folder, a folder that is not there: one line, status 2."""
        for args in WRITERS:
            with self.subTest(args=args[:2]):
                full = "No space left on device"
                with open("/dev/full", "wb") as device:
                    done = taa1(*args, stdout=device)
                self.assertEqual((done.status, done.error), (2, f"taa1: standard output: {full}\n"))
                self.fails(2, f"/dev/full: {full}", *args, "-o", "/dev/full")
                self.fails(2, f"{self.folder}: Is a directory", *args, "-o", self.folder)
                there = self.folder / "no" / "file"
                self.fails(2, f"{there}: No such file or directory", *args, "-o", there)

    def test_closed_streams(self) -> None:
        for args in WRITERS[:8]:
            command = [*COMMAND, *map(str, args)]
            for close, error in (
                ('"$@" >&-', "taa1: standard output: it is closed\n"),
                ('"$@" >&- 2>&-', ""),
            ):
                with self.subTest(args=args[:2], close=close):
                    done = subprocess.run(
                        ["bash", "-c", close, "-", *command], capture_output=True, check=False
                    )
                    self.assertEqual((done.returncode, done.stderr.decode()), (2, error))
        done = subprocess.run(
            ["bash", "-c", '"$@" <&-', "-", *COMMAND, "book", "--lines"], capture_output=True, check=False
        )
        self.assertEqual((done.returncode, done.stderr), (2, b"taa1: standard input: it is closed\n"))

    def test_closed_pipe(self) -> None:
        read, write = os.pipe()
        os.close(read)
        try:
            done = taa1("book", "--lines", INPUTS[1], stdout=write)
        finally:
            os.close(write)
        self.assertEqual((done.status, done.error), (2, "taa1: standard output: Broken pipe\n"))

    def test_help_to_full_device(self) -> None:
        for args in (("--help",), ("mark", "--help"), ("call", "ta51", "--help")):
            with open("/dev/full", "wb") as device:
                done = taa1(*args, stdout=device)
            said = "taa1: standard output: No space left on device\n"
            self.assertEqual((done.status, done.error), (2, said))

    def test_no_room(self) -> None:
        """A write that fails in the middle leaves the old file, and no other."""
        name = self.file("ring", b"old")

        def limit() -> None:
            resource.setrlimit(resource.RLIMIT_FSIZE, (10, 10))

        error = f"{name}: File too large"
        self.fails(2, error, "ring", INPUTS[0], "-o", name, preexec_fn=limit)
        self.assertEqual(name.read_bytes(), b"old")

    def test_one_standard_input(self) -> None:
        said = "standard input: it can stand for one file only"
        for args in (("seal", "-"), ("open", "-", "-"), ("model", "-", "-"), ("mark", "-", INPUTS[1], "-")):
            self.fails(2, said, *args)

    def test_help(self) -> None:
        """The commands in the order of the work, each with an example that works."""
        said = self.accepted("--help").decode()
        self.assertEqual(self.accepted("help").decode(), said)
        commands = [name for a in parser()._actions if a.dest == "command" for name in a.choices or ()]
        self.assertEqual(set(EXAMPLES), set(commands))
        listed = [line.split()[0] for line in said.splitlines() if re.match(r"  [a-z]", line)]
        self.assertEqual(set(listed), set(commands))
        self.assertEqual(listed[:7], ["window", "draw", "book", "model", "paper", "seal", "mark"])
        self.assertEqual(listed[-1], "call")
        (self.folder / "class").mkdir()
        self.file("class/ann.book", SEALED_BOOK)
        self.file("model.txt", INPUTS[1].read_text())
        self.file("sheet.txt", (CLASS / "lineage.txt").read_text())
        day = self.folder / "day"
        day.mkdir()
        files_ = [shutil.copy(CLASS / name, day) for name in ("sitting.txt", "model.txt", "ann.book")]
        self.accepted("mark", *files_, "--record", "record.json", "-o", "marks.txt", cwd=self.folder)
        for name in listed:
            with self.subTest(name):
                self.assertIn(f"{EXAMPLES[name]}\n", said)
                own = self.accepted("help", name).decode()
                self.assertEqual(self.accepted(name, "--help").decode(), own)
                self.assertIn(f"example: {EXAMPLES[name]}\n", own)
                if name == "window":  # test_window opens it, where there is a display
                    continue
                done = taa1(*shlex.split(EXAMPLES[name])[1:], cwd=self.folder)
                strange = name == "mark"  # the sitting was drawn, so ann's book is another's
                self.assertEqual(done.status, 1 if strange else 0, done.error)

    def test_version(self) -> None:
        self.assertEqual(self.accepted("--version").decode(), f"taa1 {__version__}\n")

    def test_no_command(self) -> None:
        """The help, as somebody who does not know the commands needs it."""
        self.assertEqual(self.accepted(), self.accepted("--help"))

    def test_no_such_help(self) -> None:
        done = taa1("help", "nonsense")
        self.said(done, 2)
        self.assertIn("invalid choice: 'nonsense'", done.error)

    def test_wrong_uses(self) -> None:
        for error, args in (
            ("mark: the following arguments are required: BOOK, CANDIDATE", ("mark", "x")),
            ("seal: the following arguments are required: RING", ("seal",)),
            ("unrecognized arguments: --nonsense (taa1 --help lists the commands)", ("slips", "--nonsense")),
            ("columns: the following arguments are required: book", ("columns",)),
            (
                "seal: argument --damage: entry 0 for the second time",
                ("seal", *INPUTS, "--damage", "0,1,0:4"),
            ),
        ):
            with self.subTest(args=args):
                self.fails(2, error, *args)
        done = taa1("nonsense")
        self.said(done, 2)
        self.assertIn("invalid choice: 'nonsense'", done.error)

    def test_another_file(self) -> None:
        """A book for a sitting, and the like, is called what it is."""
        lines, named = "this is a plain book in lines", "this has the names of a sitting or a ring"
        for error, args in (
            (f"{INPUTS[1]}: {lines}, where a sitting is wanted", ("model", *INPUTS[::-1])),
            (f"{INPUTS[1]}: {lines}, where a ring or a sitting is wanted", ("seal", *INPUTS[::-1])),
            (f"{INPUTS[1]}: {lines}, where a sealed book is wanted", ("open", *INPUTS)),
            (f"{INPUTS[1]}: {lines}, where a sealed book is wanted", ("mark", "--opened", *INPUTS, "x")),
            (f"{INPUTS[0]}: {named}, where a plain book is wanted", ("check", INPUTS[0])),
        ):
            with self.subTest(args=args):
                self.fails(2, error, *args)

    def test_inputs_stay(self) -> None:
        """No output replaces what is read."""
        book = self.file("ann.book", SEALED_BOOK)
        sitting = self.file("sitting", INPUTS[0].read_bytes())
        model = self.file("model", INPUTS[1].read_bytes())
        args = (sitting, model, book)
        for name, given in (("mark", args), ("model", args[:2]), ("seal", args[:2])):
            for file in given:
                before = file.read_bytes()
                said = f"{file}: {files.READ}"
                self.fails(2, said, name, *given, "-o", file)
                self.assertEqual(file.read_bytes(), before)

    def test_hand_ins_stay(self) -> None:
        """No output replaces a file among the hand-ins, however it is named, but for marks."""
        room, store = self.folder / "class", self.folder / "store"
        room.mkdir()
        store.mkdir()
        (room / "ann.book").write_bytes(SEALED_BOOK)
        (room / "ann.keys").write_text("D = 00\n")
        (room / "ben.txt").write_bytes(SEALED_BOOK.hex().encode())
        (store / "cho.book").write_bytes(SEALED_BOOK)
        (room / "cho.book").symlink_to(store / "cho.book")
        os.link(room / "ann.book", store / "linked")
        before = {path: path.read_bytes() for path in (*room.iterdir(), *store.iterdir())}
        said = "it lies among the hand-ins and holds no marks, so nothing is written over it"
        names = ("class/ann.book", "class/../class/ann.keys", "class/ben.txt", "store/cho.book", "store/linked")
        for name in names:
            error = f"{name}: {said}: give the output another name"
            self.fails(2, error, "mark", *INPUTS, "class", "-o", name, cwd=self.folder)
        error = f"store/linked: {files.READ}"
        self.fails(2, error, "mark", *INPUTS, "class/ann.book", "-o", "store/linked", cwd=self.folder)
        self.file("key", bytes(16))
        key = ("call", "encrypt", "--key", "@key", "--block", bytes(8).hex())
        self.fails(2, f"key: {files.READ}", *key, "-o", "key", cwd=self.folder)
        self.assertEqual({path: path.read_bytes() for path in before}, before)
        self.file("book", PLAIN_BOOK)
        with open(self.folder / "book", "rb") as book:
            done = subprocess.run([*COMMAND, "book", "--lines", "-o", "book"], stdin=book, cwd=self.folder,
                                  capture_output=True, check=False)  # fmt: skip
        self.assertEqual((done.returncode, (self.folder / "book").read_bytes()), (2, PLAIN_BOOK))
        self.assertEqual(done.stderr.decode(), f"taa1: book: {files.READ}\n")
        for options in ((), ("--csv",), ("--json",), ("--dry",), ("--html", "pages")):
            for _ in range(2):  # the second time, what the first one wrote is replaced
                marked = taa1("mark", *INPUTS, "class", "-o", "class/marks", *options, cwd=self.folder)
                self.assertEqual(marked.status, 1, marked.error)  # the link is named

    def test_pages_stay(self) -> None:
        """Nor does a page replace what is read."""
        self.file("index.html", INPUTS[0].read_bytes())
        self.file("ann", SEALED_BOOK)
        self.file("paper.html", INPUTS[1].read_bytes())
        for name, command in (
            ("./index.html", ("mark", "index.html", INPUTS[1], "ann", "--html", ".")),
            ("./paper.html", ("paper", INPUTS[0], "paper.html", "--html", ".")),
            ("paper.html", ("argue", INPUTS[0], "paper.html", "--html", "paper.html")),
        ):
            self.fails(2, f"{name}: {files.READ}", *command, cwd=self.folder)

    def test_progress(self) -> None:
        """Marking shows how far it is on a terminal only, and wipes it out."""
        main, other = os.openpty()
        command = [*COMMAND, "mark", *map(str, INPUTS), str(CLASS / "ann.book")]
        done = subprocess.run(command, stdout=subprocess.PIPE, stderr=other, check=False)
        os.close(other)
        said = os.read(main, 1000)
        os.close(main)
        self.assertEqual(done.returncode, 0)
        self.assertEqual(said, b"\r0 of 1\r\x1b[K")


CHECKED = (
    "python/taa1", "python/make_wheel.py", "python/test_taa1.py", "desk/taa1_desk", "examples/python/sitting.py",
    "vectors/make", "vectors/generator",
)  # fmt: skip
# Each line that a host gets wrong, and two that are right.
MISUSE = """import array, pathlib, taa1
engine = taa1.Engine(pathlib.Path("libtaa1.so"))
engine.tb2(array.array("B", bytes(16)))
engine.tb2("no bytes")  # wrong
engine.tb2(16)  # wrong
taa1.PlainEntry.from_bytes("no bytes")  # wrong
engine.ta31(bytes(10), taa1.KeyNumber(1), bytes(10))  # wrong
"""


class Checked(Case):
    """Type hints and unused names, where a checker is installed."""

    def said(self, tool: str, *args: str) -> "subprocess.CompletedProcess[bytes]":
        """What a checker says."""
        command = [sys.executable, "-m", tool]
        if subprocess.run([*command, "--version"], capture_output=True, check=False).returncode:
            found = shutil.which(tool) or shutil.which(f"{tool}3")  # another Python's
            if found is None:
                self.skipTest(f"no {tool}")
            command = [found]
        paths = {"MYPYPATH": "python:desk:vectors:tests/desk"}
        return subprocess.run([*command, *args], cwd=ROOT, env={**os.environ, **paths}, capture_output=True, check=False)

    def mypy(self, *paths: str) -> "subprocess.CompletedProcess[bytes]":
        """What mypy says of these."""
        return self.said("mypy", "--strict", "--cache-dir", str(self.folder), *paths)

    def clean(self, done: "subprocess.CompletedProcess[bytes]") -> None:
        """A checker has nothing to say."""
        self.assertEqual((done.returncode, done.stderr), (0, b""), done.stdout.decode())

    @property
    def checked(self) -> list[str]:
        """The modules and these tests."""
        return [*CHECKED, *(str(path.relative_to(ROOT)) for path in sorted((ROOT / "tests" / "desk").glob("*.py")))]

    def test_mypy(self) -> None:
        """The type hints are right."""
        self.clean(self.mypy(*self.checked))

    def test_pyflakes(self) -> None:
        """Nothing is imported or named for nothing."""
        self.clean(self.said("pyflakes", *self.checked))

    def test_misuse(self) -> None:
        """A host's wrong types are told."""
        said = self.mypy(str(self.file("host.py", MISUSE))).stdout.decode()
        told = {int(number) for number in re.findall(r"host\.py:(\d+): error", said)}
        wrong = {at for at, line in enumerate(MISUSE.splitlines(), 1) if line.endswith("# wrong")}
        self.assertEqual(told, wrong, said)
