"""The window: its logic without a display, and under Xvfb the whole day by events.

With TAA1_PICTURES=FOLDER the pictures of each page, at two sizes and with large letters, stay there.
"""

from __future__ import annotations

import csv
import io
import json
import os
import re
import shutil
import signal
import subprocess
import sys
import time
import unittest
from importlib.util import find_spec
from pathlib import Path
from typing import Any, Callable, ClassVar, Iterator, Optional
from unittest import mock

import reference
from common import CLASS, COMMAND, DESK, LINES, SITTING, Case, here, seal, taa1
from mistakes import Remembering
from rooms import DESK as SOURCES
from taa1_desk.cli import main
from taa1_desk.command import day as at
from taa1_desk.command.beside import Done, Progress, Work
from taa1_desk.command.inputs import read_sitting
from taa1_desk.problems import Problem
from taa1_desk.reading.books import parse_lines
from taa1_desk.reading.lines import with_line
from taa1_desk.records import PLAIN, SEALED, Entry, split
from taa1_desk.showing.exports import class_json
from taa1_desk.window.day import AS_IT_LOOKS, Day

MISSING = "no python3-tk" if find_spec("_tkinter") is None else "" if shutil.which("Xvfb") else "no Xvfb"
PICTURES = os.environ.get("TAA1_PICTURES", "")
MOST_LINES = 900  # of the window's code
WAIT = 120  # seconds for work to end
STRANGE = "<b>Ann</b> & {Böb} [exit] $x \\n \"q\""  # is text, never markup or a command
PARTS = {"given": "1", "one entry": "1 1/2", "one result": "none", "properties": "half", "without it": "2", "was sealed": "0"}


def hand_ins(folder: Path, sitting: Path, model: Path) -> None:
    """Thirty hand-ins that the reference worked: right ones, wrong ones, two that can't be told, a
    dump, and a letter."""
    work, given = Remembering(), read_sitting(str(sitting))._asdict()
    entries = [Entry.of(record) for record in split(parse_lines(DESK, model.read_text(), "model"), PLAIN)]
    own = [reference.Entry(e.kind, e.identity, e.version, e.key, e.number) for e in entries]
    book = work.sealed_book(work.recipe(reference.Sitting(**given)).ring, own)
    exchanged = work.recipe(reference.Sitting(**{**given, "rand1": given["rand2"], "rand2": given["rand1"]}))
    folder.mkdir(parents=True)
    for number in range(20):
        (folder / f"c{number:02}.book").write_bytes(book)
    for number in range(20, 26):
        flipped = bytearray(book)
        flipped[SEALED * (number - 20) + 10] ^= 1
        (folder / f"c{number}.book").write_bytes(flipped)
    (folder / "c26.book").write_bytes(work.sealed_book(exchanged.ring, own))
    (folder / "c27.book").write_bytes(reference.plain_book(own))
    (folder / "c28.book").write_bytes(bytes(range(1, 101)))
    (folder / "c29").write_text("\n".join(record.hex(" ") for record in split(book, SEALED)))
    (folder / "letter.txt").write_text("Dear colleagues, the room was too warm. Yours, the candidates.\n")


class DayCase(Case):
    """A day's folder with the sample sitting and some hand-ins."""

    def setUp(self) -> None:
        super().setUp()
        self.day = Day(str(self.folder / "day"))
        room = self.folder / "day" / at.HAND_INS
        room.mkdir(parents=True)
        for name in (at.SITTING, at.MODEL):
            shutil.copy(CLASS / name, self.folder / "day")
        for name in ("ann", "cho"):
            shutil.copy(CLASS / f"{name}.book", room)
        (room / "plain.book").write_bytes(parse_lines(DESK, LINES, "model"))

    def run_(self, commands: list[list[str]]) -> Done:
        """Runs commands as the window does, in a process of their own."""
        work = Work(main, commands)
        news: list[Any] = []
        end = time.monotonic() + WAIT
        while not (news and isinstance(news[-1], Done)) and time.monotonic() < end:
            news += work.news()
            time.sleep(0.01)
        work.end()
        self.told = [each for each in news if isinstance(each, Progress)]
        done = news[-1]
        assert isinstance(done, Done)
        return done

    def mark(self) -> tuple[str, ...]:
        """Marks the day."""
        return self.day.marked(self.run_(self.day.mark()))

    def row(self, key: str) -> Any:
        """A row."""
        return next(row for row in self.day.rows if row.key == key)

    def refuses(self, said: str, does: Callable[[], Any]) -> None:
        """Something is refused in these words, and no file changes."""
        before = self.all_files()
        with self.assertRaises(Problem) as caught:
            does()
        self.assertIn(said, str(caught.exception))
        self.assertEqual(self.all_files(), before)

    def all_files(self) -> dict[str, bytes]:
        """Every file of the folder."""
        return {str(p.relative_to(self.folder)): p.read_bytes() for p in self.folder.rglob("*") if p.is_file()}


class Lines(Case):
    """A line of a text, set."""

    def test_with_line(self) -> None:
        text = "# points\nentry = 1   # each\nkey=2\n"
        self.assertEqual(with_line(text, "entry", "3"), "# points\nentry = 3  # each\nkey=2\n")
        self.assertEqual(with_line(text, "key", "1/2"), "# points\nentry = 1   # each\nkey = 1/2\n")
        self.assertEqual(with_line(text, "D", "1"), text + "D = 1\n")
        self.assertEqual(with_line(text, "key", ""), "# points\nentry = 1   # each\n")
        self.assertEqual(with_line("a = 1\na = 2", "a", "3"), "a = 3\n")
        self.assertEqual(with_line("", "a", ""), "")


class Logic(DayCase):
    """The day, without a widget."""

    def test_no_folder(self) -> None:
        day = Day("")
        self.assertEqual({day.missing(page) for page in (1, 2, 3)}, {f"Missing: {at.NO_FOLDER} (Ctrl+O)."})
        self.assertFalse(day.has(at.SITTING))
        self.assertEqual(day.heading(), {})
        self.refuses(at.NO_FOLDER, lambda: day.draw(dict.fromkeys(("title", "date", "sides", "kinds", "entries"), "")))
        self.refuses(at.NO_FOLDER, lambda: day.put(at.SCHEME, "entry", "2"))
        self.refuses(at.NO_FOLDER, lambda: day.take_in(str(CLASS)))

    def test_draw(self) -> None:
        day = Day(str(self.folder / "new"))
        given = {"title": "Winter", "date": " ", "sides": "3", "kinds": "1,2,6", "entries": ""}
        self.assertIn("a sitting and a model book", day.missing(1))
        done = self.run_(day.draw(given))
        self.assertEqual((done.status, done.said), (0, ()))
        found = {"title": "Winter", "date": "", "sides": "3", "kinds": "1,2,6", "entries": "3"}
        self.assertEqual(day.heading(), found)
        self.assertEqual(day.draw(given), [])
        self.assertIn("print the paper", day.missing(1))
        other = Day(str(self.folder / "other"))
        wrong = self.run_(other.draw({**given, "kinds": "", "entries": "5"}))
        words = taa1("draw", "--book", "--entries", "5").error.removeprefix("taa1: ").strip()
        self.assertEqual((wrong.status, wrong.said), (2, (words,)))
        self.assertEqual([other.has(at.SITTING), other.has(at.MODEL)], [False, False])

    def test_choose(self) -> None:
        day = Day(str(self.folder / "new"))
        bad = str(self.file("bad", LINES.replace("kind 1", "kind 9")))
        self.refuses("kind 9: wanted 1 to 6", lambda: day.choose(at.MODEL, bad))
        day.choose(at.MODEL, str(CLASS / at.MODEL))
        self.assertEqual(day.text(at.MODEL), LINES)
        self.refuses("it is there already", lambda: day.choose(at.MODEL, str(CLASS / at.MODEL)))

    def test_points(self) -> None:
        fields = {field.name: field for field in self.day.points()}
        self.assertEqual(fields["follow-through"].value, "1/2")
        self.assertIn("entry", fields["entry"].what)
        self.assertEqual(fields["pass"].value, "")
        self.day.put(at.SCHEME, "entry", "3")
        self.day.put(at.SCHEME, "pass", "60%")
        self.assertEqual(self.day.text(at.SCHEME), "entry = 3\npass = 60%\n")
        self.assertEqual({f.name: f.value for f in self.day.points()}["pass"], "60%")
        self.refuses("entry: 'much' is no whole number", lambda: self.day.put(at.SCHEME, "entry", "much"))
        self.refuses("0 or less is wanted", lambda: self.day.put(at.SCHEME, "extra", "1"))
        self.day.put(at.SCHEME, "pass", "")
        self.assertEqual(self.day.text(at.SCHEME), "entry = 3\n")

    def test_take_in(self) -> None:
        day = Day(str(self.folder / "new"))
        os.symlink(CLASS / "ann.book", self.folder / "day" / at.HAND_INS / "link.book")
        day.take_in(self.day.path(at.HAND_INS))
        self.assertEqual(sorted(os.listdir(day.path(at.HAND_INS))), ["ann.book", "cho.book", "link.book", "plain.book"])
        self.assertTrue(os.path.islink(day.path(at.HAND_INS, "link.book")))
        self.assertEqual(os.listdir(day.folder), [at.HAND_INS])
        self.refuses("there already", lambda: day.take_in(str(CLASS)))
        self.refuses("nowhere", lambda: Day(str(self.folder / "x")).take_in(str(self.folder / "nowhere")))
        empty = Day(str(self.folder / "class" / "x"))
        for each in (empty.folder, str(self.folder / "class"), str(self.folder)):
            self.refuses("choose a folder of hand-ins alone", lambda each=each: empty.take_in(each))  # type: ignore[misc]
        (self.folder / "pipes").mkdir()
        os.mkfifo(self.folder / "pipes" / "pipe.book")
        with self.assertRaises(Problem) as caught:
            empty.take_in(str(self.folder / "pipes"))
        self.assertRegex(str(caught.exception), r"^\S*pipes/pipe\.book: .*pipe")
        self.assertEqual(os.listdir(empty.folder), [])

    def test_marks(self) -> None:
        """Rows that need a decision stand first; the command line gives the same table and pages."""
        self.assertIn("the marks", self.day.missing(2))
        self.assertIn("candidates 3", self.mark()[0])
        self.assertEqual(self.told, [Progress(0, 3), Progress(1, 3), Progress(2, 3)])
        self.assertEqual([row.key for row in self.day.rows], ["plain.book", "ann.book", "cho.book"])
        first = self.day.rows[0]
        self.assertTrue(first.look)
        self.assertTrue(first.read.startswith("not marked: this looks like a plain book"), first.read)
        self.assertNotIn("--as", " ".join((first.read, *first.says)))
        self.assertEqual(self.day.rows[1].read, "read as bytes: 12 records")
        done = taa1("mark", "--day", self.day.folder, "--csv")
        self.assertEqual(Path(self.day.path(at.MARKS)).read_bytes(), done.out)
        made = taa1("mark", f"--day={self.day.folder}", "--html", self.folder / "pages")
        self.assertEqual(made.status, 1)
        for row in self.day.rows:
            ours, theirs = (Path(p, row.page).read_text() for p in (self.day.path(at.PAGES), str(self.folder / "pages")))
            self.assertEqual(untimed(ours), untimed(theirs))
        self.assertIn("1 to decide on", self.day.missing(2))

    def test_missing_model(self) -> None:
        """What is wrong with the day's own files is said in the words of the command line."""
        os.unlink(self.day.path(at.MODEL))
        self.assertIn("a model book", self.day.missing(2))
        said = self.mark()
        self.assertEqual(said, (f"{self.day.path(at.MODEL)}: No such file or directory",))

    def test_forms(self) -> None:
        """A choice lies in as.txt, which --as reads."""
        self.mark()
        self.day.set_form(self.row("plain.book"), "bytes")
        self.assertEqual(self.row("plain.book").read, "to be read as bytes: mark again")
        self.assertIn(at.AS, self.day.changed())
        self.mark()
        row = self.row("plain.book")
        self.assertEqual((row.form, row.sheet.problem), ("bytes", None))
        self.assertEqual(self.day.changed(), "")
        done = taa1("mark", "--day", self.day.folder, "--csv")
        self.assertEqual(Path(self.day.path(at.MARKS)).read_bytes(), done.out)
        self.day.set_form(row, AS_IT_LOOKS)
        self.assertEqual(self.day.text(at.AS), "")
        self.day.put(at.AS, "plain.book", "bytes")
        os.unlink(self.day.path(at.HAND_INS, "plain.book"))
        self.assertIn("gone: hand-ins/plain.book", self.day.changed())
        self.mark()
        self.assertEqual(self.day.text(at.AS), "")

    def test_as_file(self) -> None:
        """What --as takes from a file; each bad line is named."""
        room = Path(self.day.path(at.HAND_INS))
        inner = room / "zoe"
        inner.mkdir()
        (inner / "plain.book").write_bytes((room / "plain.book").read_bytes())
        forms = self.file("forms", "# chosen\nzoe/plain.book = bytes\n")
        done = taa1("mark", "--day", self.day.folder, "--as", f"@{forms}", "--csv")
        rows = {row["file"]: row for row in csv.DictReader(io.StringIO(done.out.decode()))}
        problems = {str(Path(file).relative_to(room)): row["not marked"] for file, row in rows.items()}
        self.assertEqual(problems, {"plain.book": "12", "zoe/plain.book": "0", "ann.book": "0", "cho.book": "0"})
        bad = self.file("bad", "ann.book = byte\nann\n")
        done = taa1("mark", "--day", self.day.folder, "--as", f"@{bad}")
        self.assertEqual(done.status, 2)
        self.assertRegex(done.error, r"bad, line 1: no form 'byte': they are bytes, .*\n.*bad, line 2: no line of the form")
        done = taa1("mark", "--day", self.day.folder, "--as", f"@{self.folder / 'none'}")
        self.assertEqual((done.status, done.error.count("\n")), (2, 1))

    def test_names(self) -> None:
        self.mark()
        self.day.set_name(self.row("ann.book"), STRANGE.replace("$", ""))
        listed = self.day.text(at.NAMES)
        self.assertIn("cho.book = cho\n", listed)
        self.assertEqual(self.row("ann.book").name, STRANGE.replace("$", ""))
        self.mark()
        self.assertEqual(self.row("ann.book").name, STRANGE.replace("$", ""))
        self.assertFalse([row.key for row in self.day.rows if row.sheet and row.sheet.unlisted])
        self.refuses("a # begins a comment", lambda: self.day.set_name(self.row("ann.book"), "Ann #1"))
        self.day.set_name(self.row("ann.book"), "  ")
        self.assertEqual(self.row("ann.book").name, STRANGE.replace("$", ""))
        page = Path(self.day.path(at.PAGES, self.row("ann.book").page)).read_text()
        self.assertNotIn("<b>Ann</b> &", page)

    def test_unnameable(self) -> None:
        """A file whose name no line can hold takes no name and no argument; the others do."""
        bad = ("a#1.book", "a=1.book", os.fsdecode(b"caf\xe9.book"))
        for name in bad:
            shutil.copy(CLASS / "ann.book", self.folder / "day" / at.HAND_INS / name)
        self.mark()
        for name in bad:
            self.refuses("rename the file", lambda name=name: self.day.set_argument(self.row(name), PARTS))  # type: ignore[misc]
        self.day.set_name(self.row("ann.book"), "Ann")
        self.assertEqual(self.day.values(at.NAMES)["ann.book"], "Ann")
        for name in bad:
            self.refuses("rename the file", lambda name=name: self.day.set_name(self.row(name), "Bea"))  # type: ignore[misc]
        self.refuses("since a # begins a comment", lambda: self.day.set_name(self.row("ann.book"), "Ann #2"))

    def test_listed_by_stem(self) -> None:
        """A name that is listed without the file's end is changed in its own line."""
        self.day.write(at.NAMES, "ann = Ann Archer  # row 1\ncho = Cho\nplain = P\n")
        self.mark()
        self.day.set_name(self.row("ann.book"), "Ann B.")
        self.assertEqual(self.day.text(at.NAMES), "ann = Ann B.  # row 1\ncho = Cho\nplain = P\n")

    def test_arguments(self) -> None:
        """The sums follow what is typed, and the command line has the same."""
        self.mark()
        row = self.row("ann.book")
        self.assertEqual(row.cells["argument"], "")
        self.assertIn("3 whose argument is not marked", self.day.missing(2))
        self.day.set_argument(row, PARTS)
        cells = self.row("ann.book").cells
        self.assertEqual(cells["argument"], "5 1/2")
        self.refuses("no points", lambda: self.day.set_argument(row, {**PARTS, "given": "many"}))
        self.refuses("where there are", lambda: self.day.set_argument(row, {**PARTS, "given": "9"}))
        before = self.day.text(at.ARGUMENTS)
        self.day.set_argument(self.row("ann.book"), self.row("ann.book").given)
        self.assertEqual(self.day.text(at.ARGUMENTS), before)
        self.mark()
        self.assertEqual(self.row("ann.book").cells, cells)
        table = csv.DictReader(io.StringIO(taa1("mark", "--day", self.day.folder, "--csv").out.decode()))
        ann = next(line for line in table if line["candidate"] == "ann")
        self.assertEqual((ann["argument"], ann["total"]), (cells["argument"], cells["total"]))
        self.day.set_argument(self.row("ann.book"), dict.fromkeys(PARTS, ""))
        self.assertEqual((self.day.text(at.ARGUMENTS), self.row("ann.book").cells["argument"]), ("", ""))

    def test_changes(self) -> None:
        self.assertEqual(self.day.changed(), "")
        self.mark()
        self.assertEqual(self.day.changed(), "")
        room = Path(self.day.path(at.HAND_INS))
        (room / "late.book").write_bytes(seal())
        (room / "ann.book").write_bytes(b"other")
        (room / "cho.book").unlink()
        said = self.day.changed()
        for what in ("new: hand-ins/late.book", "changed: hand-ins/ann.book", "gone: hand-ins/cho.book"):
            self.assertIn(what, said)
        self.mark()
        self.assertEqual(self.day.changed(), "")

    def test_unseen(self) -> None:
        """A folder that can't be looked into, and a file that goes meanwhile, are no fault."""
        with mock.patch("os.listdir", side_effect=PermissionError):
            self.assertTrue(self.day.has(at.HAND_INS))
        gone: list[Any] = [(self.day.path(at.HAND_INS), [], ["ann.book", "gone.book"])]
        with mock.patch("os.walk", return_value=gone), mock.patch("os.path.lexists", return_value=True):
            self.assertEqual(list(self.day.stamp()), [at.SITTING, at.MODEL, os.path.join(at.HAND_INS, "ann.book")])

    def test_ended(self) -> None:
        """Work that is ended in the middle leaves the folder as it was."""
        for number in range(200):
            Path(self.day.path(at.HAND_INS, f"{number}.book")).write_bytes(seal(SITTING._replace(rs=bytes([number]) * 10)))
        before = self.all_files()
        work, end = Work(main, self.day.mark()), time.monotonic() + WAIT
        while not work.news() and time.monotonic() < end:
            time.sleep(0.01)
        work.end()
        self.assertEqual(self.all_files(), before)
        self.assertFalse(list(self.folder.rglob(".taa1*")))

    def test_day_option(self) -> None:
        expanded = at.expanded(["mark", "--csv", "--day", self.day.folder, "-o", "x"])
        files = [self.day.path(name) for name in (at.SITTING, at.MODEL, at.HAND_INS)]
        self.assertEqual(expanded, ["mark", *files, "--csv", "-o", "x"])
        self.day.put(at.SCHEME, "entry", "2")
        self.assertIn(f"--scheme={self.day.path(at.SCHEME)}", at.expanded(["paper", f"--day={self.day.folder}"]))
        for line in ("mark --day", "draw --day x", "", "mark -- --day x"):
            self.assertEqual(at.expanded(line.split()), line.split())
        self.assertEqual(at.expanded(["model", "--day", "-x"])[1], "./-x/sitting.txt")

    def test_no_tkinter(self) -> None:
        lacks = ModuleNotFoundError("No module named 'tkinter'", name="tkinter")
        library = ImportError("libtk8.6.so: cannot open shared object file", name="_tkinter")
        for error in (lacks, library):
            finder = mock.Mock(find_spec=mock.Mock(side_effect=lambda name, *_: _raise(error) if "tkinter" in name else None))
            windows = [name for name in sys.modules if "tkinter" in name or name.startswith("taa1_desk.window.")]
            with mock.patch.dict(sys.modules), mock.patch.object(sys, "meta_path", [finder, *sys.meta_path]):
                for name in windows:
                    del sys.modules[name]
                done = here("window", self.folder, cwd=self.folder)
            self.assertEqual(done.status, 2)
            self.assertRegex(done.error, r"^taa1: window: .*apt-get install python3-tk.*\n$")

    @unittest.skipIf(find_spec("_tkinter") is None, "no python3-tk")
    def test_no_display(self) -> None:
        env = {name: value for name, value in os.environ.items() if name not in ("DISPLAY", "WAYLAND_DISPLAY")}
        done = taa1("window", self.folder, env=env)
        self.assertEqual((done.status, done.error.count("\n")), (2, 1))
        self.assertRegex(done.error, r"^taa1: window: no display")
        file = self.file("file", "")
        self.assertEqual(taa1("window", file, env=env).error, f"taa1: {file}: a day is a folder, and this is none\n")

    def test_small(self) -> None:
        """The window's code is small."""
        lines = {path.name: path.read_text().count("\n") for path in (SOURCES / "window").glob("*.py")}
        self.assertLess(sum(lines.values()), MOST_LINES, lines)


def _raise(error: BaseException) -> None:
    raise error


def untimed(page: str) -> str:
    """A page without the moment at which it was made."""
    return re.sub(r"\d{4}-\d\d-\d\d[T ]\d\d:\d\d(:\d\d)?", "", page)


def listening(process: Any) -> list[str]:
    """The ports on which a process listens."""
    own = {os.readlink(each) for each in Path(f"/proc/{process}/fd").iterdir() if each.is_symlink()}
    lines = [line.split() for name in ("tcp", "tcp6") for line in Path(f"/proc/{process}/net/{name}").read_text().splitlines()]
    return [line[1] for line in lines if line[3] == "0A" and f"socket:[{line[9]}]" in own]


def picked(page: Any) -> str:
    """The key of the row that is selected."""
    return str(page.table.selection()[0])


# Presses F5 in the window that the command opens, and closes it when the table is written.
DRIVER = """
import os, time, tkinter

def mainloop(root, n=0):
    root.update()
    root.focus_force()
    root.event_generate("<F5>")
    end = time.monotonic() + 60
    while time.monotonic() < end and not os.path.exists(os.environ["MARKS"]):
        root.update()
        time.sleep(0.05)
    root.tk.call(root.protocol("WM_DELETE_WINDOW"))

tkinter.Misc.mainloop = mainloop
"""
# Says that the window is open.
STARTED = """
import os, tkinter
real = tkinter.Misc.mainloop

def mainloop(root, n=0):
    open(os.environ["STARTED"], "w").close()
    real(root, n)

tkinter.Misc.mainloop = mainloop
"""
KEYSYMS = {" ": "space", "/": "slash", ",": "comma", "%": "percent", ".": "period", "-": "minus"}


@unittest.skipIf(MISSING, MISSING)
class Seen(Case):
    """The window on a display of its own, by events."""

    display: ClassVar[Any]

    @classmethod
    def setUpClass(cls) -> None:
        """Starts Xvfb on a free display."""
        told, tell = os.pipe()
        screen = ["-screen", "0", "1600x1200x24", "-dpi", "96", "-nolisten", "tcp"]
        command = ["Xvfb", "-displayfd", str(tell), *screen]
        cls.display = subprocess.Popen(command, pass_fds=[tell], stderr=subprocess.DEVNULL)
        os.close(tell)
        with os.fdopen(told) as number:
            os.environ["DISPLAY"] = f":{number.readline().strip()}"

    @classmethod
    def tearDownClass(cls) -> None:
        cls.display.terminate()
        cls.display.wait()
        del os.environ["DISPLAY"]

    def setUp(self) -> None:
        super().setUp()
        import tkinter

        from taa1_desk.window.app import App
        from taa1_desk.window.handins_page import HandInsPage
        from taa1_desk.window.keep_page import KeepPage
        from taa1_desk.window.sitting_page import SittingPage

        self.opened: list[str] = []
        self.answers: dict[str, Any] = {"tkinter.filedialog.askdirectory": "", "tkinter.filedialog.askopenfilename": ""}
        self.asked: list[str] = []
        patched = {name: mock.Mock(side_effect=lambda name=name, **_: self.answers[name]) for name in self.answers}
        patched["tkinter.messagebox.askyesno"] = mock.Mock(side_effect=self.sure)
        self.browser = True  # there is one
        patched["webbrowser.open"] = mock.Mock(side_effect=self.open_page)
        for name, made in patched.items():
            patch = mock.patch(name, made)
            patch.start()
            self.addCleanup(patch.stop)
        self.root = tkinter.Tk()
        self.faults: list[BaseException] = []
        self.root.report_callback_exception = lambda kind, error, trace: self.faults.append(error)
        self.app = App(self.root, str(self.folder / "day"), main, (SittingPage, HandInsPage, KeepPage))
        self.addCleanup(self.close)
        self.root.geometry("1024x700+0+0")
        self.root.focus_force()
        self.step()

    def sure(self, message: str, **_: Any) -> bool:
        """Says yes to what is asked."""
        self.asked.append(message)
        return True

    def close(self) -> None:
        """Closes the window, if it is not closed yet."""
        try:
            self.app.close()
        except Exception:  # it is gone
            pass
        self.assertEqual(self.faults, [])

    def open_page(self, page: str) -> bool:
        """Stands for the browser, if there is one."""
        self.opened.append(page)
        return self.browser

    def step(self) -> None:
        """Lets the window do what it has to."""
        for _ in range(3):
            self.root.update()

    def wait(self) -> None:
        """Waits until no work is under way."""
        end = time.monotonic() + WAIT
        while self.app.work is not None and time.monotonic() < end:
            self.root.update()
            time.sleep(0.01)
        self.assertIsNone(self.app.work)
        self.step()

    def key(self, *keys: str, at: Optional[Any] = None) -> None:
        """Presses keys."""
        for key in keys:
            widget = at or self.root.focus_get()
            assert widget is not None
            widget.event_generate(f"<{key}>")
            self.root.update()

    def type(self, widget: Any, text: str) -> None:
        """Types a text into a field, in the place of what is there."""
        widget.focus_force()
        self.step()
        widget.delete(0, "end") if not hasattr(widget, "edit_undo") else widget.delete("1.0", "end")
        self.key(*(f"Key-{KEYSYMS.get(letter, letter)}" for letter in text), at=widget)

    def buttons(self) -> Iterator[Any]:
        """The window's buttons."""
        left: list[Any] = [self.root]
        while left:
            each = left.pop()
            left += each.winfo_children()
            if each.winfo_class() == "TButton":
                yield each

    def press(self, text: str) -> None:
        """Presses a button by the keyboard, and waits for its work."""
        button = next(each for each in self.buttons() if each.cget("text").startswith(text))
        button.focus_force()
        self.step()
        self.key("Return", at=button)
        self.wait()

    def page(self, number: int) -> Any:
        """Turns to a page by the keyboard."""
        self.key(f"Alt-Key-{number}", at=self.root)
        self.step()
        return self.app.pages[number - 1]

    def picture(self, name: str) -> None:
        """A picture of the window."""
        self.step()
        time.sleep(0.2)
        self.step()
        if PICTURES:
            Path(PICTURES).mkdir(parents=True, exist_ok=True)
            window = ["-window", str(self.root.winfo_id()), str(Path(PICTURES, f"{name}.png"))]
            subprocess.run(["import", *window], check=True)

    def pictures(self, name: str) -> None:
        """Pictures at both sizes, and with large letters."""
        self.picture(f"{name}-small")
        self.root.geometry("1500x1000")
        self.picture(f"{name}-large")
        self.root.geometry("1024x700")
        self.key("Control-plus", "Control-plus", "Control-plus", at=self.root)
        self.picture(f"{name}-letters")
        self.key("Control-minus", "Control-minus", "Control-minus", at=self.root)

    def texts(self) -> str:
        """All that the window says."""
        left: list[Any] = [self.root]
        said = []
        while left:
            each = left.pop()
            left += each.winfo_children()
            if each.winfo_class() in ("TLabel", "TLabelframe"):
                said.append(str(each.cget("text")))
        return "\n".join(said)

    def test_day(self) -> None:
        """Draw, paper, thirty hand-ins of which some are bad, one read otherwise, a name and arguments
        typed, record, verify; the command line has the same."""
        day = self.folder / "day"
        self.picture("empty")
        sitting = self.page(1)
        self.assertIn("Missing for the paper", sitting.next.cget("text"))
        self.type(sitting.fields["title"], "Key management")
        self.type(sitting.fields["entries"], "5")
        self.press("Draw")
        self.assertIn("5 entries: with every kind in it", sitting.drawn.cget("text"))
        self.type(sitting.fields["entries"], "7")
        self.press("Draw")
        self.assertEqual(sitting.drawn.cget("text"), "")
        self.assertIn("title         = Key management", (day / at.SITTING).read_text())
        self.type(sitting.points["entry"], "much")
        self.key("Return")
        self.assertIn("is no whole number", sitting.scheme.cget("text"))
        self.type(sitting.points["entry"], "2")
        self.type(sitting.points["pass"], "60%")
        self.key("Return")
        self.assertEqual((day / at.SCHEME).read_text(), "entry = 2\npass = 60%\n")
        self.type(sitting.words, "Two hours, no aids.")
        self.press("Question paper")
        self.press("Worked solution")
        self.assertEqual(len(self.asked), 1)
        self.assertEqual(self.opened, [(day / at.PAPER / "paper.html").as_uri(), (day / at.SOLUTION / "solution.html").as_uri()])
        self.assertIn("Two hours, no aids.", (day / at.PAPER / "paper.html").read_text())
        self.pictures("1-sitting")

        table = self.page(2)
        hand_ins(self.folder / "class", day / at.SITTING, day / at.MODEL)
        self.answers["tkinter.filedialog.askdirectory"] = str(self.folder / "class")
        self.press("Take in a folder")
        self.press("Mark (F5)")
        rows = self.app.day.rows
        self.assertEqual([row.file for row in rows if row.look], ["letter.txt", "c27.book", "c28.book"])
        self.assertEqual(picked(table), rows[0].key)
        table.pick("c28.book")
        self.step()
        self.assertIn("this looks like no sealed book", table.says.cget("text"))
        table.table.focus_force()
        self.step()
        self.key("F3")
        self.step()
        self.root.focus_get().set("bytes")  # type: ignore[union-attr]
        self.picture("2-form")
        self.key("Return")
        self.assertEqual((day / at.AS).read_text(), "c28.book = bytes\n")
        self.assertIn("as.txt", table.changed.cget("text"))
        table.pick("c00.book")
        table.table.focus_force()
        self.step()
        self.key("F2")
        self.type(self.root.focus_get(), "Ann Archer")
        self.picture("2-name")
        self.key("Return")
        self.assertIn("c00.book = Ann Archer\n", (day / at.NAMES).read_text())
        self.key("F5", at=self.root)
        self.wait()
        self.assertEqual([row.file for row in self.app.day.rows if row.look][:2], ["letter.txt", "c27.book"])
        table.pick("c00.book")
        self.step()
        self.key("F4", at=table.table)
        self.argue(table, "1", "3", "0", "2", "1.5", "half")
        cells = next(row for row in self.app.day.rows if row.key == "c00.book").cells
        self.assertEqual((cells["argument"], cells["passed"]), ("8 1/2", "yes"))
        self.assertEqual(picked(table), "c01.book")
        self.argue(table, "9")
        self.assertIn("given: 9, where there are 1", table.message.cget("text"))
        self.assertEqual(picked(table), "c01.book")
        self.argue(table, "0", "0", "1", "0", "0", "0")
        self.pictures("2-hand-ins")
        table.pick("c00.book")
        table.table.focus_force()
        self.step()
        self.key("Return")
        self.assertEqual(self.opened[-1], (day / at.PAGES / "c00.book.html").as_uri())

        keep = self.page(3)
        self.press("Write the record")
        self.press("Verify")
        self.assertIn("as it was", keep.wrote.get("1.0", "end"))
        self.assertIn("as it was", keep.message.cget("text"))
        self.pictures("3-record")
        book = next((day / at.HAND_INS).glob("c01*"))
        before = book.read_bytes()
        book.write_bytes(before + b"\n")
        self.press("Verify")
        self.assertRegex(keep.message.cget("text"), "^[0-9]+ differences?$")
        self.assertEqual(str(keep.message.cget("style")), "Alarm.TLabel")
        book.write_bytes(before)
        self.press("Class's page")
        self.assertEqual(self.opened[-1], (day / at.PAGES / "index.html").as_uri())
        self.press("Marking aid")
        self.assertEqual(self.opened[-1], (day / at.ARGUE).as_uri())
        self.same(day)
        self.appeal(day, keep)

    def test_sample(self) -> None:
        """The sample class, as docs/window.png shows it."""
        day = self.folder / "sample"
        (day / at.HAND_INS).mkdir(parents=True)
        for path in CLASS.iterdir():
            if path.suffix in (".book", ".keys"):
                shutil.copy(path, day / at.HAND_INS)
            elif path.name in (at.SITTING, at.MODEL, at.NAMES, at.ARGUMENTS):
                shutil.copy(path, day)
        (day / at.HAND_INS / "hal.book").write_bytes(parse_lines(DESK, LINES, "model"))
        (day / at.SCHEME).write_text("pass = 60%\n")
        points = {"ann": "1 3 0 2 2 2", "ben": "1 1.5 0 1 2 0", "cho": "1 0 1 1 0 0", "dee": "0 0 0 1 1 0"}
        lines = {name: zip(PARTS, given.split()) for name, given in points.items()}
        text = {name: ", ".join(f"{part} {of}" for part, of in line) for name, line in lines.items()}
        (day / at.ARGUMENTS).write_text("".join(f"{name} = {line}\n" for name, line in {**text, "eve": "7"}.items()))
        self.answers["tkinter.filedialog.askdirectory"] = str(day)
        self.key("Control-o", at=self.root)
        page = self.page(2)
        self.press("Mark (F5)")
        self.assertEqual(picked(page), "hal.book")
        self.assertEqual([page.table.set("eve.book", name) for name in ("name", "argument")], ["Eve Ekström", "7"])
        page.pick("eve.book")
        self.step()
        page.keep(False)  # of a sum without parts nothing is lost
        self.assertIn("eve = 7\n", (day / at.ARGUMENTS).read_text())
        page.pick("ben.book")
        self.app.where.configure(text="The day's folder: /home/kim/winter")
        self.picture("sample")

    def test_keyboard(self) -> None:
        """The tab key goes through a page as it is read, from its first field on."""
        page, order = self.page(1), []
        for _ in range(60):
            order.append(self.root.focus_get())
            self.key("Tab")
        names = ("title", "date", "kinds", "entries")
        self.assertEqual(order[: len(names)], [page.fields[name] for name in names])
        self.assertEqual(order[len(names)], page.sides)
        points = list(page.points.values())
        start = order.index(points[0])
        self.assertEqual(order[start : start + len(points)], points)
        self.assertEqual(order[start + len(points)], page.words)
        table = self.page(2)
        seen = []
        for _ in range(12):
            seen.append(self.root.focus_get())
            self.key("Tab")
        self.assertIn(table.table, seen)

    def test_script(self) -> None:
        """Started as a person starts it, the window marks in a process of its own."""
        day = self.folder / "day"
        (day / at.HAND_INS).mkdir(parents=True)
        for name in (at.SITTING, at.MODEL):
            shutil.copy(CLASS / name, day)
        shutil.copy(CLASS / "ann.book", day / at.HAND_INS)
        (self.folder / "driver").mkdir()
        (self.folder / "driver" / "sitecustomize.py").write_text(DRIVER)
        env = {**os.environ, "PYTHONPATH": str(self.folder / "driver"), "MARKS": str(day / at.MARKS)}
        done = taa1("window", day, env=env)
        self.assertEqual((done.status, done.error, done.out), (0, "", b""))
        self.assertEqual((day / at.MARKS).read_bytes(), taa1("mark", "--day", day, "--csv").out)

    def test_interrupted(self) -> None:
        """A signal ends the window as it ends every command."""
        (self.folder / "driver").mkdir()
        (self.folder / "driver" / "sitecustomize.py").write_text(STARTED)
        started = self.folder / "started"
        env = {**os.environ, "PYTHONPATH": str(self.folder / "driver"), "STARTED": str(started)}
        for number in (signal.SIGINT, signal.SIGTERM):
            with subprocess.Popen([*COMMAND, "window"], env=env, cwd=self.folder, stderr=subprocess.PIPE) as window:
                end = time.monotonic() + WAIT
                while not started.exists() and time.monotonic() < end:
                    time.sleep(0.05)
                window.send_signal(number)
                try:
                    error = window.communicate(timeout=WAIT)[1]
                finally:
                    window.kill()  # one that goes on would be waited for
            started.unlink()
            self.assertEqual((window.returncode, error), (128 + number, b"taa1: interrupted\n"))

    def test_whose(self) -> None:
        """Points that are typed are kept for the candidate beside whose name they stand, whatever row
        is picked then; and a file that was changed by hand is not written over."""
        day = self.folder / "day"
        (day / at.HAND_INS).mkdir(parents=True)
        for name in (at.SITTING, at.MODEL):
            shutil.copy(CLASS / name, day)
        for name in ("a", "b", "c"):
            (day / at.HAND_INS / f"{name}.book").write_bytes(seal())
        page = self.page(2)
        self.press("Mark (F5)")
        page.pick("a.book")
        self.step()
        first, *others = page.parts.values()
        self.type(first, "1")
        page.table.focus_force()
        page.pick("b.book")  # before the window sees that the field has lost the keyboard
        self.step()
        self.assertEqual([entry.get() for entry in page.parts.values()], [""] * len(page.parts))
        self.assertIn("a.book = given 1, ", (day / at.ARGUMENTS).read_text())
        self.assertNotIn("b.book", (day / at.ARGUMENTS).read_text())
        page.table.focus_force()
        self.step()
        self.key("F2")
        self.assertEqual(len(page.table.winfo_children()), 1)
        page.pick("a.book")
        self.step()
        self.assertEqual(page.table.winfo_children(), [])
        page.pick("b.book")
        self.step()
        self.type(first, "half")
        page.pick("c.book")  # the keyboard stays in the field
        self.step()
        self.assertIn("b.book = given half, ", (day / at.ARGUMENTS).read_text())
        page.pick("a.book")
        self.step()
        (day / at.ARGUMENTS).write_text("a = 7\n")
        self.press("Mark (F5)")
        page.pick("c.book")
        self.step()
        self.assertEqual((day / at.ARGUMENTS).read_text(), "a = 7\n")
        self.assertEqual(page.table.set("a.book", "argument"), "7")

    def test_text(self) -> None:
        """Names and files are text: none is markup, a list of Tcl's or a command."""
        day, names = self.folder / "day", ("{a b.book", "$x [exit] \\\\.book", "-o.book", "a\\tb.book", "ü\"'<b>.book")
        (day / at.HAND_INS).mkdir(parents=True)
        for name in (at.SITTING, at.MODEL):
            shutil.copy(CLASS / name, day)
        for name in names:
            (day / at.HAND_INS / name).write_bytes(seal())
        page = self.page(2)
        self.press("Mark (F5)")
        self.assertEqual({row.key for row in self.app.day.rows}, set(names))
        for key in names:
            with self.subTest(key):
                page.pick(key)
                self.step()
                self.assertEqual(picked(page), key)
                cells = {name: str(page.table.set(key, name)) for name in ("name", "file")}
                row = next(row for row in self.app.day.rows if row.key == key)
                self.assertEqual(cells, {"name": " ".join(row.name.split()), "file": " ".join(row.file.split())})
                page.table.focus_force()
                self.step()
                self.key("Return")
                self.assertEqual(self.opened[-1], (day / at.PAGES / row.page).as_uri())
        page.pick("-o.book")
        page.table.focus_force()
        self.step()
        self.key("F2")
        self.root.focus_get().delete(0, "end")  # type: ignore[union-attr]
        self.root.focus_get().insert(0, STRANGE)  # type: ignore[union-attr]
        self.key("Return")
        self.assertEqual(page.table.set("-o.book", "name"), STRANGE)
        self.assertIn(STRANGE, self.texts())

    def test_ended(self) -> None:
        """Escape ends a marking, and so does closing the window; the folder is as it was."""
        day = self.folder / "day"
        (day / at.HAND_INS).mkdir(parents=True)
        for name in (at.SITTING, at.MODEL):
            shutil.copy(CLASS / name, day)
        for number in range(150):
            (day / at.HAND_INS / f"{number}.book").write_bytes(seal(SITTING._replace(rs=bytes([number]) * 10)))
        before = sorted(day.rglob("*"))
        for ends in (lambda: self.key("Escape", at=self.root), self.app.close):
            self.key("F5", at=self.root)
            end = time.monotonic() + WAIT
            while "are marked" not in self.app.doing.cget("text") and time.monotonic() < end:
                self.root.update()
                time.sleep(0.01)
            self.picture("2-under-way")
            assert self.app.work is not None
            processes = (os.getpid(), self.app.work._process.pid)
            self.assertEqual([listening(pid) for pid in processes], [[], []])
            ends()
            self.assertIsNone(self.app.work)
            self.assertEqual(sorted(day.rglob("*")), before)

    def test_bad_files(self) -> None:
        """A day whose texts can't be read is opened, and says what is wrong until it is mended."""
        day = self.folder / "day"
        day.mkdir()
        (day / at.SCHEME).write_text("entry = much\n")
        self.app.load()
        page = self.page(1)
        self.assertIn("line 1: entry: 'much' is no whole number", page.next.cget("text"))
        (day / at.SCHEME).write_text("entry = 3\n")
        self.app.look()
        self.assertIn("Missing for the paper", page.next.cget("text"))
        self.assertEqual(page.points["entry"].get(), "3")

    def marked_day(self) -> Any:
        """The page of the hand-ins, when two are marked."""
        day = self.folder / "day"
        (day / at.HAND_INS).mkdir(parents=True)
        for name in (at.SITTING, at.MODEL):
            shutil.copy(CLASS / name, day)
        for name in ("ann.book", "ben.book"):
            (day / at.HAND_INS / name).write_bytes(seal())
        page = self.page(2)
        self.press("Mark (F5)")
        return page

    def click(self, widget: Any, x: int, y: int) -> None:
        """Clicks with the mouse."""
        for event in ("ButtonPress-1", "ButtonRelease-1"):
            widget.event_generate(f"<{event}>", x=x, y=y)
            self.step()

    def test_whose_argument(self) -> None:
        """Points belong to the candidate for whom they were typed, though a click elsewhere ends the typing."""
        page, arguments = self.marked_day(), self.folder / "day" / at.ARGUMENTS
        page.pick("ann.book")
        self.step()
        self.type(page.parts["given"], "1")
        x, y, *_ = page.table.bbox("ben.book", "name")
        self.click(page.table, x + 2, y + 2)
        self.assertEqual(picked(page), "ben.book")
        self.assertEqual(page.parts["given"].get(), "")
        self.assertEqual([line.split()[0] for line in arguments.read_text().splitlines()], ["ann.book"])
        self.type(page.parts["given"], "1")
        arguments.write_text("ann.book = given 0\n")
        self.click(next(each for each in self.buttons() if each.cget("text") == "Mark (F5)"), 4, 4)
        self.wait()
        self.assertEqual(picked(page), "ben.book")
        self.assertEqual(page.table.set("ann.book", "argument"), "0")
        self.assertEqual(page.parts["given"].get(), "1")
        self.assertEqual(page.changed.cget("text"), "")
        self.assertIn("ann.book = given 0\nben.book = given 1,", arguments.read_text())

    def test_cell_left(self) -> None:
        """A name that is typed over a cell is kept by a click elsewhere, by scrolling and by marking; the row is
        brought into sight. What was not changed writes no list."""
        page, names = self.marked_day(), self.folder / "day" / at.NAMES
        for number in range(40):
            (self.folder / "day" / at.HAND_INS / f"c{number:02}.book").write_bytes(seal())
        self.press("Mark (F5)")
        page.pick("ben.book")
        page.table.yview_moveto(1)
        page.table.focus_force()
        self.step()
        self.assertFalse(page.table.bbox("ben.book"))
        self.key("F2")
        self.assertTrue(page.table.bbox("ben.book"))
        x, y, *_ = page.table.bbox("c00.book", "name")
        self.click(page.table, x + 2, y + 2)
        self.assertEqual((page.table.winfo_children(), names.exists()), ([], False))
        leaves: dict[str, Callable[[], Any]] = {
            "Bea": lambda: self.click(page.table, x + 2, y + 2),
            "Bob": lambda: page.table.event_generate("<Button-5>"),
            "Ben": lambda: self.key("F5", at=self.root),
        }
        for name, does in leaves.items():
            page.pick("ben.book")
            page.table.focus_force()
            self.step()
            self.key("F2")
            self.type(self.root.focus_get(), name)
            does()
            self.wait()
            self.assertEqual(page.table.winfo_children(), [])
            self.assertIn(f"ben.book = {name}\n", names.read_text())
        self.assertEqual(page.changed.cget("text"), "")

    def test_no_browser(self) -> None:
        """Without a browser the page's place is told."""
        page = self.marked_day()
        self.browser = False
        page.table.focus_force()
        self.key("Return")
        self.assertIn(f"open {self.folder / 'day' / at.PAGES / 'ann.book.html'} by hand", self.texts())

    def test_sides(self) -> None:
        """The sides of an earlier day are not those of a new one."""
        self.marked_day()
        page: Any = self.app.pages[0]
        self.assertNotEqual(page.sides.current(), 0)
        self.answers["tkinter.filedialog.askdirectory"] = str(self.folder / "other")
        self.key("Control-o", at=self.root)
        self.assertEqual(page.sides.current(), 0)

    def test_enter(self) -> None:
        """Enter presses a button of a dialog, too, which is none of Python's objects."""
        self.root.tk.eval("toplevel .asks; pack [ttk::button .asks.yes -command {set ::pressed yes}]; focus -force .asks.yes")
        self.step()
        self.root.tk.eval("event generate .asks.yes <Return>")
        self.step()
        self.assertEqual(self.root.tk.eval("set ::pressed"), "yes")
        self.root.tk.eval("destroy .asks")

    def test_turned(self) -> None:
        """A page that was not yet seen takes the keyboard when it is turned to."""
        for number in (2, 3, 1):
            page = self.page(number)
            self.assertTrue(str(self.root.focus_get()).startswith(f"{page}."), (number, self.root.focus_get()))

    def test_typed(self) -> None:
        """What was typed is kept though nobody left the field: before there is a folder, by a click on a
        button, and when the window is closed. What was changed elsewhere is not written over."""
        day, page = self.folder / "day", self.page(1)
        self.app.day = Day("")
        self.app.load()
        self.type(page.words, "Two hours")
        self.type(page.points["entry"], "2")
        self.press("Draw")
        self.assertIn(at.NO_FOLDER, page.drawn.cget("text"))
        self.answers["tkinter.filedialog.askdirectory"] = str(day)
        self.key("Control-o", at=self.root)
        self.assertEqual([(day / name).read_text() for name in (at.WORDS, at.SCHEME)], ["Two hours\n", "entry = 2\n"])
        self.assertNotIn(at.NO_FOLDER, self.texts())
        self.press("Draw")
        self.type(page.points["entry"], "3")
        self.click(next(each for each in self.buttons() if each.cget("text") == "Question paper"), 4, 4)
        self.wait()
        self.assertEqual((day / at.SCHEME).read_text(), "entry = 3\n")
        (day / at.WORDS).write_text("Three hours\n")
        self.type(page.points["entry"], "4")
        self.app.close()
        self.assertEqual((day / at.WORDS).read_text(), "Three hours\n")
        self.assertEqual((day / at.SCHEME).read_text(), "entry = 4\n")

    def argue(self, table: Any, *points: str) -> None:
        """Types an argument's points, from part to part."""
        for entry, given in zip(table.parts.values(), points):
            self.type(entry, given)
        self.key("Return")

    def same(self, day: Path) -> None:
        """Table, JSON and record are the command line's, with what was typed."""
        cells = {row.key: row.cells["argument"] for row in self.app.day.rows if row.cells.get("argument")}
        self.assertEqual(cells, {"c00.book": "8 1/2", "c01.book": "1"})
        self.assertEqual((day / at.MARKS).read_bytes(), taa1("mark", "--day", day, "--csv").out)
        outcome = self.app.day.outcome
        assert outcome is not None
        theirs = json.loads(taa1("mark", "--day", day, "--json").out)
        self.assertEqual(json.loads(json.dumps(class_json(outcome.of, outcome.heading))), theirs)
        record = self.folder / "record.json"
        self.assertEqual(taa1("mark", "--day", day, "--record", record).status, 1)
        ours, again = (json.loads(path.read_text()) for path in (day / at.RECORD, record))
        for each in (ours, again):
            del each["made"]
        self.assertEqual(ours, again)

    def appeal(self, day: Path, keep: Any) -> None:
        """A record is not replaced; an appeal keeps another beside it."""
        before = (day / at.RECORD).read_bytes()
        self.press("Write the record")
        self.assertIn("give the reason", keep.message.cget("text"))
        (day / at.ARGUMENTS).write_text((day / at.ARGUMENTS).read_text().replace("one result 1", "one result half"))
        self.page(2)
        self.assertIn("changed: arguments.txt", self.texts())
        self.page(3)
        self.type(keep.reason, "Part read again")
        self.press("Mark again")
        self.assertEqual((day / at.RECORD).read_bytes(), before)
        self.assertIn("Part read again", (day / "record-2.json").read_text())
        self.press("Verify")
        self.assertIn("as it was", keep.wrote.get("1.0", "end"))
