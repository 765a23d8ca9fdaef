"""What the tests share: the command as users run it, and a folder of their own."""

from __future__ import annotations

import io
import os
import subprocess
import sys
import tempfile
import unittest
from contextlib import redirect_stderr, redirect_stdout
from pathlib import Path
from typing import Any, NamedTuple, Optional

from taa1 import Sitting
from taa1_desk.cli import main
from taa1_desk.command.inputs import read_sitting
from taa1_desk.engine import Engine
from taa1_desk.handed import HandIn, KeyFile
from taa1_desk.marker import Marker
from taa1_desk.reading.books import parse_lines
from taa1_desk.records import PLAIN, Entry, Ring, split
from taa1_desk.sheet import Sheet

ROOT = Path(__file__).resolve().parents[2]
COMMAND = [sys.executable, "-W", "error", str(ROOT / "taa1")]
CLASS = ROOT / "samples" / "class"
DESK = Engine()
SITTING = read_sitting(str(CLASS / "sitting.txt"))
LINES = (CLASS / "model.txt").read_text()
PLAIN_BOOK = parse_lines(DESK, LINES, "model.txt")
ENTRIES = [Entry.of(record) for record in split(PLAIN_BOOK, PLAIN)]


def ring_for(sitting: Sitting) -> Ring:
    """A sitting's ring."""
    return Ring.of(DESK.call("ring", *sitting)["ring"])


RING = ring_for(SITTING)


def seal(sitting: Sitting = SITTING, plain: bytes = PLAIN_BOOK) -> bytes:
    """A plain book, sealed under a sitting's ring."""
    sealed: bytes = DESK.call("seal_book", ring_for(sitting).data, plain)["out"]
    return sealed


def sheet_of(
    marker: Marker, name: str, data: bytes, form: str = "", keys: Optional[KeyFile] = None
) -> Sheet:
    """The sheet of one hand-in, without points."""
    return Sheet.of(marker.mark(HandIn(name, data, keys, form)), name)


def book_sheet(marker: Marker, name: str, book: bytes, keys: Optional[KeyFile] = None) -> Sheet:
    """The same of a book's bytes, whatever they look like."""
    return sheet_of(marker, name, book, "bytes", keys)


class Run(NamedTuple):
    """What a command did."""

    status: int
    out: bytes
    error: str


def taa1(*args: Any, stdin: bytes = b"", cwd: Optional[Path] = None, **options: Any) -> Run:
    """Runs the command."""
    done = subprocess.run(
        COMMAND + [str(arg) for arg in args],
        input=stdin,
        stdout=options.pop("stdout", subprocess.PIPE),
        stderr=subprocess.PIPE,
        cwd=cwd,
        check=False,
        timeout=120,
        **options,
    )
    return Run(done.returncode, done.stdout or b"", done.stderr.decode())


def here(*args: Any, cwd: Path) -> Run:
    """As `taa1`, in this process and without standard input: for very many runs."""
    before, error = os.getcwd(), io.StringIO()
    os.chdir(cwd)
    try:
        with tempfile.TemporaryFile("w+b") as out, io.TextIOWrapper(out) as text:
            with redirect_stdout(text), redirect_stderr(error):
                status = main([str(arg) for arg in args])
            out.seek(0)
            return Run(status, out.read(), error.getvalue())
    finally:
        os.chdir(before)


class Case(unittest.TestCase):
    """A test with a folder that is empty at first."""

    def setUp(self) -> None:
        """Makes the folder."""
        made = tempfile.TemporaryDirectory()
        self.addCleanup(made.cleanup)
        self.folder = Path(made.name)

    def file(self, name: str, content: Any) -> Path:
        """A file of the folder."""
        path = self.folder / name
        path.write_bytes(content.encode() if isinstance(content, str) else content)
        return path

    def accepted(self, *args: Any, **options: Any) -> bytes:
        """What a command writes that succeeds, without a word on standard error."""
        done = taa1(*args, **options)
        self.assertEqual((done.status, done.error), (0, ""))
        return done.out

    def fails(self, status: int, error: str, *args: Any, **options: Any) -> None:
        """The command ends with the status and these lines, writes nothing, and leaves no file."""
        before = sorted(os.listdir(self.folder))
        done = taa1(*args, **options)
        self.assertEqual((done.status, done.out, done.error), (status, b"", f"taa1: {error}\n"))
        self.assertEqual(sorted(os.listdir(self.folder)), before)
