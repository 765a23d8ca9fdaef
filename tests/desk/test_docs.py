"""The examples of docs/desk.md and README.md, and the sample class."""

from __future__ import annotations

import os
import shutil
import subprocess
import sys
import unittest

import examples
from common import CLASS, ROOT, Case
from taa1_desk import cli
from taa1_desk.marking.slips import SLIPS


class Docs(unittest.TestCase):
    """What the page says is what the commands do."""

    maxDiff = None

    def test_examples(self) -> None:
        text = examples.PAGE.read_text()
        self.assertGreater(text.count(examples.PROMPT), 25)
        self.assertEqual(examples.played(text), text)

    def test_readme(self) -> None:
        """Its commands, and the lines of Python, whose comments are what they print."""
        text = examples.README.read_text()
        self.assertGreater(text.count(examples.PROMPT), 2)
        if (ROOT / "target" / "bin" / "makering").exists():
            self.assertEqual(examples.played(text), text)
        start = text.index(f"{examples.INDENT}import taa1\n")
        shown = text[start : text.index("\n\n", start)].splitlines()
        self.assertEqual(len(shown), 6)
        lines = [line[len(examples.INDENT) :] for line in shown]
        done = subprocess.run(
            [sys.executable, "-c", "\n".join(lines)], capture_output=True, text=True,
            env={**os.environ, "PYTHONPATH": str(ROOT / "python")}, check=False,
        )  # fmt: skip
        wanted = [line.partition("  # ")[2] for line in lines if "  # " in line]
        self.assertEqual((done.stdout.splitlines(), done.stderr), (wanted, ""))
        self.assertEqual(len(wanted), 2)

    def test_commands(self) -> None:
        """The page has every command."""
        text = examples.PAGE.read_text()
        top = cli.parser()
        names = next(a.choices for a in top._actions if a.dest == "command")
        for name in names or ():
            self.assertRegex(text, rf"taa1 {name}\b", name)

    def test_slips(self) -> None:
        self.assertGreater(len(SLIPS), 40)


class Samples(Case):
    """samples/class/make makes the files that are there."""

    def test_made_again(self) -> None:
        place = self.folder / "samples" / "class"
        shutil.copytree(CLASS, place)
        shutil.copy(ROOT / "samples" / "sitting.bin", self.folder / "samples")
        (self.folder / "taa1").symlink_to(ROOT / "taa1")
        for name in place.glob("*.book"):
            name.unlink()
        (place / "sitting.txt").unlink()
        (place / "mark.txt").unlink()
        done = subprocess.run([place / "make"], capture_output=True, check=False)
        self.assertEqual((done.returncode, done.stderr), (0, b""))
        for path in CLASS.iterdir():
            self.assertEqual((place / path.name).read_bytes(), path.read_bytes(), path.name)
