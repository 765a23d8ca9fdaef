"""Files of a folder: all are written, or none."""

from __future__ import annotations

import os
import stat
from unittest import mock

from common import Case
from taa1_desk.command.files import write_file, write_folder
from taa1_desk.problems import Problem

OLD = {"a": b"old a", "b": b"old b"}
NEW = {"a": b"new a", "b": b"new b", "c": b"new c"}


class Folder(Case):
    """taa1_desk.files.write_folder."""

    def content(self) -> dict[str, bytes]:
        """What is in the folder."""
        return {path.name: path.read_bytes() for path in self.folder.iterdir() if path.is_file()}

    def test_written(self) -> None:
        for content in (OLD, NEW):
            write_folder(str(self.folder), content)
            self.assertEqual(self.content(), content)
        write_folder(str(self.folder / "x" / "y"), OLD)
        self.assertEqual(sorted(os.listdir(self.folder / "x" / "y")), ["a", "b"])

    def test_all_or_none(self) -> None:
        """Whatever fails, at whichever file, the folder is as it was."""
        write_folder(str(self.folder), OLD)
        rename = os.rename
        for fails_at in range(1, 6):
            for error in (OSError(28, "No space left on device"), KeyboardInterrupt()):
                calls = iter(range(1, 100))

                def failing(*args: object, at: int = fails_at, error: BaseException = error) -> None:
                    if next(calls) == at:
                        raise error
                    rename(*args)  # type: ignore[arg-type]

                with mock.patch("taa1_desk.command.files.os.rename", failing):
                    with self.assertRaises((Problem, KeyboardInterrupt)):
                        write_folder(str(self.folder), NEW)
                self.assertEqual(self.content(), OLD)
                self.assertEqual(len(os.listdir(self.folder)), 2)

    def test_taken(self) -> None:
        """A folder in a file's place is reported, and nothing is written."""
        write_folder(str(self.folder), OLD)
        (self.folder / "c").mkdir()
        with self.assertRaisesRegex(Problem, "/c: Is a directory"):
            write_folder(str(self.folder), NEW)
        self.assertEqual(self.content(), OLD)

    def test_modes(self) -> None:
        """A private file is its owner's alone; another keeps its mode."""
        write_folder(str(self.folder), OLD)
        (self.folder / "a").chmod(0o640)
        before = os.umask(0o022)
        try:
            write_folder(str(self.folder), NEW, private={"b"})
            write_file(str(self.folder / "d"), b"", private=True)
        finally:
            os.umask(before)
        modes = {path.name: stat.S_IMODE(path.stat().st_mode) for path in self.folder.iterdir()}
        self.assertEqual(modes, {"a": 0o640, "b": 0o600, "c": 0o644, "d": 0o600})
