# SPDX-License-Identifier: MIT
"""Files and streams: read within limits, written whole or not at all."""

from __future__ import annotations

import errno
import os
import stat
import sys
import tempfile
import time
from contextlib import ExitStack, contextmanager
from pathlib import Path
from typing import Callable, Container, Iterable, Iterator, NamedTuple

from ..problems import STANDARD, Problem, place, shown
from ..reading.decoding import MOST_BYTES, hex_or_bytes
from .interrupts import held

THERE = "it is there already, and draw replaces no file"
FIRST_WRITER = 1  # seconds in which somebody has to open the other end of a pipe
MOST_WAIT = 60  # seconds without a byte from a pipe


def reason(error: OSError) -> str:
    """The system's reason."""
    return error.strerror or str(error)


_read: set[tuple[int, int]] = set()  # the files that were read, by device and number
READ = "it is read, so nothing is written over it: give the output another name"


def forget() -> None:
    """Forgets which files were read, before a command begins."""
    _read.clear()


def _remember(handle: int) -> None:
    """Remembers that a file is read."""
    found = os.fstat(handle)
    if stat.S_ISREG(found.st_mode):
        _read.add((found.st_dev, found.st_ino))


def keep(name: str) -> None:
    """Raises Problem if a file was read: it is no place for an output."""
    try:
        found = os.stat(name)
    except (OSError, ValueError):
        return
    if (found.st_dev, found.st_ino) in _read:
        raise Problem(f"{shown(name)}: {READ}")


def read(name: str, most: int = MOST_BYTES) -> bytes:
    """A file's bytes, or those of standard input, if they are not more than so many."""
    try:
        if name == STANDARD:
            if sys.stdin is None:
                raise Problem("standard input: it is closed")
            _remember(sys.stdin.fileno())
            data = sys.stdin.buffer.read(most + 1)
        else:
            # a pipe that nobody writes to would keep an ordinary open waiting for ever
            with open(os.open(name, os.O_RDONLY | os.O_NONBLOCK), "rb", buffering=0) as file:
                _remember(file.fileno())
                data = _all(file.fileno(), stat.S_ISFIFO(os.fstat(file.fileno()).st_mode), most)
    except (OSError, ValueError) as error:
        said = reason(error) if isinstance(error, OSError) else str(error)
        raise Problem(f"{place(name)}: {said}") from None
    if len(data) > most:
        raise Problem(f"{place(name)}: longer than {most:,} bytes")
    return data


def _all(handle: int, pipe: bool, longest: int) -> bytes:
    """What a file holds, or the start of it that is too long; what comes through a pipe, if
    somebody writes to it."""
    data, last = b"", time.monotonic()
    while len(data) <= longest:
        try:
            part = os.read(handle, min(longest - len(data), MOST_BYTES) + 1)
            most = FIRST_WRITER if pipe and not data else 0
        except BlockingIOError:  # somebody writes, but has not yet
            part, most = b"", MOST_WAIT
        waited = time.monotonic() - last
        if part:
            data, last = data + part, time.monotonic()
        elif waited < most:
            time.sleep(0.01)
        elif most == MOST_WAIT:
            raise OSError(errno.ETIMEDOUT, f"nothing came in {MOST_WAIT} seconds: name a file")
        else:
            break
    if pipe and not data:
        raise OSError(errno.EPIPE, "a pipe to which nobody writes: name a file")
    return data


def read_bytes(name: str, raw: bool = False) -> bytes:
    """What a file holds, in bytes or hexadecimal; `raw` takes bytes that look like text."""
    return hex_or_bytes(read(name), place(name), raw)


def write_out(data: bytes) -> None:
    """Writes all of the bytes to standard output."""
    if sys.stdout is None:
        raise Problem("standard output: it is closed")
    try:
        sys.stdout.flush()
        handle = sys.stdout.fileno()
        left = memoryview(data)
        while left:
            left = left[os.write(handle, left) :]
    except OSError as error:
        raise Problem(f"standard output: {reason(error)}") from None


def write_file(name: str, data: bytes, private: bool = False, new: str = "") -> None:
    """Writes a file whole, or leaves what was there: a temporary one takes its name.

    A private file is readable by its owner alone; a new one takes the name only if no
    file has it, and what is said else is given. A file that was read is not written over. What is no regular file, such as a
    pipe, is written to as it is.
    """
    path = Path(os.path.realpath(name))
    keep(name)
    with _problems(name):
        if path.exists() and not path.is_file():
            with open(path, "wb", buffering=0) as device:
                device.write(data)
            return
        with held():
            handle, made = tempfile.mkstemp(dir=path.parent, prefix=".taa1.")
            os.close(handle)
            try:
                _fill(Path(made), data, _mode(path, private))
                if new:
                    _link(made, path, new)
                else:
                    os.replace(made, path)
            finally:
                Path(made).unlink(missing_ok=True)


def _link(made: str, path: Path, else_: str) -> None:
    """Gives a file a name that no other has."""
    try:
        try:
            os.link(made, path)
        except FileExistsError:
            raise
        except OSError:  # no file may have two names there: an empty one keeps the place
            os.close(os.open(path, os.O_WRONLY | os.O_CREAT | os.O_EXCL, 0o600))
            os.replace(made, path)
    except FileExistsError:
        raise Problem(f"{shown(str(path))}: {else_}") from None


class Folder(NamedTuple):
    """Files for a folder, which ones are private, and what is to be removed there. A folder that
    has to be made may be private, too."""

    name: str
    content: dict[str, bytes]
    private: Container[str] = ()
    unwanted: Iterable[str] = ()
    secret: bool = False


def write_folder(
    folder: str,
    content: dict[str, bytes],
    private: Container[str] = (),
    unwanted: Iterable[str] = (),
) -> None:
    """Writes files into a folder, as write_folders does."""
    write_folders(Folder(folder, content, private, unwanted))


def write_folders(*wanted: Folder) -> None:
    """Writes files into folders, which are made where they are missing, and removes the
    unwanted: all of it is done, or nothing. A file that was read is not written over."""
    for each in wanted:
        for name in each.content:
            keep(os.path.join(each.name, name))
    with ExitStack() as stack:
        interrupted = stack.enter_context(held())
        for each in wanted:
            stack.enter_context(_written(each, interrupted))


@contextmanager
def _written(wanted: Folder, interrupted: Callable[[], None]) -> Iterator[None]:
    """Has a folder's files written; where what is done within fails, they are as they were."""
    folder, content = wanted.name, wanted.content
    with _problems(folder):
        made = not os.path.isdir(folder)
        os.makedirs(folder, 0o700 if wanted.secret else 0o777, exist_ok=True)
        try:
            with tempfile.TemporaryDirectory(dir=folder, prefix=".taa1.") as room:
                (Path(room) / "new").mkdir()
                for name, data in content.items():
                    interrupted()
                    with _problems(os.path.join(folder, name)):
                        mode = _mode(Path(folder) / name, name in wanted.private)
                        _fill(Path(room) / "new" / name, data, mode)
                with _exchanged(Path(folder), Path(room), content, wanted.unwanted):
                    yield
        except BaseException:
            if made:
                os.rmdir(folder)
            raise


@contextmanager
def _exchanged(
    folder: Path, room: Path, content: Iterable[str], unwanted: Iterable[str]
) -> Iterator[None]:
    """Puts the room's new files in the places of those in a folder, which wait in the room, and
    back if what is done within fails."""
    old, new = room / "old", room / "new"
    old.mkdir()
    names = [*content, *unwanted]
    try:
        for name in names:
            with _problems(str(folder / name)):
                if (folder / name).is_dir():
                    raise IsADirectoryError(errno.EISDIR, os.strerror(errno.EISDIR))
                if (folder / name).exists():
                    os.rename(folder / name, old / name)
                if (new / name).exists():
                    os.rename(new / name, folder / name)
        yield
    except BaseException:
        for name in names:
            if (old / name).exists():
                os.replace(old / name, folder / name)
            elif name in content and not (new / name).exists():
                os.unlink(folder / name)
        raise


def _mode(path: Path, private: bool) -> int:
    """The mode that a file is to have: that of the one that it replaces, or the usual."""
    if private:
        return 0o600
    return stat.S_IMODE(path.stat().st_mode) if path.exists() else 0o666 & ~_mask()


def _fill(path: Path, data: bytes, mode: int) -> None:
    """Writes a new file, which nobody else can read until it is whole."""
    handle = os.open(path, os.O_WRONLY | os.O_CREAT, 0o600)
    with open(handle, "wb") as file:
        file.write(data)
        file.flush()
        os.fchmod(handle, mode)
        os.fsync(handle)


@contextmanager
def _problems(name: str) -> Iterator[None]:
    """Says of a failure within which file it is about."""
    try:
        yield
    except (OSError, ValueError) as error:
        said = reason(error) if isinstance(error, OSError) else str(error)
        raise Problem(f"{shown(name)}: {said}") from None


def write(name: str, data: bytes, private: bool = False, new: str = "") -> None:
    """Writes to a file, or to standard output."""
    if name == STANDARD:
        write_out(data)
    else:
        write_file(name, data, private, new)


def _mask() -> int:
    """The process's file mode creation mask, which can only be read by setting it."""
    mask = os.umask(0)
    os.umask(mask)
    return mask


def say(*lines: str) -> None:
    """Lines for standard error."""
    _tell("".join(f"taa1: {line}\n" for line in lines))


def progress(done: int, of: int) -> None:
    """How far the work is, where standard error is a terminal; 0 of 0 wipes it out."""
    if sys.stderr is not None and sys.stderr.isatty():
        _tell(f"\r{done} of {of}" if of else "\r\033[K")


def _tell(plain_text: str) -> None:
    """Writes to standard error; where that is closed or full, nobody hears it."""
    if sys.stderr is not None:
        try:
            sys.stderr.write(plain_text)
            sys.stderr.flush()
        except (OSError, ValueError):
            pass
