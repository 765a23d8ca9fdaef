# SPDX-License-Identifier: MIT
"""Commands beside the program that has them run, in a process of their own.

What they say comes back through a queue, which is a pipe: nothing listens on a port.
"""

from __future__ import annotations

import argparse
import io
import multiprocessing
import queue
import tempfile
from contextlib import redirect_stderr, redirect_stdout
from typing import Any, Callable, NamedTuple, Optional, Sequence, Union

from .job import Outcome
from .mark import mark

Main = Callable[[Sequence[str], Callable[[argparse.Namespace], int]], int]  # the command line's
END = 10  # seconds in which a process that was told to end has to


class Progress(NamedTuple):
    """How far a marking is."""

    done: int
    of: int


class Done(NamedTuple):
    """How commands ended: the status, what they said and wrote, a line each, and what was marked."""

    status: int
    said: tuple[str, ...] = ()
    wrote: tuple[str, ...] = ()
    outcome: Optional[Outcome] = None


class Work:
    """Commands, one after another until one fails."""

    def __init__(self, main: Main, lines: Sequence[Sequence[str]]) -> None:
        """Starts them; a new process has to be able to import `main`."""
        context = multiprocessing.get_context("spawn")
        self._queue: Any = context.Queue()
        self._process = context.Process(target=_run, args=(self._queue, main, lines), daemon=True)
        self._process.start()

    def news(self) -> list[Union[Progress, Done]]:
        """What came since the last time; the end is the last of it."""
        found: list[Union[Progress, Done]] = []
        gone = not self._process.is_alive()  # asked first, so that its last word is in the queue
        while not (found and isinstance(found[-1], Done)):
            try:
                found.append(self._queue.get(timeout=1) if gone else self._queue.get_nowait())
            except queue.Empty:
                return [*found, *([Done(2, ("the work ended without a word: try again",))] if gone else [])]
        return found

    def end(self) -> None:
        """Ends them; what they were writing is whole or as it was."""
        self._process.terminate()
        self._process.join(END)
        self._queue.close()


def _run(answers: Any, main: Main, lines: Sequence[Sequence[str]]) -> None:
    """The other process. Nobody sees its streams, so what they say goes into the queue."""
    outcome: Optional[Outcome] = None

    def progress(done: int, of: int) -> None:
        if of:
            answers.put(Progress(done, of))

    def run(args: argparse.Namespace) -> int:
        nonlocal outcome
        if args.command != "mark":
            return int(args.run(args))
        status, outcome = mark(args, progress)
        return status

    status = 0
    with tempfile.TemporaryFile("w+", encoding="utf-8") as out, redirect_stdout(out):
        with redirect_stderr(io.StringIO()) as error:
            for line in lines:
                status = status or main(line, run)
        out.seek(0)
        wrote = tuple(out.read().splitlines())
    said = (line.removeprefix("taa1: ") for line in error.getvalue().splitlines())
    answers.put(Done(status, tuple(said), wrote, outcome))
