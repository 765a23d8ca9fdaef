# SPDX-License-Identifier: MIT
"""The desk: one command for setters and tutors over the engine's calls.

The exit status is 0 for success, 1 for a refusal, and 2 for a wrong use, an
unreadable file or a failed write.
"""

from __future__ import annotations

import argparse
import sys
from typing import Callable, Optional, Sequence

from taa1 import LibraryError, Refused

from .command import calls, day, files, interrupts, mark, setting, verify
from .command.arguments import Parser
from .command.arguments import parser as arguments
from .command.output import ACCEPTED, REFUSED, WRONG_USE, keep_inputs
from .engine import RefusedFile
from .problems import Problem
from .showing.kinds import kinds_text

NO_TK = (
    "window: Python's tkinter is not installed: apt-get install python3-tk (Debian, Ubuntu);"
    " every other command works without"
)


def run_help(args: argparse.Namespace) -> int:
    """A command's help, or that of a topic: kinds."""
    if args.topic == ["kinds"]:
        files.write_out(kinds_text().encode())
        return ACCEPTED
    return main([*args.topic, "--help"])


def parser() -> Parser:
    """All commands and their options."""
    more = {"help": run_help, "window": run_window}
    runs = {**setting.RUNS, **mark.RUNS, **verify.RUNS, **calls.RUNS, **more}
    return arguments(__doc__ or "", runs)


def run_window(args: argparse.Namespace) -> int:
    """The day in a window: draw, print, mark, argue, keep.

    FOLDER is the day's; its files are those of the command line.
    """
    try:
        from .window.start import open_window
    except ImportError as error:  # also of a library that tkinter needs
        if error.name not in ("tkinter", "_tkinter"):
            raise
        raise Problem(NO_TK) from None
    return open_window(args.folder, main)


def _run(args: argparse.Namespace) -> int:
    return int(args.run(args))


def main(argv: Optional[Sequence[str]] = None, run: Callable[[argparse.Namespace], int] = _run) -> int:
    """Runs the command line, or has what it asks for run otherwise; the exit status."""
    try:
        with interrupts.interruptible():
            return _main(argv, run)
    except interrupts.Interrupted as interrupted:
        files.progress(0, 0)
        files.say("interrupted")
        return 128 + interrupted.number


def _main(argv: Optional[Sequence[str]], run: Callable[[argparse.Namespace], int]) -> int:
    try:
        files.forget()
        given = sys.argv[1:] if argv is None else argv
        args = parser().parse_args(day.expanded(given) or ["--help"])
        keep_inputs(args)
        return run(args)
    except (RefusedFile, Refused) as refused:
        files.say(str(refused))
        return REFUSED
    except Problem as problem:
        files.say(*problem.lines)
        return WRONG_USE
    except LibraryError as error:
        files.say(str(error))
        return WRONG_USE
    except SystemExit as ended:  # after --help
        return int(ended.code or 0)
