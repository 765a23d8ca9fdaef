# SPDX-License-Identifier: MIT
"""The commands' arguments."""

from __future__ import annotations

import argparse
from typing import Any, Callable, Mapping, NoReturn

from taa1 import __version__
from taa1.calls import CALLS, Parameter

from .. import names
from ..problems import STANDARD, Problem
from ..reading.handin import READ_AS
from ..records import RING
from ..setting import draw
from ..showing.paper import PARTS
from ..values import IDENTITY, MASK
from . import day, files
from .options import bytes_of, damages, digits, entries, kinds, number, sentence, words
from .overview import EXAMPLES, overview

Run = Callable[[argparse.Namespace], int]


class Parser(argparse.ArgumentParser):
    """Arguments; a wrong use is one line."""

    def __init__(self, **options: Any) -> None:
        """No abbreviated options: a later one could take their meaning."""
        super().__init__(allow_abbrev=False, **options)

    def error(self, message: str) -> NoReturn:
        """Reports a wrong use."""
        name = self.prog.partition(" ")[2]
        raise Problem(f"{name}: {message}" if name else f"{message} (taa1 --help lists the commands)")

    def format_help(self) -> str:
        """The help of a command, or the overview of all."""
        if " " in self.prog:
            return super().format_help()
        commands = next(action.choices for action in self._actions if action.dest == "command")
        return overview(self.description or "", dict(commands or {}))

    def _print_message(self, message: str, file: Any = None) -> None:
        """Writes help as every other output."""
        if message:
            files.write_out(message.encode())


_KINDS: dict[str, tuple[Callable[[str], Any], str, str]] = {
    "bytes": (bytes_of, "HEX", "in hexadecimal, or @FILE"),
    "version": (number, "N", "a version of 16 bits"),
    "number": (number, "N", "a key number"),
    "mask": (digits(MASK), "HEX", f"a mask of {MASK} hexadecimal digits"),
    "identity": (digits(IDENTITY), "HEX", f"{IDENTITY} hexadecimal digits"),
    "value": (number, "N", "a number"),
    "out": (number, "N", "bytes of room for the output; as many as it can need by default"),
}


def flag_of(parameter: Parameter) -> str:
    name = "out_length" if parameter.kind == "out" else parameter.name
    return "--" + name.replace("_", "-")


def _option(parser: Parser, call: str, parameter: Parameter) -> None:
    """The option for a call's parameter."""
    take, metavar, what = _KINDS[parameter.kind]
    output = parameter.kind == "out"
    if parameter.kind == "bytes":
        length = "any number of bytes" if parameter.length is None else f"{parameter.length} bytes"
        what = f"{length} {what}"
    field = names.parameter_field(call, parameter.name)
    what = f"{what} ({field})" if field else what
    parser.add_argument(
        flag_of(parameter), dest=parameter.name, type=take, metavar=metavar, help=what, required=not output
    )


def _common(parser: Parser, **wanted: str) -> None:
    """The options that commands share: file, hex, bytes, json; each with its help."""
    if "file" in wanted:
        parser.add_argument("file", nargs="?", default=STANDARD, metavar="FILE", help=wanted["file"])
    parser.add_argument(
        "-o", "--output", default=STANDARD, metavar="FILE", help="default: standard output"
    )
    if "hex" in wanted:
        parser.add_argument("--hex", action="store_true", help="write hexadecimal")
    if "bytes" in wanted:
        parser.add_argument(
            "--bytes", action="store_true", help="take input as bytes, also if it looks like text"
        )
    if "json" in wanted:
        parser.add_argument("--json", action="store_true", help="write JSON")


def parser(says: str, runs: Mapping[str, Run]) -> Parser:
    """All commands and their options; what the desk is in a few words, and what runs each
    command, are given."""
    top = Parser(prog="taa1", description=says)
    top.add_argument("--version", action="version", version=f"taa1 {__version__}")
    commands = top.add_subparsers(dest="command", metavar="COMMAND", required=True)

    def command(name: str, private: bool = True) -> Parser:
        run = runs[name]
        what = (run.__doc__ or "").partition("\n\n")[0]
        epilog = f"example: {EXAMPLES[name]}" if name in EXAMPLES else None
        made: Parser = commands.add_parser(name, description=what, epilog=epilog)
        made.set_defaults(run=run, private=private)
        return made

    call = command("call")
    calls = call.add_subparsers(dest="call", metavar="NAME", required=True)
    for each in CALLS.values():
        made = calls.add_parser(each.name, help=each.purpose, description=f"{each.purpose}.")
        for parameter in each.parameters:
            _option(made, each.name, parameter)
        _common(made, json="")

    drawing = command("draw")
    drawing.add_argument("--sides", type=number, choices=(1, 2, 3), help="drawn, too, by default")
    drawing.add_argument("--title", type=words, metavar="WORDS", help="the sitting's title")
    drawing.add_argument("--date", type=words, metavar="WORDS", help="the sitting's date")
    drawing.add_argument("--book", action="store_true", help="draw a model book, not a sitting")
    which = drawing.add_mutually_exclusive_group()
    which.add_argument(
        "--kinds", type=kinds, metavar="LIST", help="of the book's entries, as in 1,1,2,5"
    )
    which.add_argument(
        "--entries",
        type=entries,
        metavar="N",
        help="so many entries, each kind as often as the others or once more; "
        f"default: {draw.ENTRIES}",
    )
    which.add_argument(
        "--like", metavar="MODEL", help="of the kinds of this model book, in its order, all else drawn"
    )
    _common(drawing, bytes="")

    sitting = command("sitting")
    sitting.add_argument("--names", action="store_true", help="write names, not bytes")
    _common(sitting, file="a sitting in names, bytes or hexadecimal", hex="")

    book = command("book")
    book.add_argument("--lines", action="store_true", help="write lines, not bytes")
    _common(book, file="a plain book in lines, bytes or hexadecimal", hex="", bytes="")

    ring = command("ring")
    ring.add_argument("--names", action="store_true", help="write names, not bytes")
    _common(ring, file="a sitting in names, bytes or hexadecimal", hex="")

    ring_help = f"a ring of {RING} bytes, what makering wrote, or a sitting"
    seal = command("seal", private=False)
    seal.add_argument("ring", metavar="RING", help=ring_help)
    seal.add_argument("--runs", action="store_true", help="say how many cipher runs it took")
    seal.add_argument(
        "--damage",
        type=damages,
        default=[],
        metavar="I,..",
        help="set the flag of these entries, for candidates to find: I flips a bit of the text, "
        "I:CHECK makes one check fail alone (0 is the leftmost redundancy byte; 4 of kinds 2 and 5 "
        "the three zero bits)",
    )
    _common(seal, file="a plain book in lines, bytes or hexadecimal", hex="", bytes="")

    open_ = command("open")
    open_.add_argument("ring", metavar="RING", help=ring_help)
    open_.add_argument("--runs", action="store_true", help="say how many cipher runs it took")
    open_.add_argument("--lines", action="store_true", help="write lines, not bytes")
    _common(open_, file="a sealed book in bytes or hexadecimal", hex="", bytes="")

    check = command("check", private=False)
    _common(check, file="a plain book in lines, bytes or hexadecimal", bytes="")

    columns = command("columns")
    columns.add_argument("book", choices=("plain", "sealed"), help="what kind of book it is")
    columns.add_argument("--back", action="store_true", help="from columns to records")
    _common(columns, file="a book in bytes or hexadecimal", hex="", bytes="")

    lineage = command("lineage")
    lineage.add_argument("--names", action="store_true", help="write lines, not bytes")
    _common(lineage, file="a sheet in lines, bytes or hexadecimal", hex="", bytes="")

    card = command("card")
    card.add_argument(
        "card", nargs="+", metavar="HEX", help="16 bytes, with ?? for an unreadable one; or @FILE"
    )
    _common(card, json="")

    cell = command("cell", private=False)
    cell.add_argument("cipher_key", type=bytes_of, metavar="KEY", help="10 bytes, or @FILE")
    cell.add_argument("result", type=bytes_of, metavar="RESULT", help="10 bytes, or @FILE")
    cell.add_argument("--by", choices=("tb5", "tb6"), default="tb5", help="default: tb5")
    _common(cell, json="")

    diffusion = command("diffusion", private=False)
    diffusion.add_argument("--draw", type=number, metavar="N", help="draw N records, read none")
    _common(diffusion, file="records of 24 bytes, key then block", bytes="", json="")

    schedule = command("schedule")
    schedule.add_argument("key", type=bytes_of, metavar="KEY", help="16 bytes, or @FILE")
    _common(schedule, json="")

    tracing = command("trace")
    tracing.add_argument("key", type=bytes_of, metavar="KEY", help="16 bytes, or @FILE")
    tracing.add_argument("block", type=bytes_of, metavar="BLOCK", help="8 bytes, or @FILE")
    tracing.add_argument("--decrypt", action="store_true", help="the round keys in reverse order")
    tracing.add_argument("--find", type=bytes_of, metavar="OUTPUT", help="name the slips that give these 8 bytes")
    tracing.add_argument("--html", action="store_true", help="write a page of HTML")
    _common(tracing, json="")

    _common(command("tables", private=False))

    model = command("model")
    papers = command("paper")
    arguing = command("argue")
    mark = command("mark")
    for each_ in (model, papers, arguing, mark):
        each_.add_argument("--day", metavar="FOLDER", help=f"stands for {day.files_said(each_.prog.split()[-1])}")
        each_.add_argument("sitting", metavar="SITTING", help="names, bytes or hexadecimal")
        each_.add_argument("book", metavar="BOOK", help="a plain book: lines, bytes or hexadecimal")
    model.add_argument("--html", action="store_true", help="write a page of HTML")
    _common(model, bytes="", json="")
    papers.add_argument("--part", choices=tuple(PARTS), help="one of the three; default: all")
    papers.add_argument(
        "--scheme", metavar="FILE", help="the points to print; default: those that taa1 scheme prints"
    )
    papers.add_argument(
        "--words", metavar="FILE", help="your own words for the paper: time, aids, how to hand in"
    )
    papers.add_argument(
        "--html", metavar="FOLDER", help="write paper.html and form.html, the candidates' pages"
    )
    papers.add_argument(
        "--solution",
        metavar="FOLDER",
        help="write solution.html, for you alone, into a folder of its own",
    )
    _common(papers, bytes="")
    arguing.add_argument("--html", metavar="FILE", help="write a page of HTML")
    arguing.add_argument(
        "--candidates", metavar="FILE", help="their names, as for mark: a sheet for each, to write the points on"
    )
    arguing.add_argument(
        "--form", action="store_true", help="write the file of mark --arguments to fill in, a line for each name"
    )
    arguing.add_argument("--scheme", metavar="FILE", help="the points of the parts, as for mark")
    _common(arguing, bytes="")
    mark.add_argument(
        "candidate", nargs="+", metavar="CANDIDATE", help="a sealed book, a filled-in answer form, or a folder of such"
    )
    mark.add_argument(
        "--opened",
        action="store_true",
        help="BOOK is a sealed book that was handed out, and each CANDIDATE what was opened from "
        "it: lines, where `entry I flag` says that a flag is set, or a plain book's bytes",
    )
    mark.add_argument(
        "--scheme", metavar="FILE", help="the points; default: those that taa1 scheme prints"
    )
    mark.add_argument("--html", metavar="FOLDER", help="write a page for each, and index.html")
    mark.add_argument(
        "--candidates", metavar="FILE", help="their names, a line FILE = Name for each hand-in"
    )
    mark.add_argument(
        "--arguments",
        metavar="FILE",
        help="the arguments' points, a line NAME = POINTS for each candidate, or NAME = given 1, one entry half ..",
    )
    mark.add_argument(
        "--record", metavar="FILE", help="keep a record: digests of every file, every mark, what ran and when"
    )
    mark.add_argument("--against", metavar="RECORD", help="say what changed since a record; wants --reason")
    mark.add_argument("--reason", type=sentence, metavar="WORDS", help="why it is marked again")
    mark.add_argument("--csv", action="store_true", help="write a table, a row for each candidate")
    mark.add_argument("--clean", action="store_true", help="remove pages of earlier runs there")
    mark.add_argument("--dry", action="store_true", help="say how each would be read, no more")
    mark.add_argument(
        "--as",
        action="append",
        dest="as_",
        metavar="[CANDIDATE=]FORM",
        help=f"read it so, whatever it looks like: {', '.join(READ_AS)}; or @FILE, lines CANDIDATE = FORM",
    )
    _common(mark, bytes="", json="")

    verify = command("verify")
    verify.add_argument("record", metavar="RECORD", help="what mark --record wrote")
    verify.add_argument("folder", nargs="+", metavar="FOLDER", help="where its files are, or below it")
    _common(verify)

    window = command("window")
    window.add_argument("folder", nargs="?", metavar="FOLDER", help="the day's, a new one or an earlier day's")

    _common(command("scheme", private=False))
    _common(command("slips", private=False))

    help_ = command("help", private=False)
    help_.add_argument(
        "topic", nargs="*", metavar="TOPIC", help="a command, as in call ta51; or kinds"
    )
    return top
