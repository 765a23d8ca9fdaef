# SPDX-License-Identifier: MIT
"""The commands that set an examination: draw, model, paper, argue."""

from __future__ import annotations

import argparse
import os
from typing import Iterable, Optional, Sequence

from taa1 import Sitting

from ..argument import Argument, Part
from ..showing.argue import argument_sheet
from ..engine import Engine
from ..marking.model import model_answer
from ..marking.opening_slips import OPENING_SLIPS
from ..marking.slips import EXCHANGES, SLIPS
from ..marking.trials import tried_names
from ..problems import STANDARD, Problem, place, shown
from ..reading import argument_points, books, schemes, sittings
from ..records import PLAIN, Entry, split
from ..setting import draw
from ..showing import paper
from ..showing.document import as_page, as_text
from ..showing.model import model_json, model_page, model_text
from . import files, inputs
from .inputs import once
from .output import ACCEPTED, emit_text, json_text

# What a model without entries means, to the commands that want some.
NO_ENTRY = {
    "draw": "there is nothing to draw",
    "paper": "there is nothing to ask for",
    "argue": "there is no instance of a claim",
}


def examination(args: argparse.Namespace) -> tuple[Engine, Sitting, sittings.Heading, bytes]:
    """The engine, a sitting with its heading, and a plain book."""
    once(args.sitting, args.book)
    engine = Engine()
    sitting, heading = inputs.read_headed(args.sitting)
    return engine, sitting, heading, model_book(engine, args)


def model_book(engine: Engine, args: argparse.Namespace) -> bytes:
    """The model, a plain book, with entries in it where the command wants some."""
    name = args.like if args.command == "draw" else args.book
    if args.command in NO_ENTRY:
        return inputs.read_model(engine, name, args.bytes, NO_ENTRY[args.command])
    return inputs.read_plain(engine, name, args.bytes)


def run_draw(args: argparse.Namespace) -> int:
    """A sitting, or a model book, from the system's randomness."""
    if args.output != STANDARD and os.path.isfile(args.output):
        raise Problem(f"{shown(args.output)}: {files.THERE}")
    of_book = ("kinds", "entries", "like")
    given = [name for name in ("sides", "title", "date", *of_book) if getattr(args, name)]
    wrong = [name for name in given if (name in of_book) is not args.book]
    if wrong:
        what = "a sitting, and --book draws none" if args.book else "a book: draw --book"
        raise Problem(f"draw: --{wrong[0]} is for {what}")
    if args.bytes and not args.like:
        raise Problem("draw: --bytes is for --like, whose model it reads as bytes")
    if args.book:
        engine = Engine()
        if args.like:
            like = [Entry.of(record) for record in split(model_book(engine, args), PLAIN)]
            plain = draw.draw_book([e.kind for e in like], {e.identity for e in like})
        else:
            plain = draw.draw_book(args.kinds or draw.draw_kinds(args.entries or draw.ENTRIES))
        engine.call("check_plain", plain)
        emit_text(args, books.format_lines(plain), new=True)
    else:
        data = draw.draw_sitting(args.sides)
        Engine().call("ring", *sittings.sitting_of(data))
        heading = sittings.Heading(args.title or "", args.date or "")
        emit_text(args, sittings.format_sitting(data, heading), new=True)
    return ACCEPTED


def run_model(args: argparse.Namespace) -> int:
    """The model answer."""
    engine, sitting, heading, plain = examination(args)
    model = model_answer(engine, sitting, plain, place(args.sitting))
    if args.html:
        emit_text(args, model_page(model, heading.line))
    else:
        emit_text(args, json_text(model_json(model)) if args.json else model_text(model))
    return ACCEPTED


def run_paper(args: argparse.Namespace) -> int:
    """The question paper, the blank answer form and the worked solution."""
    folders = {"--html": args.html, "--solution": args.solution}
    given = [name for name, folder in folders.items() if folder is not None]
    if given and (args.part or args.output != STANDARD):
        raise Problem(f"paper: {given[0]} writes pages into its folder: no --part, no -o")
    _keep_apart(args.html, args.solution)
    once(*filter(None, (args.sitting, args.book, args.scheme, args.words)))
    engine, sitting, heading, plain = examination(args)
    scheme, words = inputs.read_scheme(args.scheme), inputs.read_words(args.words)
    of = paper.examination(engine, sitting, heading, plain, place(args.sitting), scheme, words)
    if not given:
        parts = [args.part] if args.part else list(paper.PARTS)
        text = "\n\n".join(as_text(paper.PARTS[part](of)) for part in parts)
        files.write(args.output, text.encode(), private="solution" in parts)
        return ACCEPTED
    wanted = []
    if args.html is not None:
        wanted.append(files.Folder(args.html, _pages(of, paper.CANDIDATES)))
    if args.solution is not None:
        pages = _pages(of, [paper.SOLUTION])
        wanted.append(files.Folder(args.solution, pages, private=pages, secret=True))
    files.write_folders(*wanted)
    beside = os.path.join(args.html or "", f"{paper.SOLUTION}.html")
    if args.html is not None and os.path.exists(beside):
        files.say(f"{shown(beside)}: a worked solution of an earlier run lies beside the paper: remove it")
    return ACCEPTED


def _pages(of: paper.Examination, parts: Iterable[str]) -> dict[str, bytes]:
    """Parts of an examination as files of HTML."""
    return {f"{part}.html": as_page(paper.PARTS[part](of)).encode() for part in parts}


def _keep_apart(pages: Optional[str], solution: Optional[str]) -> None:
    """Refuses a folder for the solution that candidates may get: the paper's, or one in it."""
    if solution is None:
        return
    said = f"{shown(solution)}: the worked solution is kept apart from the paper: name another folder"
    inner = os.path.realpath(solution)
    if pages is not None:
        outer = os.path.realpath(pages)
        if os.path.commonpath((inner, outer)) == outer:
            raise Problem(f"{said} than that of --html, and none in it")
    there = [f"{part}.html" for part in paper.CANDIDATES]
    found = [name for name in there if os.path.exists(os.path.join(solution, name))]
    if found:
        raise Problem(f"{said}, since {found[0]} lies there")


def run_argue(args: argparse.Namespace) -> int:
    """The marking aid for the argument: claims, true and false, with instances."""
    if args.html is not None and args.output != STANDARD:
        raise Problem("argue: --html writes the page into its file: no -o")
    if args.form and (args.candidates is None or args.html is not None):
        raise Problem("argue: --form writes a text with a line for each name, so it wants --candidates and no --html")
    once(args.sitting, args.book, *filter(None, (args.scheme, args.candidates)))
    parts = schemes.argument_parts(inputs.read_scheme(args.scheme))
    listed = inputs.read_list(args.candidates)
    if not parts:
        raise Problem(f"{place(args.scheme)}: no points for the argument in it, so there is none to mark")
    if args.candidates is not None and not listed:
        raise Problem(f"{place(args.candidates)}: no line FILE = Name in it")
    if args.form:
        return _argument_form(args, listed, parts)
    engine, sitting, heading, plain = examination(args)
    ring = sittings.sitting_ring(engine, sitting, place(args.sitting))
    sheet = argument_sheet(engine, sitting, ring, heading, plain, parts, listed)
    if args.html is not None:
        files.write_file(args.html, as_page(sheet).encode(), private=True)
    else:
        files.write(args.output, as_text(sheet).encode(), private=True)
    return ACCEPTED


def _argument_form(args: argparse.Namespace, listed: dict[str, str], parts: Sequence[Part]) -> int:
    """Writes a file of arguments with every part blank, over none that may be filled in."""
    if args.output != STANDARD and os.path.isfile(args.output):
        raise Problem(f"{shown(args.output)}: it is there already, and may be filled in: give the form another name")
    blank = Argument(tuple(parts))
    text = argument_points.lines_text(((file, name, blank) for file, name in listed.items()), parts)
    emit_text(args, text, new=True)
    return ACCEPTED


def run_scheme(args: argparse.Namespace) -> int:
    """The points that marking gives, as a text to change: mark --scheme FILE."""
    emit_text(args, schemes.DEFAULT)
    return ACCEPTED


def run_slips(args: argparse.Namespace) -> int:
    """The names of the slips that marking looks for."""
    names = dict.fromkeys(slip.name for slip in (*SLIPS, *EXCHANGES, *OPENING_SLIPS))
    names.update(dict.fromkeys(tried_names()))
    emit_text(args, "".join(f"{name}\n" for name in names))
    return ACCEPTED


RUNS = {
    "draw": run_draw,
    "model": run_model,
    "paper": run_paper,
    "argue": run_argue,
    "scheme": run_scheme,
    "slips": run_slips,
}
