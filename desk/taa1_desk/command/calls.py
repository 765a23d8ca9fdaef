# SPDX-License-Identifier: MIT
"""The commands that are calls of the engine, or files turned by one."""

from __future__ import annotations

import argparse
import secrets
import subprocess
from pathlib import Path
from typing import Optional

from taa1 import Refused
from taa1.calls import CALLS, Call
from taa1.library import build, repository

from ..engine import Engine, RefusedFile, refusals
from ..marking.trace import search, traced
from ..problems import Problem, place, shown
from ..reading import books, decoding, lineage, sittings
from ..records import PLAIN, Entry, split
from ..setting.damage import damaged
from ..showing import trace
from ..showing.document import as_page
from ..values import without_0x
from . import files, inputs
from .arguments import flag_of
from .inputs import once
from .output import ACCEPTED, emit, emit_answer, emit_text, json_text, lengths

MOST_ROOM = 1 << 20  # bytes of an output that `call` makes
PRINTTABLES = Path(__file__).resolve().parents[1] / "printtables"  # where the desk is installed


def run_call(args: argparse.Namespace) -> int:
    """Any call of the engine."""
    call: Call = CALLS[args.call]
    if (getattr(args, "out", None) or 0) > MOST_ROOM:
        raise Problem(f"call {call.name}: --out-length is above {MOST_ROOM:,}")
    labels = [flag_of(parameter) for parameter in call.inputs]
    emit_answer(args, call.name, call.name, labels, *(getattr(args, each.name) for each in call.inputs))
    return ACCEPTED


def run_sitting(args: argparse.Namespace) -> int:
    """A sitting's names to bytes, and back."""
    sitting, heading = inputs.read_headed(args.file)
    if args.names:
        emit_text(args, sittings.format_sitting(sittings.sitting_bytes(sitting), heading))
    else:
        emit(args, sittings.sitting_bytes(sitting))
    return ACCEPTED


def run_book(args: argparse.Namespace) -> int:
    """A book's lines to bytes, and back."""
    plain = inputs.read_plain(Engine(), args.file, args.bytes)
    if args.lines:
        emit_text(args, books.format_lines(plain))
    else:
        emit(args, plain)
    return ACCEPTED


def run_ring(args: argparse.Namespace) -> int:
    """The ring of a sitting, and both responses."""
    made = sittings.make_ring(Engine(), inputs.read_sitting(args.file), place(args.file))
    data = made["ring"] + made["response1"] + made["response2"]
    if args.names:
        emit_text(args, sittings.format_names(sittings.RING_NAMES + sittings.RESPONSES, data))
    else:
        emit(args, data)
    return ACCEPTED


def _runs(args: argparse.Namespace, runs: int) -> None:
    if args.runs:
        files.say(f"{runs} cipher runs")


def run_seal(args: argparse.Namespace) -> int:
    """A plain book, sealed."""
    once(args.ring, args.file)
    engine = Engine()
    ring = inputs.read_ring(engine, args.ring)
    plain = inputs.read_plain(engine, args.file, args.bytes)
    answer = engine.call("seal_book", ring.data, plain)
    entries = [Entry.of(record) for record in split(plain, PLAIN)]
    emit(args, damaged(engine, ring, entries, answer["out"], args.damage))
    _runs(args, answer["runs"])
    return ACCEPTED


def run_open(args: argparse.Namespace) -> int:
    """A sealed book, opened."""
    once(args.ring, args.file)
    engine = Engine()
    ring = inputs.read_ring(engine, args.ring)
    sealed = inputs.read_sealed(args.file, args.bytes)
    with refusals(place(args.file)):
        answer = engine.call("open_book", ring.data, sealed)
    if args.lines:
        emit_text(args, books.format_lines(answer["out"]))
    else:
        emit(args, answer["out"])
    _runs(args, answer["runs"])
    return ACCEPTED


def run_check(args: argparse.Namespace) -> int:
    """Whether a plain book is well formed."""
    plain = inputs.read_plain(Engine(), args.file, args.bytes)
    emit_text(args, f"well formed, entries {len(plain) // PLAIN}\n")
    return ACCEPTED


def run_columns(args: argparse.Namespace) -> int:
    """A book filed by columns, and back."""
    data = files.read_bytes(args.file, args.bytes)
    with refusals(place(args.file)):
        answer = Engine().call(f"{args.book}_{'from' if args.back else 'to'}_columns", data)
    args.private = args.book == "plain"
    emit(args, answer["out"])
    return ACCEPTED


def run_lineage(args: argparse.Namespace) -> int:
    """The keys of a lineage sheet."""
    where, data = place(args.file), files.read(args.file)
    names: Optional[list[str]] = None
    text = None if args.bytes else decoding.setters_text(data)
    if text and "=" in text:
        names, data = lineage.parse_sheet(decoding.lines_text(data, where), where)
    elif text:
        data = decoding.from_hex(text, where)
    with refusals(where):
        out = Engine().call("lineage", data)["out"]
    if args.names or (names is not None and not args.hex):
        names = names or [f"key{i}" for i in range(len(out) // lineage.VALUE)]
        emit_text(args, lineage.format_sheet(names, data, out))
    else:
        emit(args, out)
    return ACCEPTED


def run_card(args: argparse.Namespace) -> int:
    """A card with unreadable bytes, restored."""
    text = "".join(args.card)
    if text.startswith("@"):
        text = decoding.lines_text(files.read(text[1:]), place(text[1:]))
    digits = "".join(map(without_0x, text.split()))
    pairs = [digits[at : at + 2] for at in range(0, len(digits), 2)]
    card = decoding.from_hex("".join("00" if pair == "??" else pair for pair in pairs), "card")
    unreadable = sum(1 << len(pairs) - 1 - i for i, pair in enumerate(pairs) if pair == "??")
    if len(card) != 16:
        raise Problem(f"card: {len(card)} bytes, not 16")
    emit_answer(args, "card", "restore_card", (), card, unreadable)
    return ACCEPTED


def run_cell(args: argparse.Namespace) -> int:
    """The cell, or carrier and identity, that made a key."""
    emit_answer(args, "cell", f"{args.by}_inverse", ("KEY", "RESULT"), args.cipher_key, args.result)
    return ACCEPTED


def run_diffusion(args: argparse.Namespace) -> int:
    """The diffusion tally of records, each a key and a block."""
    if args.draw is not None:
        where, data = "the records drawn", secrets.token_bytes(24 * min(args.draw, 1 << 16))
    else:
        where, data = place(args.file), files.read_bytes(args.file, args.bytes)
    emit_answer(args, where, "diffusion", (), data)
    return ACCEPTED


def run_schedule(args: argparse.Namespace) -> int:
    """The key schedule's register and round key, round by round."""
    engine = Engine()
    try:
        turns = [engine.call("register", args.key, steps)["bytes"] for steps in range(17)]
    except Refused as refused:
        said = lengths(refused, CALLS["register"], ("KEY",), (args.key,))
        raise RefusedFile("schedule", refused, said) from None
    if args.json:
        text = json_text({"registers": turns})
    else:
        lines = [
            f"round {at:2} register {register.hex()} round key {register[4:].hex()}\n"
            for at, register in enumerate(turns[:16], 1)
        ]
        text = "".join(lines) + f"after 16 register {turns[16].hex()}\n"
    emit_text(args, text)
    return ACCEPTED


def run_trace(args: argparse.Namespace) -> int:
    """A block through the cipher, round by round; or the slips that give another output."""
    engine, given = Engine(), (args.key, args.block)
    if args.find is not None and (args.html or len(args.find) != 8):
        raise Problem("trace: --find takes an output of 8 bytes, and makes no page (no --html)")
    try:
        if args.find is not None:
            found = search(engine, *given, args.find, args.decrypt)
            text = json_text(trace.search_json(found)) if args.json else trace.search_text(found)
        else:
            made = traced(engine, *given, args.decrypt)
            text = json_text(trace.trace_json(made)) if args.json else trace.trace_text(made)
            text = as_page(trace.trace_document(made)) if args.html else text
    except Refused as refused:
        said = lengths(refused, CALLS["encrypt"], ("KEY", "BLOCK"), given)
        raise RefusedFile("trace", refused, said) from None
    emit_text(args, text)
    return ACCEPTED


def run_tables(args: argparse.Namespace) -> int:
    """The tables that program printtables prints."""
    program, root = PRINTTABLES, repository()
    if root and not program.is_file():
        build(root, "printtables")
        program = root / "target/bin/printtables"
    if not program.is_file():
        raise Problem(f"{program}: not there; run ./build printtables in the repository, and install again")
    try:
        done = subprocess.run(
            [str(program)], stdin=subprocess.DEVNULL, capture_output=True, check=False, timeout=60
        )
    except (OSError, subprocess.SubprocessError) as error:
        raise Problem(f"{program}: {error}") from None
    if done.returncode or done.stderr or len(done.stdout.splitlines()) != 17:
        said = shown(" ".join(done.stderr.decode(errors="replace").split()))  # such as the loader's reason
        raise Problem(f"{program}: it printed no tables: {said or f'exit status {done.returncode}'}")
    files.write(args.output, done.stdout)
    return ACCEPTED


RUNS = {
    "call": run_call,
    "sitting": run_sitting,
    "book": run_book,
    "ring": run_ring,
    "seal": run_seal,
    "open": run_open,
    "check": run_check,
    "columns": run_columns,
    "lineage": run_lineage,
    "card": run_card,
    "cell": run_cell,
    "diffusion": run_diffusion,
    "schedule": run_schedule,
    "trace": run_trace,
    "tables": run_tables,
}
