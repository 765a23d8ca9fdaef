# SPDX-License-Identifier: MIT
"""What a command writes: bytes, text and JSON, over no file that is read."""

from __future__ import annotations

import argparse
import json
import os
import sys
from typing import Any, Sequence

from taa1 import Refused
from taa1.calls import CALLS, Call

from ..engine import Engine, RefusedFile
from ..problems import STANDARD, Problem, shown
from ..showing.exports import is_marks
from ..words import plural
from . import files, folders

ACCEPTED, REFUSED, WRONG_USE = 0, 1, 2
LENGTH = 11  # the refusal of an input of another length


def emit(args: argparse.Namespace, data: bytes) -> None:
    """Bytes, in hexadecimal if that is asked for or a terminal shows them."""
    terminal = args.output == STANDARD and sys.stdout is not None and sys.stdout.isatty()
    digits = f"{data.hex()}\n".encode() if args.hex or terminal else data
    files.write(args.output, digits, args.private)


def emit_text(args: argparse.Namespace, text: str, new: bool = False) -> None:
    there = files.THERE if new else ""
    files.write(args.output, text.encode("utf-8", "backslashreplace"), args.private, there)


def _jsonable(value: Any) -> Any:
    """Bytes in hexadecimal, wherever they are in a value."""
    if isinstance(value, bytes):
        return value.hex()
    if isinstance(value, dict):
        return {key: _jsonable(each) for key, each in value.items()}
    if isinstance(value, (list, tuple)):
        return [_jsonable(each) for each in value]
    return value


def json_text(value: Any) -> str:
    return json.dumps(_jsonable(value), indent=2) + "\n"


def emit_answer(args: argparse.Namespace, where: str, name: str, labels: Sequence[str], *given: Any) -> None:
    """Writes the fields of a call's answer, one a line. A refused length is named by the
    label of its value."""
    call = CALLS[name]
    room = getattr(args, "out", None)
    try:
        fields = Engine().call(name, *given, room=room)
    except OverflowError as error:
        raise Problem(str(error)) from None
    except Refused as refused:
        raise RefusedFile(where, refused, lengths(refused, call, labels, given)) from None
    for field in call.fields:
        if field.digits:
            fields[field.name] = f"{fields[field.name]:0{field.digits}x}"
    if args.json:
        emit_text(args, json_text(fields))
    else:
        emit_text(args, "".join(f"{name} {value}\n" for name, value in _jsonable(fields).items()))


def lengths(refused: Refused, call: Call, labels: Sequence[str], given: Sequence[Any]) -> str:
    """Which lengths are wrong, where that was refused."""
    return "; ".join(
        f"{label} has {plural(len(value), 'byte')}, not {parameter.length}"
        for parameter, label, value in zip(call.inputs, labels, given)
        if refused.number == LENGTH
        and parameter.kind == "bytes"
        and parameter.length not in (None, len(value))
    )


# Options with the name of a file that is read; what mark --record names is written, and never over another.
INPUTS = ("sitting", "book", "ring", "file", "scheme", "candidates", "arguments", "words", "against", "record")


def keep_inputs(args: argparse.Namespace) -> None:
    """Refuses an output that would replace an input."""
    output = getattr(args, "output", STANDARD)
    given = [getattr(args, name, None) for name in INPUTS] + getattr(args, "candidate", [])
    read = [name for name in given if isinstance(name, str) and os.path.isfile(name)]
    read += [folders.keys_of(name) for name in getattr(args, "candidate", [])]
    if output != STANDARD and any(os.path.realpath(output) == os.path.realpath(n) for n in read):
        raise Problem(f"{shown(output)}: {files.READ}")


def keep_hand_ins(args: argparse.Namespace) -> None:
    """Refuses an output in the place of a file in a folder of hand-ins, unless that holds
    marks that the desk wrote."""
    if args.output == STANDARD or not os.path.isfile(args.output):
        return
    try:
        with open(args.output, "rb") as file:
            if is_marks(file.read(1024)):
                return
        folders = filter(os.path.isdir, args.candidate)
        among = (os.path.join(folder, name) for folder in folders for name in os.listdir(folder))
        if any(os.path.samefile(name, args.output) for name in among if os.path.exists(name)):
            said = "it lies among the hand-ins and holds no marks, so nothing is written over it"
            raise Problem(f"{shown(args.output)}: {said}: give the output another name")
    except OSError as error:
        raise Problem(f"{shown(args.output)}: {files.reason(error)}") from None
