# SPDX-License-Identifier: MIT
"""Plays a sitting: makes the ring, and the ring of the one-sided sitting, works the
lineage of its keys, seals the model book, opens it and seals it again, then opens
the candidate's book and gives part marks for the text that seals no key.

    sitting.py LIBRARY [FOLDER]

LIBRARY is the engine's shared object; FOLDER has the five files (samples by
default).
"""

from __future__ import annotations

import os
import sys
from typing import Any, Callable

import taa1


def read(folder: str, name: str) -> bytes:
    """A file's bytes; ends the program if it cannot be read."""
    path = f"{folder}/{name}"
    try:
        with open(path, "rb") as file:
            return file.read()
    except OSError:
        sys.exit(f"sitting: {path} cannot be read")


def parse(name: str, data: bytes) -> taa1.Sitting:
    """The sitting in the bytes of a file of this name."""
    if len(data) != taa1.SITTING_BYTES:
        sys.exit(f"sitting: {name} does not have {taa1.SITTING_BYTES} bytes")
    return taa1.Sitting(
        root=data[:16],
        rs=data[16:26],
        rso=data[26:36],
        rand1=data[36:46],
        rand2=data[46:56],
        c=data[56:66],
        group_key=data[66:78],
        sides=data[78],
        response_mask=int.from_bytes(data[79:81], "big"),
        key_mask=int.from_bytes(data[81:83], "big"),
    )


def must(what: str, call: Callable[..., Any], *inputs: Any) -> Any:
    """The result of a call; ends the program if it is refused."""
    try:
        return call(*inputs)
    except taa1.Refused as refused:
        sys.exit(f"sitting: {what}: {refused}")


def print_ring(words: str, made: taa1.RingMade) -> None:
    """Prints a ring and both responses; each line begins with these words."""
    print(f"{words}ring {made.ring.hex()}")
    print(f"{words}response 1 {made.response1.hex()}")
    print(f"{words}response 2 {made.response2.hex()}")


def size(book: taa1.CountedBook) -> str:
    """A book's records and bytes, and the cipher runs that it took."""
    return f"{book.records} records, {len(book.content)} bytes, {book.runs} runs"


def print_marks(engine: taa1.Engine, ring: bytes, index: int, record: bytes) -> None:
    """Part marks: which checks of a sealed record's text fail, leftmost first."""
    d, o, g = ring[:10], ring[10:26], ring[36:]
    unseal, key, count = {
        taa1.Kind.TA31: (engine.ta32, d, taa1.TA32_CHECKS),
        taa1.Kind.TA51: (engine.ta52, o, taa1.TA52_CHECKS),
        taa1.Kind.TA81: (engine.ta82, o, taa1.TA82_CHECKS),
        taa1.Kind.TA91: (engine.ta92, o, taa1.TA92_CHECKS),
        taa1.Kind.TA51_G: (engine.ta52, g, taa1.TA52_CHECKS),
        taa1.Kind.TA81_G: (engine.ta82, g, taa1.TA82_CHECKS),
    }[taa1.Kind(record[0])]
    version = taa1.Version(int.from_bytes(record[4:6], "big"))
    failed = must("candidate.book", unseal, record[6:], key, version).failed_checks
    places = "".join(f" {place}" for place in failed)
    print(f"record {index}, of {count} checks failed:{places}")


def play(engine: taa1.Engine, folder: str) -> None:
    """Plays the sitting of a folder."""
    sitting = read(folder, "sitting.bin")
    one_sided = read(folder, "one-sided.bin")
    sheet = read(folder, "lineage.sheet")
    plain = read(folder, "plain.book")
    candidate = read(folder, "candidate.book")

    made = must("sitting.bin", engine.ring, parse("sitting.bin", sitting))
    print_ring("", made)
    of_one_side = must("one-sided.bin", engine.ring, parse("one-sided.bin", one_sided))
    print_ring("one-sided ", of_one_side)
    ring = made.ring

    values = must("lineage.sheet", engine.lineage, sheet)
    print(f"lineage {len(values)} records, {len(values) * taa1.SHEET_VALUE_BYTES} bytes")
    for value in values:
        print("lineage", value.hex())

    book = must("plain.book", engine.seal_book, ring, plain)
    print(f"sealed {size(book)}")
    sealed = book.content
    for at in range(0, len(sealed), taa1.SEALED_RECORD_BYTES):
        print("sealed", sealed[at : at + taa1.SEALED_RECORD_BYTES].hex())

    opened = must("the sealed book", engine.open_book, ring, sealed)
    if opened.content != plain:
        sys.exit("sitting: the opened book is not the plain book")
    print(f"opened {size(opened)}: the plain book")

    again = must("the opened book", engine.seal_book, ring, opened.content)
    if again.content != sealed:
        sys.exit("sitting: the book sealed again is another")
    print(f"sealed again {size(again)}: the same bytes")

    try:
        print(f"accepted {size(engine.open_book(ring, candidate))}")
    except taa1.Refused as refused:
        print(refused)
        if refused.number == taa1.Refusal.FLAG_SET and refused.index is not None:
            at = refused.index * taa1.SEALED_RECORD_BYTES
            record = candidate[at : at + taa1.SEALED_RECORD_BYTES]
            print_marks(engine, ring, refused.index, record)


def main() -> None:
    """Loads the library and plays the sitting that the command line names."""
    if len(sys.argv) < 2:
        sys.exit("usage: sitting.py LIBRARY [FOLDER]")
    try:
        engine = taa1.Engine(os.path.abspath(sys.argv[1]))
    except taa1.LibraryError:  # no library, or one without the calls
        sys.exit(f"sitting: {sys.argv[1]} cannot be loaded")
    try:
        play(engine, sys.argv[2] if len(sys.argv) > 2 else "samples")
        sys.stdout.flush()
    except OSError:
        # What is still buffered would fail again at exit.
        os.dup2(os.open(os.devnull, os.O_WRONLY), sys.stdout.fileno())
        sys.exit("sitting: standard output cannot be written")


if __name__ == "__main__":
    main()
