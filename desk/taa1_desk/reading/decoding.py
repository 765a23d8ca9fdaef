# SPDX-License-Identifier: MIT
"""Bytes as text: the one decoder, and hexadecimal digits."""

from __future__ import annotations

import re
from typing import NamedTuple, Optional

from ..problems import Problem

MOST_BYTES = 1 << 20  # of one input; the longest book in lines has a tenth of it
END = "\x1a"  # of a text, in DOS
FILES = (  # by their first bytes
    (b"%PDF", "a PDF document"),
    (b"PK\3\4", "a zip archive or an office document"),
    (b"\x1f\x8b", "a gzip archive"),
    (b"\x89PNG", "a picture"),
    (b"\xff\xd8\xff", "a picture"),
)
OLD_MAC = "its lines end as an old Mac's, with CR alone: convert them (tr '\\r' '\\n' does so)"


class Decoded(NamedTuple):
    """A text, and its code if that is to be said."""

    text: str
    code: str


def decoded(data: bytes) -> Optional[Decoded]:
    """The text that these bytes are, in UTF-8, UTF-16 or Latin-1; None if they are none. No book
    or sheet of bytes is text, but for the empty one: each has a byte below 7 in front."""
    codes = {"utf-8": "", "utf-8-sig": " after a byte order mark", "latin-1": " in Latin-1"}
    if data[:2] in (b"\xff\xfe", b"\xfe\xff"):
        codes = {"utf-16": " in UTF-16"}
    elif len(data) % 2 == 0 and not any(data[1::2]):
        codes = {"utf-16-le": " in UTF-16"}
    elif len(data) % 2 == 0 and not any(data[0::2]):
        codes = {"utf-16-be": " in UTF-16"}
    for code, said in codes.items():
        try:
            text = data.decode(code)
        except UnicodeDecodeError:
            continue
        if all(letter.isprintable() or letter.isspace() or letter == END for letter in text):
            return Decoded(text.replace(END, ""), said)
    return None


def setters_text(data: bytes) -> Optional[str]:
    """The text of a setter's file, which may be bytes with no small one in front, as a ring is: so
    Latin-1, in which most bytes are letters, is none."""
    found = decoded(data)
    return None if found is None or "Latin" in found.code else found.text


def lines_text(data: bytes, where: str) -> str:
    """The text of a setter's file that has to be lines."""
    found = setters_text(data)
    if found is None:
        try:
            found = data.decode("utf-8-sig")
        except UnicodeDecodeError as error:
            line = data[: error.start].count(b"\n") + 1
            raise Problem(f"{where}, line {line}: not UTF-8") from None
    if any("\r" in line.rstrip("\r") for line in found.split("\n")):
        raise Problem(f"{where}: {OLD_MAC}")
    return found


ODD = "an odd number of hexadecimal digits"


def from_hex(said: str, where: str) -> bytes:
    """The bytes of hexadecimal text, in which white space counts for nothing, nor does 0x."""
    said = re.sub(r"(?<![0-9a-fA-F])0[xX](?=[0-9a-fA-F])", "  ", said)
    for number, line in enumerate(said.splitlines(), 1):
        for column, letter in enumerate(line, 1):
            if letter not in "0123456789abcdefABCDEF" and not letter.isspace():
                at = f"line {number}, column {column}"
                raise Problem(f"{where}, {at}: {letter!r} is no hexadecimal digit")
    digits = "".join(said.split())
    if len(digits) % 2:
        counts = {at: len("".join(line.split())) for at, line in enumerate(said.splitlines(), 1)}
        odd = [number for number, count in counts.items() if count % 2]
        at = f", {counts[odd[0]]} of them in line {odd[0]}" if len(odd) == 1 < len(counts) else ""
        raise Problem(f"{where}: {ODD}, {len(digits)}{at}")
    return bytes.fromhex(digits)


def hex_or_bytes(data: bytes, where: str, raw: bool = False) -> bytes:
    """What a setter's file holds, in bytes or hexadecimal; `raw` takes bytes that look like text."""
    found = None if raw else setters_text(data)
    return data if found is None else from_hex(found, where)
