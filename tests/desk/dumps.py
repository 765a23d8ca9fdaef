"""The output of od, xxd and hexdump, made here so that tests need none of them.

test_planted compares it with the programs where they are installed.
"""

from __future__ import annotations

from typing import Callable, Iterator, List, Tuple


def _rows(data: bytes, width: int) -> Iterator[Tuple[int, bytes]]:
    """A dump's rows with their places."""
    for start in range(0, len(data), width):
        yield start, data[start : start + width]


def _shown(row: bytes) -> str:
    """A row's printable characters."""
    return "".join(chr(byte) if 32 <= byte < 127 else "." for byte in row)


def _words(row: bytes, size: int) -> List[int]:
    """A row's words as a little-endian machine reads them, the last one filled with zeros."""
    return [int.from_bytes(row[at : at + size], "little") for at in range(0, len(row), size)]


_ESCAPES = {0: "\\0", 7: "\\a", 8: "\\b", 9: "\\t", 10: "\\n", 11: "\\v", 12: "\\f", 13: "\\r"}


def _character(byte: int) -> str:
    """A byte as od -c has it."""
    if byte in _ESCAPES:
        return _ESCAPES[byte]
    return chr(byte) if 32 <= byte < 127 else f"{byte:03o}"


# od's formats by name: what is written for a row.
_OD: Tuple[Tuple[str, Callable[[bytes], str]], ...] = (
    ("x1", lambda row: "".join(f" {byte:02x}" for byte in row)),
    ("u1", lambda row: "".join(f" {byte:3d}" for byte in row)),
    ("o1", lambda row: "".join(f" {byte:03o}" for byte in row)),
    ("o2", lambda row: "".join(f" {word:06o}" for word in _words(row, 2))),
    ("x2", lambda row: "".join(f" {word:04x}" for word in _words(row, 2))),
    ("x4", lambda row: "".join(f" {word:08x}" for word in _words(row, 4))),
    ("c", lambda row: "".join(f"{_character(byte):>4}" for byte in row)),
)
_ADDRESS = {"o": "{:07o}", "d": "{:07d}", "x": "{:06x}", "n": ""}


def od(
    data: bytes,
    kind: str = "o2",
    address: str = "o",
    width: int = 16,
    characters: bool = False,
    whole: bool = False,
) -> str:
    """od -t KIND -A ADDRESS -w WIDTH, KIND with z for its characters, and -v for the whole."""
    shown, place, before = dict(_OD)[kind], _ADDRESS[address], b""
    lines: List[str] = []
    for start, row in _rows(data, width):
        if row == before and not whole:
            if lines[-1] != "*":
                lines.append("*")
            continue
        before = row
        body = shown(row)
        if characters:
            body = f"{body:<{len(shown(bytes(width)))}}  >{_shown(row)}<"
        lines.append(place.format(start) + body)
    if address != "n":
        lines.append(place.format(len(data)))
    return "".join(f"{line}\n" for line in lines)


def xxd(
    data: bytes, width: int = 16, group: int = 2, upper: bool = False, little: bool = False
) -> str:
    """xxd -c WIDTH -g GROUP, with -u, or with -e (and a group of 4)."""
    lines = []
    for start, row in _rows(data, width):
        size = group or width
        parts = [row[at : at + size] for at in range(0, len(row), size)]
        words = [(part[::-1] if little else part).hex().rjust(2 * size * little) for part in parts]
        whole = 2 * width + (width - 1) // size
        body = f"{' '.join(words):<{whole}}"
        lines.append(f"{start:08x}: {body.upper() if upper else body}  {_shown(row)}\n")
    return "".join(lines)


def xxd_bits(data: bytes) -> str:
    """xxd -b."""
    lines = []
    for start, row in _rows(data, 6):
        body = " ".join(f"{byte:08b}" for byte in row)
        lines.append(f"{start:08x}: {body:<53}  {_shown(row)}\n")
    return "".join(lines)


def xxd_plain(data: bytes, width: int = 30) -> str:
    """xxd -p -c WIDTH."""
    return "".join(f"{row.hex()}\n" for _, row in _rows(data, width))


def xxd_include(data: bytes, name: str = "") -> str:
    """xxd -i, of a file with this name in C or of standard input."""
    rows = [", ".join(f"0x{byte:02x}" for byte in row) for _, row in _rows(data, 12)]
    body = "  " + ",\n  ".join(rows) + "\n"
    if not name:
        return body
    return f"unsigned char {name}[] = {{\n{body}}};\nunsigned int {name}_len = {len(data)};\n"


def hexdump(data: bytes) -> str:
    """hexdump, in words of the machine."""
    lines = []
    for start, row in _rows(data, 16):
        body = " ".join(f"{word:04x}" for word in _words(row, 2))
        lines.append(f"{start:07x} {body:<39}\n")
    return "".join(lines) + f"{len(data):07x}\n"


def hexdump_canonical(data: bytes) -> str:
    """hexdump -C."""
    lines = []
    for start, row in _rows(data, 16):
        body = "  ".join(row[at : at + 8].hex(" ") for at in (0, 8)).rstrip()
        lines.append(f"{start:08x}  {body:<48}  |{_shown(row)}|\n")
    return "".join(lines) + f"{len(data):08x}\n"


def format_hex(data: bytes) -> str:
    """PowerShell's Format-Hex, as it was up to version 5."""
    head = "           00 01 02 03 04 05 06 07 08 09 0A 0B 0C 0D 0E 0F\r\n\r\n"
    lines = []
    for start, row in _rows(data, 16):
        body = row.hex(" ").upper()
        lines.append(f"{start:08X}   {body:<47}  {_shown(row)}\r\n")
    return "\r\n" + head + "".join(lines)
