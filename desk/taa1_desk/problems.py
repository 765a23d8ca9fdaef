# SPDX-License-Identifier: MIT
"""What is wrong with a use, a file or a stream, and how messages name things."""

from __future__ import annotations

STANDARD = "-"  # the name that stands for standard input and output


class Problem(Exception):
    """What is wrong with a use, a file or a stream, a line each."""

    def __init__(self, *lines: str) -> None:
        """Takes one line or more."""
        super().__init__(*lines)
        self.lines = lines

    def __str__(self) -> str:
        """The lines."""
        return "\n".join(self.lines)


def shown(name: str) -> str:
    """A file's name for a line of text: what cannot be printed is written in hexadecimal."""
    return "".join(
        letter
        if letter.isprintable()
        else "".join(f"\\x{byte:02x}" for byte in letter.encode("utf-8", "surrogateescape"))
        for letter in name
    )


MOST_QUOTED = 40  # letters of what somebody wrote


def quoted(said: str) -> str:
    """What somebody wrote, for a line of text; of very much, the start."""
    return repr(said) if len(said) <= MOST_QUOTED else f"{said[:MOST_QUOTED]!r}.."


def place(name: str) -> str:
    """How a message names a file."""
    return "standard input" if name == STANDARD else shown(name)
