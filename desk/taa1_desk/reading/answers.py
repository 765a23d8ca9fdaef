# SPDX-License-Identifier: MIT
"""What was opened from a sealed book, in lines: an entry's fields, or that its flag is set."""

from __future__ import annotations

from typing import NamedTuple, Optional

from ..records import Entry
from . import books, lines

FLAG = "flag"  # the part of an entry that says whether its flag is set
FLAGS = {FLAG, "flagged", "mf", "manipulated"}  # the words for it
SET = {word: True for word in ("set", "true", "yes", "on", "1")}
SET.update({word: False for word in ("clear", "unset", "false", "no", "off", "ok", "0")})
NOT = {"no", "not"}


class Answer(NamedTuple):
    """What a hand-in says of an entry."""

    flag: Optional[bool]  # None: it can't say it
    entry: Optional[Entry] = None  # None: it says no more, or what can't be read
    problem: str = ""  # why it can't be read


class Line(NamedTuple):
    """What a line says."""

    about: Optional[int]  # the entry that it names; None: it names none
    answer: Answer


def words_of(line: str) -> list[str]:
    """The words of a line, in small letters."""
    return line.lower().translate(str.maketrans(":,;=", "    ")).split()


def is_answer(line: str) -> bool:
    """Whether a line is about an entry."""
    words = words_of(line)
    if not words or words[0] == "entries":
        return False
    return words[0] == "entry" or not FLAGS.isdisjoint(words) or lines.is_lines(line)


def answer_of(words: list[str], line: int) -> Answer:
    """What a line says of an entry, in its words after the index: the flag, set unless it
    is said to be clear, the entry's fields, or both. Of a line that can't be read, nothing."""
    flag: Optional[bool] = False
    said = next((at for at, word in enumerate(words) if word in FLAGS), None)
    if said is not None:
        flag, words = _flag(words[:said], words[said + 1 :])
    if flag and not words:
        return Answer(True)
    try:
        return Answer(flag, books.entry_of(words))
    except (ValueError, IndexError) as error:
        clear = said is not None and flag is False and not words
        readable = said is not None and books.has_fields(words)
        problem = "a clear flag, and no fields" if clear else error
        return Answer(flag if clear or readable else None, None, f"line {line}: {problem}")


def _flag(before: list[str], behind: list[str]) -> tuple[bool, list[str]]:
    """Whether the words around the flag's say that it is set; and the words that are left."""
    flag = True
    if before and before[-1] in NOT:
        flag, before = False, before[:-1]
    if behind and behind[0] == "is":
        behind = behind[1:]
    if flag and behind[:1] == ["not"] and SET.get(" ".join(behind[1:2])):
        flag, behind = False, behind[2:]
    elif behind and behind[0] in SET and (flag or SET[behind[0]]):
        flag, behind = flag and SET[behind[0]], behind[1:]
    return flag, [*before, *behind]
