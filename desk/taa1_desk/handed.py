# SPDX-License-Identifier: MIT
"""What is handed in, before it is marked: a file's bytes, or why there are none, and keys."""

from __future__ import annotations

from typing import NamedTuple, Optional, Union

from .problems import Problem


class KeyFile(NamedTuple):
    """What stands in NAME.keys."""

    values: dict[str, bytes]  # empty where a line gives one that can't be read
    problems: tuple[str, ...] = ()  # lines that can't be read
    unread: str = ""  # why no value can be read; it is among the problems
    blank: tuple[str, ...] = ()  # rows of an answer form beside a book that are left blank


class HandIn(NamedTuple):
    """What one candidate hands in."""

    name: str  # the file's
    content: Union[bytes, Problem]  # or why it can't be read
    keys: Optional[KeyFile] = None  # that lie beside it
    form: str = ""  # in which it is to be read, whatever it looks like


class LeftOut(NamedTuple):
    """A file that is not marked: whose it is, if that is known, how it is called, and why."""

    candidate: str
    file: str
    why: str
