# SPDX-License-Identifier: MIT
"""The record of a marking, read from its text."""

from __future__ import annotations

import json
import re
from hashlib import sha256
from typing import Any, NamedTuple, Optional

from ..problems import Problem

FORM, VERSION = "taa1 record", 1
MOST_BYTES = 1 << 28  # of a record: a class of 30 with books of 1,024 entries has some 40 million
ROLES = ("sitting", "book", "scheme", "names", "arguments")  # the files that marking goes by
TYPES = ("file", "link", "folder", "other")


class Recorded(NamedTuple):
    """A record whose form was checked, and the digest of its text."""

    digest: str
    data: dict[str, Any]

    @property
    def made(self) -> str:
        """When it was made."""
        return str(self.data["made"])

    @property
    def before(self) -> str:
        """The digest of the record that it answers, or nothing."""
        return str(self.data["against"]["record"]) if self.data["against"] else ""


def is_record(start: bytes) -> bool:
    """Whether a file that begins so is a record."""
    return start.startswith(f'{{\n  "form": "{FORM}"'.encode())


class _Wrong(Exception):
    """What a record lacks."""


def _of(value: Any, what: str, *types: Any) -> Any:
    """A value of these types."""
    if not isinstance(value, types) or (isinstance(value, bool) and bool not in types):
        raise _Wrong(what)
    return value


def _get(of: Any, key: str, what: str, *types: Any) -> Any:
    """What an object has under a key."""
    if not isinstance(of, dict) or key not in of:
        raise _Wrong(f"{what}{key}")
    return _of(of[key], f"{what}{key}", *types)


def _digest(of: Any, key: str, what: str, none: bool = False) -> None:
    """A digest under a key."""
    value = _get(of, key, what, str, *([type(None)] if none else []))
    if value is not None and not re.fullmatch("[0-9a-f]{64}", value):
        raise _Wrong(f"{what}{key}")


def _name(value: str, what: str) -> None:
    """A name within a folder: a record may come from anywhere, and its files are laid out by them."""
    parts = value.split("/")
    if "\0" in value or value != "." and any(part in ("", ".", "..") for part in parts):
        raise _Wrong(what)


def _file(of: Any, what: str) -> None:
    """A hand-in, or what lies beside one."""
    _name(_get(of, "file", what, str), f"{what}file")
    if _get(of, "type", what, str) not in TYPES:
        raise _Wrong(f"{what}type")
    _digest(of, "sha256", what, none=True)


def _check(data: Any) -> None:
    """Raises _Wrong where a record is not of its form, as far as it is read again."""
    for key in ("made", "desk"):
        _get(data, key, "", str)
    _get(_get(data, "engine", "", dict), "release", "engine, ", str)
    _digest(data["engine"], "library", "engine, ")
    against = _get(data, "against", "", dict, type(None))
    if against is not None:
        _digest(against, "record", "against, ")
        _get(against, "reason", "against, ", str)
    options = _get(data, "options", "", dict)
    for key in ("opened", "bytes"):
        _get(options, key, "options, ", bool)
    if "/" in _get(options, "folder", "options, ", str):
        raise _Wrong("options, folder")
    _name(options["folder"] or ".", "options, folder")
    for each in _get(options, "hand_ins", "options, ", list):
        _name(_of(each, "options, hand_ins", str), "options, hand_ins")
    for each in _get(options, "as", "options, ", list):
        _name(_get(each, "file", "options, as, ", str, type(None)) or ".", "options, as, file")
        _get(each, "form", "options, as, ", str)
    given = _get(data, "files", "", dict)
    for role in ROLES:
        of = _get(given, role, "files, ", dict, type(None))
        if of is None and role in ("sitting", "book", "scheme"):
            raise _Wrong(f"files, {role}")
        if of is not None:
            _digest(of, "sha256", f"files, {role}, ")
            name = _get(of, "file", f"files, {role}, ", str, *([type(None)] if role == "scheme" else []))
            if name is not None and ("/" in name or name == "."):
                raise _Wrong(f"files, {role}, file")
            _name(name or ".", f"files, {role}, file")
    for each in _get(data, "hand_ins", "", list):
        _file(each, "hand_ins, ")
        for other in _get(each, "beside", "hand_ins, ", list):
            _file(other, "hand_ins, beside, ")
    for each in _get(data, "left_out", "", list):
        _file(each, "left_out, ")
    marks = _get(data, "marks", "", dict)
    _get(marks, "class", "marks, ", dict)
    sheets = _get(marks, "sheets", "marks, ", list)
    for each in sheets:
        _get(each, "candidate", "marks, sheets, ", str)
        _get(each, "name", "marks, sheets, ", str)
    if len(sheets) != len(data["hand_ins"]):
        raise _Wrong("marks, sheets")


def parse(data: bytes, where: str) -> Recorded:
    """The record in a text."""
    made: Optional[Any] = None
    try:
        made = json.loads(data.decode())
    except (ValueError, RecursionError):
        pass
    if not isinstance(made, dict) or made.get("form") != FORM:
        raise Problem(f"{where}: no record of a marking (mark --record writes one)")
    if made.get("version") != VERSION:
        said = f"a record of form {str(made.get('version'))[:20]}, where this desk reads form {VERSION}"
        raise Problem(f"{where}: {said}: take the desk that made it, {str(made.get('desk'))[:20]}")
    try:
        _check(made)
    except _Wrong as wrong:
        raise Problem(f"{where}: a record that was altered or cut: {wrong} is missing or no such thing") from None
    return Recorded(sha256(data).hexdigest(), made)
