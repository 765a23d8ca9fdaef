# SPDX-License-Identifier: MIT
"""A group of tests for each call, what the engine answers to them, and the file's text."""

from __future__ import annotations

import json
import re
from typing import Any, Callable, Optional, Union

from taa1 import NAMES, Engine, KeyNumber, Refusal, Refused, Version
from taa1.calls import CALLS, Parameter

from .draws import Draw
from .notes import DEFINED, NOTES, Note

ALGORITHM = "TAA1"
GENERATOR_VERSION = "1.0"  # another one whenever a file of vectors changes
SCHEMA = "taa1_schema.json"
HEADER = (
    "Test vectors of TAA1 (ETSI TS 104 053-3) and of the examination calls around it.",
    "Made by an engine that is proved against its definitions; vectors/README.md says how to use them.",
    "Not for operational keys.",
    "SPDX-License-Identifier: MIT",
)
SOME = -1  # of the checks of a text
SHORT, LONG = 40, 300  # bytes: up to SHORT a string is written out; above LONG it has to repeat itself

Input = Any  # bytes, or a number: a union would not pass by ** beside named parameters


class Unexpected(Exception):
    """The engine does not answer what the generator says of a test."""


def xor(left: bytes, right: bytes) -> bytes:
    """⊕ of two strings of one length."""
    return bytes(one ^ other for one, other in zip(left, right))


def changed(string: bytes, place: int, value: int) -> bytes:
    """A string with another byte at a place."""
    return string[:place] + bytes([value]) + string[place + 1 :]


def joined(*parts: dict[str, Any]) -> dict[str, Input]:
    """Inputs, of which the later ones take the place of the earlier."""
    return {name: value for part in parts for name, value in part.items()}


def flag_of(refusal: int) -> str:
    """The flag of the tests with this refusal: WRONG_LENGTH gives WrongLength."""
    return "".join(word.capitalize() for word in Refusal(refusal).name.split("_"))


def period(string: bytes) -> int:
    """The length of the shortest string that, written again and again, is this one."""
    sizes = (size for size in range(1, len(string)) if len(string) % size == 0)
    return next((size for size in sizes if string[:-size] == string[size:]), len(string))


def shown(value: Union[bytes, int]) -> Any:
    """A value as the files have it."""
    if isinstance(value, int):
        return value
    size = period(value) if len(value) > SHORT else len(value)
    if size > LONG:
        raise Unexpected(f"a string of {len(value)} bytes that does not repeat itself")
    if size == len(value):
        return value.hex()
    return {"hex": value[:size].hex(), "times": len(value) // size}


def _passed(parameter: Parameter, value: Input) -> Any:
    """A value as the module takes it."""
    if isinstance(value, int) and parameter.kind == "version":
        return Version(value)
    if isinstance(value, int) and parameter.kind == "number":
        return KeyNumber(value)
    return value


class Group:
    """The tests of one call."""

    def __init__(self, engine: Engine, name: str) -> None:
        """A group without tests."""
        self.engine = engine
        self.name = name
        self.call = CALLS[name]
        self.draw = Draw(name)
        self.tests: list[dict[str, Any]] = []

    def answer(self, inputs: dict[str, Input], out_length: Optional[int] = None) -> dict[str, Any]:
        """What the engine answers. Raises Refused."""
        values = [_passed(each, inputs[each.name]) for each in self.call.inputs]
        return self.engine.binding.answer(self.name, *values, room=out_length)

    def add(
        self,
        comment: str,
        *flags: str,
        refused: Optional[int] = None,
        failed: int = 0,
        out_length: Optional[int] = None,
        **inputs: Input,
    ) -> dict[str, Any]:
        """A test, and the outputs. The engine has to answer with this refusal, or none, and
        an unsealed text with these failed checks, or with any (SOME)."""
        given = {each.name: shown(inputs[each.name]) for each in self.call.inputs}
        if given.keys() != inputs.keys():
            raise Unexpected(f"{self.name}: {sorted(inputs)} are not its inputs")
        if out_length is not None:
            given["out_length"] = out_length
        test: dict[str, Any] = {"comment": comment, "flags": list(flags), "inputs": given}
        outputs: dict[str, Any] = {}
        try:
            outputs = self.answer(inputs, out_length)
        except Refused as error:
            test["result"] = "invalid"
            test["refusal"] = error.number
            if error.index is not None:
                test["index"] = error.index
            if error.runs is not None:
                test["runs"] = error.runs
            test["flags"].append(flag_of(error.number))
        else:
            checks = outputs.get("failed_checks", 0)
            if (checks == 0) if failed == SOME else (checks != failed):
                raise Unexpected(f"{self.name}, {comment}: checks {checks}, not {failed}")
            test["result"] = "invalid" if checks else "valid"
            test["outputs"] = {name: shown(value) for name, value in outputs.items()}
        if test.get("refusal") != refused:
            raise Unexpected(f"{self.name}, {comment}: refusal {test.get('refusal')}, not {refused}")
        if not test["flags"]:
            raise Unexpected(f"{self.name}, {comment}: no flag")
        self.tests.append(test)
        return outputs

    def wrong_lengths(self, **inputs: Input) -> None:
        """Each string of a fixed length by itself one byte too short or too long, and the last one empty."""
        fixed = [each for each in self.call.inputs if each.length]
        for place, parameter in enumerate(fixed):
            value = inputs[parameter.name]
            assert isinstance(value, bytes)
            wrong = value + b"\0" if place % 2 else value[:-1]
            comment = f"{parameter.name} of {len(wrong)} bytes"
            self.add(comment, refused=Refusal.WRONG_LENGTH, **joined(inputs, {parameter.name: wrong}))
        empty: dict[str, Input] = {**inputs, fixed[-1].name: b""}
        self.add(f"{fixed[-1].name} of no bytes", refused=Refusal.WRONG_LENGTH, **empty)


def made(engine: Engine, *named: tuple[str, Callable[[Group], None]]) -> list[Group]:
    """A group for each call, with its tests."""
    groups = []
    for name, tests in named:
        group = Group(engine, name)
        tests(group)
        groups.append(group)
    return groups


def _note(flag: str) -> Note:
    """What a flag means; those of the refusals have the words of the header."""
    for number, words in NAMES.items():
        if flag_of(number) == flag:
            return Note("FUNCTIONALITY", f"the call refuses with {int(number)}: {words}")
    return NOTES[flag]


def _line(value: Any) -> str:
    return json.dumps(value, ensure_ascii=False, separators=(",", ":"))


def text(about: str, groups: list[Group]) -> str:
    """The file with these groups: a line for each test."""
    count = 0
    parts: list[str] = []
    flags: set[str] = set()
    for group in groups:
        lines = []
        for test in group.tests:
            count += 1
            flags.update(test["flags"])
            lines.append(_line({"tcId": count, **test}))
        head = _line({"type": group.name, "definedIn": DEFINED[group.name]})
        parts.append(f'{head[:-1]},"tests":[\n' + ",\n".join(lines) + "\n]}")
    notes = ",\n".join(f"{_line(flag)}: {_line(_note(flag)._asdict())}" for flag in sorted(flags))
    whole = (
        f'{{\n"algorithm": {_line(ALGORITHM)},\n"generatorVersion": {_line(GENERATOR_VERSION)},\n'
        f'"numberOfTests": {count},\n"header": {_line([about, *HEADER])},\n"notes": {{\n{notes}\n}},\n'
        f'"schema": {_line(SCHEMA)},\n"testGroups": [\n' + ",\n".join(parts) + "\n]\n}\n"
    )
    if re.search(r"\b\d{17,}\b", re.sub(r'"[^"]*"', "", whole)):
        raise Unexpected("a number that not every reader of JSON has exactly")
    json.loads(whole)
    return whole
