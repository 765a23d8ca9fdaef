# SPDX-License-Identifier: MIT
"""The JSON schema of the files, from the table of calls."""

from __future__ import annotations

import json
from typing import Any

from taa1 import Refusal
from taa1.calls import ANSWERS, CALLS, Call, Field, Parameter

from .suite import ALGORITHM, SCHEMA, SHORT

Schema = dict[str, Any]
_WIDE = {"version": 16, "number": 16, "mask": 16}
_HEXADECIMAL = {"type": "string", "pattern": "^([0-9a-f]{2})*$"}
_WORDS = {"type": "array", "items": {"type": "string"}}


def _ref(name: str) -> Schema:
    return {"$ref": f"#/$defs/{name}"}


def _number(bits: int) -> Schema:
    """A number of so many bits, and of no more than every reader of JSON has exactly."""
    return _ref(f"uint{min(bits, 53)}")


def _object(properties: Schema, *optional: str) -> Schema:
    required = [name for name in properties if name not in optional]
    return {"type": "object", "properties": properties, "required": required, "additionalProperties": False}


def _input(parameter: Parameter) -> Schema:
    return _ref("bytes") if parameter.kind == "bytes" else _number(_WIDE.get(parameter.kind, 64))


def _output(field: Field) -> Schema:
    if not field.length:
        return _number(field.bits)
    digits: Schema = {"type": "string", "pattern": f"^[0-9a-f]{{{2 * field.length}}}$"}
    return digits if field.length <= SHORT else {"anyOf": [digits, _ref("repeated")]}


def _forms() -> Schema:
    """The forms of a test: of a single call, of an unsealing, of a list, and of a list with runs."""

    def form(result: str, *required: str, **properties: Any) -> Schema:
        return {"properties": {"result": {"const": result}, **properties}, "required": list(required)}

    def test(*forms: Schema) -> Schema:
        return {**_ref("test"), "oneOf": list(forms)}

    answered = form("valid", "outputs", refusal=False)
    right = {"properties": {"failed_checks": {"const": 0}}}
    wrong = {"properties": {"failed_checks": {"minimum": 1}}}
    return {
        "single": test(answered, form("invalid", "refusal", outputs=False, index=False, runs=False)),
        "unseal": test(
            form("valid", "outputs", refusal=False, outputs=right),
            form("invalid", "outputs", refusal=False, outputs=wrong),
            form("invalid", "refusal", outputs=False, index=False, runs=False),
        ),
        "list": test(answered, form("invalid", "refusal", "index", outputs=False, runs=False)),
        "counted": test(answered, form("invalid", "refusal", "index", "runs", outputs=False)),
    }


def _call(call: Call) -> Schema:
    """A test of a call: its form, what it takes and what it answers."""
    names = [field.name for field in call.fields]
    inputs = {each.name: _input(each) for each in call.inputs}
    form = "unseal" if "failed_checks" in names else "single"
    if "index" in names:
        form = "counted" if "runs" in names else "list"
    outputs = _ref(call.answer)
    if call.record:
        inputs["out_length"] = _number(64)
        outputs = _ref(f"{call.answer}_out")
    return {**_ref(form), "properties": {"inputs": _object(inputs, "out_length"), "outputs": outputs}}


def _definitions() -> Schema:
    made: Schema = {f"uint{bits}": {"type": "integer", "minimum": 0, "maximum": (1 << bits) - 1} for bits in (16, 32, 53)}
    made["bytes"] = {"anyOf": [_HEXADECIMAL, _ref("repeated")]}
    made["repeated"] = _object({"hex": _HEXADECIMAL, "times": {"type": "integer", "minimum": 2}})
    optional: Schema = {
        "refusal": {"enum": [int(number) for number in Refusal]},
        "index": _number(64),
        "runs": _number(64),
        "outputs": {"type": "object"},
    }
    test: Schema = {
        "tcId": {"type": "integer", "minimum": 1},
        "comment": {"type": "string"},
        "flags": {**_WORDS, "minItems": 1, "uniqueItems": True},
        "inputs": {"type": "object"},
        "result": {"enum": ["valid", "invalid"]},
    }
    tests = {"type": "array", "minItems": 1}
    made["group"] = _object({"type": {"type": "string"}, "definedIn": {"type": "string"}, "tests": tests})
    made["test"] = _object({**test, **optional}, *optional)
    made.update(_forms())
    for name, fields in ANSWERS.items():
        outputs = {field.name: _output(field) for field in fields}
        made[name] = _object(outputs)
        if "written" in outputs:
            made[f"{name}_out"] = _object({**outputs, "out": _ref("bytes")})
    names = {name for name in CALLS if name in made}
    assert not names, names
    made.update((name, _call(call)) for name, call in CALLS.items())
    return made


def _group(name: str) -> Schema:
    return {**_ref("group"), "properties": {"type": {"const": name}, "tests": {"items": _ref(name)}}}


def _lines(values: Schema) -> str:
    """Members of an object, a line each."""
    return ",\n".join(f'"{name}":{json.dumps(value, separators=(",", ":"))}' for name, value in values.items())


def text() -> str:
    """The schema's file: a line for each definition."""
    note = _object({"bugType": {"type": "string"}, "description": {"type": "string"}})
    head = {
        "$schema": "https://json-schema.org/draft/2020-12/schema",
        "$id": SCHEMA,
        "$comment": "SPDX-License-Identifier: MIT",
        "title": "Test vectors of TAA1",
        "description": "Bytes are hexadecimal, or a string that is written so many times. Other values are numbers.",
    }
    file = _object({
        "algorithm": {"const": ALGORITHM},
        "generatorVersion": {"type": "string"},
        "numberOfTests": {"type": "integer", "minimum": 1},
        "header": _WORDS,
        "notes": {"type": "object", "additionalProperties": note},
        "schema": {"const": SCHEMA},
        "testGroups": {"type": "array", "minItems": 1, "items": {"anyOf": [_group(name) for name in CALLS]}},
    })  # fmt: skip
    return f'{{\n{_lines({**head, **file})},\n"$defs":{{\n{_lines(_definitions())}\n}}\n}}\n'
