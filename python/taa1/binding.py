# SPDX-License-Identifier: MIT
"""The shared object's calls by name, declared for ctypes as the table of calls has them."""

from __future__ import annotations

import ctypes
from ctypes import c_char, c_char_p, c_size_t, c_uint8, c_uint16, c_uint32, c_uint64
from typing import Any, Callable, NamedTuple, Optional, Sequence

from .calls import ANSWERS, CALLS, Field
from .library import VERSION, LibraryError
from .refusals import Refused
from .values import MOST_RECORDS, KeyNumber, Release, Version, expect, fit


class _Number(ctypes.Structure):
    """A version or key number as C takes it."""

    _fields_ = [("value", c_uint16)]


def _string(value: Any) -> tuple[bytes, int]:
    """The bytes of an object with the buffer protocol. ctypes would follow a wrong pointer."""
    if type(value) is not bytes:
        try:
            view = memoryview(value)
        except TypeError:
            raise TypeError(f"bytes expected, not {type(value).__name__}") from None
        if view.itemsize != 1:
            raise TypeError(f"bytes expected, not items of {view.itemsize} bytes")
        value = view.tobytes()
    return value, len(value)


def _room(value: bytearray) -> tuple[Any, int]:
    """A buffer that C may write to."""
    return (c_char * len(value)).from_buffer(value), len(value)


class _Kind(NamedTuple):
    """A kind of parameter: C's types for it, and a value as C takes it.

    ctypes would cut an integer that is too wide, so it is tested before.
    """

    types: tuple[Any, ...]
    passed: Callable[[Any], tuple[Any, ...]]


_KINDS: dict[str, _Kind] = {
    "bytes": _Kind((c_char_p, c_size_t), _string),
    "out": _Kind((c_char_p, c_size_t), _room),
    "version": _Kind((_Number,), lambda value: (_Number(expect(value, Version).value),)),
    "number": _Kind((_Number,), lambda value: (_Number(expect(value, KeyNumber).value),)),
    "mask": _Kind((c_uint16,), lambda value: (fit(value, 16),)),
    "identity": _Kind((c_uint64,), lambda value: (fit(value, 64),)),
    "value": _Kind((c_uint64,), lambda value: (fit(value, 64),)),
}

_NUMBERS: dict[int, Any] = {16: c_uint16, 32: c_uint32, 64: c_size_t}  # by their bits


def _struct(fields: Sequence[Field]) -> type[ctypes.Structure]:
    """The struct of an answer: the refusal's number, then the fields."""
    members: list[tuple[str, Any]] = [("refusal", c_uint32)]
    members += [(f.name, c_uint8 * f.length if f.length else _NUMBERS[f.bits]) for f in fields]
    return type("Answer", (ctypes.Structure,), {"_fields_": members})


_STRUCTS = {name: _struct(fields) for name, fields in ANSWERS.items()}


class _Release(ctypes.Structure):
    """What taa1_release answers."""

    _fields_ = [(name, c_uint32) for name in Release._fields]


def _bound(library: ctypes.CDLL, name: str, answer: Any, types: Sequence[Any]) -> Any:
    """A call of a library. Raises LibraryError if it has none of that name."""
    try:
        bound = library[f"taa1_{name}"]
    except AttributeError:
        raise LibraryError(f"{library._name} has no call taa1_{name}") from None
    bound.restype = answer
    bound.argtypes = types
    return bound


class Binding:
    """The calls of a shared object."""

    def __init__(self, path: str) -> None:
        """Raises LibraryError if there is no library at the path, it lacks a call, or the
        first number of its release is not that of this package."""
        try:
            library = ctypes.CDLL(path)
        except OSError as error:
            raise LibraryError(f"{path} cannot be loaded: {error}") from None
        answer = _bound(library, "release", _Release, ())()
        self.release = Release(answer.major, answer.minor, answer.patch)
        if str(self.release.major) != VERSION.partition(".")[0]:
            said = ".".join(map(str, self.release))
            raise LibraryError(f"{path} is of release {said}, which this package, {VERSION}, cannot use")
        self._calls: dict[str, Any] = {}
        for name, call in CALLS.items():
            types = [each for p in call.parameters for each in _KINDS[p.kind].types]
            self._calls[name] = _bound(library, name, _STRUCTS[call.answer], types)

    def answer(self, name: str, *values: Any, room: Optional[int] = None) -> dict[str, Any]:
        """The fields of a call's answer after the refusal, bytes and numbers.

        The values are the parameters' without the output, whose room is that for
        the most records unless it is given; the last field, `out`, is what was
        written. Raises Refused; a TypeError or OverflowError says which value is wrong.
        """
        call = CALLS[name]
        out: Optional[bytearray] = None
        if call.record:
            out = bytearray(MOST_RECORDS * call.record if room is None else room)
            values = (*values, out)
        passed: list[Any] = []
        for parameter, value in zip(call.parameters, values):
            try:
                passed += _KINDS[parameter.kind].passed(value)
            except (TypeError, OverflowError) as error:
                position = call.parameters.index(parameter) + 1
                said = f"{name}, argument {position} ({parameter.name}): {error}"
                raise type(error)(said) from None
        answer = self._calls[name](*passed)
        if answer.refusal:
            raise Refused(answer.refusal, *(getattr(answer, at, None) for at in ("index", "runs")))
        fields: dict[str, Any] = {}
        for field in call.fields:
            value = getattr(answer, field.name)
            fields[field.name] = bytes(value) if field.length else value
        if out is not None:
            fields["out"] = bytes(out[: fields["written"]])
        return fields
