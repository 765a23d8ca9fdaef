# SPDX-License-Identifier: MIT
"""The engine's calls in one table, but for `release`: names, parameters, lengths and answers.

What ctypes is told, what the typed methods test and the desk's options and help come
from it. Its rows are made from include/taa1.h and the definitions; tests/desk compares
their lengths with what the engine refuses, and the methods' parameters with them.
"""

from __future__ import annotations

from typing import NamedTuple, Optional

IDENTITY = 6  # hexadecimal digits


class Parameter(NamedTuple):
    """One input of a call, or its output."""

    name: str
    kind: str  # bytes, version, number, mask, identity, value or out
    length: Optional[int] = None  # of bytes: the one length that is taken, or any
    # of an output: the bytes that are written for each record


class Field(NamedTuple):
    """One field of an answer: so many bytes, or a number of so many bits."""

    name: str
    length: int = 0
    bits: int = 0
    digits: int = 0  # of a number that is written in hexadecimal


class Call(NamedTuple):
    """One call: its answer's name, its parameters in C's order."""

    name: str
    answer: str
    parameters: tuple[Parameter, ...]

    @property
    def purpose(self) -> str:
        """What it is for."""
        return PURPOSES[self.name]

    @property
    def fields(self) -> tuple[Field, ...]:
        """The answer's fields after the refusal."""
        return ANSWERS[self.answer]

    @property
    def inputs(self) -> tuple[Parameter, ...]:
        """The parameters without the output, which comes last."""
        return tuple(p for p in self.parameters if p.kind != "out")

    @property
    def record(self) -> int:
        """How many bytes are written for each record; 0 if the call has no output."""
        last = self.parameters[-1]
        return last.length or 0 if last.kind == "out" else 0


def _text(name: str, length: int) -> Field:
    return Field(name, length=length)


def _number(name: str, bits: int = 32) -> Field:
    return Field(name, bits=bits)


def _ssi(name: str) -> Field:
    return Field(name, bits=32, digits=IDENTITY)


_SIZE = 64  # bits of C's size_t

# The answers of include/taa1.h, without `taa1_` and the refusal.
ANSWERS: dict[str, tuple[Field, ...]] = {
    # begin answers, made by `contracts write`
    "bytes8": (_text("bytes", 8),),
    "bytes10": (_text("bytes", 10),),
    "bytes15": (_text("bytes", 15),),
    "bytes16": (_text("bytes", 16),),
    "authentication": (_text("response", 4), _text("key", 10)),
    "identity": (_ssi("identity"),),
    "value": (_number("value"),),
    "cell": (_number("location_area"), _number("carrier"), _number("colour_code")),
    "carrier_identity": (_number("carrier"), _ssi("identity")),
    "unsealed": (_text("key", 10), _number("failed_checks", 16)),
    "unsealed_numbered": (_text("key", 10), _number("number", 16), _number("failed_checks", 16)),
    "unsealed_group": (_text("key", 12), _number("failed_checks", 16)),
    "ring_made": (_text("ring", 52), _text("response1", 4), _text("response2", 4)),
    "card": (_text("key", 12), _text("card", 16)),
    "book_answer": (_number("index", _SIZE), _number("written", _SIZE)),
    "counted_answer": (_number("index", _SIZE), _number("written", _SIZE), _number("runs", _SIZE)),
    "tally": (_number("flips"), _number("total"), _number("least"), _number("greatest")),
    # end answers
}


def _bytes(name: str, length: Optional[int] = None) -> Parameter:
    return Parameter(name, "bytes", length)


def _value(name: str) -> Parameter:
    return Parameter(name, "value")


def _identity(name: str) -> Parameter:
    return Parameter(name, "identity")


def _mask(name: str) -> Parameter:
    return Parameter(name, "mask")


def _out(record: int) -> Parameter:
    return Parameter("out", "out", record)


_VERSION = Parameter("version", "version")
_NUMBER = Parameter("number", "number")

_ALL = (
    # begin calls, made by `contracts write`
    Call("encrypt", "bytes8", (_bytes("key", 16), _bytes("block", 8))),
    Call("decrypt", "bytes8", (_bytes("key", 16), _bytes("block", 8))),
    Call("encrypt_register", "bytes8", (_bytes("key", 16), _bytes("block", 8))),
    Call("decrypt_register", "bytes8", (_bytes("key", 16), _bytes("block", 8))),
    Call("register", "bytes16", (_bytes("key", 16), _value("steps"))),
    Call("diffusion", "tally", (_bytes("records"),)),
    Call("ta11", "bytes16", (_bytes("root", 16), _bytes("seed", 10))),
    Call("ta21", "bytes16", (_bytes("root", 16), _bytes("seed", 10))),
    Call("ta41", "bytes16", (_bytes("root", 16), _bytes("seed", 10))),
    Call(
        "ta12",
        "authentication",
        (
            _bytes("session_key", 16),
            _bytes("challenge", 10),
            _mask("response_mask"),
            _mask("key_mask"),
        ),
    ),
    Call(
        "ta22",
        "authentication",
        (
            _bytes("session_key", 16),
            _bytes("challenge", 10),
            _mask("response_mask"),
            _mask("key_mask"),
        ),
    ),
    Call(
        "ta12_class",
        "book_answer",
        (
            _bytes("session_key", 16),
            _bytes("challenges"),
            _mask("response_mask"),
            _mask("key_mask"),
            _out(14),
        ),
    ),
    Call("ta31", "bytes15", (_bytes("cipher_key", 10), _VERSION, _bytes("sealing_key", 10))),
    Call("ta32", "unsealed", (_bytes("text", 15), _bytes("sealing_key", 10), _VERSION)),
    Call(
        "ta51",
        "bytes15",
        (_bytes("cipher_key", 10), _VERSION, _bytes("sealing_key", 16), _NUMBER),
    ),
    Call("ta52", "unsealed_numbered", (_bytes("text", 15), _bytes("sealing_key", 16), _VERSION)),
    Call("ta61", "identity", (_bytes("common_key", 10), _identity("identity"))),
    Call("ta61_inverse", "identity", (_bytes("common_key", 10), _identity("encrypted_identity"))),
    Call("ta71", "bytes10", (_bytes("key1", 10), _bytes("key2", 10))),
    Call(
        "ta81",
        "bytes15",
        (_bytes("cipher_key", 10), _VERSION, _bytes("sealing_key", 16), _NUMBER),
    ),
    Call("ta82", "unsealed_numbered", (_bytes("text", 15), _bytes("sealing_key", 16), _VERSION)),
    Call("ta91", "bytes15", (_bytes("group_key", 12), _VERSION, _bytes("sealing_key", 16))),
    Call("ta92", "unsealed_group", (_bytes("text", 15), _bytes("sealing_key", 16), _VERSION)),
    Call("ta101", "bytes16", (_bytes("ks", 16), _bytes("gck0", 10), _identity("mni"))),
    Call("tb1", "bytes16", (_value("value"), _value("width"))),
    Call("tb2", "bytes16", (_bytes("input", 16),)),
    Call("tb3", "bytes16", (_bytes("input", 16), _value("value"), _value("width"))),
    Call("tb4", "bytes10", (_bytes("input1", 10), _bytes("input2", 10))),
    Call(
        "tb5",
        "bytes10",
        (
            _bytes("cipher_key", 10),
            _value("location_area"),
            _value("carrier"),
            _value("colour_code"),
        ),
    ),
    Call("tb6", "bytes10", (_bytes("cipher_key", 10), _value("carrier"), _identity("identity"))),
    Call("tb7", "bytes16", (_bytes("group_key", 12),)),
    Call("restore_card", "card", (_bytes("card", 16), _mask("unreadable"))),
    Call("tb1_inverse", "value", (_bytes("result", 16), _value("width"))),
    Call("tb3_inverse", "value", (_bytes("input", 16), _bytes("result", 16), _value("width"))),
    Call("tb5_inverse", "cell", (_bytes("cipher_key", 10), _bytes("result", 10))),
    Call("tb6_inverse", "carrier_identity", (_bytes("cipher_key", 10), _bytes("result", 10))),
    Call(
        "ring",
        "ring_made",
        (
            _bytes("root", 16),
            _bytes("rs", 10),
            _bytes("rso", 10),
            _bytes("rand1", 10),
            _bytes("rand2", 10),
            _bytes("c", 10),
            _bytes("group_key", 12),
            _value("sides"),
            _mask("response_mask"),
            _mask("key_mask"),
        ),
    ),
    Call("seal_book", "counted_answer", (_bytes("ring", 52), _bytes("plain"), _out(21))),
    Call("open_book", "counted_answer", (_bytes("ring", 52), _bytes("sealed"), _out(18))),
    Call("check_plain", "book_answer", (_bytes("plain"),)),
    Call("lineage", "book_answer", (_bytes("sheet"), _out(16))),
    Call("plain_to_columns", "book_answer", (_bytes("plain"), _out(18))),
    Call("plain_from_columns", "book_answer", (_bytes("columns"), _out(18))),
    Call("sealed_to_columns", "book_answer", (_bytes("sealed"), _out(21))),
    Call("sealed_from_columns", "book_answer", (_bytes("columns"), _out(21))),
    # end calls
)

CALLS: dict[str, Call] = {call.name: call for call in _ALL}

# What each call is for, in the desk's words.
PURPOSES: dict[str, str] = {
    "encrypt": "a block, encrypted by HURDLE-II",
    "decrypt": "a block, decrypted by HURDLE-II",
    "encrypt_register": "encrypt, with one register of 16 bytes",
    "decrypt_register": "decrypt, with one register of 16 bytes",
    "register": "the register after so many steps",
    "ta11": "the session key for ta12",
    "ta21": "the session key for ta22",
    "ta41": "the session key that seals kinds 2 to 4",
    "ta12": "response and key for a challenge",
    "ta22": "response and key for a challenge, the other side",
    "ta12_class": "ta12 for each challenge of a class, up to 1,024",
    "ta31": "a cipher key, sealed: kind 1",
    "ta32": "the cipher key that ta31 sealed",
    "ta51": "a cipher key and a number up to 31, sealed: kinds 2 and 5",
    "ta52": "the cipher key and number that ta51 sealed",
    "ta61": "an identity, encrypted",
    "ta61_inverse": "the identity that ta61 encrypted",
    "ta71": "a cipher key from two",
    "ta81": "a cipher key and a number, sealed: kinds 3 and 6",
    "ta82": "the cipher key and number that ta81 sealed",
    "ta91": "a group key, sealed: kind 4",
    "ta92": "the group key that ta91 sealed",
    "ta101": "a session key from another, a group key and a network identity",
    "tb1": "a value of 16 to 32 bits, repeated",
    "tb2": "the input itself",
    "tb3": "the input, xor tb1",
    "tb4": "the xor of two inputs",
    "tb5": "a cipher key for one cell",
    "tb6": "a cipher key for one identity on a carrier",
    "tb7": "a group key as on a card: the xor after each three bytes",
    "tb1_inverse": "the value that tb1 repeated",
    "tb3_inverse": "the value that tb3 took",
    "tb5_inverse": "the cell that tb5 took",
    "tb6_inverse": "the carrier and identity that tb6 took",
    "restore_card": "a card with unreadable bytes, restored",
    "ring": "a ring of sealing keys, and both responses",
    "seal_book": "a plain book, sealed",
    "open_book": "a sealed book, opened",
    "check_plain": "whether a plain book is well formed",
    "plain_to_columns": "a plain book by columns",
    "plain_from_columns": "the plain book that was filed by columns",
    "sealed_to_columns": "a sealed book by columns",
    "sealed_from_columns": "the sealed book that was filed by columns",
    "lineage": "the keys of a lineage sheet",
    "diffusion": "how many bits one flipped bit changes",
}
