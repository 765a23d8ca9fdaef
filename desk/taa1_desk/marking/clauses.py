# SPDX-License-Identifier: MIT
"""The steps of the working by name, and the clauses of 000 in which they stand."""

from __future__ import annotations

# The steps by their methods: the name, and the clause of 000.
STEPS: dict[str, tuple[str, str]] = {
    "inputs": ("the sitting's inputs", "01"),
    "ta11": ("TA11", "5.6.1"),
    "ta21": ("TA21", "5.6.2"),
    "ta41": ("TA41", "5.6.1"),
    "reversed_seed": ("seed reversed", "5.6.2"),
    "ta12": ("TA12", "5.7"),
    "ta22": ("TA22", "5.7"),
    "split": ("response and key", "5.7"),
    "chosen": ("bytes chosen by a mask", "5.7"),
    "tb4": ("TB4", "5.22"),
    "tb7": ("TB7", "5.23"),
    "ring": ("the ring", "01"),
    "listed": ("the list of keys", "01"),
    "exp1": ("EXP1", "5.4.1"),
    "exp2": ("EXP2", "5.4.2"),
    "last_byte": ("EXP2's last byte", "5.4.2"),
    "exp3": ("EXP3", "5.4.3"),
    "exp4": ("EXP4", "5.4.4"),
    "x16": ("X16", "5.14.1"),
    "bl1": ("BL1", "5.2"),
    "left_block": ("left block", "5.2"),
    "chained": ("chaining", "5.2"),
    "right_block": ("right block", "5.2"),
    "entry": ("the entry's fields", "01"),
    "sealed_as": ("the fields that are sealed", "01"),
    "sealing_key": ("the kind's sealing key", "01"),
    "ta31": ("TA31", "5.8"),
    "ta51": ("TA51", "5.10"),
    "ta81": ("TA81", "5.14"),
    "ta91": ("TA91", "5.16"),
    "number_byte": ("number byte", "5.10.1"),
    "joined": ("key and number joined", "5.10.1"),
    "zero_behind": ("zero byte after", "5.8.1"),
    "short_key": ("key derivation", "5.8.2"),
    "long_key": ("key derivation", "5.10.2"),
    "repeated": ("version repeated", "5.8.2"),
    "core_key": ("sealing key ⊕ version", "5.8.2"),
    "dropped": ("byte 8 dropped", "5.8.3"),
    "record": ("the sealed record", "01"),
    "ta61": ("TA61", "5.12"),
    "shrunk_key": ("common key shrunk", "5.12.1"),
    "bc": ("BC", "5.12.0"),
    "strings": ("K-strings", "5.12.3"),
    "encrypted": ("identity encrypted", "5.12.0"),
    "decrypted": ("identity decrypted", "5.12.0"),
    "mixed": ("⊕ with a K-string", "5.12.0"),
    "p": ("P", "5.12.4"),
    "ta61_inverse": ("TA61 undone", "5.12"),
    "p_inverse": ("P undone", "5.12.4"),
    "fields": ("the record's fields", "01"),
    "ta32": ("TA32", "5.9"),
    "ta52": ("TA52", "5.11"),
    "ta82": ("TA82", "5.15"),
    "ta92": ("TA92", "5.17"),
    "zero_back": ("zero byte put back", "5.9.1"),
    "bl2": ("BL2", "5.3"),
    "right_back": ("right block", "5.3"),
    "left_mended": ("left block's last byte", "5.3"),
    "left_back": ("left block", "5.3"),
    "unchained": ("chaining", "5.3"),
    "shrunk": ("inserted bytes left out", "5.5"),
    "failed": ("redundancy checked", "5.9.3"),
    "failed_bits": ("three zero bits checked", "5.11.3"),
    "five_bits": ("number's five bits", "5.11.3"),
    "written": ("the entry written down", "01"),
}


# The clauses of steps that more than one algorithm has, by these.
_DATA = {"TA31": "5.8.1", "TA51": "5.10.1", "TA81": "5.14.1", "TA91": "5.16.1"}
_CORE_KEY = {"TA31": "5.8.2", "TA51": "5.10.2", "TA81": "5.14.2", "TA91": "5.16.2"}
_CORE_KEY |= {"TA32": "5.9.2", "TA52": "5.11.2", "TA82": "5.15.2", "TA92": "5.17.2"}
_OUTPUT = {"TA31": "5.8.3", "TA51": "5.10.3", "TA81": "5.14.3", "TA91": "5.16.3"}
_TEXT = {"TA32": "5.9.1", "TA52": "5.11.1", "TA82": "5.15.1", "TA92": "5.17.1"}
_CHECK = {"TA32": "5.9.3", "TA52": "5.11.3", "TA82": "5.15.3", "TA92": "5.17.3"}
CLAUSES: dict[str, dict[str, str]] = {
    "x16": _DATA,
    "joined": _DATA,
    "zero_behind": _DATA,
    "short_key": _CORE_KEY,
    "long_key": _CORE_KEY,
    "repeated": _CORE_KEY,
    "core_key": _CORE_KEY,
    "dropped": _OUTPUT,
    "zero_back": _TEXT,
    "shrunk": {**_CHECK, "TA32": "5.5.1", "TA52": "5.5.2"},
    "failed": _CHECK,
}


def clause_of(method: str, algorithm: str) -> str:
    """The clause of 000 that a step of an algorithm stands in."""
    return CLAUSES.get(method, {}).get(algorithm, STEPS[method][1])
