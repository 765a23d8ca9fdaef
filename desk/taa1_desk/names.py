# SPDX-License-Identifier: MIT
"""The field's names beside the desk's: one table of keys, one of kinds.

The desk's names are those of document 01: root, D, kind 2. A custodian says K, DCK, an
SCK under KSO, as EN 300 392-7 does; 000 numbers its inputs and outputs only.
"""

from __future__ import annotations

from typing import NamedTuple, Optional

from .records import KINDS


class Term(NamedTuple):
    """A value of the sitting, the working or an entry: its two names, and what it is."""

    name: str  # the desk's
    field: str  # the field's
    what: str


_ALL = (
    Term("root", "K", "authentication key"),
    Term("RS", "RS", "random seed"),
    Term("RSO", "RSO", "random seed for OTAR, over-the-air rekeying"),
    Term("RAND1", "RAND1", "the network's challenge to the radio"),
    Term("RAND2", "RAND2", "the radio's challenge to the network"),
    Term("session key 1", "KS", "session key by which the radio proves itself"),
    Term("session key 2", "KS'", "session key by which the network proves itself"),
    Term("response 1", "RES1", "the radio's response"),
    Term("response 2", "RES2", "the network's response"),
    Term("key 1", "DCK1", "the radio's half of D"),
    Term("key 2", "DCK2", "the network's half of D"),
    Term("D", "DCK", "derived cipher key"),
    Term("O", "KSO", "session key for OTAR"),
    Term("C", "CCK", "common cipher key, by which identities are encrypted"),
    Term("group key", "GSKO", "group session key for OTAR"),
    Term("G", "EGSKO", "the group session key, extended"),
    Term("identity", "SSI", "short subscriber identity"),
    Term("encrypted identity", "ESI", "encrypted short identity"),
    Term("flag", "MF", "manipulation flag"),
)
TERMS: dict[str, Term] = {term.name: term for term in _ALL}
# The names in a sitting's file, and the values that they name.
IN_SITTING = {
    "root": "root",
    "rs": "RS",
    "rso": "RSO",
    "rand1": "RAND1",
    "rand2": "RAND2",
    "c": "C",
    "group_key": "group key",
    "sides": "sides",
    "response_mask": "response mask",
    "key_mask": "key mask",
}
SIDES = {
    1: "TA12 alone: the radio proves itself",
    2: "TA22 alone: the network proves itself",
    3: "TA12 and TA22: radio and network prove themselves",
}


class KindNames(NamedTuple):
    """The field's names of what a kind seals."""

    key: str
    sealed: str
    version: str
    number: Optional[str] = None
    highest: int = 0  # of the numbers, from 0 on


_SCK = KindNames("SCK", "SSCK", "SCK-VN", "SCKN", 31)
_GCK = KindNames("GCK", "SGCK", "GCK-VN", "GCKN", 0xFFFF)
KIND_NAMES: dict[int, KindNames] = {
    1: KindNames("CCK", "SCCK", "CCK-id"),
    2: _SCK,
    3: _GCK,
    4: KindNames("GSKO", "SGSKO", "GSKO-VN"),
    5: _SCK,
    6: _GCK,
}
KEY_WORDS = {
    "CCK": "common cipher key",
    "SCK": "static cipher key",
    "GCK": "group cipher key",
    "GSKO": "group session key for OTAR",
}


def field(name: str) -> str:
    """The field's name of a value; the desk's where the field has none."""
    return TERMS[name].field if name in TERMS else name


def both(name: str) -> str:
    """Both names: `D (DCK)`, or one where they are the same."""
    return name if field(name) == name else f"{name} ({field(name)})"


def sealing(kind: int) -> str:
    """What a kind seals, and under which key: `SCK under O (KSO)`."""
    return f"{KIND_NAMES[kind].key} under {both(KINDS[kind].sealing_key.upper())}"


def numbers(kind: int) -> str:
    """The number of a kind's entries, and its range."""
    names = KIND_NAMES[kind]
    return f"{names.number}, 0 to {names.highest}" if names.number else "-"


_PARAMETERS = {
    **{name: TERMS[value].field for name, value in IN_SITTING.items() if value in TERMS},
    "common_key": "CCK",
    "identity": "SSI",
    "encrypted_identity": "ESI",
    "ks": "KS",
    "mni": "MNI",
}
_OF_CALLS = {
    "ta11": {"seed": "RS"},
    "ta21": {"seed": "RS"},
    "ta41": {"seed": "RSO"},
    "ta12": {"session_key": "KS", "challenge": "RAND1"},
    "ta12_class": {"session_key": "KS", "challenges": "RAND1"},
    "ta22": {"session_key": "KS'", "challenge": "RAND2"},
}


def parameter_field(call: str, parameter: str) -> str:
    """The field's name of a call's parameter; nothing where it has none."""
    kinds = [kind for kind, shape in KINDS.items() if call in (shape.seal, shape.unseal)]
    if kinds:
        names = KIND_NAMES[kinds[0]]
        of_kind = {
            "cipher_key": names.key,
            "group_key": names.key,
            "text": names.sealed,
            "version": names.version,
            "number": numbers(kinds[0]),
            "sealing_key": " or ".join(field(KINDS[kind].sealing_key.upper()) for kind in kinds),
        }
        return of_kind[parameter]
    return _OF_CALLS.get(call, {}).get(parameter, _PARAMETERS.get(parameter, ""))


KIND_HEADS = ("kind", "seals", "bytes", "number", "version", "by", "under", "sealed text")


def kind_rows() -> list[tuple[str, ...]]:
    """The table of the kinds, a row each."""
    return [
        (
            str(kind),
            names.key,
            str(KINDS[kind].key),
            numbers(kind),
            names.version,
            KINDS[kind].seal.upper(),
            both(KINDS[kind].sealing_key.upper()),
            names.sealed,
        )
        for kind, names in KIND_NAMES.items()
    ]
