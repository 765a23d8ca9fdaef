# SPDX-License-Identifier: MIT
"""What sealed records unseal to, by the engine's own calls: the one unsealing."""

from __future__ import annotations

from ..engine import Engine
from ..records import KINDS, Ring, whole
from ..sheet import Opened as Said
from .working import Opened, Unsealed


def unsealed(engine: Engine, kind: int, text: bytes, sealing_key: bytes, version: int) -> Unsealed:
    """What a text unseals to as a kind."""
    fields = engine.call(KINDS[kind].unseal, text, sealing_key, version)
    return Unsealed(fields["key"], fields.get("number"), fields["failed_checks"])


def identity_of(engine: Engine, ring: Ring, record: bytes) -> int:
    """The identity that a record's encrypted one decrypts to."""
    identity: int = engine.call("ta61_inverse", ring.c, whole(record[1:4]))["identity"]
    return identity


def opened(engine: Engine, ring: Ring, record: bytes) -> Opened:
    """What a record of one of the kinds opens to, whatever checks fail."""
    kind, version = record[0], whole(record[4:6])
    text = unsealed(engine, kind, record[6:], getattr(ring, KINDS[kind].sealing_key), version)
    return Opened(kind, identity_of(engine, ring, record), version, *text)


def said_by(engine: Engine, ring: Ring, record: bytes) -> Said:
    """What a record says: no key where there is no such kind, or where a check fails."""
    if record[0] not in KINDS:
        return Said(record[0], identity_of(engine, ring, record), whole(record[4:6]), None, None, ())
    found = opened(engine, ring, record)
    failed = tuple(bit for bit in range(KINDS[found.kind].checks) if found.failed >> bit & 1)
    key, number = (None, None) if failed else (found.key, found.number)
    return Said(found.kind, found.identity, found.version, key, number, failed)
