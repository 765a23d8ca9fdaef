# SPDX-License-Identifier: MIT
"""The model answer of a sitting: every key on the way, and each entry sealed."""

from __future__ import annotations

from typing import Any, Optional

from taa1 import Sitting

from ..asked import IDLE, KEYS, MADE
from ..engine import Engine, refusals
from ..names import KIND_NAMES, field
from ..reading.sittings import make_ring
from ..records import KINDS, PLAIN, SEALED, Entry, Ring, split, whole


def sides_of(engine: Engine, sitting: Sitting) -> list[dict[str, Optional[bytes]]]:
    """Session key, response and key of either side; no session key, and zeros, of one
    that does not run."""
    idle = {"session_key": None, "response": bytes(4), "key": bytes(10)}
    masks = (sitting.response_mask, sitting.key_mask)
    halves = []
    for bit, derive, answer, challenge in (
        (1, "ta11", "ta12", sitting.rand1),
        (2, "ta21", "ta22", sitting.rand2),
    ):
        if sitting.sides & bit:
            session_key = engine.call(derive, sitting.root, sitting.rs)["bytes"]
            answered = engine.call(answer, session_key, challenge, *masks)
            halves.append({"session_key": session_key, **answered})
        else:
            halves.append(idle)
    return halves


def keys_of(engine: Engine, sitting: Sitting, ring: Ring) -> dict[str, Optional[bytes]]:
    """Every key of the first two generations, and the ring's, by their names."""
    one, two = sides_of(engine, sitting)
    halves = [side[name] for side in (one, two) for name in ("response", "key")]
    return dict(zip(KEYS, (one["session_key"], two["session_key"], *halves, *ring)))


def core_input(engine: Engine, entry: Entry, ring: Ring) -> bytes:
    """The sealing key xor the version, which the core's key is made from: itself for
    kinds 2 to 6, its expansion for kind 1."""
    sealing_key = getattr(ring, KINDS[entry.kind].sealing_key)
    if len(sealing_key) == 16:
        return bytes(engine.call("tb3", sealing_key, entry.version, 16)["bytes"])
    repeated = engine.call("tb1", entry.version, 16)["bytes"]
    return bytes(engine.call("tb4", sealing_key, repeated[:10])["bytes"])


def model_answer(engine: Engine, sitting: Sitting, plain: bytes, where: str) -> dict[str, Any]:
    """The whole model answer, in the shape of its JSON, but with bytes as bytes."""
    made = make_ring(engine, sitting, where)
    ring = Ring.of(made["ring"])
    first, second = sides_of(engine, sitting)
    values = {
        "session key 1": first["session_key"],
        "response 1": made["response1"],
        "key 1": first["key"],
        "session key 2": second["session_key"],
        "response 2": made["response2"],
        "key 2": second["key"],
        "D": ring.d,
        "O": ring.o,
        "C": ring.c,
        "G": ring.g,
    }
    with refusals(where):
        sealed = engine.call("seal_book", ring.data, plain)
    return {
        "sitting": sitting._asdict(),
        "keys": [
            {
                "name": name,
                "field_name": field(name),
                "how": how if sitting.sides & side else IDLE,
                "value": values[name],
            }
            for name, how, side in MADE
        ],
        "entries": [
            _entry(engine, index, Entry.of(record), text, ring)
            for index, (record, text) in enumerate(
                zip(split(plain, PLAIN), split(sealed["out"], SEALED))
            )
        ],
        "sealed": sealed["out"],
        "runs": sealed["runs"],
    }


def _entry(engine: Engine, index: int, entry: Entry, record: bytes, ring: Ring) -> dict[str, Any]:
    kind, names = KINDS[entry.kind], KIND_NAMES[entry.kind]
    return {
        "entry": index,
        "kind": entry.kind,
        "call": kind.seal.upper(),
        "key_name": names.key,
        "version_name": names.version,
        "number_name": names.number,
        "sealed_name": names.sealed,
        "identity": f"{entry.identity:06x}",
        "version": entry.version,
        "key": entry.key,
        "number": entry.number,
        "sealing_key": kind.sealing_key.upper(),
        "core_key_input": core_input(engine, entry, ring),
        "encrypted_identity": f"{whole(record[1:4]):06x}",
        "text": record[6:],
        "record": record,
    }
