# SPDX-License-Identifier: MIT
"""The slips in the keys of the first two generations, and in the ring."""

from __future__ import annotations

from typing import Any, Callable, Mapping, Optional

from taa1 import Sitting

from ..records import Ring
from ..words import listed
from .slip import EACH_SIDE, Alteration, Slip, added, exchanged, limited
from .working import Keys, Steps


SIDE_OF = {"ta12": "1", "ta22": "2"}


def _sitting(name: str, change: Callable[[Sitting], Sitting], *inputs: str) -> Slip:
    return Slip(name, {"inputs": lambda steps, sitting: change(sitting)}, inputs=inputs)


def _reversed(name: str, *inputs: str) -> Slip:
    """Inputs of the sitting with their bytes in the other order."""
    return _sitting(
        name, lambda s: s._replace(**{each: getattr(s, each)[::-1] for each in inputs}), *inputs
    )


def _taken(name: str, **taken: str) -> Slip:
    """Inputs of the sitting in the place of others."""
    return _sitting(
        name,
        lambda s: s._replace(**{wanted: getattr(s, used) for wanted, used in taken.items()}),
        *taken,
    )


def _sides(name: str, sides: Callable[[int], int]) -> Slip:
    return _sitting(name, lambda s: s._replace(sides=sides(s.sides)))


def mirrored(mask: int) -> int:
    """A mask whose bits are counted from the other end."""
    return int(f"{mask:016b}"[::-1], 2)


def _ring(name: str, **taken: Callable[[Steps, Sitting, Ring], Any]) -> Slip:
    """Other keys in the ring's places."""

    def alter(steps: Steps, sitting: Sitting, *keys: bytes) -> Ring:
        ring = Ring(*keys)
        return ring._replace(**{key: make(steps, sitting, ring) for key, make in taken.items()})

    return Slip(name, {"ring": alter})


def _of_o(steps: Steps, sitting: Sitting, ring: Ring) -> bytes:
    return ring.o[:10]


def _exp4_of_d(steps: Steps, sitting: Sitting, ring: Ring) -> bytes:
    return steps.exp4(ring.d)


def _d_and_zeros(steps: Steps, sitting: Sitting, ring: Ring) -> bytes:
    return ring.d + bytes(6)


def _ta41(steps: Steps, sitting: Sitting, derive: Callable[[bytes, bytes], bytes]) -> bytes:
    """O under a session key."""
    return steps.ta41(derive(sitting.root, sitting.rs), sitting.rso)


def _sessions(name: str, **taken: str) -> Slip:
    """TA12 or TA22 under the other side's session key, where both run."""

    def alter(steps: Steps, sitting: Sitting, own: Optional[Mapping[str, bytes]] = None) -> Keys:
        own = own or {}
        if steps.inputs(sitting).sides != 3:
            return Steps.keys(steps, sitting, own)
        made = {side: run(sitting.root, sitting.rs) for side, run in (("1", steps.ta11), ("2", steps.ta21))}
        used = {
            f"session key {SIDE_OF[name]}": own.get(f"session key {side}", made[side])
            for name, side in taken.items()
        }
        return Steps.keys(steps, sitting, {**own, **used})

    at = listed([each.upper() for each in taken])
    return Slip(name, {"keys": alter}, at=(at, "5.7"))


def _lines(*sides: str) -> Slip:
    """A side's response and key in each other's lines."""

    def alter(steps: Steps, keys: Keys) -> Keys:
        made = dict(keys)
        for side in sides:
            if keys[f"session key {side}"]:
                made[f"response {side}"], made[f"key {side}"] = keys[f"key {side}"], keys[f"response {side}"]
        return made

    names = listed([f"response {side} and key {side}" for side in sides])
    return Slip(f"{names} in each other's lines", {"listed": alter})


def _parts(name: str, make: Callable[[bytes, bytes], bytes]) -> Slip:
    """D of parts of both keys."""
    return Slip(f"TB4 as {name}", {"tb4": lambda steps, one, two: make(one, two)})


# Parts of both keys joined, ten bytes together.
_JOINED = {
    "the first half of key 1 and the second of key 2": lambda one, two: one[:5] + two[5:],
    "the first half of key 2 and the second of key 1": lambda one, two: two[:5] + one[5:],
    "the first halves of key 1 and key 2": lambda one, two: one[:5] + two[:5],
    "the first halves of key 2 and key 1": lambda one, two: two[:5] + one[:5],
    "the second halves of key 1 and key 2": lambda one, two: one[5:] + two[5:],
    "the second halves of key 2 and key 1": lambda one, two: two[5:] + one[5:],
    "the second half of key 1 and the first of key 2": lambda one, two: one[5:] + two[:5],
    "the second half of key 2 and the first of key 1": lambda one, two: two[5:] + one[:5],
    "bytes of key 1 and key 2 in turn": lambda one, two: bytes(
        (one, two)[at % 2][at] for at in range(10)
    ),
    "bytes of key 2 and key 1 in turn": lambda one, two: bytes(
        (two, one)[at % 2][at] for at in range(10)
    ),
    "the first five bytes of key 1 and key 2, in turn": lambda one, two: bytes(
        (one, two)[at % 2][at // 2] for at in range(10)
    ),
    "the first five bytes of key 2 and key 1, in turn": lambda one, two: bytes(
        (two, one)[at % 2][at // 2] for at in range(10)
    ),
}


def _listed(value: str) -> Slip:
    """Both sides' values in each other's place, in the list alone."""
    one, two = f"{value} 1", f"{value} 2"

    def alter(steps: Steps, keys: Keys) -> Keys:
        runs = keys["session key 1"] and keys["session key 2"]
        return {**keys, one: keys[two], two: keys[one]} if runs else keys

    return Slip(f"{value}s 1 and 2 exchanged", {"listed": alter})


def _key_as(choose: Callable[[bytes, int], bytes]) -> Mapping[str, Alteration]:
    """The key by another choice than its mask's; it takes the output and the response's mask."""
    return {
        "split": lambda steps, output, response_mask, key_mask: (
            steps.chosen(output, response_mask),
            choose(output, response_mask),
        )
    }


def _left_over(output: bytes, mask: int) -> bytes:
    return bytes(byte for i, byte in enumerate(output) if not mask >> (15 - i) & 1)


def _masked(change: Callable[[int], int]) -> Mapping[str, Alteration]:
    """Bytes chosen by other masks."""
    return {"chosen": lambda steps, output, mask: Steps.chosen(steps, output, change(mask))}


_SPLITS: dict[str, Mapping[str, Alteration]] = {
    "bytes of the masks exchanged": _masked(exchanged),
    "masks counted from the left": _masked(mirrored),
    "bytes chosen by the masks lowest first": {
        "chosen": lambda steps, output, mask: Steps.chosen(steps, output, mask)[::-1]
    },
    "first ten bytes for the key's mask": _key_as(lambda output, mask: output[:10]),
    "middle ten bytes for the key's mask": _key_as(lambda output, mask: output[3:13]),
    "first ten bytes that the response leaves for the key's mask": _key_as(
        lambda output, mask: _left_over(output, mask)[:10]
    ),
}


def _ta71(steps: Steps, key1: bytes, key2: bytes) -> bytes:
    made: bytes = steps.engine.call("ta71", key1, key2)["bytes"]
    return made


RING_SLIPS: tuple[Slip, ...] = (
    _taken("RAND1 and RAND2 exchanged", rand1="rand2", rand2="rand1"),
    _taken("RAND1 for RAND2", rand2="rand1"),
    _taken("RAND2 for RAND1", rand1="rand2"),
    _reversed("TA12's challenge reversed (RAND1)", "rand1"),
    _reversed("TA22's challenge reversed (RAND2)", "rand2"),
    _reversed("both challenges reversed (RAND1 and RAND2)", "rand1", "rand2"),
    _taken("RS and RSO exchanged", rs="rso", rso="rs"),
    _taken("RS for RSO", rso="rs"),
    _taken("RSO for RS", rs="rso"),
    _reversed("RS reversed", "rs"),
    _reversed("RSO reversed", "rso"),
    _reversed("root reversed", "root"),
    _reversed("C reversed", "c"),
    _reversed("group key reversed", "group_key"),
    _sides("TA12 alone", lambda sides: 1),
    _sides("TA22 alone", lambda sides: 2),
    _sides("both sides for one", lambda sides: 3),
    _taken("masks exchanged", response_mask="key_mask", key_mask="response_mask"),
    *(slip for name, altered in _SPLITS.items() for slip in limited(name, altered, EACH_SIDE)),
    Slip("TA11 for TA21", {"reversed_seed": lambda steps, seed: seed}),
    Slip("TA21 for TA11", {"ta11": lambda steps, root, seed: steps.ta21(root, seed)}),
    Slip(
        "TA21's seed reversed digit by digit",
        {"reversed_seed": lambda steps, seed: bytes.fromhex(seed.hex()[::-1])},
    ),
    Slip(
        "TA21's seed reversed bit by bit",
        {"reversed_seed": lambda steps, seed: int(f"{_int(seed):080b}"[::-1], 2).to_bytes(10, "big")},
    ),
    Slip(
        "root for the session keys",
        {"ta11": lambda steps, root, seed: root, "ta21": lambda steps, root, seed: root},
    ),
    Slip("TA71 for TB4", {"tb4": _ta71}),
    Slip("key 1 for D, no TB4", {"tb4": lambda steps, one, two: one}),
    Slip("key 2 for D, no TB4", {"tb4": lambda steps, one, two: two}),
    Slip("TB4 as a sum", {"tb4": lambda steps, one, two: added(one, two)}),
    *(_parts(name, make) for name, make in _JOINED.items()),
    _sessions("session keys 1 and 2 exchanged in use", ta12="2", ta22="1"),
    _sessions("session key 1 in TA22, too", ta22="1"),
    _sessions("session key 2 in TA12, too", ta12="2"),
    _ring("C for D", d=lambda steps, s, r: r.c),
    _ring("D for C", c=lambda steps, s, r: r.d),
    _ring("C and D exchanged", c=lambda steps, s, r: r.d, d=lambda steps, s, r: r.c),
    _ring("O for G", g=lambda steps, s, r: r.o),
    _ring("G for O", o=lambda steps, s, r: r.g),
    _ring("G and O exchanged", g=lambda steps, s, r: r.o, o=lambda steps, s, r: r.g),
    _ring("D and O exchanged: O's first ten bytes, EXP4 of D", d=_of_o, o=_exp4_of_d),
    _ring("D and O exchanged: O's first ten bytes, D and zeros", d=_of_o, o=_d_and_zeros),
    _ring("O's first ten bytes for D", d=_of_o),
    _ring("EXP4 of D for O", o=_exp4_of_d),
    _ring("D and zeros for O", o=_d_and_zeros),
    _ring("zeros and D for O", o=lambda steps, s, r: bytes(6) + r.d),
    _ring("root for O", o=lambda steps, s, r: s.root),
    _ring("TA41 under session key 1", o=lambda steps, s, r: _ta41(steps, s, steps.ta11)),
    _ring("TA41 under session key 2", o=lambda steps, s, r: _ta41(steps, s, steps.ta21)),
    Slip("group key filled with zeros for its TB7 form", {"tb7": lambda _, key: key + bytes(4)}),
    Slip("zeros and group key for its TB7 form", {"tb7": lambda _, key: bytes(4) + key}),
    Slip("G as X16 of the group key, not TB7", {"tb7": lambda steps, key: steps.x16(key)}),
    _listed("session key"),
    _listed("response"),
    _listed("key"),
    _lines("1"),
    _lines("2"),
    _lines("1", "2"),
)


def _int(data: bytes) -> int:
    return int.from_bytes(data, "big")
