# SPDX-License-Identifier: MIT
"""The table of the slips that candidates make."""

from __future__ import annotations

from taa1 import Sitting

from ..words import listed
from .core_slips import CORE_SLIPS
from .entry_slips import ENTRY_SLIPS, RECORD_SLIPS
from .key_slips import RING_SLIPS
from .slip import IDLE, Slip, alone

SLIPS: tuple[Slip, ...] = (*RING_SLIPS, *CORE_SLIPS, *ENTRY_SLIPS, *RECORD_SLIPS)
# Fields of another entry: no step, but found among the model's entries.
EXCHANGED: dict[str, Slip] = {
    "identity": Slip("two entries' identities exchanged", {}),
    "version": Slip("two entries' versions exchanged", {}),
    "version in sealing": Slip("two entries' versions exchanged in sealing", {}, at=("version repeated", "5.8.2")),
    "key": Slip("two entries' keys exchanged", {}),
    "text": Slip("two entries' texts exchanged", {}),
}
ANOTHERS: dict[str, Slip] = {
    "identity": Slip("another entry's identity", {}),
    "version": Slip("another entry's version", {}),
    "version in sealing": Slip("another entry's version in sealing", {}, at=("version repeated", "5.8.2")),
    "key": Slip("another entry's key", {}),
    "text": Slip("another entry's text", {}),
}
EXCHANGES = (*EXCHANGED.values(), *ANOTHERS.values())


def slips_of(sitting: Sitting) -> list[Slip]:
    """The slips that can be made with a sitting: where one side does not run, none that
    alters its challenge, since there is one that does the same to the other's alone; and
    in some algorithms alone, in those that run."""
    idle = {1: "rand2", 2: "rand1"}.get(sitting.sides)

    def fits(slip: Slip) -> bool:
        if idle is None or "inputs" not in slip.altered:
            return True
        taken: Sitting = slip.altered["inputs"](None, sitting)
        return taken.sides != sitting.sides or getattr(taken, idle) == getattr(sitting, idle)

    made: dict[str, Slip] = {}
    for slip in filter(fits, SLIPS):
        runs = tuple(each for each in slip.algorithms if each not in IDLE[sitting.sides])
        if runs and slip.name == alone(slip.family, listed(slip.algorithms)):
            slip = slip._replace(name=alone(slip.family, listed(runs)), algorithms=runs)
        if runs or not slip.algorithms:
            made.setdefault(slip.name, slip)
    return list(made.values())
