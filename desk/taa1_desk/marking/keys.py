# SPDX-License-Identifier: MIT
"""Marks the keys that a candidate hands in.

Each value is marked beside the model's, and worked again from the candidate's own
earlier values, so that one wrong key costs once: what follows from it rightly is said
to do so.
"""

from __future__ import annotations

from typing import Collection, Mapping

from taa1 import Sitting

from ..asked import KEYS, LENGTHS
from ..engine import Engine
from ..handed import KeyFile
from ..problems import Problem
from ..records import KINDS, Ring
from ..sheet import KeyMark, KeySheet
from .explain import KEY, Found, Part, Table, of_keys
from .miscopied import slip_of_pen
from .model import keys_of
from .slips import slips_of
from .working import Keys, Steps, ring_of

# What a value is worked from; of each list, the first one that is handed in.
PARENTS = {
    "response 1": (("session key 1",),),
    "key 1": (("session key 1",),),
    "response 2": (("session key 2",),),
    "key 2": (("session key 2",),),
    "D": (("key 1", "session key 1"), ("key 2", "session key 2")),
}
NOT_AGREED = "the working, step by step, is not what the engine answers: nothing is marked"


def own_keys(kind: int, own: Ring, model: Ring) -> str:
    """Which of a candidate's own keys are not the model's, of those that make an entry."""
    names = (KINDS[kind].sealing_key, "c")
    return " and ".join(n.upper() for n in names if getattr(own, n) != getattr(model, n))


class KeyMarker:
    """Marks keys beside one sitting's."""

    def __init__(self, engine: Engine, sitting: Sitting, ring: Ring) -> None:
        """Takes the sitting's ring, and has the engine's calls make the model's other keys."""
        self.engine, self.sitting, self.ring = engine, sitting, ring
        self.steps = Steps(engine)
        self.model: Keys = keys_of(engine, sitting, ring)
        if self.steps.keys(sitting) != self.model:
            raise Problem(NOT_AGREED)
        idle = {1: "2", 2: "1"}.get(sitting.sides, "-")
        self.asked = [name for name in KEYS if not name.endswith(idle)]

    def worked(self, own: Mapping[str, bytes]) -> Keys:
        """Every value as the engine's calls work it from a candidate's own earlier ones, and
        from the model's where there are none."""
        made, masks = dict(self.model), (self.sitting.response_mask, self.sitting.key_mask)
        for side, call, challenge in (
            ("1", "ta12", self.sitting.rand1),
            ("2", "ta22", self.sitting.rand2),
        ):
            if f"session key {side}" in own:
                answer = self.engine.call(call, own[f"session key {side}"], challenge, *masks)
                made[f"response {side}"], made[f"key {side}"] = answer["response"], answer["key"]
        halves = (own.get(name, made[name]) for name in ("key 1", "key 2"))
        made["D"] = self.engine.call("tb4", *halves)["bytes"]
        return made

    def mark(self, file: KeyFile) -> KeySheet:
        """The marks of a candidate's values."""
        own = {
            name: value
            for name, value in file.values.items()
            if len(value) == LENGTHS[name] and name in self.asked
        }
        worked = self.worked(own)
        marks = []
        for name in KEYS:
            if name in file.values:
                has, wants = file.values[name], self.model[name]
                under: tuple[str, ...] = ()
                state = "right" if has == wants else "wrong"
                if name not in self.asked:
                    state, wants = "idle", None
                if state == "wrong" and has == worked[name]:
                    state = "follows"
                    used = (next(filter(own.get, each), "") for each in PARENTS[name])
                    under = tuple(each for each in used if each and own[each] != self.model[each])
                also = next((n for n, v in self.model.items() if v == has and state == "wrong"), "")
                pen = slip_of_pen(has.hex(), wants.hex()) if state == "wrong" and wants else None
                marks.append(KeyMark(name, state, has, wants, under, also, pen or ""))
        ring = ring_of({name: own.get(name, value) for name, value in worked.items()})
        differs = ring != self.ring
        return KeySheet(tuple(marks), file.problems, own, ring if differs else None, file.unread)

    def explain(self, sheet: KeySheet, rest: Collection[Part]) -> list[Found]:
        """Of wrong values that nothing explains yet, and that follow from none: the slips
        that give them under the candidate's own earlier ones."""
        wrong = {
            (KEY, mark.name): mark.has
            for mark in sheet.marks
            if mark.state == "wrong" and (KEY, mark.name) in rest
        }
        if not wrong:
            return []
        table = Table()
        worked = self.steps.keys(self.sitting, sheet.own)
        for slip in slips_of(self.sitting):
            made = Steps(self.engine, slip.altered).keys(self.sitting, sheet.own)
            table.add(slip, {}, {n: v for n, v in made.items() if v != worked[n]})
        right = of_keys(mark.name for mark in sheet.marks if mark.state != "wrong")
        return table.explain(wrong, right, fixed=of_keys(sheet.right))
