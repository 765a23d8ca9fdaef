# SPDX-License-Identifier: MIT
"""Which slips explain what is wrong: those that give it, byte for byte.

What a slip can give is cut into parts, which are explained apart: an entry's identity,
the rest of it, a key. So two slips at once are both found, each in parts of its own.
"""

from __future__ import annotations

from collections import defaultdict
from typing import Any, Callable, Collection, Iterable, Mapping, NamedTuple, Optional, Sequence

from ..asked import KEYS
from ..sheet import Explained
from ..words import listed
from .slip import Slip
from .slips import ANOTHERS, EXCHANGED

IDENTITY, TEXT = "identity", "text"  # the parts of an entry that slips explain apart
Part = tuple[int, str]  # an entry's place, and the part of it; of a key, KEY and its name
KEY = -1
NO_KEYS: Mapping[str, Any] = {}


class Found(NamedTuple):
    """A slip, the parts that it explains, and the slips that explain the same as well."""

    slip: Slip
    parts: frozenset[Part]
    others: tuple[Slip, ...]


def of_keys(names: Iterable[str]) -> list[Part]:
    """The parts that keys of these names are."""
    return [(KEY, name) for name in names]


def altered(
    made: Mapping[int, Mapping[str, Any]], truth: Sequence[Mapping[str, Any]]
) -> dict[Part, Any]:
    """The parts of entries, by their places, that are not the model's."""
    return {
        (place, part): value
        for place, parts in made.items()
        for part, value in parts.items()
        if value != truth[place][part]
    }


class Table:
    """What each slip gives, where that differs from the model."""

    def __init__(self) -> None:
        """An empty table."""
        self.slips: list[Slip] = []
        self.given: dict[tuple[Part, Any], list[int]] = defaultdict(list)
        self.alters: list[set[Part]] = []

    def add(self, slip: Slip, parts: Mapping[Part, Any], keys: Mapping[str, Any] = NO_KEYS) -> None:
        """Adds a slip with the parts, and the keys by their names, that it alters."""
        parts = {**parts, **{(KEY, name): value for name, value in keys.items()}}
        for part, value in parts.items():
            self.given[part, value].append(len(self.slips))
        self.slips.append(slip)
        self.alters.append(set(parts))

    def gives(self, part: Part, value: Any) -> bool:
        """Whether a slip gives this value for a part."""
        return (part, value) in self.given

    def explain(
        self,
        wrong: Mapping[Part, Any],
        right: Iterable[Part],
        weak: Collection[Part] = (),
        fixed: Collection[Part] = (),
    ) -> list[Found]:
        """The slips that give the wrong parts.

        The one that explains most comes first, then the one that explains most of the
        rest. Of slips that explain as many, the one is likelier that would have altered
        fewer of the parts that are right, or that only other slips explain. Parts that
        very many slips give are weak: no slip is named for such parts alone. Nor is one that
        would have altered a part that is fixed, as a key that stands on the sheet as right.
        """
        given: dict[int, set[Part]] = defaultdict(set)
        for part, value in wrong.items():
            for slip in self.given.get((part, value), ()):
                given[slip].add(part)
        explains = {
            slip: parts
            for slip, parts in given.items()
            if not parts <= set(weak)
            and (self.slips[slip].in_use or self.alters[slip].isdisjoint(fixed))
            and (not self.slips[slip].in_writing or parts == self.alters[slip])
        }
        left: set[Part] = set().union(*explains.values())
        known = left.union(right)
        against = {slip: len(self.alters[slip] & known - parts) for slip, parts in explains.items()}
        found: list[Found] = []
        while left:
            best = min(explains, key=lambda s: (-len(explains[s] & left), against[s], s))
            parts = explains[best] & left
            if parts <= set(weak):
                break
            same = [
                self.slips[slip]
                for slip in explains
                if explains[slip] & left == parts and against[slip] == against[best]
            ]
            found.append(Found(self.slips[best], frozenset(parts), self._apart(best, same)))
            left -= parts
        return found

    def _apart(self, best: int, same: list[Slip]) -> tuple[Slip, ...]:
        """Of slips that explain the same, one for each that is not the best one elsewhere."""
        kin = {self.slips[best].kin}
        made = []
        for slip in same:
            if slip.kin not in kin:
                kin.add(slip.kin)
                made.append(slip)
        return tuple(made)


def under_own(
    made: Iterable[tuple[Optional[Slip], Mapping[Part, Any]]],
    wrong: Mapping[Part, Any],
    weak: Collection[Part] = (),
) -> list[Found]:
    """The slips that give wrong parts under a candidate's own keys; the parts under these
    come first, without a slip."""
    table = Table()
    own: Mapping[Part, Any] = {}
    rest: Mapping[Part, Any] = {}
    for slip, parts in made:
        if slip is None:
            own, rest = parts, {part: v for part, v in wrong.items() if v != parts[part]}
        else:
            table.add(slip, {part: value for part, value in parts.items() if value != own[part]})
        if not rest:  # all of it follows from the own keys
            return []
    return table.explain(rest, [part for part in wrong if part not in rest], weak)


def joined(found: Iterable[Found], under: Iterable[Found]) -> list[tuple[Found, bool]]:
    """Slips, and those under the candidate's own keys; one that is both explains all that
    both do. With each, whether it is under own keys."""
    more = {each.slip.name: each for each in under}
    made = []
    for each in found:
        other = more.pop(each.slip.name, None)
        if other:
            each = each._replace(parts=each.parts | other.parts, others=())
        made.append((each, other is not None))
    return made + [(each, True) for each in more.values()]


def exchanges(
    wrong: Mapping[tuple[int, str], Any], owners: Mapping[tuple[str, Any], list[int]]
) -> tuple[list[Found], dict[int, dict[str, int]]]:
    """Wrong fields, by their entries' places, that are another entry's of the model: what
    they are called, and by place and field whose they are."""
    found = {at: owners.get((at[1], value), []) for at, value in wrong.items()}
    named: dict[str, set[Part]] = defaultdict(set)
    whose: dict[int, dict[str, int]] = defaultdict(dict)
    for (place, field), others in found.items():
        mutual = [other for other in others if place in found.get((other, field), ())]
        slip = EXCHANGED[field] if mutual else ANOTHERS.get(field)
        if others and slip:
            named[slip.name].add((place, IDENTITY if field == IDENTITY else TEXT))
            whose[place][field] = (mutual or others)[0]
    slips = {slip.name: slip for slip in (*EXCHANGED.values(), *ANOTHERS.values())}
    return [Found(slips[name], frozenset(parts), ()) for name, parts in named.items()], whose


PARTS = {IDENTITY: "identities", TEXT: "texts", "flag": "flags"}


def _counted(kind: str, parts: Collection[Part], wrong: Collection[Part]) -> str:
    """What of a kind is explained, of the wrong parts of entries: all, or how many."""
    has = sum(part == kind for place, part in parts if place != KEY)
    of = sum(part == kind for _, part in wrong)
    return PARTS[kind] if has == of else f"{has} of {of} {PARTS[kind]}"


def explained(
    found: Found, wrong: set[Part], at: dict[int, int], step: Callable[[Found], tuple[str, str]]
) -> Explained:
    """A slip in the words of a sheet; the wrong parts of the entries are given, and what
    says at which step it happens."""
    places = {place for place, _ in found.parts if place != KEY}
    kinds = {part for place, part in found.parts if place != KEY}
    all_of_them = all((p, part) in found.parts for p, part in wrong if p in places)
    part = "" if all_of_them or len(kinds) > 1 else PARTS[min(kinds)]
    counts = [_counted(kind, found.parts, {p for p in wrong if p[0] in places}) for kind in sorted(kinds)]
    if len(kinds) > 1 and any(count[:1].isdigit() for count in counts):
        part = listed(counts)
    return Explained(
        found.slip.name,
        tuple(sorted(at[place] for place in places)),
        tuple(slip.name for slip in found.others),
        part,
        step(found),
        tuple(name for name in KEYS if (KEY, name) in found.parts),
    )


def named(slips: Iterable[Explained]) -> dict[int, str]:
    """The slips of each entry that one explains."""
    names: dict[int, list[str]] = defaultdict(list)
    for slip in slips:
        for index in slip.entries:
            names[index].append(slip.name)
    return {index: "; ".join(each) for index, each in names.items()}
