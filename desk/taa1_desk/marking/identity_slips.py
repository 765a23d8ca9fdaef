# SPDX-License-Identifier: MIT
"""Rarer slips in identities: TA61's input, its strings, and P."""

from __future__ import annotations

from itertools import permutations
from typing import Callable, Iterator, Sequence

from taa1 import Sitting

from ..records import Ring
from .slip import Alteration, Rare, Slip, added
from .working import Blocks, S, Steps, xor


def ring_of_others(name: str, change: Callable[[Ring], Ring]) -> Slip:
    """Other keys in the ring's places."""

    def alter(steps: Steps, sitting: Sitting, *keys: bytes) -> Ring:
        return change(Ring(*keys))

    return Slip(name, {"ring": alter})


_SHRUNK: dict[str, Callable[[bytes], bytes]] = {
    "TA61's input with sums for ⊕": lambda c: added(c[:8], c[2:]),
    "TA61's input C's last eight bytes": lambda c: c[2:],
    "TA61's input C's middle eight bytes": lambda c: c[1:9],
    "TA61's input reversed": lambda c: xor(c[:8], c[2:])[::-1],
}


def _reordered() -> Iterator[tuple[str, Callable[[Blocks], Blocks]]]:
    """One of TA61's strings with its bytes in another order."""
    for string in range(3):
        for order in list(permutations(range(3)))[1:]:

            def turned(strings: Blocks, string: int = string, order: Sequence[int] = order) -> Blocks:
                made = list(strings)
                made[string] = bytes(strings[string][at] for at in order)
                return tuple(made)

            had = ((7, 4, 1), (6, 3, 0), (5, 2, 7))[string]
            has, wants = (" ".join(f"B{had[at]}" for at in each) for each in (order, range(3)))
            yield f"TA61's K{string + 1} {has}, not {wants}", turned


def _chosen(*strings: Sequence[int]) -> Alteration:
    return lambda steps, output: tuple(bytes(output[7 - at] for at in each) for each in strings)


_STRINGS = {
    "TA61's strings of neighbouring bytes from B0 up": _chosen((0, 1, 2), (3, 4, 5), (6, 7, 0)),
    "TA61's strings of every second byte": _chosen((7, 5, 3), (6, 4, 2), (5, 3, 1)),
    "TA61's strings of every second byte, each taken once": _chosen((7, 5, 3), (6, 4, 2), (1, 0, 7)),
}


def _with_p(*before: bool) -> Alteration:
    """TA61 with P before each ⊕, and after the last one, where it is said."""

    def alter(steps: Steps, strings: Blocks, identity: bytes) -> bytes:
        for p, string in zip(before, (*strings, b"")):
            identity = steps.p(identity) if p else identity
            identity = steps.mixed(identity, string) if string else identity
        return identity

    return alter


_ENCRYPTED: dict[str, Alteration] = {
    "TA61 without its first P": _with_p(False, False, True, False),
    "TA61 without P": _with_p(False, False, False, False),
    "TA61 with a third P, at the start": _with_p(True, True, True, False),
    "TA61 with a third P, at the end": _with_p(False, True, True, True),
}


def _p(make: Callable[[int, int, int], int]) -> Alteration:
    """P with something else than twice one byte and twice another less the third."""

    def alter(steps: Steps, a: bytes) -> bytes:
        a2, a1, a0 = a
        return bytes(S[make(*each) & 0xFF] for each in ((a2, a1, a0), (a2, a0, a1), (a1, a0, a2)))

    return alter


def _s_first(steps: Steps, a: bytes) -> bytes:
    s = [S[byte] for byte in a]
    return bytes((2 * sum(s) - 3 * s[place]) & 0xFF for place in (2, 1, 0))


def _overwritten(steps: Steps, a: bytes) -> bytes:
    a2, a1, a0 = a
    a2 = S[(2 * a2 + 2 * a1 - a0) & 0xFF]
    a1 = S[(2 * a2 + 2 * a0 - a1) & 0xFF]
    a0 = S[(2 * a1 + 2 * a0 - a2) & 0xFF]
    return bytes([a2, a1, a0])


def _p_order(*order: int) -> Alteration:
    return lambda steps, a: bytes(Steps.p(steps, a)[at] for at in order)


_P: dict[str, Alteration] = {
    "P's third byte added, not subtracted": _p(lambda one, two, less: 2 * one + 2 * two + less),
    "P's second byte not doubled": _p(lambda one, two, less: 2 * one + two - less),
    "P's first byte not doubled": _p(lambda one, two, less: one + 2 * two - less),
    "P's bytes not doubled": _p(lambda one, two, less: one + two - less),
    "P with ⊕ for sums": _p(lambda one, two, less: 2 * one ^ 2 * two ^ less),
    "P with ⊕ for its difference": _p(lambda one, two, less: (2 * one + 2 * two) ^ less),
    "P's sums held between 0 and 255": _p(
        lambda one, two, less: max(0, min(2 * one + 2 * two - less, 0xFF))
    ),
    "P's S before its sums": _s_first,
    "P's bytes overwritten one after the other": _overwritten,
    "P's first two bytes exchanged": _p_order(1, 0, 2),
    "P's last two bytes exchanged": _p_order(0, 2, 1),
    "P's inverse for P": lambda steps, a: steps.p_inverse(a),
}


def in_identities() -> Iterator[Rare]:
    """Slips in identities."""

    def rare(name: str, **altered: Alteration) -> Rare:
        return Rare(Slip(name, altered), identities=True)

    for name, shrink in _SHRUNK.items():
        yield rare(name, shrunk_key=lambda steps, c, run=shrink: run(c))
    for name, turned in _reordered():
        yield rare(name, strings=lambda steps, out, run=turned: run(Steps.strings(steps, out)))
    for name, alter in _STRINGS.items():
        yield rare(name, strings=alter)
    for name, alter in _ENCRYPTED.items():
        yield rare(name, encrypted=alter)
    yield rare("sums for ⊕ in TA61", mixed=lambda steps, identity, k: added(identity, k))
    for name, alter in _P.items():
        yield rare(name, p=alter)
    for part, cut in (("first", slice(10)), ("last", slice(6, 16))):
        slip = ring_of_others(
            f"O's {part} ten bytes for C",
            lambda ring, cut=cut: ring._replace(c=ring.o[cut]),  # type: ignore[misc]
        )
        yield Rare(slip, True, "", True)
