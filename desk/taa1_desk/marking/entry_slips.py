# SPDX-License-Identifier: MIT
"""The slips in the entries, in the sealed text and in the identity."""

from __future__ import annotations

from itertools import permutations
from typing import Callable, Mapping

from ..records import Entry, Ring
from .slip import Slip, added, decrypting, exchanged
from .working import Blocks, Steps, xor


def _kind_under(key: str, *kinds: int) -> Slip:
    """Kinds under another key of the ring."""

    def alter(steps: Steps, ring: Ring, of: int) -> bytes:
        made: bytes = getattr(ring, key) if of in kinds else Steps.sealing_key(steps, ring, of)
        return made

    said = f"{'kinds' if kinds[1:] else 'kind'} {' and '.join(map(str, kinds))}"
    return Slip(f"{said} under {key.upper()}", {"sealing_key": alter})


def _entry(name: str, change: Callable[[Entry], Entry], sealing: bool = False) -> Slip:
    """Other fields of the entry, or other ones in sealing alone."""
    return Slip(name, {"sealed_as" if sealing else "entry": lambda steps, entry: change(entry)})


def _as_kind(kinds: Mapping[int, int]) -> Callable[[Entry], Entry]:
    """Kinds taken for others, whose key and number are as long."""
    return lambda e: e._replace(kind=kinds.get(e.kind, e.kind))


def _kind(used: int, have: int) -> Slip:
    return _entry(f"kind {used} for kind {have}", _as_kind({have: used}))


def _regrouped(used: int, have: int) -> Slip:
    """A body of twelve bytes read by the other of the kinds 3 and 4."""
    return _entry(
        f"kind {used} for kind {have}",
        lambda e: Entry.of(bytes([used]) + e.data[1:]) if e.kind == have else e,
    )


def _labelled(used: int, have: int) -> Slip:
    """Another kind in the record alone."""
    return Slip(
        f"kind {used} for kind {have} in the record alone",
        {
            "record": lambda steps, entry, identity, text: Steps.record(
                steps, _as_kind({have: used})(entry), identity, text
            )
        },
    )


def _under_d(entry: Entry) -> Entry:
    """The key alone, as TA31 seals it under D."""
    return entry._replace(kind=1, number=None) if len(entry.key) == 10 else entry


def _number(change: Callable[[int], int]) -> Callable[[Entry], Entry]:
    return lambda e: e if e.number is None else e._replace(number=change(e.number))


def _numbers_exchanged(e: Entry) -> Entry:
    return e if e.number is None else e._replace(version=e.number, number=e.version)


def _digits(number: int) -> int:
    """A number's decimal digits taken for hexadecimal ones."""
    return int(str(number), 16)


def _version_in_record(name: str, change: Callable[[int], int]) -> Slip:
    return Slip(
        name,
        {
            "record": lambda steps, entry, identity, text: Steps.record(
                steps, entry._replace(version=change(entry.version)), identity, text
            )
        },
    )


def _high_bits(bits: int) -> Slip:
    """A number byte with bits above the fifth."""
    return Slip(
        f"number byte with {bits << 5:02x} above its five bits",
        {"number_byte": lambda steps, number: bytes([bits << 5 | number])},
    )


ENTRY_SLIPS: tuple[Slip, ...] = (
    _entry("D for O or G, by TA31", _under_d, sealing=True),
    _kind(2, 5),
    _kind(5, 2),
    _kind(3, 6),
    _kind(6, 3),
    _regrouped(3, 4),
    _regrouped(4, 3),
    _kind(3, 2),
    _kind(2, 3),
    _kind(6, 5),
    _kind(5, 6),
    _labelled(2, 5),
    _labelled(5, 2),
    _labelled(3, 6),
    _labelled(6, 3),
    _kind_under("o", 5),
    _kind_under("o", 6),
    _kind_under("g", 2),
    _kind_under("g", 3),
    _kind_under("g", 4),
    _kind_under("g", 2, 3),
    _entry("TA81 for TA51", _as_kind({2: 3, 5: 6}), sealing=True),
    _entry("TA51 for TA81", _as_kind({3: 2, 6: 5}), sealing=True),
    _entry("bytes of the version exchanged", lambda e: e._replace(version=exchanged(e.version))),
    Slip(
        "bytes of the version exchanged in sealing",
        {"repeated": lambda steps, version, copies: version.to_bytes(2, "little") * copies},
    ),
    _version_in_record("bytes of the version exchanged in the record alone", exchanged),
    _version_in_record("version left out of the record", lambda version: 0),
    _entry("version's digits taken as hexadecimal", lambda e: e._replace(version=_digits(e.version))),
    Slip("version left out in sealing", {"repeated": lambda steps, version, n: bytes(2 * n)}),
    Slip(
        "version once, at the left, not repeated",
        {"repeated": lambda steps, version, n: version.to_bytes(2, "big") + bytes(2 * n - 2)},
    ),
    Slip(
        "version once, at the right, not repeated",
        {"repeated": lambda steps, version, n: version.to_bytes(2 * n, "big")},
    ),
    Slip(
        "version five times, then zeros",
        {"repeated": lambda steps, version, n: (version.to_bytes(2, "big") * 5).ljust(2 * n, b"\0")},
    ),
    Slip(
        "version added, not ⊕",
        {"core_key": lambda steps, sealing_key, repeated: added(sealing_key, repeated)},
    ),
    Slip(
        "EXP4 of D, then ⊕ the version",
        {"short_key": lambda steps, d, version: xor(steps.exp4(d), steps.repeated(version, 8))},
    ),
    *map(_high_bits, range(1, 8)),
    Slip("number at the left of its byte", {"number_byte": lambda _, number: bytes([number << 3])}),
    _entry("bytes of the number exchanged", _number(exchanged)),
    _entry("number left out", _number(lambda number: 0)),
    _entry("number's digits taken as hexadecimal", _number(_digits)),
    Slip("number before the key", {"joined": lambda steps, key, number: number + key}),
    _entry("version and number exchanged", _numbers_exchanged),
    _entry("version and number exchanged in sealing", _numbers_exchanged, sealing=True),
    _entry("key reversed", lambda e: e._replace(key=e.key[::-1])),
)


# ---- the sealed text and the identity


def _dropping(place: int) -> Slip:
    """Another byte dropped, at this place from the left."""
    name = {0: "first byte", 15: "last byte"}.get(place, f"byte {15 - place}")
    from_0 = " (the one that is eighth from the left, counted from 0)" if place == 8 else ""
    return Slip(
        f"{name} dropped{from_0}, not byte 8",
        {"dropped": lambda steps, output: output[:place] + output[place + 1 :]},
    )


def _order(order: tuple[int, ...]) -> Slip:
    """TA61's strings in another order."""
    return Slip(
        f"TA61's strings in the order {' '.join(f'K{i + 1}' for i in order)}",
        {"strings": lambda steps, output: tuple(Steps.strings(steps, output)[i] for i in order)},
    )


def _one_p(steps: Steps, strings: Blocks, identity: bytes) -> bytes:
    """The second P left out."""
    one, two, three = strings
    return steps.mixed(steps.mixed(steps.p(steps.mixed(identity, one)), two), three)


def _plain_p(steps: Steps, a: bytes) -> bytes:
    """P's sums, without S."""
    return bytes((2 * sum(a) - 3 * a[place]) & 0xFF for place in (2, 1, 0))


def _arranged(name: str, change: Callable[[bytes], bytes]) -> Slip:
    """A record whose bytes are arranged otherwise."""
    return Slip(
        name,
        {"record": lambda steps, entry, *parts: change(Steps.record(steps, entry, *parts))},
    )


RECORD_SLIPS: tuple[Slip, ...] = (
    _arranged("kinds counted from 0 in the record", lambda r: bytes([r[0] - 1]) + r[1:]),
    _arranged("kind written as a character in the record", lambda r: bytes([r[0] + 0x30]) + r[1:]),
    _arranged("version before the identity in the record", lambda r: r[:1] + r[4:6] + r[1:4] + r[6:]),
    _arranged("version after the text in the record", lambda r: r[:4] + r[6:] + r[4:6]),
    *(_dropping(place) for place in range(15, -1, -1) if place != 7),
    Slip(
        "text reversed",
        {
            "record": lambda steps, entry, identity, text: Steps.record(
                steps, entry, identity, text[::-1]
            )
        },
    ),
    Slip("identity not encrypted", {"encrypted": lambda steps, strings, identity: identity}),
    Slip("TA61's inverse for TA61", {"encrypted": Steps.decrypted}),
    Slip(
        "identity reversed",
        {"encrypted": lambda steps, strings, i: Steps.encrypted(steps, strings, i[::-1])},
    ),
    Slip(
        "encrypted identity reversed",
        {"encrypted": lambda steps, strings, i: Steps.encrypted(steps, strings, i)[::-1]},
    ),
    *map(_order, list(permutations(range(3)))[1:]),
    Slip("decryption for encryption in TA61", {"bc": decrypting}),
    Slip(
        "TA61's strings of neighbouring bytes",
        {"strings": lambda steps, output: (output[:3], output[3:6], output[6:] + output[:1])},
    ),
    Slip(
        "bytes of TA61's strings in the other order",
        {"strings": lambda steps, output: tuple(k[::-1] for k in Steps.strings(steps, output))},
    ),
    Slip(
        "TA61's input ⊕ of neighbours",
        {"shrunk_key": lambda steps, common_key: xor(common_key[:8], common_key[1:])},
    ),
    Slip("TA61's input C's first eight bytes", {"shrunk_key": lambda steps, key: key[:8]}),
    Slip("TA61 with one P", {"encrypted": _one_p}),
    Slip("P without S", {"p": _plain_p}),
    Slip("P's bytes in the other order", {"p": lambda steps, a: Steps.p(steps, a)[::-1]}),
)
