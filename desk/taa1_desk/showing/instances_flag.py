# SPDX-License-Identifier: MIT
"""Instances about what the flag notices."""

from __future__ import annotations

from .instance import (
    ALTERED, GIVEN, KINDS, TRIED, UPWARD, WORKING, Instance, Maker, Row, by, changed, hold, shows,
)  # fmt: skip
from .instances_texts import near


@shows("carried")
def carried(of: Maker) -> Instance:
    """A change of the seventh byte, and BL2's right part."""
    entry, text = of.entries[0], of.records[0][6:]
    key, other = of.core(entry).key, changed(of.records[0][6:], 6)
    parts = [of.steps.bl2(key, of.steps.zero_back(each))[8:] for each in (text, other)]
    hold(parts[1] == changed(parts[0], 6))
    return Instance(
        of.name(0),
        [
            ("text", by("seal_book"), text),
            ("its seventh byte ⊕ 01", ALTERED, other),
            ("right part of BL2's output", WORKING, parts[0]),
            ("and after the change", WORKING, parts[1]),
        ],
    )


@shows("noticed")
def noticed(of: Maker) -> Instance:
    """Each byte that the claim is about, changed."""
    entry, text = of.entries[0], of.records[0][6:]
    start = {"ta31": 1, "ta51": 3}.get(KINDS[entry.kind].seal, 2)
    rows: list[Row] = [("text", by("seal_book"), text)]
    for place in range(start, 7):
        found = of.unsealed(entry, changed(text, place))
        hold(found.failed != 0)
        _, mark, said = of.checks(entry.kind, found.failed)
        rows.append((f"byte {place + 1} ⊕ 01", mark, said))
    return Instance(of.name(0), rows)


@shows("last-eight")
def last_eight(of: Maker) -> Instance:
    """Two texts that open and are alike in their first seven bytes."""
    entry, text, other = of.entries[0], of.records[0][6:], of.seal(near(of))
    kind, key = entry.kind, of.key(entry.kind)
    hold(text[:7] == other[:7] and text != other)
    return Instance(
        of.name(0),
        [
            ("text", by("seal_book"), text),
            of.opens("opens to", kind, text, key, entry.version),
            ("another with the same first seven bytes", of.sealing(kind), other),
            of.opens("opens to", kind, other, key, entry.version),
        ],
    )


def _before_and_after(
    of: Maker, kind: int, key: bytes, text: bytes, place: int, byte: int
) -> list[Row]:
    """Two texts of a proof that differ in one byte, and what each opens to."""
    other = text[:place] + bytes([byte]) + text[place + 1 :]
    rows: list[Row] = [
        (f"kind {kind}, version 7, sealing key", GIVEN, key),
        ("text", GIVEN, text),
        of.opens("opens to", kind, text, key, 7),
        (f"byte {place + 1} {text[place]:02x} changed to {byte:02x}", ALTERED, other),
        of.opens("opens to", kind, other, key, 7),
    ]
    hold(rows[2][2] != rows[4][2])
    return rows


@shows("flag-notices-every-change")
def one_bit(of: Maker) -> Instance:
    """Two texts that differ in one bit."""
    text = bytes.fromhex("f20234e6a621c279ee4f4cf0ad6279")
    return Instance(TRIED, _before_and_after(of, 3, UPWARD, text, 1, 0x00))


@shows("one-byte-1-2-5")
def one_byte(of: Maker) -> Instance:
    """Texts of kinds 1 and 2 that differ in one byte."""
    first = bytes.fromhex("541f2a277684453cad9193d1e0acaa")
    third = bytes.fromhex("57b82885ccb448198c9d93bb19ec5f")
    rows = _before_and_after(of, 1, UPWARD[:10], first, 0, 0xD4)
    rows += _before_and_after(of, 2, UPWARD, third, 2, 0xDC)
    rows.append(of.opens("as kind 5 under a G of these bytes, to", 5, rows[-2][2], UPWARD, 7))
    return Instance(TRIED, rows)


# For each kind and each place where the flag may miss a change of one byte: the place, the
# change, and a text under the key 00 01 .. that opens before and after.
MISSED = """
1 0 80 541f2a277684453cad9193d1e0acaa
1 7 2c 4b82f6d0fccb7c51429d7df4d0bab7
1 8 e2 06f0677567c24c8d42d723d7953275
1 9 6d 0d47af23101265b67ead5c24441336
1 10 a2 e8e44a3eab44fc39fa3336da2a1550
1 11 fc 8e5252656b75e4e62d262c535000e7
1 12 b7 4e081eb0811393830418bd0d4e56d3
1 13 d3 8f422072170b6cc1ff20f5ae817aee
1 14 1c 008fa26d8023cfe4524b27cb96a70b
2 0 4f f4d415c0601d6e2181c8a7105f4230
2 1 c0 7cff5d91014aa7eeedbb5830303dce
2 2 f4 57b82885ccb448198c9d93bb19ec5f
2 7 f4 d6f9b32e46c19603b898b4fd90c9f8
2 8 60 51fbe3cd3a2f932c3d6471a7e985a7
2 9 5e 2f6b325d269beb6779af6f068aa9a3
2 10 ad 21c2146610ca405bef47032630befd
2 11 4a ed1c924ea525d02821a6603c55550b
2 12 a8 3fc3a23ad6dca27a68bb8fe5696dce
2 13 a9 a85dbdeb40a6f82114cab756df179b
2 14 31 5b72c408d47bf87415693d814c0e5d
3 0 50 01c36a61bf3e2c0000000000000000
3 1 1b d3aa6b2c09729a0000000000000000
3 7 1b 2bb0edf6480fa909fd45c8a2214f3d
3 8 97 68500ca4e83e4ec47eb5123533b3fe
3 9 b1 9167d4fef223f8fdf6443420de3d74
3 10 ac 7321c35af9f4e3d87024392d44277d
3 11 38 1485d130c8c75075b6ebbf840fdc8e
3 12 38 0ab0316c5eef5ebc43d8b04c17c71f
3 13 80 dd280872f2638911f1e5d8dcbd3e05
3 14 77 334361c689523bd71162ca8c8cd238
"""


@shows("sharp")
def sharp(of: Maker) -> Instance:
    """A text and a change for each place that may be changed without notice."""
    rows: list[Row] = []
    for kind, place, change, digits in (line.split() for line in MISSED.split("\n")[1:-1]):
        as_kind, text = int(kind), bytes.fromhex(digits)
        after = changed(text, int(place), int(change, 16))
        key = UPWARD[:10] if as_kind == 1 else UPWARD
        for each in (text, after):
            hold(of.unseal(as_kind, each, key, 7).failed == 0)
        rows.append((f"kind {kind}, byte {int(place) + 1} ⊕ {change}", GIVEN, text))
    return Instance(f"{TRIED}, version 7: each text opens before and after the change", rows)
