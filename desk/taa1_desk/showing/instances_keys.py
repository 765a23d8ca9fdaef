# SPDX-License-Identifier: MIT
"""Instances about what is given: kind, ring and version, and how the ring is made."""

from __future__ import annotations

from .instance import (
    ALTERED, ALTERED_WORKING, COUNTED, GIVEN, KINDS, PLAIN, PROOF, SEALED, TRIED, UPWARD, WORKING,
    Entry, Instance, Maker, Ring, Row, Steps, body_of, both, by, changed, field, hold, ring_of,
    shows, split, xored,
)  # fmt: skip

TWO_RINGS = bytes.fromhex("7d3bf4c53bec9b33be0c296b64dc2f")
OTHER_O = UPWARD[:12] + bytes.fromhex("00bf588f")

# ---- kinds


@shows("three-and-four")
def three_and_four(of: Maker) -> Instance:
    """A text that opens as kinds 3 and 4."""
    index = of.first(3, 4)
    if index is None:
        source, mark, text, key, version = TRIED, GIVEN, TWO_RINGS, UPWARD, 7
    else:
        source, mark, text = of.name(index), by("seal_book"), of.records[index][6:]
        key, version = of.ring.o, of.entries[index].version
    rows: list[Row] = [("text", mark, text)]
    rows += [of.opens(f"opens as kind {kind}", kind, text, key, version) for kind in (3, 4)]
    return Instance(source, rows)


@shows("as-three-kinds")
def three_kinds(of: Maker) -> Instance:
    """A text that opens as kinds 2, 3 and 4."""
    version, key = of.entries[0].version, of.ring.o
    text = of.seal(Entry(2, 0, version, bytes.fromhex("01020404050607010809"), 3), key)
    rows: list[Row] = [("text", by("ta51"), text)]
    rows += [of.opens(f"opens as kind {kind}", kind, text, key, version) for kind in (2, 3, 4)]
    return Instance(f"under {both('O')} of this sitting and entry 0's version, {version}", rows)


@shows("kind-1-only")
def kind_1_only(of: Maker) -> Instance:
    """A text that opens as kinds 1 and 3, and one that opens as all six."""
    text = bytes.fromhex("42ca5b04846c155e56c332519d5f5d")
    six, zeros = bytes.fromhex("4a36aa3214cd6b488cdc4676f916c7"), Ring.of(bytes(52))
    book = b"".join(bytes([kind]) + bytes(5) + six for kind in KINDS)
    opened = of.open_book(book, zeros)
    hold(len(opened) == PLAIN * 6 and not any(any(each[6:]) for each in split(opened, PLAIN)))
    return Instance(
        TRIED,
        [
            ("text, version 7", GIVEN, text),
            (f"{both('D')}", GIVEN, UPWARD[:10]),
            of.opens("opens as kind 1 to", 1, text, UPWARD[:10], 7),
            (f"{both('O')}", GIVEN, UPWARD),
            of.opens("opens as kind 3 to", 3, text, UPWARD, 7),
            ("text, version 0, ring of zeros", GIVEN, six),
            ("kinds as which it opens, to zeros", by("open_book"), "1 2 3 4 5 6"),
        ],
    )


@shows("o-and-g-differ")
def o_and_g_differ(of: Maker) -> Instance:
    """Texts that open as one kind under O and as another under G."""
    two_and_five = bytes.fromhex("1e8bfd31a1b29e4c82b4ca42b54967")
    rows: list[Row] = []
    for kinds, text, o, group_key in (
        ((2, 5), two_and_five, UPWARD, bytes.fromhex("000e02040a0608060a0c020e")),
        ((3, 6), TWO_RINGS, OTHER_O, bytes.fromhex("00010204050608090a0c0d0e")),
    ):
        g = of.bytes_of("tb7", group_key)
        rows += [
            ("text, version 7", GIVEN, text),
            (both("O"), GIVEN, o),
            of.opens(f"opens as kind {kinds[0]} to", kinds[0], text, o, 7),
            (both("group key"), GIVEN, group_key),
            (both("G"), by("tb7"), g),
            of.opens(f"opens as kind {kinds[1]} to", kinds[1], text, g, 7),
        ]
        hold(o != g and rows[-1][2] != rows[-4][2])
    return Instance(TRIED, rows)


@shows("same-o-and-g")
def same_o_and_g(of: Maker) -> Instance:
    """An entry sealed as kinds 2 and 5, and as 3 and 6, under a ring whose G is its O."""
    ring = of.ring._replace(g=of.ring.o)
    rows: list[Row] = [(f"{both('O')} and {both('G')} of the ring", by("ring"), ring.o)]
    for kinds in ((2, 5), (3, 6)):
        made = [of.seal_book(of.like(kind).data, ring) for kind in kinds]
        hold(made[0][1:] == made[1][1:] and of.open_book(b"".join(made), ring) != b"")
        for kind, record in zip(kinds, made):
            rows.append((f"record of kind {kind}", by("seal_book"), record))
    version = of.entries[0].version
    return Instance(f"entries with entry 0's identity and version, {version}, and its key", rows)


# ---- sealing keys, rings and versions


def _with_version(of: Maker, data: bytes, version: int) -> bytes:
    """A key ⊕ a version repeated: TB3, or TB1 and TB4."""
    if len(data) == 16:
        return of.bytes_of("tb3", data, version, 16)
    return of.bytes_of("tb4", data, of.bytes_of("tb1", version, 16)[:10])


@shows("key-and-version")
def key_and_version(of: Maker) -> Instance:
    """The key under which another version gives the same text."""
    entry, text = of.entries[0], of.records[0][6:]
    key, version = of.key(entry.kind), entry.version ^ 1
    other = _with_version(of, _with_version(of, key, entry.version), version)
    made = of.seal(entry._replace(version=version), other)
    found = of.unseal(entry.kind, text, other, version)
    hold(made == text and other != key and found == of.unsealed(entry, text) == (body_of(entry), 0))
    return Instance(
        of.name(0),
        [
            (f"key, version {entry.version}", by("ring"), key),
            (f"another key, version {version}", by("tb3" if len(key) == 16 else "tb4"), other),
            ("text under either", of.sealing(entry.kind), text),
            ("opens under either to", of.unsealing(entry.kind), of.body(entry.kind, found.body)),
        ],
    )


@shows("ring-and-versions")
def ring_and_versions(of: Maker) -> Instance:
    """The ring under which the book with other versions has the same texts."""
    d, o, g = (_with_version(of, key, 1) for key in (of.ring.d, of.ring.o, of.ring.g))
    ring = Ring(d, o, of.ring.c, g)
    plain = b"".join(e._replace(version=e.version ^ 1).data for e in of.entries)
    made = split(of.seal_book(plain, ring), SEALED)
    same = sum(a[1:4] + a[6:] == b[1:4] + b[6:] for a, b in zip(made, of.records))
    hold(same == len(of.records) and ring != of.ring)
    marks = {"d": by("tb4"), "o": by("tb3"), "c": by("ring"), "g": by("tb3")}
    rows: list[Row] = [
        (f"{both(name.upper())} of the other ring", marks[name], key)
        for name, key in ring._asdict().items()
    ]
    rows.append(("versions", ALTERED, "each ⊕ 0001"))
    rows.append(("records with the same text and identity", COUNTED, f"{same} of {len(made)}"))
    return Instance("the whole book", rows)


@shows("one-ring-only")
def one_ring_only(of: Maker) -> Instance:
    """The empty book under two rings, and the book without kind 1 under another D."""
    zeros = Ring.of(bytes(52))
    hold(of.open_book(b"") == of.open_book(b"", zeros) == b"")
    rows: list[Row] = [("the empty book, under this ring", by("open_book"), "opens: 0 entries")]
    rows.append(("the empty book, under a ring of zeros", by("open_book"), "opens: 0 entries"))
    others = [record for record in of.records if record[0] != 1]
    if others:
        ring = of.ring._replace(d=changed(of.ring.d, 0))
        sealed = b"".join(others)
        hold(of.open_book(sealed, ring) == of.open_book(sealed))
        rows.append((f"another {both('D')}", ALTERED, ring.d))
        said = f"{len(others)} open under either, to the same entries"
        rows.append(("records of kinds 2 to 6", by("open_book"), said))
    return Instance("this sitting's ring and book", rows)


def _openings(of: Maker, rows: list[tuple[str, bytes, bytes, int]]) -> Instance:
    """Openings of a proof's examples of kind 3."""
    made: list[Row] = []
    for name, text, key, version in rows:
        made += [(name, GIVEN, text), ("sealing key", GIVEN, key), ("version", GIVEN, version)]
        made.append(of.opens("opens as kind 3 to", 3, text, key, version))
    hold(len({row[2] for row in made[3::4]}) == len(rows))
    return Instance(TRIED, made)


@shows("two-rings")
def two_rings(of: Maker) -> Instance:
    """One text under two rings."""
    text = TWO_RINGS
    return _openings(of, [("text", text, UPWARD, 7), ("the same text", text, OTHER_O, 7)])


@shows("two-versions")
def two_versions(of: Maker) -> Instance:
    """One text with two versions."""
    text = bytes.fromhex("f4204db56932c32411c2c607ad680c")
    return _openings(of, [("text", text, UPWARD, 7), ("the same text", text, UPWARD, 5075)])


# ---- mistakes on the way to the ring


@shows("challenge-reversed")
def challenge_reversed(of: Maker) -> Instance:
    """TA22 of the challenge, and of its bytes in the other order."""
    s = of.sitting
    challenge, masks = s.rand2, (s.response_mask, s.key_mask)
    source, mark, key = "RAND2 of this sitting", by("ta21"), of.bytes_of("ta21", s.root, s.rs)
    if challenge == challenge[::-1]:
        source, mark, key = f"{PROOF}: RAND2 reads the same backwards", GIVEN, UPWARD
        challenge, masks = UPWARD[1:11], (0x000F, 0x3FF0)
    orders = (challenge, challenge[::-1])
    answers = [of.desk.call("ta22", key, order, *masks) for order in orders]
    right, wrong = ((answer["response"], answer["key"]) for answer in answers)
    hold(right != wrong)
    return Instance(
        source,
        [
            (field("session key 2"), mark, key),
            ("challenge", GIVEN, challenge),
            (f"{field('response 2')} and {field('key 2')}", by("ta22"), right),
            ("of the challenge reversed", by("ta22"), wrong),
        ],
    )


@shows("palindrome")
def palindrome(of: Maker) -> Instance:
    """TA22 of a challenge that reads the same backwards."""
    s, challenge = of.sitting, of.sitting.rand2[:5] + of.sitting.rand2[4::-1]
    key = of.bytes_of("ta21", s.root, s.rs)
    orders = (challenge, challenge[::-1])
    answers = [of.desk.call("ta22", key, order, s.response_mask, s.key_mask) for order in orders]
    right, other = ((answer["response"], answer["key"]) for answer in answers)
    hold(right == other)
    return Instance(
        "RAND2 of this sitting, its first five bytes and then these backwards",
        [
            (field("session key 2"), by("ta21"), key),
            ("challenge", ALTERED, challenge),
            (f"{field('response 2')} and {field('key 2')}", by("ta22"), right),
            ("of the challenge reversed", by("ta22"), other),
        ],
    )


def _xored_last(of: Maker) -> Steps:
    return Steps(of.desk, {"last_byte": lambda steps, inserted: xored(inserted)})


@shows("last-byte-xored")
def last_byte_xored(of: Maker) -> Instance:
    """TA41 with EXP2's last byte as the ⊕ of the five."""
    s, steps = of.sitting, _xored_last(of)
    source, seed = "root and RSO of this sitting", s.rso
    if steps.exp2(seed) == of.steps.exp2(seed):
        source, seed = f"{PROOF}: a seed whose sum is not its ⊕", UPWARD[1:11]
    right, wrong = of.bytes_of("ta41", s.root, seed), steps.ta41(s.root, seed)
    hold(right != wrong)
    return Instance(
        source,
        [
            ("seed", GIVEN, seed),
            ("EXP2 of the seed", WORKING, of.steps.exp2(seed)),
            ("with its last byte as the ⊕", ALTERED_WORKING, steps.exp2(seed)),
            ("TA41", by("ta41"), right),
            ("TA41 with that", ALTERED_WORKING, wrong),
        ],
    )


@shows("still-holds")
def still_holds(of: Maker) -> Instance:
    """The book under the ring of each mistake, sealed and opened."""
    reversed_ = of.sitting._replace(rand2=of.sitting.rand2[::-1])
    rings = (
        ("challenge reversed", by("ring"), Ring.of(of.desk.call("ring", *reversed_)["ring"])),
        ("last byte ⊕", ALTERED_WORKING, ring_of(_xored_last(of).keys(of.sitting))),
    )
    rows: list[Row] = []
    for name, mark, ring in rings:
        sealed = of.seal_book(of.plain, ring)
        hold(of.open_book(sealed, ring) == of.plain)
        rows.append((f"{both('D')}, {name}", mark, ring.d))
        rows.append((f"{both('O')}, {name}", mark, ring.o))
        rows.append(("entry 0's text under that ring", by("seal_book"), sealed[6:21]))
        rows.append(("the book opened under it", by("open_book"), "the model book again"))
    return Instance("the whole book", rows)
