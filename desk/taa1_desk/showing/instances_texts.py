# SPDX-License-Identifier: MIT
"""Instances about single texts: one entry for each, and the checks."""

from __future__ import annotations

from .instance import (
    ALTERED, ALTERED_WORKING, BY_PROOF, COUNTED, KINDS, PROOF, WORKING, ZERO_BITS, Entry,
    Instance, Maker, Row, Steps, body_of, both, by, changed, hold, shows,
)  # fmt: skip

# ---- one entry for a text


@shows("undoes-sealing")
def undoes_sealing(of: Maker) -> Instance:
    """An entry, sealed and unsealed."""
    entry = of.entries[0]
    text = of.seal(entry)
    found = of.unsealed(entry, text)
    hold(found == (body_of(entry), 0))
    return Instance(
        of.name(0),
        [
            of.given(entry),
            ("sealed", of.sealing(entry.kind), text),
            ("unsealed", of.unsealing(entry.kind), of.body(entry.kind, found.body)),
        ],
    )


@shows("one-text")
def one_text(of: Maker) -> Instance:
    """A text, unsealed and sealed."""
    entry, text = of.entries[0], of.records[0][6:]
    found, again = of.unsealed(entry, text), of.seal(entry)
    hold(found == (body_of(entry), 0) and again == text)
    return Instance(
        of.name(0),
        [
            ("text", by("seal_book"), text),
            of.checks(entry.kind, found.failed),
            ("unsealed", of.unsealing(entry.kind), of.body(entry.kind, found.body)),
            ("that sealed again", of.sealing(entry.kind), again),
        ],
    )


def near(of: Maker) -> Entry:
    """Entry 0 with the last bit of its key's tenth byte changed."""
    entry = of.entries[0]
    return entry._replace(key=changed(entry.key, 9))


@shows("entries-never-share")
def entries_never_share(of: Maker) -> Instance:
    """Two entries that differ in one bit, and their texts."""
    entry, other = of.entries[0], near(of)
    texts = of.seal(entry), of.seal(other)
    hold(texts[0] != texts[1])
    return Instance(
        f"{of.name(0)}, and the same with one bit of its key changed",
        [
            of.given(entry),
            ("its text", of.sealing(entry.kind), texts[0]),
            ("another entry", ALTERED, of.body(other.kind, body_of(other))),
            ("its text", of.sealing(entry.kind), texts[1]),
        ],
    )


@shows("texts-never-share")
def texts_never_share(of: Maker) -> Instance:
    """Two texts that open, and what each opens to."""
    entry = of.entries[0]
    kind, key = entry.kind, of.key(entry.kind)
    texts = of.records[0][6:], of.seal(near(of))
    rows: list[Row] = [("text", by("seal_book"), texts[0])]
    rows.append(of.opens("opens to", kind, texts[0], key, entry.version))
    rows.append(("another text", of.sealing(kind), texts[1]))
    rows.append(of.opens("opens to", kind, texts[1], key, entry.version))
    hold(texts[0] != texts[1] and rows[1][2] != rows[3][2])
    return Instance(of.name(0), rows)


@shows("sealed-twice")
def sealed_twice(of: Maker) -> Instance:
    """An entry in two records of a book."""
    entry = of.entries[0]
    other = entry._replace(identity=entry.identity ^ 1)
    made = of.seal_book(entry.data + other.data)
    hold(made[6:21] == made[27:42] and made[1:4] != made[22:25])
    return Instance(
        f"{of.name(0)}, and the same with another identity",
        [
            ("record of the first", by("seal_book"), made[:21]),
            ("record of the second", by("seal_book"), made[21:]),
            ("the text of either", by("seal_book"), made[6:21]),
        ],
    )


@shows("every-bit")
def every_bit(of: Maker) -> Instance:
    """How many bits of a key leave the first seven bytes of the text."""
    entry, text = of.entries[0], of.records[0][6:]
    bits = [(place, bit) for place in range(len(entry.key)) for bit in range(8)]
    made = [of.seal(entry._replace(key=changed(entry.key, place, 1 << bit))) for place, bit in bits]
    alike = sum(each[:7] == text[:7] for each in made)
    last = of.seal(near(of))
    hold(alike > 0 and last[:7] == text[:7] and text not in made)
    return Instance(
        of.name(0),
        [
            ("text", by("seal_book"), text),
            ("with the last bit of the key's tenth byte changed", of.sealing(entry.kind), last),
            ("bits of the key that leave the first seven", COUNTED, f"{alike} of {len(bits)}"),
        ],
    )


# ---- the checks


def _altered(of: Maker, entry: Entry, *places: int, change: int = 1) -> tuple[bytes, bytes]:
    """BL2's output of an entry's text with a change of these bytes, and the text of that."""
    key, data, _ = of.core(entry)
    for place in places:
        data = changed(data, place, change)
    return data[:15], of.text_of(key, data)


@shows("checks-exactly")
def checks_exactly(of: Maker) -> Instance:
    """An expansion, and one with a wrong byte."""
    entry, text = of.entries[0], of.records[0][6:]
    right, (wrong, other) = of.core(entry).data[:15], _altered(of, entry, 14)
    first, second = of.unsealed(entry, text), of.unsealed(entry, other)
    hold(first == (body_of(entry), 0) and second.failed != 0)
    return Instance(
        of.name(0),
        [
            ("BL2's output of its text", WORKING, right),
            of.checks(entry.kind, first.failed),
            ("shrunk", of.unsealing(entry.kind), of.body(entry.kind, first.body)),
            ("the last inserted byte ⊕ 01", ALTERED, wrong),
            ("the text of that", WORKING, other),
            of.checks(entry.kind, second.failed),
        ],
    )


@shows("unseals-all-the-same")
def all_the_same(of: Maker) -> Instance:
    """Another text that unseals to an entry's key."""
    entry, text = of.entries[0], of.records[0][6:]
    other = _altered(of, entry, 14)[1]
    first, second = of.unsealed(entry, text), of.unsealed(entry, other)
    hold(first.body == second.body and first.failed == 0 != second.failed and other != text)
    return Instance(
        of.name(0),
        [
            ("its text", by("seal_book"), text),
            of.checks(entry.kind, first.failed),
            ("another text", WORKING, other),
            of.checks(entry.kind, second.failed),
            ("either unseals to", of.unsealing(entry.kind), of.body(entry.kind, first.body)),
        ],
    )


_ALIKE = {"ta31": "256^5", "ta51": "8 · 256^4"}


@shows("without-any-check")
def without_any_check(of: Maker) -> Instance:
    """Texts with other inserted bytes, which unseal to the same."""
    entry, text = of.entries[0], of.records[0][6:]
    places = of.inserted(entry.kind)
    made = [_altered(of, entry, place)[1] for place in places]
    found = [of.unsealed(entry, each) for each in made]
    hold(all(each.body == body_of(entry) and each.failed for each in found))
    hold(len({text, *made}) == len(made) + 1)
    return Instance(
        of.name(0),
        [
            ("its text", by("seal_book"), text),
            ("with the first inserted byte ⊕ 01", WORKING, made[0]),
            ("with the last inserted byte ⊕ 01", WORKING, made[-1]),
            ("each unseals to", of.unsealing(entry.kind), of.body(entry.kind, found[0].body)),
            ("texts that do", BY_PROOF, _ALIKE.get(KINDS[entry.kind].seal, "256^3")),
        ],
    )


def _eight(of: Maker) -> tuple[str, Entry, list[bytes]]:
    """An entry of kind 2 or 5, and the texts of it with each value of the three bits; the
    proof's entry where there is none."""
    index = of.first(2, 5)
    if index is None:
        entry = Entry(2, 0, of.entries[0].version, bytes(10), 0)
        source = f"{PROOF}, an SCK of zeros with number 0, under {both('O')} of this sitting"
    else:
        entry, source = of.entries[index], of.name(index)
    texts = []
    for bits in range(8):
        altered = {"number_byte": lambda steps, number, bits=bits: bytes([number | bits << 5])}
        texts.append(Steps(of.desk, altered).text(entry, of.ring))
    hold(texts[0] == of.seal(entry) and len(set(texts)) == 8)
    return source, entry, texts


@shows("seven-others")
def seven_others(of: Maker) -> Instance:
    """The eight texts, and what each unseals to."""
    source, entry, texts = _eight(of)
    body = body_of(entry)
    rows: list[Row] = [of.given(entry)]
    for bits, text in enumerate(texts):
        hold(of.unsealed(entry, text) == (body, ZERO_BITS if bits else 0))
        mark = ALTERED_WORKING if bits else of.sealing(entry.kind)
        rows.append((f"number byte {body[11] | bits << 5:02x}", mark, text))
    said = "none fails of the first, that of the three bits of the others"
    rows.append(("checks", of.unsealing(entry.kind), said))
    return Instance(source, rows)


@shows("eight-without")
def eight_without(of: Maker) -> Instance:
    """The same texts without the check of the three bits."""
    source, entry, texts = _eight(of)
    found = [of.unsealed(entry, text) for text in texts]
    passing = sum(each.failed & ~ZERO_BITS == 0 for each in found)
    hold(passing == 8 and len({each.body for each in found}) == 1)
    return Instance(
        source,
        [
            of.given(entry),
            ("texts that open to it without that check", COUNTED, f"{passing} of 8"),
            ("the one that sealing gives", of.sealing(entry.kind), of.seal(entry)),
        ],
    )


def _unsealed_alone(of: Maker) -> Instance:
    """A text that is no entry's, what it unseals to, and the text of that."""
    source, entry, texts = _eight(of)
    found, sealed = of.unsealed(entry, texts[1]), of.seal(entry)
    hold(found == (body_of(entry), ZERO_BITS) and sealed != texts[1])
    return Instance(
        source,
        [
            ("text with 001 as the three bits", ALTERED_WORKING, texts[1]),
            of.checks(entry.kind, found.failed),
            ("it unseals to", of.unsealing(entry.kind), of.body(entry.kind, found.body)),
            ("that entry's own text", of.sealing(entry.kind), sealed),
        ],
    )


shows("bits-unchecked")(_unsealed_alone)
shows("one-result-so-sealed")(_unsealed_alone)


@shows("one-byte-of-output")
def one_byte_of_output(of: Maker) -> Instance:
    """Each byte of BL2's output, changed."""
    entry = of.entries[0]
    texts = [_altered(of, entry, place)[1] for place in range(15)]
    failed = [of.unsealed(entry, text).failed for text in texts]
    hold(all(failed))
    rows: list[Row] = [("BL2's output of its text", WORKING, of.core(entry).data[:15])]
    for place, name in ((0, "first"), (14, "last")):
        rows.append((f"text of that with its {name} byte ⊕ 01", WORKING, texts[place]))
        rows.append(of.checks(entry.kind, failed[place]))
    rows.append(("places at which such a change is noticed", COUNTED, "15 of 15"))
    return Instance(of.name(0), rows)


@shows("equal-changes")
def equal_changes(of: Maker) -> Instance:
    """Two equal changes in one group."""
    entry = of.entries[0]
    other = entry._replace(key=changed(changed(entry.key, 0), 1))
    data, text = _altered(of, entry, 0, 1)
    hold(of.seal(other) == text and of.unsealed(entry, text) == (body_of(other), 0))
    rows: list[Row] = [
        ("BL2's output of its text", WORKING, of.core(entry).data[:15]),
        ("its first two bytes ⊕ 01", ALTERED, data),
        ("the text of that", of.sealing(entry.kind), text),
        of.opens("opens to", entry.kind, text, of.key(entry.kind), entry.version),
    ]
    if KINDS[entry.kind].seal == "ta51":
        text = _altered(of, entry, 12, 13, change=0x80)[1]
        failed = of.unsealed(entry, text).failed
        hold(failed == ZERO_BITS)
        rows.append(("text of that with bytes 13 and 14 ⊕ 80", WORKING, text))
        rows.append(of.checks(entry.kind, failed))
    return Instance(of.name(0), rows)


_COUNTS = {"ta31": ("256^10", 40), "ta51": ("32 · 256^10", 35)}


@shows("how-many")
def how_many(of: Maker) -> Instance:
    """The number of each kind that the book has."""
    rows: list[Row] = []
    for kind in sorted({entry.kind for entry in of.entries}):
        count, bits = _COUNTS.get(KINDS[kind].seal, ("256^12", 24))
        said = f"{count} of 256^15 texts open: one in 2^{bits}"
        rows.append((f"kind {kind}", BY_PROOF, said))
    return Instance("the kinds of this book", rows)
