# SPDX-License-Identifier: MIT
"""Books: sealed, opened, checked, and filed by column."""

from __future__ import annotations

from typing import Optional

from taa1 import Engine, Refusal

from .craft import core_key, expanded, inserted, sealed
from .draws import Draw
from .suite import Group, Input, changed, joined, made, xor

ABOUT = "Books of up to 1,024 keys: plain ones checked and sealed under a ring, sealed ones opened."
COLUMNS = "Plain and sealed books filed by column, and taken back."

PLAIN, SEALED = 18, 21
KINDS = range(1, 7)
# The unsealing call of a kind, and where the key that seals it stands in a ring.
UNSEAL = {1: "ta32", 2: "ta52", 3: "ta82", 4: "ta92", 5: "ta52", 6: "ta82"}
UNDER = {1: slice(0, 10), 2: slice(10, 26), 3: slice(10, 26), 4: slice(10, 26), 5: slice(36, 52), 6: slice(36, 52)}


def record(draw: Draw, kind: int, number: Optional[int] = None) -> bytes:
    """A drawn plain record of a kind."""
    head = bytes([kind]) + draw.bytes(5)
    key = draw.bytes(12)
    if kind == 1:
        return head + key[:10] + bytes(2)
    if kind in (2, 5):
        return head + key[:10] + bytes([0, key[11] % 32 if number is None else number])
    return head + key


def book(draw: Draw, *kinds: int) -> bytes:
    """A drawn plain book with a record of each of these kinds."""
    return b"".join(record(draw, kind) for kind in kinds)


def _lengths(group: Group, size: int, one: bytes, **fixed: Input) -> None:
    """The limits of a list, whose name is that of the last input."""
    name = group.call.inputs[-1].name
    group.add("1,025 records", "MostRecords", refused=Refusal.BOOK_TOO_LONG, **joined(fixed, {name: one * 1025}))
    group.add("a record and a byte", refused=Refusal.BOOK_NOT_WHOLE, **joined(fixed, {name: one + b"\0"}))
    group.add("a record without its last byte", refused=Refusal.BOOK_NOT_WHOLE, **joined(fixed, {name: one[:-1]}))
    words = "1,024 records and a byte: too long before not whole"
    long: dict[str, Input] = {**fixed, name: b"\0" * (size * 1024 + 1)}
    group.add(words, "Order", refused=Refusal.BOOK_TOO_LONG, **long)


def _outputs(group: Group, one: bytes, **fixed: Input) -> None:
    """Outputs of every length that matters, for a list of two records."""
    name, written = group.call.inputs[-1].name, 2 * group.call.record
    both: dict[str, Input] = {**fixed, name: one * 2}
    for out_length in (written, written + 1):
        group.add(f"two records, output of {out_length} bytes", "Output", out_length=out_length, **both)
    for out_length in (written - 1, 0):
        words = f"two records, output of {out_length} bytes"
        group.add(words, refused=Refusal.OUTPUT_SHORT, out_length=out_length, **both)
    part: dict[str, Input] = {**fixed, name: one + b"\0"}
    words = "not whole, and no output"
    group.add(words, "Order", refused=Refusal.BOOK_NOT_WHOLE, out_length=0, **part)


def _records(group: Group, **fixed: Input) -> None:
    """Refusals 3, 4 and 5, of sealing and of checking."""
    draw = group.draw

    def refused(words: str, number: Refusal, plain: bytes, *flags: str) -> None:
        group.add(words, *flags, refused=number, **fixed, plain=plain)

    for kind in (0, 7, 255):
        refused(f"kind {kind}", Refusal.WRONG_KIND, changed(record(draw, 3), 0, kind))
    for kind, place in ((1, 16), (1, 17), (2, 16), (5, 16)):
        plain = changed(record(draw, kind), place, 1)
        refused(f"kind {kind}, byte {place} of the record not zero", Refusal.NOT_ZERO, plain)
    for kind, number in ((2, 32), (5, 32), (2, 255)):
        refused(f"kind {kind}, number {number}", Refusal.WRONG_NUMBER, record(draw, kind, number))
    right = record(draw, 4)
    refused("number 32 in record 1", Refusal.WRONG_NUMBER, right + record(draw, 2, 32))
    words = "number 32 in record 0, kind 7 in record 1: the first record decides"
    refused(words, Refusal.WRONG_NUMBER, record(draw, 2, 32) + changed(right, 0, 7), "Order")
    words = "number 32 and a byte that is not zero: 4 before 5"
    refused(words, Refusal.NOT_ZERO, changed(record(draw, 5, 32), 16, 1), "Order")


def _seal(group: Group) -> None:
    draw = group.draw
    ring = draw.bytes(52)
    group.add("the empty book", "Edge", ring=ring, plain=b"")
    for kind in KINDS:
        group.add(f"a record of kind {kind}", "Kinds", ring=ring, plain=record(draw, kind))
    for kind, number in ((2, 0), (2, 31), (5, 31)):
        group.add(f"kind {kind}, number {number}", "Edge", ring=ring, plain=record(draw, kind, number))
    for kind in (3, 6):
        plain = record(draw, kind)[:16] + b"\xff\xff"
        group.add(f"kind {kind}, number 65535", "Edge", ring=ring, plain=plain)
    group.add("kinds 1 to 6", "Kinds", "Random", ring=draw.bytes(52), plain=book(draw, *KINDS))
    group.add("kinds 6 to 1", "Kinds", "Random", ring=draw.bytes(52), plain=book(draw, *reversed(KINDS)))
    one = record(draw, 2)
    group.add("one record twice", "Edge", ring=ring, plain=one * 2)
    pad = b"\x12\x34"
    version = xor(one[4:6], pad)
    moved = xor(ring[:26], pad * 13) + ring[26:36] + xor(ring[36:], pad * 8)
    words = "ring-and-versions: D, O and G changed together with the version: the text of the two before"
    group.add(words, "Argument", "KeyAndVersion", ring=moved, plain=one[:4] + version + one[6:])
    group.add("1,024 records, all the same", "MostRecords", ring=ring, plain=one * 1024)
    _lengths(group, PLAIN, one, ring=bytes(52))
    _outputs(group, one, ring=ring)
    _records(group, ring=bytes(52))
    words = "kind 7, and no output"
    group.add(words, "Order", refused=Refusal.OUTPUT_SHORT, out_length=0, ring=bytes(52), plain=changed(one, 0, 7))
    _rings(group, ring, plain=one)


def _rings(group: Group, ring: bytes, **list_: Input) -> None:
    """Rings of wrong lengths."""
    for wrong, words in ((ring[:36], "a ring of 36 bytes, without G"), (ring[:51], "a ring of 51 bytes"), (b"", "no ring")):
        group.add(words, refused=Refusal.WRONG_LENGTH, **joined({"ring": wrong}, list_))
    name = next(iter(list_))
    words = "a ring of 53 bytes, and a list that is not whole: the length goes first"
    short: dict[str, Input] = {"ring": ring + b"\0", name: b"\1"}
    group.add(words, "Order", refused=Refusal.WRONG_LENGTH, **short)


def _broken(engine: Engine, ring: bytes, plain: bytes, check: int) -> bytes:
    """A record's sealed form, in which one check of the text fails."""
    kind, version = plain[0], int.from_bytes(plain[4:6], "big")
    call = UNSEAL[kind]
    length = {"ta32": 10, "ta52": 11, "ta82": 12, "ta92": 12}[call]
    body = plain[6 : 6 + length]
    if call == "ta52":
        body = plain[6:16] + plain[17:]
    whole = expanded(call, body)
    places = inserted(call)
    if check < len(places):
        whole = changed(whole, places[check], whole[places[check]] ^ 1)
    else:
        whole = expanded(call, body[:10] + bytes([body[10] | 0x20]))
    text = sealed(engine, core_key(call, ring[UNDER[kind]], version), whole)
    return engine.seal_book(ring, plain).content[:6] + text


def _open(group: Group) -> None:
    draw, engine = group.draw, group.engine
    ring = draw.bytes(52)

    def shut(plain: bytes) -> bytes:
        return engine.seal_book(ring, plain).content

    group.add("the empty book", "Edge", ring=ring, sealed=b"")
    for kind in KINDS:
        group.add(f"a record of kind {kind}", "Kinds", ring=ring, sealed=shut(record(draw, kind)))
    group.add("kinds 1 to 6", "Kinds", "Random", ring=ring, sealed=shut(book(draw, *KINDS)))
    one = shut(record(draw, 3))
    group.add("one record twice", "Edge", ring=ring, sealed=one * 2)
    group.add("1,024 records, all the same", "MostRecords", ring=ring, sealed=one * 1024)
    other = changed(one, 2, one[2] ^ 0x10)
    group.add("identity-free: an identity changed in one bit", "Argument", "NotNoticed", ring=ring, sealed=other)
    first, second = record(draw, 2), record(draw, 2)
    second = second[:4] + first[4:6] + second[6:]
    two = shut(first + second)
    words = "texts-exchanged: the texts of two records exchanged, same kind and version"
    exchanged = two[:6] + two[27:] + two[21:27] + two[6:21]
    group.add(words, "Argument", "NotNoticed", ring=ring, sealed=exchanged)
    words = "kind-byte-protected: kind 3 written 4"
    group.add(words, "Argument", "NotNoticed", "SharedText", ring=ring, sealed=changed(one, 0, 4))
    _lengths(group, SEALED, one, ring=bytes(52))
    _outputs(group, one, ring=ring)
    for kind in (0, 7, 255):
        group.add(f"kind {kind}", refused=Refusal.WRONG_KIND, ring=bytes(52), sealed=changed(one, 0, kind))
    for kind in KINDS:
        last = {1: 4, 2: 4, 3: 2, 4: 2, 5: 4, 6: 2}[kind]
        for check in (0, last):
            flag = "ThreeBits" if kind in (2, 5) and check == 4 else "SingleCheck"
            broken = _broken(engine, ring, record(draw, kind), check)
            words = f"kind {kind}, check {check} alone fails"
            group.add(words, "Kinds", flag, refused=Refusal.FLAG_SET, ring=ring, sealed=broken)
    for written, words in ((1, "kind 3 written 1"), (2, "kind 3 written 2"), (6, "kind 3 written 6")):
        group.add(words, "Kinds", refused=Refusal.FLAG_SET, ring=ring, sealed=changed(one, 0, written))
    words = "the version changed in one bit"
    group.add(words, "ManyChecks", refused=Refusal.FLAG_SET, ring=ring, sealed=changed(one, 5, one[5] ^ 1))
    broken = _broken(engine, ring, record(draw, 5), 1)
    right = shut(book(draw, 1, 4))
    group.add("record 2 does not open", "Edge", refused=Refusal.FLAG_SET, ring=ring, sealed=right + broken)
    words = "record 1 does not open, record 2 is of kind 7: the first record decides"
    both = right[:21] + broken + changed(one, 0, 7)
    group.add(words, "Order", refused=Refusal.FLAG_SET, ring=ring, sealed=both)
    words = "record 1 is of kind 7, record 2 does not open: the first record decides"
    both = right[:21] + changed(one, 0, 7) + broken
    group.add(words, "Order", refused=Refusal.WRONG_KIND, ring=ring, sealed=both)
    words = "does not open, and no output"
    group.add(words, "Order", refused=Refusal.OUTPUT_SHORT, out_length=0, ring=ring, sealed=broken)
    _rings(group, ring, sealed=one)


def _check(group: Group) -> None:
    draw = group.draw
    group.add("the empty book", "Edge", plain=b"")
    group.add("kinds 1 to 6", "Kinds", "Random", plain=book(draw, *KINDS))
    one = record(draw, 5, 31)
    group.add("1,024 records, all the same", "MostRecords", plain=one * 1024)
    _lengths(group, PLAIN, one)
    _records(group)


def _columns(group: Group) -> None:
    size = group.call.record
    name = group.call.inputs[0].name
    draw = group.draw

    def given(content: bytes) -> dict[str, Input]:
        return {name: content}

    group.add("no records", "Edge", **given(b""))
    group.add("one record", "Edge", **given(draw.bytes(size)))
    for count in (2, 3):
        group.add(f"{count} drawn records", "Random", **given(draw.bytes(size * count)))
    if group.name.endswith("to_columns"):
        group.add("kinds 9: the contents are not looked at", "Edge", **given(b"\x09" * size))
    group.add("1,024 records of one byte", "MostRecords", **given(b"\x5a" * (size * 1024)))
    _lengths(group, size, bytes(size))
    _outputs(group, draw.bytes(size))


def books(engine: Engine) -> list[Group]:
    """Sealing, opening and checking."""
    return made(engine, ("seal_book", _seal), ("open_book", _open), ("check_plain", _check))


def columns(engine: Engine) -> list[Group]:
    """Filing by column."""
    names = ("plain_to_columns", "plain_from_columns", "sealed_to_columns", "sealed_from_columns")
    return made(engine, *((name, _columns) for name in names))
