# SPDX-License-Identifier: MIT
"""Lineage sheets: given keys, and keys derived from them."""

from __future__ import annotations

from taa1 import Engine, Refusal

from .suite import Group, changed, made

ABOUT = "Lineage sheets: a tree of given keys and of keys derived by TA11, TA21, TA41, TB4 and TA71."
SIZE = 22
NAMES = {1: "TA11", 2: "TA21", 3: "TA41", 4: "TB4", 5: "TA71"}


def given(key: bytes) -> bytes:
    """A record with the key itself."""
    return bytes(5) + bytes([len(key)]) + key + bytes(16 - len(key))


def derived(operation: int, first: int, second: int) -> bytes:
    """A record that is derived from two others."""
    return bytes([operation]) + first.to_bytes(2, "big") + second.to_bytes(2, "big") + bytes(17)


def _sheets(group: Group) -> None:
    draw = group.draw
    long, short, other = given(draw.bytes(16)), given(draw.bytes(10)), given(draw.bytes(10))
    start = long + short + other  # records 0, 1 and 2
    group.add("the empty sheet", "Edge", sheet=b"")
    group.add("a key of 16 bytes, and one of 10", "Edge", sheet=long + short)
    for operation, name in NAMES.items():
        parents = (0, 1) if operation < 4 else (1, 2)
        group.add(name, "Random", sheet=start + derived(operation, *parents))
    for operation in (4, 5):
        words = f"{NAMES[operation]}, its parents exchanged"
        group.add(words, "KeyOrder", sheet=start + derived(operation, 2, 1))
        group.add(f"{NAMES[operation]} of one key twice", "Edge", sheet=start + derived(operation, 1, 1))
    tree = start + derived(1, 0, 1) + derived(2, 3, 2) + derived(4, 1, 2) + derived(5, 5, 1) + derived(3, 4, 6)
    group.add("a tree of five derived keys", "Random", sheet=tree)
    group.add("1,024 records, all the same", "MostRecords", sheet=short * 1024)

    def refused(words: str, number: Refusal, sheet: bytes, *flags: str) -> None:
        group.add(words, *flags, refused=number, sheet=sheet)

    refused("1,025 records", Refusal.BOOK_TOO_LONG, short * 1025, "MostRecords")
    refused("a record and a byte", Refusal.BOOK_NOT_WHOLE, short + b"\0")
    words = "1,024 records and a byte: too long before not whole"
    refused(words, Refusal.BOOK_TOO_LONG, b"\0" * (SIZE * 1024 + 1), "Order")
    for out_length in (32, 33):
        group.add(f"two records, output of {out_length} bytes", "Output", out_length=out_length, sheet=short * 2)
    group.add("two records, output of 31 bytes", refused=Refusal.OUTPUT_SHORT, out_length=31, sheet=short * 2)
    words = "not whole, and no output"
    group.add(words, "Order", refused=Refusal.BOOK_NOT_WHOLE, out_length=0, sheet=short[:-1])
    words = "operation 6, and no output"
    group.add(words, "Order", refused=Refusal.OUTPUT_SHORT, out_length=0, sheet=changed(short, 0, 6))
    filling = Refusal.WRONG_FILLING
    for operation in (6, 255):
        refused(f"operation {operation}", filling, start + derived(operation, 0, 1))
    for length in (0, 9, 11, 15, 17):
        refused(f"a given key of length {length}", filling, changed(short, 5, length))
    for place, words in ((2, "a given key with a first parent"), (3, "a given key with a second parent")):
        refused(words, filling, changed(short, place, 1))
    for place in (16, 21):
        refused(f"a key of 10 bytes, byte {place} of the record not zero", filling, changed(short, place, 1))
    for place, words in ((5, "a derived key with a length"), (6, "a derived key with a value"), (21, "and at its end")):
        refused(words, filling, start + changed(derived(1, 0, 1), place, 10))
    parent = Refusal.WRONG_PARENT
    for first, second in ((3, 1), (0, 3), (4, 1), (0, 256), (0xFFFF, 0xFFFF)):
        refused(f"record 3 of parents {first} and {second}", parent, start + derived(1, first, second))
    refused("record 0 of itself", parent, derived(4, 0, 0))
    length_ = Refusal.PARENT_LENGTH
    for operation, first, second in ((1, 1, 1), (1, 0, 0), (2, 1, 0), (3, 2, 1), (4, 0, 1), (4, 1, 0), (5, 0, 0)):
        words = f"{NAMES[operation]} of records {first} and {second}: lengths"
        refused(words, length_, start + derived(operation, first, second))
    words = "a derived key of 10 bytes in the place of one of 16"
    refused(words, length_, start + derived(4, 1, 2) + derived(1, 3, 1))
    words = "a value, a parent that comes later and one of a wrong length: 14 before 15 and 16"
    refused(words, filling, start + changed(derived(1, 1, 9), 6, 1), "Order")
    words = "one parent of a wrong length, the other comes later: 15 before 16"
    refused(words, parent, start + derived(1, 1, 9), "Order")
    words = "record 3 has a wrong parent, record 4 operation 6: the first record decides"
    refused(words, parent, start + derived(1, 3, 1) + derived(6, 0, 1), "Order")


def sheets(engine: Engine) -> list[Group]:
    """The lineage."""
    return made(engine, ("lineage", _sheets))
