# SPDX-License-Identifier: MIT
"""Instances about the cipher, BL1 and BL2, and the dropped byte."""

from __future__ import annotations

from typing import Any

from .instance import (
    ALTERED, ALTERED_WORKING, BY_PROOF, COUNTED, EXAMPLE, GIVEN, PROOF, TRIED, UPWARD, WORKING, Core,
    Instance, Maker, Row, Steps, both, by, changed, hold, shows, xor,
)  # fmt: skip

# ---- the cipher


@shows("undone")
def undone(of: Maker) -> Instance:
    """A block, encrypted and decrypted."""
    block = of.records[0][6:14]
    made = of.bytes_of("encrypt", of.ring.o, block)
    back = of.bytes_of("decrypt", of.ring.o, made)
    hold(back == block)
    return Instance(
        f"{both('O')}, and the first eight bytes of entry 0's text",
        [
            ("key", by("ring"), of.ring.o),
            ("block", by("seal_book"), block),
            ("encrypted", by("encrypt"), made),
            ("decrypted", by("decrypt"), back),
        ],
    )


@shows("f-bytes")
@shows("f-collides")
def f_collides(of: Maker) -> Instance:
    """Two halves that f takes to the same."""
    return Instance(
        f"{PROOF}: f is no call of the engine, so that it is not tried here",
        [
            ("one half", GIVEN, bytes.fromhex("00030136")),
            ("another", GIVEN, bytes.fromhex("0003c136")),
            ("round key of both", GIVEN, bytes(12)),
            ("f of either", BY_PROOF, bytes.fromhex("019c10b0")),
        ],
    )


def _g(half: bytes, round_key: bytes) -> bytes:
    """What stands for f: it takes many halves to one."""
    return bytes(a & b for a, b in zip(half, round_key))


def _rounds(block: bytes, round_keys: list[bytes]) -> bytes:
    """The cipher's rounds with g for f, and the exchange of the halves after them."""
    left, right = block[:4], block[4:]
    for round_key in round_keys:
        left, right = right, xor(left, _g(right, round_key))
    return right + left


@shows("because-s-permutes")
def because_s_permutes(of: Maker) -> Instance:
    """Sixteen rounds with another function than f, undone."""
    block, round_keys = of.records[0][6:14], [bytes([number] * 4) for number in range(16)]
    made = _rounds(block, round_keys)
    back = _rounds(made, round_keys[::-1])
    two = (bytes(4), bytes([0xF0] * 4))
    hold(back == block)
    hold({_g(half, round_key) for half in two for round_key in round_keys} == {bytes(4)})
    return Instance(
        "the first eight bytes of entry 0's text, under rounds without S",
        [
            ("in the place of f", GIVEN, "half AND round key; round key n is four bytes n"),
            ("halves that it takes to zeros", GIVEN, two),
            ("block", by("seal_book"), block),
            ("after sixteen rounds", ALTERED_WORKING, made),
            ("the rounds again, their keys backwards", ALTERED_WORKING, back),
        ],
    )


@shows("cipher-not-undone")
def cipher_not_undone(of: Maker) -> Instance:
    """BL1 over an encryption that clears a block's last byte before it."""
    data = of.core(of.entries[0]).data

    def text(block: bytes) -> bytes:
        left = of.bytes_of("encrypt", of.ring.o, block[:7] + b"\0")
        right = xor(data[8:], left)
        return left[:7] + of.bytes_of("encrypt", of.ring.o, right[:7] + b"\0")

    other = changed(data[:8], 7)
    hold(text(data[:8]) == text(other))
    return Instance(
        "an encryption that clears a block's last byte first, so that it can't be undone",
        [
            ("input of BL1", WORKING, data),
            ("another, with the same right block", ALTERED, other + data[8:]),
            ("text of either", ALTERED_WORKING, text(other)),
        ],
    )


# ---- the dropped byte


def _core(of: Maker) -> tuple[str, Core, bytes]:
    """BL1 of the first entry whose dropped byte is not zero, and its text; of the proofs'
    entry where there is none."""
    for index, (entry, record) in enumerate(zip(of.entries, of.records)):
        core = of.core(entry)
        if core.output[7]:
            return of.name(index), core, record[6:]
    steps = Steps(of.desk)
    key = steps.long_key(UPWARD, EXAMPLE.version)
    data = steps.x16(EXAMPLE.key + bytes.fromhex("1234"))
    core, text = Core(key, data, steps.bl1(key, data)), of.seal(EXAMPLE, UPWARD)
    return f"{PROOF}: {of.said(EXAMPLE)}", core, text


@shows("nothing-lost")
def nothing_lost(of: Maker) -> Instance:
    """A text, and the one input that ends in a zero byte."""
    key, data, output = of.core(of.entries[0])
    text = of.records[0][6:]
    back = of.steps.bl2(key, of.steps.zero_back(text)) + b"\0"
    hold(back == data and data[15] == 0 and output[:7] + output[8:] == text)
    return Instance(
        of.name(0),
        [
            ("input of BL1", WORKING, data),
            ("its output", WORKING, output),
            ("text: without B8", by("seal_book"), text),
            ("BL2 of the text with 00 as B8, then 00", WORKING, back),
        ],
    )


@shows("shared")
def shared(of: Maker) -> Instance:
    """Two inputs of one text, which differ in the dropped byte."""
    key, data, output = of.core(of.entries[0])
    text = of.records[0][6:]
    made = [of.input_for(key, text, dropped) for dropped in range(256)]
    hold(made[output[7]] == data and len(set(made)) == 256)
    hold({of.text_of(key, each) for each in made} == {text})
    rows: list[Row] = [("text", by("seal_book"), text)]
    for dropped in (output[7], output[7] ^ 1):
        rows.append((f"input for {dropped:02x} as the dropped byte", WORKING, made[dropped]))
    rows.append(("inputs with that text", COUNTED, len(set(made))))
    return Instance(of.name(0), rows)


@shows("fewer-keys")
def fewer_keys(of: Maker) -> Instance:
    """Inputs whose zero byte stands elsewhere, and their one text."""
    key, data, _ = of.core(of.entries[0])
    moved = data[:8] + b"\0" + data[8:15]
    output = of.steps.bl1(key, moved)
    text = of.steps.dropped(output)
    made = [of.input_for(key, text, dropped) for dropped in range(256)]
    hold(made[output[7]] == moved and len(set(made)) == 256 and not any(each[8] for each in made))
    hold({of.text_of(key, each) for each in made} == {text})
    return Instance(
        f"{of.name(0)}, its zero byte moved to the front of the right block",
        [
            ("input", WORKING, moved),
            ("another with its zero byte there", WORKING, made[output[7] ^ 1]),
            ("text of either", WORKING, text),
            ("such inputs with that text", COUNTED, 256),
        ],
    )


@shows("chaining")
def chaining(of: Maker) -> Instance:
    """Inputs that share a text where the blocks are not chained."""
    key, data, _ = of.core(of.entries[0])
    loose = Steps(of.desk, {"chained": lambda steps, right, left_output, left_input: right})
    output = loose.bl1(key, data)
    text = loose.dropped(output)
    lefts = [of.steps.decrypt(key, output[:7] + bytes([dropped])) for dropped in range(256)]
    made = [bytes(left) + data[8:] for left in lefts]
    hold(made[output[7]] == data and len(set(made)) == 256 and not any(each[15] for each in made))
    hold({loose.dropped(loose.bl1(key, each)) for each in made} == {text})
    other = made[output[7] ^ 1]
    texts = (of.text_of(key, data), of.text_of(key, other))
    hold(texts[0] == of.records[0][6:] != texts[1])
    return Instance(
        of.name(0),
        [
            ("input", WORKING, data),
            ("another that ends in a zero byte", WORKING, other),
            ("text of either without chaining", ALTERED_WORKING, text),
            ("such inputs with that text", COUNTED, 256),
            ("with chaining: text of the first", by("seal_book"), texts[0]),
            ("with chaining: text of the other", WORKING, texts[1]),
        ],
    )


@shows("dropped-byte-zero")
def dropped_byte_zero(of: Maker) -> Instance:
    """A dropped byte that is not zero."""
    source, core, text = _core(of)
    hold(core.output[7] != 0 and of.steps.dropped(core.output) == text)
    return Instance(
        source,
        [
            ("BL1's output", WORKING, core.output),
            ("text: without B8", by("seal_book") if PROOF not in source else by("ta81"), text),
            ("the dropped byte", WORKING, core.output[7:8]),
        ],
    )


@shows("any-byte-put-back")
def any_byte_put_back(of: Maker) -> Instance:
    """BL2 with another byte put back."""
    key, data, _ = of.core(of.entries[0])
    text = of.records[0][6:]
    right, other = (of.steps.bl2(key, text[:7] + back + text[7:]) for back in (b"\0", b"\1"))
    hold(right == data[:15] and right[:8] != other[:8] and right[8:] == other[8:])
    return Instance(
        of.name(0),
        [
            ("text", by("seal_book"), text),
            ("BL2's output, left and right, with 00 as B8", WORKING, (right[:8], right[8:])),
            ("with 01 as B8", ALTERED_WORKING, (other[:8], other[8:])),
        ],
    )


@shows("bl2-is-bl1-backwards")
def not_backwards(of: Maker) -> Instance:
    """BL2 of all that BL1 gave, and of that with a zero byte for byte 8."""
    source, (key, data, output), text = _core(of)
    whole, put = of.steps.bl2(key, output), of.steps.bl2(key, of.steps.zero_back(text))
    hold(put == data[:15] != whole)
    return Instance(
        source,
        [
            ("input of BL1", WORKING, data),
            ("its output", WORKING, output),
            ("BL2 of that output", WORKING, whole),
            ("BL2 of it with 00 as B8", WORKING, put),
        ],
    )


# ---- the zero byte at the end


def _at_end(of: Maker) -> Steps:
    return Steps(of.desk, {"zero_back": lambda steps, text: text + b"\0"})


@shows("zero-at-end")
def zero_at_end(of: Maker) -> Instance:
    """A text, unsealed with the zero byte at the end."""
    steps = _at_end(of)
    found: Any = None
    for index, (entry, record) in enumerate(zip(of.entries, of.records)):
        call = getattr(steps, of.unsealing(entry.kind)[3:].lower())
        wrong = call(record[6:], of.key(entry.kind), entry.version)
        if wrong.failed:
            found = of.name(index), entry.kind, record[6:], of.unsealed(entry, record[6:]), wrong
            break
    if found is None:
        text = of.seal(EXAMPLE, UPWARD)
        unsealed = of.unseal(3, text, UPWARD, EXAMPLE.version)
        wrong = steps.ta82(text, UPWARD, EXAMPLE.version)
        found = f"{PROOF}: {of.said(EXAMPLE)}", 3, text, unsealed, wrong
    source, kind, text, right, wrong = found
    hold(right.failed == 0 and wrong.failed != 0)
    mark = by("ta81") if source.startswith(PROOF) else by("seal_book")
    return Instance(
        source,
        [
            ("text", mark, text),
            ("with the zero byte as B8", *of.checks(kind, right.failed)[1:]),
            ("with the zero byte at the end", ALTERED_WORKING, of.checks(kind, wrong.failed)[2]),
        ],
    )


@shows("zero-at-end-either-way")
def either_way(of: Maker) -> Instance:
    """A text that opens wherever the zero byte is put back."""
    text = bytes.fromhex("b23e9d02bd07830000000000000000")
    found = of.unseal(3, text, UPWARD, 7)
    wrong = _at_end(of).ta82(text, UPWARD, 7)
    hold(found.failed == wrong.failed == 0)
    hold(found.body == wrong.key + (wrong.number or 0).to_bytes(2, "big"))
    return Instance(
        TRIED,
        [
            ("text", GIVEN, text),
            ("sealing key", GIVEN, UPWARD),
            ("version", GIVEN, 7),
            of.opens("opens as kind 3 to", 3, text, UPWARD, 7),
            ("with the zero byte at the end, to", ALTERED_WORKING, of.body(3, found.body)),
        ],
    )
