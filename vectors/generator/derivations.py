# SPDX-License-Identifier: MIT
"""Session keys (TA11, TA21, TA41), responses and keys (TA12, TA22), a class, and the ring."""

from __future__ import annotations

from taa1 import Engine, Refusal

from .suite import Group, Input, joined, made

SESSION_KEYS = "Session keys from a root key and a seed: TA11, TA21, TA41."
RESPONSES = "Responses and keys from a session key and a challenge: TA12, TA22, and TA12 for a class."
RINGS = "The ring of sealing keys, with both responses, from what a sitting gives."

ROOT, UP = bytes(range(16)), bytes(range(1, 11))  # 00 01 .. 0f and 01 02 .. 0a
PALINDROME = bytes.fromhex("01020304050504030201")
PEER_MASKS = (0x9240, 0x6DB6)  # the key mask chooses the bytes of osmo-tetra's key
# Places at the ends, and both orders.
MASKS = (
    (0xF000, 0x0FFC, "response B15 to B12, key B11 to B2"),
    (0x000F, 0x3FF0, "response B3 to B0, key B13 to B4"),
    (0x000F, 0xFFC0, "response B3 to B0, key B15 to B6"),
    (0x8181, 0x7E74, "response with both ends, key around the middle"),
    (0x9240, 0x6DB6, "key of all bytes but each third"),
)
WRONG_MASKS = (
    (0x0007, 0xFFC0, "three ones in the response mask", ()),
    (0x001F, 0xFFC0, "five ones in the response mask", ()),
    (0x000F, 0xFF80, "nine ones in the key mask", ()),
    (0x000F, 0xFFE0, "eleven ones in the key mask", ()),
    (0, 0, "no ones in either mask", ()),
    (0xFFC0, 0x000F, "the masks exchanged", ()),
    (0xFFFF, 0xFFFF, "sixteen ones in both masks: the counts before the shared bits", ("Order",)),
)
SHARED = (
    (0x000F, 0x1FF8, "the masks share one bit"),
    (0xF000, 0xFFC0, "the masks share four bits"),
    (0x8007, 0xFFC0, "the masks share the leftmost bit"),
)


def _wrapping(group: Group) -> bytes:
    """A seed whose five inserted bytes have a sum above 255."""
    while True:
        seed = group.draw.bytes(10)
        if sum(seed[at] ^ seed[at + 1] for at in range(0, 10, 2)) > 511:
            return seed


def _sessions(group: Group) -> None:
    """TA11, TA21 or TA41."""
    reversed_ = ("Ta21Reversed",) if group.name == "ta21" else ()
    group.add("zero root, zero seed", "Edge", root=bytes(16), seed=bytes(10))
    group.add("root and seed of ones", "Edge", root=b"\xff" * 16, seed=b"\xff" * 10)
    words = "last-byte-xored: seed 01 02 .. 0a, EXP2's last byte is 1f and not 0b"
    group.add(words, "Argument", "Exp2Sum", *reversed_, root=ROOT, seed=UP)
    group.add("seed that is a palindrome", "Edge", root=ROOT, seed=PALINDROME)
    words = "EXP2's last byte wraps"
    group.add(words, "Wrap", "Exp2Sum", *reversed_, root=group.draw.bytes(16), seed=_wrapping(group))
    for _ in range(4):
        flags = ("Random", "Exp2Sum", *reversed_)
        group.add("drawn", *flags, root=group.draw.bytes(16), seed=group.draw.bytes(10))
    group.wrong_lengths(root=group.draw.bytes(16), seed=group.draw.bytes(10))


def _masks(response_mask: int, key_mask: int) -> dict[str, Input]:
    return {"response_mask": response_mask, "key_mask": key_mask}


def _wrong_masks(group: Group, **inputs: Input) -> None:
    """Masks with wrong counts, and with shared bits; all of them where a test is short."""
    few = group.name != "ta12"
    for response, key, words, flags in WRONG_MASKS[2 * few :: 1 + few]:
        masks = _masks(response, key)
        group.add(words, "Masks", *flags, refused=Refusal.WRONG_MASK, **joined(inputs, masks))
    for response, key, words in SHARED[: 3 - 2 * few]:
        masks = _masks(response, key)
        group.add(words, "Masks", refused=Refusal.SHARED_BIT, **joined(inputs, masks))


def _responses(group: Group) -> None:
    """TA12 or TA22."""
    told = ("Ta22NotReversed",) if group.name == "ta22" else ()
    draw = group.draw

    def add(words: str, *flags: str, masks: tuple[int, int], **inputs: Input) -> None:
        group.add(words, *flags, **inputs, **_masks(*masks))

    claim = "challenge-reversed: " if told else ""
    words = f"{claim}challenge 01 02 .. 0a"
    add(words, *(("Argument",) if told else ("Edge",)), *told, masks=MASKS[1][:2], session_key=ROOT, challenge=UP)
    words = "a palindrome, on which reversing has no effect"
    add(words, "Edge", masks=MASKS[1][:2], session_key=ROOT, challenge=PALINDROME)
    add("zeros", "Edge", masks=MASKS[0][:2], session_key=bytes(16), challenge=bytes(10))
    words = "EXP2's last byte wraps"
    wrapping = _wrapping(group)
    add(words, "Wrap", "Exp2Sum", *told, masks=PEER_MASKS, session_key=draw.bytes(16), challenge=wrapping)
    key, challenge = draw.bytes(16), draw.bytes(10)
    for response, chosen, words in MASKS:
        add(words, "Masks", *told, masks=(response, chosen), session_key=key, challenge=challenge)
    for turn in range(4):
        masks = PEER_MASKS if turn % 2 else draw.masks()
        add("drawn", "Random", *told, masks=masks, session_key=draw.bytes(16), challenge=draw.bytes(10))
    _wrong_masks(group, session_key=key, challenge=challenge)
    group.wrong_lengths(session_key=key, challenge=challenge, **_masks(*MASKS[0][:2]))
    words = "wrong masks, and a challenge of 9 bytes: the length goes first"
    short = challenge[:9]
    group.add(words, "Order", refused=Refusal.WRONG_LENGTH, session_key=key, challenge=short, **_masks(0, 0))


def _class(group: Group) -> None:
    """TA12 for each of a list."""
    draw = group.draw
    key, one = draw.bytes(16), draw.bytes(10)
    masks = _masks(*PEER_MASKS)
    group.add("no challenges", "Edge", session_key=key, challenges=b"", **masks)
    for count in (1, 3, 6):
        group.add(f"{count} drawn", "Random", session_key=draw.bytes(16), challenges=draw.bytes(10 * count), **masks)
    words = "the same challenge three times, another in between"
    group.add(words, "Edge", session_key=key, challenges=one * 2 + draw.bytes(10) + one, **masks)
    words = "1,024 challenges, all the same"
    group.add(words, "MostRecords", session_key=key, challenges=one * 1024, **masks)
    fine: dict[str, Input] = {"session_key": key, "challenges": one * 2, **masks}
    for out_length in (28, 29):
        group.add(f"output of {out_length} bytes", "Output", out_length=out_length, **fine)
    group.add("output of 27 bytes", refused=Refusal.OUTPUT_SHORT, out_length=27, **fine)
    many: dict[str, Input] = {"challenges": one * 1025}
    group.add("1,025 challenges", "MostRecords", refused=Refusal.BOOK_TOO_LONG, **joined(fine, many))
    part: dict[str, Input] = {"challenges": one + b"\0"}
    group.add("a challenge and a byte", refused=Refusal.BOOK_NOT_WHOLE, **joined(fine, part))
    group.wrong_lengths(**fine)
    _wrong_masks(group, **fine)
    for words, refused, room, changed in (
        ("session key of 15 bytes, 1,025 challenges", Refusal.WRONG_LENGTH, None, {"session_key": key[:15], **many}),
        ("10,241 bytes: too long before not whole", Refusal.BOOK_TOO_LONG, None, {"challenges": b"\0" * 10241}),
        ("not whole, and no output", Refusal.BOOK_NOT_WHOLE, 0, part),
        ("no output, and wrong masks", Refusal.OUTPUT_SHORT, 0, _masks(0, 0)),
    ):
        group.add(words, "Order", refused=refused, out_length=room, **joined(fine, changed))


def _sitting(group: Group, sides: int, masks: tuple[int, int]) -> dict[str, Input]:
    """A drawn sitting."""
    draw = group.draw
    given: dict[str, Input] = {"root": draw.bytes(16)}
    for name in ("rs", "rso", "rand1", "rand2", "c"):
        given[name] = draw.bytes(10)
    return {**given, "group_key": draw.bytes(12), "sides": sides, **_masks(*masks)}


def _ring(group: Group) -> None:
    """The recipe."""
    for turn in range(3):
        masks = PEER_MASKS if turn % 2 else group.draw.masks()
        group.add("both sides, drawn", "Random", "Ta22NotReversed", "Ta21Reversed", **_sitting(group, 3, masks))
    for response, chosen, words in MASKS[:2]:
        group.add(f"both sides, {words}", "Masks", **_sitting(group, 3, (response, chosen)))
    fine = _sitting(group, 3, PEER_MASKS)
    group.add("the same sitting, three times: both sides", "Sides", **fine)
    group.add("TA12 alone", "Sides", **joined(fine, {"sides": 1}))
    group.add("TA22 alone", "Sides", **joined(fine, {"sides": 2}))
    zeros: dict[str, Input] = {name: bytes(len(value)) for name, value in fine.items() if isinstance(value, bytes)}
    group.add("TA12 alone, the other challenge zero: the ring is the same", "Sides", **joined(fine, {"sides": 1, "rand2": bytes(10)}))
    group.add("TA22 alone, the other challenge zero: the ring is the same", "Sides", **joined(fine, {"sides": 2, "rand1": bytes(10)}))
    group.add("zeros", "Edge", **joined(fine, zeros))
    group.add("one challenge for both sides", "Edge", **joined(fine, {"rand2": fine["rand1"]}))
    group.wrong_lengths(**fine)
    for sides in (0, 4, 2**32 + 1):
        group.add(f"{sides} sides", refused=Refusal.WRONG_SIDES, **joined(fine, {"sides": sides}))
    _wrong_masks(group, **fine)
    group.add("no sides, and wrong masks", "Order", refused=Refusal.WRONG_SIDES, **joined(fine, {"sides": 0, **_masks(0, 0)}))
    words = "a challenge of 9 bytes of the side that does not run, and wrong masks"
    short: dict[str, Input] = {"rand2": bytes(9), "sides": 1, **_masks(0, 0)}
    group.add(words, "Order", "Sides", refused=Refusal.WRONG_LENGTH, **joined(fine, short))


def session_keys(engine: Engine) -> list[Group]:
    """TA11, TA21 and TA41."""
    return made(engine, *((name, _sessions) for name in ("ta11", "ta21", "ta41")))


def responses(engine: Engine) -> list[Group]:
    """TA12, TA22 and the class."""
    return made(engine, ("ta12", _responses), ("ta22", _responses), ("ta12_class", _class))


def rings(engine: Engine) -> list[Group]:
    """The ring recipe."""
    return made(engine, ("ring", _ring))
