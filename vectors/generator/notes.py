# SPDX-License-Identifier: MIT
"""What each flag means, and where each call is defined."""

from __future__ import annotations

from typing import NamedTuple


class Note(NamedTuple):
    """A flag: the sort of bug that its tests look for, in Project Wycheproof's words, and what they are."""

    bugType: str
    description: str


_BASIC, _EDGE, _STEP, _PARAMETER = "BASIC", "EDGE_CASE", "MISSING_STEP", "MODIFIED_PARAMETER"

# Without those of the refusals, whose words are the header's.
NOTES: dict[str, Note] = {
    "Random": Note(_BASIC, "inputs drawn at random"),
    "Edge": Note(_EDGE, "zeros, ones, or a number at an end of its range"),
    "Argument": Note(_EDGE, "an example of docs/ARGUMENT.md; the comment has the name of its row in crates/claims/argument.toml"),
    "Order": Note(_EDGE, "more than one refusal applies: the first in the call's order is the answer"),
    "Wrap": Note(_PARAMETER, "byte sums that wrap at 256"),
    "Exp2Sum": Note(_PARAMETER, "EXP2's last byte is the sum of the five inserted bytes, not their xor"),
    "Exp4Pairs": Note(_PARAMETER, "EXP4 pairs neighbours; osmo-tetra pairs the outermost bytes (vectors/README.md)"),
    "Exp4Sum": Note(_PARAMETER, "EXP4 inserts sums of the pairs, not their xor"),
    "Ta21Reversed": Note(_STEP, "TA21 reverses the seed's bytes, which are no palindrome"),
    "Ta22NotReversed": Note(_PARAMETER, "TA22 does not reverse the challenge, which is no palindrome"),
    "Masks": Note(_EDGE, "bit i of a mask is byte Bi, counted from the right, and higher bytes come first"),
    "DroppedByte": Note(_PARAMETER, "sealing drops byte 8 of BL1's output, the eighth from the left"),
    "ZeroByteBack": Note(
        _PARAMETER,
        "unsealing puts the zero byte back as byte 8; an invalid text opens if it is put at the end",
    ),
    "SingleCheck": Note(_STEP, "exactly one check of the text fails"),
    "ManyChecks": Note(_STEP, "several checks of the text fail, or all"),
    "ThreeBits": Note(_STEP, "only the three zero bits of the number byte are wrong: nobody sealed this text"),
    "KeyAndVersion": Note(_PARAMETER, "the version, high byte first, goes into the sealing key by xor: changed alike, both give the same text"),
    "SharedText": Note(_EDGE, "one text that opens as more than one kind, or under two keys or versions"),
    "NumberIsNoVersion": Note(_PARAMETER, "version and key number differ, and are not to be exchanged"),
    "KeyBack": Note(_EDGE, "after each sixteen steps the register is the key again"),
    "Widths": Note(_EDGE, "a width from 16 to 32: of the last copy only the leftmost bits have room"),
    "KeyOrder": Note(_PARAMETER, "two keys whose order matters"),
    "Sides": Note(_STEP, "one side alone: the other gives zeros, and its challenge is not looked at"),
    "Kinds": Note(_EDGE, "every kind from 1 to 6, each under its key of the ring"),
    "NotNoticed": Note(_EDGE, "a changed text or record that opens all the same"),
    "MostRecords": Note(_EDGE, "1,024 records, the most that a list may have, or more"),
    "Output": Note(_EDGE, "an output that is just long enough, or longer"),
    "Unreadable": Note(_EDGE, "what stands at an unreadable place is not looked at"),
}

_HEADER = "include/taa1.h"


def _clause(number: str) -> str:
    return f"TS 104 053-3, {number}"


# The header defines what is not the standard's.
DEFINED: dict[str, str] = {
    "encrypt": _clause("6"),
    "decrypt": _clause("6"),
    "encrypt_register": _HEADER,
    "decrypt_register": _HEADER,
    "register": _HEADER,
    "diffusion": _HEADER,
    "ta11": _clause("5.6"),
    "ta21": _clause("5.6"),
    "ta41": _clause("5.6"),
    "ta12": _clause("5.7") + ", with masks for the split",
    "ta22": _clause("5.7") + ", with masks for the split",
    "ta12_class": _HEADER,
    "ta31": _clause("5.8"),
    "ta32": _clause("5.9"),
    "ta51": _clause("5.10"),
    "ta52": _clause("5.11"),
    "ta61": _clause("5.12"),
    "ta61_inverse": _HEADER,
    "ta71": _clause("5.13"),
    "ta81": _clause("5.14"),
    "ta82": _clause("5.15"),
    "ta91": _clause("5.16"),
    "ta92": _clause("5.17"),
    "ta101": _clause("5.18"),
    "tb1": _clause("5.19"),
    "tb2": _clause("5.20"),
    "tb3": _clause("5.21"),
    "tb4": _clause("5.22"),
    "tb5": _clause("5.23"),
    "tb6": _clause("5.24"),
    "tb7": _clause("the last algorithm of clause 5"),
    "restore_card": _HEADER,
    "tb1_inverse": _HEADER,
    "tb3_inverse": _HEADER,
    "tb5_inverse": _HEADER,
    "tb6_inverse": _HEADER,
    "ring": _HEADER,
    "seal_book": _HEADER,
    "open_book": _HEADER,
    "check_plain": _HEADER,
    "lineage": _HEADER,
    "plain_to_columns": _HEADER,
    "plain_from_columns": _HEADER,
    "sealed_to_columns": _HEADER,
    "sealed_from_columns": _HEADER,
}
