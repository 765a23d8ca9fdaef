# SPDX-License-Identifier: MIT
"""Digits that are copied wrongly: one of them another, or two neighbours exchanged."""

from __future__ import annotations

from typing import Iterable, Iterator, Optional

DIGITS = "0123456789abcdef"


def miscopied(digits: str) -> Iterator[tuple[str, str]]:
    """Every way to miscopy digits, and what is said of it."""
    for place, digit in enumerate(digits):
        for other in DIGITS:
            if other != digit:
                made = digits[:place] + other + digits[place + 1 :]
                yield made, one_digit(other, digit, place)
    for place in range(len(digits) - 1):
        pair = digits[place : place + 2]
        if pair[0] != pair[1]:
            made = digits[:place] + pair[::-1] + digits[place + 2 :]
            yield made, two_digits(pair, place)


def one_digit(has: str, wants: str, place: int) -> str:
    """What is said of one wrong digit; places are counted from 1."""
    return f"one digit differs: {has} for {wants} at place {place + 1}"


def two_digits(wants: str, place: int) -> str:
    """What is said of two neighbours that are exchanged."""
    return f"two neighbouring digits are exchanged: {wants[::-1]} for {wants} at places {place + 1} and {place + 2}"


def slip_of_pen(has: str, wants: str) -> Optional[str]:
    """What is said if digits are others miscopied so; else nothing."""
    if len(has) != len(wants) or has == wants:
        return None
    wrong = [place for place, (one, other) in enumerate(zip(has, wants)) if one != other]
    if len(wrong) == 1:
        return one_digit(has[wrong[0]], wants[wrong[0]], wrong[0])
    at = wrong[0]
    if wrong == [at, at + 1] and has[at : at + 2] == wants[at : at + 2][::-1]:
        return two_digits(wants[at : at + 2], at)
    return None


def miscopied_said(values: Iterable[tuple[str, str, str]]) -> str:
    """What is said of values that were miscopied: names, what they are, what they should be."""
    said = ((name, slip_of_pen(has, wants)) for name, has, wants in values)
    return "; ".join(f"{name}: {what}" for name, what in said if what)
