# SPDX-License-Identifier: MIT
"""The one rule for numbers and byte strings, in files and in options.

Identities, the network identity, masks and byte strings are hexadecimal; an identity has
six digits and a mask four, so that a decimal one is noticed. Everything else is decimal.
0x may stand in front of hexadecimal digits anywhere, also for a decimal number's. JSON
has hexadecimal digits as strings. What is no such value raises ValueError.
"""

from __future__ import annotations

from typing import Any, Callable, Iterable

from taa1 import calls

DIGITS = frozenset("0123456789abcdefABCDEF")
IDENTITY = calls.IDENTITY  # digits
MASK = 4  # digits, as an identity's


def without_0x(text: str) -> str:
    """Text without 0x in front."""
    return text[2:] if text[:2] in ("0x", "0X") else text


def decimal(text: str, most: int) -> int:
    """A decimal number up to another, or a hexadecimal one after 0x."""
    digits = without_0x(text)
    base = 10 if digits is text else 16
    if digits.isascii() and digits.isalnum() and len(digits) <= 40:
        try:
            number = int(digits, base)
        except ValueError:
            number = most + 1
        if number <= most:
            return number
    raise ValueError(f"{text[:40]!r}: wanted a decimal number up to {most}")


def hexadecimal(text: str, digits: int) -> int:
    """A number of so many hexadecimal digits."""
    found = without_0x(text)
    if len(found) != digits or set(found) - DIGITS:
        raise ValueError(f"{text[:40]!r}: wanted {digits} hexadecimal digits")
    return int(found, 16)


def string(words: Iterable[str], length: int) -> bytes:
    """A byte string, in words that are parts of it."""
    digits = "".join(map(without_0x, words))
    bad = next((letter for letter in digits if letter not in DIGITS), None)
    if bad is not None:
        raise ValueError(f"{bad!r} is no hexadecimal digit")
    if len(digits) != 2 * length:
        raise ValueError(f"{len(digits)} hexadecimal digits, not {2 * length}")
    return bytes.fromhex(digits)


def of_name(name: str, take: Callable[..., Any], *given: Any) -> Any:
    """A value of a name; a ValueError has it in front."""
    try:
        return take(*given)
    except ValueError as error:
        raise ValueError(f"{name} {error}") from None
