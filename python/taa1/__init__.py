# SPDX-License-Identifier: MIT
"""The TAA1 engine for Python hosts; `python3 -m taa1` is the desk.

Not for operational keys: the engine is made for examinations. It is not constant-time, and
it erases no key from memory.

A book is up to MOST_RECORDS records, one after the other; numbers have the high byte first.
A plain record has a kind (1 byte), an identity (3), a version (2) and a body (12):

    kind 1 (ta31 under D)               key of 10 bytes, two zero bytes
    kind 2 (ta51 under O), 5 (under G)  key of 10 bytes, a zero byte, a number of 0 to 31
    kind 3 (ta81 under O), 6 (under G)  key of 10 bytes, a number of two bytes
    kind 4 (ta91 under O)               group key of 12 bytes

A sealed record has the kind, the identity encrypted by ta61 under C, the version, and the
sealed text of 15 bytes. The ring is D (10 bytes), O (16), C (10) and G (16).

A book that opens need not be undamaged. Opening does not notice an altered identity (any
three bytes are the encryption of one), kind 3 altered to 4 or 4 to 3 (they are sealed
alike), nor that records are missing, repeated, in another order or of another book under
the same ring. Compare with the book that was sealed where that matters.
"""

import sys as _sys

# Under `python3 -m taa1` these lines are the program's first: an interrupt ends it without
# a word, until main speaks. A host's signals are its own, also of one that is run by -m.
if _sys.argv[:1] == ["-m"]:
    _signal = __import__("_signal")  # built in: no import is under way before this
    if _signal.getsignal(_signal.SIGINT) is _signal.default_int_handler:
        _signal.signal(_signal.SIGINT, _signal.SIG_DFL)
        _told = getattr(_sys, "orig_argv", None)  # from Python 3.10 on
        if _told is None:
            with open("/proc/self/cmdline", errors="surrogateescape") as _file:
                _told = _file.read().split("\0")[:-1]
        if _told[-len(_sys.argv) :][:1] not in (["taa1"], ["-mtaa1"]):
            _signal.signal(_signal.SIGINT, _signal.default_int_handler)

from .engine import Engine
from .library import VERSION as __version__
from .library import LibraryError
from .records import PlainEntry, SealedRecord
from .refusals import NAMES, Refusal, Refused
from .values import (
    AUTHENTICATION_BYTES,
    BLOCK_BYTES,
    CHALLENGE_BYTES,
    CIPHER_KEY_BYTES,
    GROUP_KEY_BYTES,
    MOST_RECORDS,
    PLAIN_RECORD_BYTES,
    RECORD_IDENTITY_AT,
    RECORD_KEY_AT,
    RECORD_KIND_AT,
    RECORD_NUMBER_AT,
    RECORD_TEXT_AT,
    RECORD_VERSION_AT,
    RING_BYTES,
    SEALED_RECORD_BYTES,
    SEALED_TEXT_BYTES,
    SEED_BYTES,
    SESSION_KEY_BYTES,
    SHEET_RECORD_BYTES,
    SHEET_VALUE_BYTES,
    SITTING_BYTES,
    TA32_CHECKS,
    TA52_CHECKS,
    TA82_CHECKS,
    TA92_CHECKS,
    TALLY_RECORD_BYTES,
    Authentication,
    Book,
    Bytes,
    Card,
    CarrierIdentity,
    Cell,
    CountedBook,
    FailedChecks,
    KeyNumber,
    Kind,
    Release,
    RingMade,
    Sitting,
    Tally,
    Unsealed,
    UnsealedNumbered,
    Version,
)

__all__ = [
    "AUTHENTICATION_BYTES",
    "BLOCK_BYTES",
    "CHALLENGE_BYTES",
    "CIPHER_KEY_BYTES",
    "GROUP_KEY_BYTES",
    "MOST_RECORDS",
    "NAMES",
    "PLAIN_RECORD_BYTES",
    "RECORD_IDENTITY_AT",
    "RECORD_KEY_AT",
    "RECORD_KIND_AT",
    "RECORD_NUMBER_AT",
    "RECORD_TEXT_AT",
    "RECORD_VERSION_AT",
    "RING_BYTES",
    "SEALED_RECORD_BYTES",
    "SEALED_TEXT_BYTES",
    "SEED_BYTES",
    "SESSION_KEY_BYTES",
    "SHEET_RECORD_BYTES",
    "SHEET_VALUE_BYTES",
    "SITTING_BYTES",
    "TA32_CHECKS",
    "TA52_CHECKS",
    "TA82_CHECKS",
    "TA92_CHECKS",
    "TALLY_RECORD_BYTES",
    "Authentication",
    "Book",
    "Bytes",
    "Card",
    "CarrierIdentity",
    "Cell",
    "CountedBook",
    "Engine",
    "FailedChecks",
    "KeyNumber",
    "Kind",
    "LibraryError",
    "PlainEntry",
    "Refusal",
    "Refused",
    "Release",
    "RingMade",
    "SealedRecord",
    "Sitting",
    "Tally",
    "Unsealed",
    "UnsealedNumbered",
    "Version",
    "__version__",
]
