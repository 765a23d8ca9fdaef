# SPDX-License-Identifier: MIT
"""How many records of a hand-in are compared with a model."""

from __future__ import annotations

from taa1 import MOST_RECORDS

MOST_TIMES = 4  # the model's entries, that a hand-in may have as records
LEAST_MOST = 2 * MOST_RECORDS  # records that a hand-in may have in any case


def most_records(entries: int) -> int:
    """How many records are paired with so many entries: pairing takes their product in time
    and room, so that one hand-in with very many would keep a class waiting."""
    return max(MOST_TIMES * entries, LEAST_MOST)


def too_many(records: int, entries: int) -> str:
    """What is said of a hand-in with too many records to be paired, if it has."""
    most = most_records(entries)
    if records <= most:
        return ""
    return f"{records:,} records, where the model has {entries:,} and at most {most:,} are compared"
