# SPDX-License-Identifier: MIT
"""Numbers, lists and entries in words."""

from __future__ import annotations

from typing import Iterable, Sequence

from .records import KINDS

MOST_SPANS = 12  # of entries in one line


def plural(count: int, what: str) -> str:
    """So many of something."""
    return f"{count} {what}{'s' * (count != 1)}"


def spans(indexes: Iterable[int]) -> str:
    """Rising numbers in words: `0 to 3 and 19`; of very many spans, the first ones."""
    runs: list[list[int]] = []
    for index in indexes:
        if runs and index == runs[-1][-1] + 1:
            runs[-1].append(index)
        else:
            runs.append([index])
    said = []
    for run in runs[:MOST_SPANS]:
        said += [f"{run[0]} to {run[-1]}"] if len(run) > 2 else list(map(str, run))
    more = sum(map(len, runs[MOST_SPANS:]))
    if more:
        said.append(f"{more} more")
    return said[0] if len(said) == 1 else f"{', '.join(said[:-1])} and {said[-1]}"


def entries_said(indexes: list[int]) -> str:
    """Entries by their numbers: `entries 0 to 3 and 19`."""
    return f"{'entry' if len(indexes) == 1 else 'entries'} {spans(indexes)}"


def failed_checks(number: int, failed: Sequence[int]) -> str:
    """Which checks of a kind's redundancy fail; bytes are counted from the left."""
    kind = KINDS[number]
    if len(failed) == kind.checks:
        return f"all {kind.checks} checks fail"
    zero_bits = kind.number == 1 and failed[-1] == kind.checks - 1
    bytes_ = failed[:-1] if zero_bits else failed
    said = [f"redundancy byte{'s' * (len(bytes_) > 1)} {spans(bytes_)}"] if bytes_ else []
    said += ["the three zero bits"] if zero_bits else []
    fail = "fails" if len(failed) == 1 else "fail"
    return f"{len(failed)} of {kind.checks} checks {fail}: {' and '.join(said)}"


def listed(words: Sequence[str]) -> str:
    """Words with commas, and `and` before the last."""
    return " and ".join(filter(None, (", ".join(words[:-1]), words[-1])))
