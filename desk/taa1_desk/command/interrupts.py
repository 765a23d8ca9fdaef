# SPDX-License-Identifier: MIT
"""Signals that end the work: where they raise, and where they wait."""

from __future__ import annotations

import signal
import threading
from contextlib import contextmanager
from typing import Any, Callable, Iterator

SIGNALS = frozenset({signal.SIGINT, signal.SIGTERM, signal.SIGHUP})


class Interrupted(KeyboardInterrupt):
    """A signal that ends the work."""

    def __init__(self, number: int) -> None:
        """Takes the signal's number."""
        super().__init__()
        self.number = number


@contextmanager
def interruptible() -> Iterator[None]:
    """Within, the first signal raises Interrupted; while that is seen to, the next count
    for nothing. A signal that was ignored before is ignored still."""

    def interrupt(number: int, frame: object) -> None:
        for each in before:
            signal.signal(each, signal.SIG_IGN)
        raise Interrupted(number)

    before: dict[signal.Signals, Any] = {}
    try:
        if threading.current_thread() is threading.main_thread():
            for each in SIGNALS:
                before[each] = signal.getsignal(each)
                if before[each] != signal.SIG_IGN:
                    signal.signal(each, interrupt)
        yield
    finally:
        for each, handler in before.items():
            signal.signal(each, handler)


@contextmanager
def held() -> Iterator[Callable[[], None]]:
    """Within, signals wait; the call that is given raises one that waits."""
    before = signal.pthread_sigmask(signal.SIG_BLOCK, ())
    try:
        signal.pthread_sigmask(signal.SIG_BLOCK, SIGNALS)
        yield _raise_waiting
    finally:
        signal.pthread_sigmask(signal.SIG_SETMASK, before)


def _raise_waiting() -> None:
    waiting = signal.sigpending() & SIGNALS
    if waiting:
        raise Interrupted(min(waiting))
