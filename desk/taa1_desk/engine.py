# SPDX-License-Identifier: MIT
"""The engine's calls by name, over the one table."""

from __future__ import annotations

from contextlib import contextmanager
from typing import Any, Iterator, Optional

import taa1
from taa1 import KeyNumber, Refused, Version
from taa1.calls import CALLS
from taa1.library import make

_TYPES: dict[str, Any] = {"version": Version, "number": KeyNumber}


class RefusedFile(Exception):
    """A refusal, and the file that it is about."""

    def __init__(self, where: str, refused: Refused, more: str = "") -> None:
        """Takes the file's name as messages have it, and what else is to be said."""
        super().__init__(where, refused, more)
        self.refused = refused

    def __str__(self) -> str:
        """The line that messages have."""
        return ": ".join(str(each) for each in self.args if each != "")


@contextmanager
def refusals(where: str) -> Iterator[None]:
    """Says of a refusal within which file it is about."""
    try:
        yield
    except Refused as refused:
        raise RefusedFile(where, refused) from None


class Engine:
    """The engine, called by names."""

    def __init__(self, host: Optional[taa1.Engine] = None) -> None:
        """Takes the module's engine for hosts, or loads the one that is found; the
        repository's is made where it is missing."""
        if host is None:
            make()
            host = taa1.Engine()
        self.host = host

    def call(self, name: str, *values: Any, room: Optional[int] = None) -> dict[str, Any]:
        """The fields of a call's answer, as the binding gives them; a version or a key
        number is given as a number. Raises Refused."""
        parameters = CALLS[name].parameters
        passed = [_TYPES.get(p.kind, _same)(value) for p, value in zip(parameters, values)]
        return self.host.binding.answer(name, *passed, room=room)


def _same(value: Any) -> Any:
    return value
