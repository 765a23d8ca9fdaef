# SPDX-License-Identifier: MIT
"""What stands at the foot of a page of marks: what made it, when, and of which files."""

from __future__ import annotations

from typing import Mapping

from ..origin import Origin, brief


def foot(origin: Origin, files: Mapping[str, str], record: str = "") -> str:
    """The engine, the desk, the moment, and the first digits of the digests of model, scheme and
    more files, and of the record that the page belongs to."""
    digests = {"model": origin.model, "scheme": origin.scheme, **files, "record": record}
    said = ", ".join(f"{name} {brief(digest)}" for name, digest in digests.items() if digest)
    moment = origin.made.replace("T", " ").replace("Z", " UTC")
    return f"Engine {origin.release}, desk {origin.desk}, {moment}. SHA-256: {said}."
