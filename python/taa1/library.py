# SPDX-License-Identifier: MIT
"""Where the engine's shared object is, of which release, and how the repository makes it."""

from __future__ import annotations

import os
import subprocess
import sys
from functools import lru_cache
from pathlib import Path

VERSION = "1.1.0"
VARIABLE = "TAA1_LIBRARY"
NAME = "libtaa1.so"
SONAME = f"{NAME}.{VERSION.partition('.')[0]}"  # beside the package, as it is installed
PACKAGE = Path(__file__).resolve().parent


class LibraryError(OSError):
    """The engine's shared object is missing, cannot be loaded, lacks a call or is of another release."""


def repository() -> Path | None:
    """The root of the repository that this package stands in, if it does."""
    roots = PACKAGE.parents
    root = roots[1] if len(roots) > 1 else PACKAGE
    return root if (root / "crates" / "engine").is_dir() else None


def find() -> str:
    """The shared object's path.

    The environment's TAA1_LIBRARY decides where it is set; else the file stands
    beside the package's modules, or in the repository's target folder.
    """
    named = os.environ.get(VARIABLE)
    if named:
        return os.path.abspath(named)
    root = repository()
    places = [PACKAGE / SONAME] + ([root / "target" / NAME] if root else [])
    for place in places:
        if place.exists():
            return str(place)
    looked = " nor ".join(map(str, places))
    raise LibraryError(f"no shared object: {VARIABLE} is not set, and it is not at {looked}")


def build(root: Path, *what: str) -> None:
    """Has the repository's ./build make what is missing, or not made from the sources as
    they are. What it says goes to standard error."""
    command = [str(root / "build"), *what]
    nothing = subprocess.DEVNULL
    error = None if sys.stderr else nothing  # it may be closed
    done = subprocess.run(command, stdin=nothing, stdout=nothing, stderr=error, check=False)
    if done.returncode:
        raise LibraryError(f"{' '.join(command)} failed, and has said why")


@lru_cache(maxsize=None)
def make() -> None:
    """Makes the repository's shared object, once in a process, if it is the one that is used."""
    root = repository()
    if root and not os.environ.get(VARIABLE) and not (PACKAGE / SONAME).exists():
        build(root, "library")
