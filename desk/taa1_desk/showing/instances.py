# SPDX-License-Identifier: MIT
"""An instance of each claim, by the claim's name, of a sitting's own bytes or the example of
the proof; and why a claim has none.

What an instance shows is tried by calling the engine, and each of its values says whose it
is (instance.py).
"""

from __future__ import annotations

from typing import Union

from . import instances_books, instances_core, instances_flag, instances_keys, instances_texts
from .instance import INSTANCES, MARKS, PROOF, Instance, Maker

__all__ = ["INSTANCES", "MARKS", "NONE", "PROOF", "Instance", "Maker", "instance_of"]

_TOPICS = (instances_books, instances_core, instances_flag, instances_keys, instances_texts)  # fill INSTANCES

# The claims of which there is no instance, and why.
NONE = {
    "other-keys-other-texts": "that there are more keys than texts does not say which two share "
    "one, and to find two by trying would take some 2^60 sealings",
    "wrong-version-1": "an example would settle it",
    "encryption-hides": "what one who lacks the sealing key can find out is not a value that "
    "could be shown",
}


def instance_of(made: Maker, name: str) -> Union[Instance, str]:
    """A claim's instance, or why there is none."""
    return NONE[name] if name in NONE else INSTANCES[name](made)
