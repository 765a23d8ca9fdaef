# SPDX-License-Identifier: MIT
"""What `taa1 --help` prints: the commands of the day, then those of the lecture, an example each."""

from __future__ import annotations

import argparse
from typing import Mapping

DAY: dict[str, str] = {
    "window": "taa1 window day",
    "draw": "taa1 draw -o sitting.txt",
    "book": "taa1 book model.txt -o model.bin",
    "model": "taa1 model sitting.txt model.txt",
    "paper": "taa1 paper sitting.txt model.txt --html paper --solution solution",
    "seal": "taa1 seal sitting.txt model.txt -o sealed.book",
    "mark": "taa1 mark sitting.txt model.txt class --html pages --record record",
    "verify": "taa1 verify record .",
    "argue": "taa1 argue sitting.txt model.txt --html argue.html",
    "scheme": "taa1 scheme -o scheme.txt",
    "slips": "taa1 slips",
    "check": "taa1 check model.txt",
    "sitting": "taa1 sitting sitting.txt -o sitting.bin",
    "ring": "taa1 ring sitting.txt -o ring",
    "open": "taa1 open ring sealed.book --lines",
    "help": "taa1 help mark",
}
LECTURE: dict[str, str] = {
    "columns": "taa1 columns sealed sealed.book -o archive",
    "lineage": "taa1 lineage sheet.txt",
    "card": "taa1 card '010203?? 04050607 07??0906 0a0b0c0d'",
    "cell": "taa1 cell 0102030405060708090a 0036024d0554471c990f",
    "schedule": "taa1 schedule 00112233445566778899aabbccddeeff",
    "trace": "taa1 trace 00112233445566778899aabbccddeeff 0123456789abcdef",
    "diffusion": "taa1 diffusion --draw 100",
    "tables": "taa1 tables",
    "call": "taa1 call tb7 --group-key 0102030405060708090a0b0c",
}
EXAMPLES = {**DAY, **LECTURE}
HEADS = {
    "The commands of an examination, in the order of the work:": DAY,
    "For the lecture, each a question to the engine:": LECTURE,
}
_OPTIONS = """
taa1 help COMMAND says what a command's options are, taa1 help kinds what the kinds of
entries are called, and taa1 --version which version this is.
"""


def overview(says: str, commands: Mapping[str, argparse.ArgumentParser]) -> str:
    """The commands under their heads."""
    wide = max(map(len, commands)) + 4
    lines = ["usage: taa1 COMMAND ..", "", says.strip()]
    for head, examples in HEADS.items():
        lines += ["", head]
        for name, example in examples.items():
            what = (commands[name].description or "").rstrip(".")
            lines.append(f"  {name:{wide - 2}}{what[:1].lower()}{what[1:]}")
            lines.append(f"{'':{wide}}{example}")
    return "\n".join(lines) + "\n" + _OPTIONS
