"""Runs the examples of docs/desk.md and README.md: each line `$ COMMAND`, and what it prints.

    examples.py            compares; ends with 1 where one prints something else
    examples.py --write    puts into the pages what they print
"""

from __future__ import annotations

import os
import shutil
import subprocess
import sys
from pathlib import Path

ROOT = Path(__file__).resolve().parents[2]
PAGE = ROOT / "docs" / "desk.md"
README = ROOT / "README.md"
INDENT = "    "
PROMPT = INDENT + "$ "


def played(text: str) -> str:
    """The page, with what its commands print now."""
    shutil.rmtree(ROOT / "target" / "desk", ignore_errors=True)
    made: list[str] = []
    status = 0
    environment = {**os.environ, "LC_ALL": "C.UTF-8"}
    inside = False
    for line in text.splitlines():
        if line.startswith(PROMPT):
            inside = True
            made.append(line)
            command = line[len(PROMPT) :]
            done = subprocess.run(
                ["bash", "-c", f"(exit {status}); {command}"],
                cwd=ROOT, stdin=subprocess.DEVNULL, stdout=subprocess.PIPE,
                stderr=subprocess.STDOUT, env=environment, check=False,
            )  # fmt: skip
            status = done.returncode
            made += [INDENT + said for said in done.stdout.decode().splitlines()]
        elif not (inside and line.startswith(INDENT)):
            inside = False
            made.append(line)
    return "\n".join(made) + "\n"


def main() -> int:
    """Compares or writes."""
    differs = False
    for page in (PAGE, README):
        text = page.read_text()
        now = played(text)
        if sys.argv[1:] == ["--write"]:
            page.write_text(now)
        else:
            differs |= now != text
    return int(differs)


if __name__ == "__main__":
    sys.exit(main())
