"""The test vectors, read from their files as any other implementation reads them."""

from __future__ import annotations

import json
from pathlib import Path
from typing import Any, Iterator, NamedTuple, Optional, Union

ROOT = Path(__file__).resolve().parents[2]
FOLDER = ROOT / "vectors"
SCHEMA = FOLDER / "taa1_schema.json"

Value = Union[bytes, int]


class Vector(NamedTuple):
    """One test: what a call is given, and its outputs or the number of its refusal."""

    file: str
    call: str
    number: int
    flags: list[str]
    inputs: dict[str, Value]
    out_length: Optional[int]
    outputs: Optional[dict[str, Value]]
    refusal: dict[str, int]  # with the index and the runs, if the call answers them
    comment: str

    @property
    def name(self) -> str:
        """By which it can be found."""
        return f"{self.file}, {self.call}, test {self.number} ({self.comment})"

    @property
    def wanted(self) -> dict[str, Any]:
        """The answer."""
        if self.outputs is None:
            return {**self.refusal}
        return {**self.outputs}


def files() -> list[Path]:
    """Every file of vectors."""
    return sorted(FOLDER.glob("*_test.json"))


def content(path: Path) -> dict[str, Any]:
    """What stands in a file."""
    read: dict[str, Any] = json.loads(path.read_text())
    return read


def value(given: Any) -> Value:
    """Bytes from hexadecimal, or from a string that is written so many times; or a number."""
    if isinstance(given, dict):
        return bytes.fromhex(given["hex"]) * int(given["times"])
    return bytes.fromhex(given) if isinstance(given, str) else int(given)


def vectors(path: Path) -> Iterator[Vector]:
    """The tests of a file."""
    for group in content(path)["testGroups"]:
        for test in group["tests"]:
            inputs = {name: value(given) for name, given in test["inputs"].items()}
            room = inputs.pop("out_length", None)
            outputs = test.get("outputs")
            yield Vector(
                path.name,
                group["type"],
                test["tcId"],
                test["flags"],
                inputs,
                room if isinstance(room, int) else None,
                outputs and {name: value(given) for name, given in outputs.items()},
                {name: test[name] for name in ("refusal", "index", "runs") if name in test},
                test["comment"],
            )
