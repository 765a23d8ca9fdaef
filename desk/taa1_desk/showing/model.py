# SPDX-License-Identifier: MIT
"""The model answer as text, JSON and a page."""

from __future__ import annotations

from typing import Any

from ..names import IN_SITTING, SIDES, both, parameter_field, sealing
from .html import page, pairs, table, tag, text


def model_json(model: dict[str, Any]) -> dict[str, Any]:
    """The model answer for programs, which read masks as hexadecimal digits."""
    masks = {name: value.hex() for name, value in sitting_values(model["sitting"]) if "mask" in name}
    return {**model, "sitting": {**model["sitting"], **masks}}


def model_text(model: dict[str, Any]) -> str:
    """The model answer as lines of text, with the field's names beside the desk's."""
    lines = ["sitting"]
    for name, value in sitting_values(model["sitting"]):
        lines.append(f"  {name:14} {parameter_field('ring', name):6} {_shown(value)}")
    lines.append("keys")
    for key in model["keys"]:
        value = "-" if key["value"] is None else key["value"].hex()
        lines.append(f"  {key['name']:14} {key['field_name']:6} {value:32}  {key['how']}")
    lines.append(f"entries, {len(model['entries'])}; {model['runs']} cipher runs")
    for entry in model["entries"]:
        lines += [
            f"  entry {entry['entry']}: {entry_title(entry)}",
            *(
                f"    {name:24} {_shown(value)}" for name, value in entry_values(entry)
            ),
        ]
    return "\n".join(lines) + "\n"


def entry_title(entry: dict[str, Any]) -> str:
    """An entry's kind, what it seals under what, and by which algorithm."""
    return f"kind {entry['kind']}, {sealing(entry['kind'])} by {entry['call']}"


def entry_values(entry: dict[str, Any]) -> list[tuple[str, Any]]:
    """An entry's values, each with both names."""
    values = [
        (f"version ({entry['version_name']})", entry["version"]),
        (f"number ({entry['number_name']})", entry["number"]),
        (f"key ({entry['key_name']})", entry["key"]),
        ("core key input", entry["core_key_input"]),
        (both("identity"), bytes.fromhex(entry["identity"])),
        (both("encrypted identity"), bytes.fromhex(entry["encrypted_identity"])),
        (f"text ({entry['sealed_name']})", entry["text"]),
        ("record", entry["record"]),
    ]
    return [(name, value) for name, value in values if value is not None]


def sitting_values(sitting: dict[str, Any]) -> list[tuple[str, Any]]:
    """A sitting's values with their names; masks as bytes, and what the sides mean."""
    values = []
    for name, value in sitting.items():
        if name == "sides":
            value = f"{value}: {SIDES[value]}"
        elif isinstance(value, int):
            value = value.to_bytes(2, "big")
        values.append((name, value))
    return values


def _shown(value: Any) -> str:
    return value.hex() if isinstance(value, bytes) else str(value)


def model_page(model: dict[str, Any], heading: str = "") -> str:
    """The model answer, under the sitting's heading."""
    sitting = [(both(IN_SITTING[name]), value) for name, value in sitting_values(model["sitting"])]
    keys = [(both(key["name"]), key["value"], key["how"]) for key in model["keys"]]
    entries = [
        tag(
            "section",
            text("h3", f"Entry {entry['entry']}: {entry_title(entry)}")
            + pairs(entry_values(entry)),
        )
        for entry in model["entries"]
    ]
    return page(
        "Model answer",
        text("h2", "The sitting"),
        pairs(sitting),
        text("h2", "The keys"),
        table(("name", "value", "made by"), keys, "keys"),
        text("h2", "The entries"),
        *entries,
        text("p", f"Sealing the book takes {model['runs']} cipher runs."),
        above=heading,
    )
