"""The desk's rooms and modules, and what they import, read from the code: rooms.py [--write].

--write puts the picture into docs/desk-rooms.md; a test compares it.
"""

from __future__ import annotations

import ast
import sys
from collections import Counter, defaultdict
from pathlib import Path

ROOT = Path(__file__).resolve().parents[2]
DESK = ROOT / "desk" / "taa1_desk"
PAGE = ROOT / "docs" / "desk-rooms.md"
BEGIN, END = "<!-- rooms -->\n", "<!-- end of rooms -->\n"
DATA = "data"  # the plain data types and words, which lie beside the rooms
ABOVE = ("application", "cli")  # rooms of one module
# Each room, and those that it may import.
MAY: dict[str, tuple[str, ...]] = {
    DATA: (),
    "reading": (DATA,),
    "marking": (DATA, "reading"),
    "setting": (DATA, "reading", "marking"),
    "showing": (DATA, "reading", "marking"),
    "application": (DATA, "reading", "marking"),
    "command": (DATA, "reading", "marking", "setting", "showing", "application"),
    "window": (DATA, "reading", "marking", "showing", "command"),
    "cli": (DATA, "showing", "command", "window"),
}
Graph = dict[str, set[str]]  # the modules that each imports, by names as in marking.book


def room_of(module: str) -> str:
    """The room of a module."""
    room, point, _ = module.partition(".")
    return room if point or module in ABOVE else DATA


def graph() -> Graph:
    """The modules, and which of them each imports."""
    paths = {path: ".".join(path.relative_to(DESK).with_suffix("").parts) for path in DESK.rglob("*.py")}
    modules = {path: name for path, name in paths.items() if path.stem != "__init__"}
    known = set(modules.values())
    made: Graph = {}
    for path, name in sorted(modules.items(), key=lambda item: item[1]):
        package = name.split(".")[:-1]
        made[name] = set()
        for node in ast.walk(ast.parse(path.read_text())):
            if isinstance(node, ast.ImportFrom) and node.level:
                base = [*package[: len(package) - node.level + 1], *(node.module or "").split(".")]
                base = [part for part in base if part]
                wanted = {".".join(base), *(".".join([*base, each.name]) for each in node.names)}
                made[name] |= wanted & known
    return made


def against(modules: Graph) -> list[str]:
    """The imports that go against the rooms."""
    return [
        f"{name} imports {other}"
        for name, others in modules.items()
        for other in sorted(others)
        if room_of(other) not in (room_of(name), *MAY[room_of(name)])
    ]


def circle(modules: Graph) -> list[str]:
    """Modules that import each other, if some do: what is left when all that import nothing else
    are taken away, again and again."""
    left = {name: set(others) for name, others in modules.items()}
    while True:
        free = {name for name, others in left.items() if not others}
        if not free:
            return sorted(left)
        left = {name: others - free for name, others in left.items() if name not in free}


def picture(modules: Graph) -> str:
    """The rooms with arrows to those that they import, and each module with what it imports."""
    rooms: dict[str, list[str]] = defaultdict(list)
    arrows: Counter[tuple[str, str]] = Counter()
    for name, others in modules.items():
        rooms[room_of(name)].append(name)
        arrows.update((room_of(name), room_of(other)) for other in others if room_of(other) != room_of(name))
    lines = ["```mermaid", "flowchart TD"]
    for room in MAY:
        count = len(rooms[room])
        lines.append(f"    {room}[{room}]" if room in ABOVE else f"    {room}[\"{room}, {count} modules\"]")
    for (room, other), count in sorted(arrows.items(), key=lambda item: [list(MAY).index(each) for each in item[0]]):
        lines.append(f"    {room} -->|{count}| {other}")
    lines += ["```", ""]
    for room in MAY:
        lines += [f"{room}", ""] if room not in ABOVE else []
        for name in rooms[room]:
            short = sorted(each.removeprefix(f"{room}.") for each in modules[name])
            lines.append(f"- `{name.removeprefix(f'{room}.')}`" + (f" → {', '.join(short)}" if short else ""))
        lines.append("")
    return "\n".join(lines)


def page() -> str:
    """The page with the picture as it is now."""
    text = PAGE.read_text()
    start, end = text.index(BEGIN) + len(BEGIN), text.index(END)
    return f"{text[:start]}\n{picture(graph())}\n{text[end:]}"


if __name__ == "__main__":
    if sys.argv[1:] == ["--write"]:
        PAGE.write_text(page())
    else:
        print(picture(graph()), end="")
