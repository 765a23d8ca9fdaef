"""The rooms of the desk: imports go one way, and docs/desk-rooms.md has the picture of them."""

from __future__ import annotations

import unittest

import rooms


class Rooms(unittest.TestCase):
    """desk/taa1_desk, as its imports have it."""

    maxDiff = None

    def test_one_way(self) -> None:
        """No import goes against the rooms, and no modules import each other."""
        modules = rooms.graph()
        self.assertGreater(len(modules), 50)
        self.assertEqual(rooms.against(modules), [])
        self.assertEqual(rooms.circle(modules), [])

    def test_seen(self) -> None:
        """An import against the rooms, and a circle, are found."""
        modules = rooms.graph()
        modules["marking.book"].add("showing.html")
        self.assertEqual(rooms.against(modules), ["marking.book imports showing.html"])
        modules["records"].add("sheet")
        self.assertIn("records", rooms.circle(modules))

    def test_application(self) -> None:
        """What marks a class, and all that it imports, opens no file and knows no argument or page."""
        modules, seen, left = rooms.graph(), set(), ["application"]
        while left:
            name = left.pop()
            if name not in seen:
                seen.add(name)
                left += modules[name]
                text = (rooms.DESK / f"{name.replace('.', '/')}.py").read_text()
                for module in ("argparse", "sys", "pathlib", "tempfile", "subprocess"):
                    self.assertNotIn(f"import {module}\n", text, name)
                self.assertNotRegex(text, r"(?<![\w.])open\(|from pathlib", name)
        self.assertFalse([name for name in seen if rooms.room_of(name) in ("showing", "command", "cli")])

    def test_short(self) -> None:
        """Each room says what it is for, and no module is very long, but for the claims
        and the working, a class each."""
        for room in rooms.DESK.iterdir():
            if room.is_dir() and room.name != "__pycache__":
                self.assertGreater(len((room / "__init__.py").read_text()), 60, room.name)
        long = {
            path.stem: lines
            for path in rooms.DESK.rglob("*.py")
            for lines in [path.read_text().count("\n")]
            if lines > 400
        }
        self.assertLessEqual(set(long), {"claims", "working"}, long)

    def test_picture(self) -> None:
        """tests/desk/rooms.py --write makes it."""
        self.assertEqual(rooms.PAGE.read_text(), rooms.page())
