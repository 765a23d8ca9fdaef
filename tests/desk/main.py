"""Runs the desk's tests, or those that are named: main.py [mark | test_mark.Class.test_one]..."""

from __future__ import annotations

import os
import re
import signal
import subprocess
import sys
import time
import unittest
from concurrent.futures import ThreadPoolExecutor
from pathlib import Path
from typing import Any

HERE = Path(__file__).resolve().parent
sys.path[:0] = [str(HERE.parents[1] / folder) for folder in ("python", "desk")]
# They begin first, so that none of them is left alone at the end.
LONGEST = frozenset({"test_browser", "test_calls", "test_commands", "test_handins", "test_window"})


class Result(unittest.TextTestResult):
    """Counts each subtest, and a test that has none."""

    passed = parts = 0

    def startTest(self, test: unittest.TestCase) -> None:
        super().startTest(test)
        self.parts = 0

    def addSubTest(self, test: unittest.TestCase, subtest: unittest.TestCase, err: Any) -> None:
        super().addSubTest(test, subtest, err)
        self.parts += 1
        self.passed += err is None

    def addSuccess(self, test: unittest.TestCase) -> None:
        super().addSuccess(test)
        self.passed += self.parts == 0

    @property
    def failed(self) -> int:
        """Subtests too, and what fails outside of them."""
        return len(self.failures) + len(self.errors) + len(self.unexpectedSuccesses)


def names() -> list[str]:
    """Every file of tests."""
    return sorted(path.stem for path in HERE.glob("test_*.py"))


def named(name: str) -> unittest.TestSuite:
    """The tests of a name, with or without test_ in front; ends the run if there are none."""
    full = name if name.startswith("test_") else f"test_{name}"
    if full.partition(".")[0] in names():
        suite = unittest.defaultTestLoader.loadTestsFromName(full)
        if suite.countTestCases():
            return suite
    parts = ", ".join(each[len("test_") :] for each in names())
    print(f"tests/desk/run: {name!r} names no test; there are: {parts}", file=sys.stderr)
    sys.exit(2)


def run(wanted: list[str]) -> int:
    """Prints the failures, what was left out, and the count."""
    suite = unittest.TestSuite(map(named, wanted))
    result = unittest.TextTestRunner(stream=sys.stdout, resultclass=Result).run(suite)
    assert isinstance(result, Result)
    for test, why in result.skipped:
        print(f"left out: {test.id()}: {why}")
    print(f"{result.passed} passed, {result.failed} failed")
    return 1 if result.failed else 0


def one(name: str) -> tuple[str, float]:
    """What a file's tests say, in a process of their own, and its seconds. One that ends without a count is a failure."""
    command = [sys.executable, "-W", "error", str(HERE / "main.py"), name]
    began = time.monotonic()
    said = subprocess.run(command, stdout=subprocess.PIPE, stderr=subprocess.STDOUT, text=True, check=False).stdout
    if not re.search(r"^\d+ passed, \d+ failed$", said, re.M):
        said += f"\n{name}: 0 passed, 1 failed"
    return said, time.monotonic() - began


def run_all() -> int:
    """The same of every file, as many at a time as there are processors."""
    passed = failed = 0
    in_turn = sorted(names(), key=lambda name: (name not in LONGEST, name))
    with ThreadPoolExecutor(os.cpu_count()) as pool:
        for name, (said, seconds) in zip(in_turn, pool.map(one, in_turn)):
            print(f"-- {name}, {seconds:.0f} s\n{said.strip()}", flush=True)
            count = re.findall(r"(\d+) passed, (\d+) failed", said)[-1]
            passed, failed = passed + int(count[0]), failed + int(count[1])
    print(f"{passed} passed, {failed} failed")
    return 1 if failed else 0


if __name__ == "__main__":
    # What is started in the background may ignore interrupts, and what it starts would, too.
    signal.signal(signal.SIGINT, signal.default_int_handler)
    sys.exit(run(sys.argv[1:]) if sys.argv[1:] else run_all())
