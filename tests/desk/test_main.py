"""The runner of these tests: what it counts, which names it takes, and beside which signals."""

from __future__ import annotations

import io
import subprocess
import sys
import unittest
from contextlib import redirect_stderr

import main


class Counting(unittest.TestCase):
    """The last line."""

    def test_subtests(self) -> None:
        """Each counts, and so does what fails outside of them."""

        class Sample(unittest.TestCase):
            """Four tests, with six subtests."""

            def test_plain(self) -> None:
                pass

            def test_parts(self) -> None:
                for number in range(5):
                    with self.subTest(number=number):
                        self.assertLess(number, 2)

            def test_after(self) -> None:
                with self.subTest("good"):
                    pass
                self.fail("outside")

            def test_left_out(self) -> None:
                self.skipTest("for nothing")

        suite = unittest.defaultTestLoader.loadTestsFromTestCase(Sample)
        result = unittest.TextTestRunner(stream=io.StringIO(), resultclass=main.Result).run(suite)
        assert isinstance(result, main.Result)
        self.assertEqual((result.passed, result.failed, len(result.skipped)), (1 + 2 + 1, 3 + 1, 1))

    def test_names(self) -> None:
        """A name that gives no test is an error."""
        one = main.named("test_main.Counting.test_names").countTestCases()
        self.assertEqual((one, main.named("main").countTestCases()), (1, 3))
        for name in ("common", "test_", "nothing", "test_nothing"):
            with self.subTest(name), redirect_stderr(io.StringIO()) as said:
                with self.assertRaises(SystemExit) as ended:
                    main.named(name)
                self.assertEqual(ended.exception.code, 2)
                self.assertIn(f"tests/desk/run: {name!r} names no test; there are: answerform, ", said.getvalue())

    def test_ignored_signals(self) -> None:
        """The tests of interrupts set what they need, also beside a nohup."""
        names = ("interrupts.Lines.test_file", "interrupts.Command.test_hosts")
        ignoring = ("bash", "-c", 'trap "" HUP INT; exec "$@"', "bash")
        command = (*ignoring, sys.executable, "-W", "error", main.__file__, *names)
        done = subprocess.run(command, capture_output=True, check=False, timeout=120)
        self.assertEqual((done.returncode, done.stdout.splitlines()[-1]), (0, b"3 passed, 0 failed"), done.stdout)
