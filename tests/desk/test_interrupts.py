"""Interrupts: no traceback and no temporary file, and of pages all or the old ones."""

from __future__ import annotations

import os
import signal
import subprocess
import sys
import time
from types import FrameType
from typing import Any, Callable, Optional

from common import CLASS, COMMAND, ROOT, Case
from taa1_desk.command import files, interrupts

OLD = {"a.html": b"old a", "b.html": b"old b", "unwanted.html": b"old"}
NEW = {"a.html": b"new a", "b.html": b"new b", "c.html": b"new c"}

# Runs a script, and interrupts it when it imports a module.
IMPORTING = """
import os, runpy, signal, sys
when, sys.argv = sys.argv[1], sys.argv[2:]
class Interrupt:
    def find_spec(self, name, path=None, target=None):
        if name == when:
            os.kill(os.getpid(), signal.SIGINT)
sys.meta_path.insert(0, Interrupt())
runpy.run_path(sys.argv[0], run_name="__main__")
"""

# Interrupts a process at one of the events that Python tells of (imports, files opened, code
# run and so on), counted from our first line on: that of the package's __init__. The program
# comes there without another event.
COUNTING = """
import os, sys
seen = None
def count(event, args):
    global seen
    if seen is not None:
        seen += 1
        if seen == int(os.environ["MOMENT"]):
            os.kill(os.getpid(), 2)
    elif event == "exec" and args[0].co_filename.endswith("taa1/__init__.py"):
        seen = 0
sys.addaudithook(count)
"""


def wait_for(
    run: subprocess.Popen[bytes], which: str, number: int, wanted: int = 1, pause: float = 0.01
) -> None:
    """Waits until a process catches (SigCgt) or ignores (SigIgn) a signal, or no longer does
    (wanted 0), or has ended: the interpreter's start may take long on a busy machine."""
    end = time.monotonic() + 60
    while run.poll() is None and time.monotonic() < end:
        with open(f"/proc/{run.pid}/status", encoding="ascii") as status:
            mask = next((line.split()[1] for line in status if line.startswith(which)), "0")
        if int(mask, 16) >> number - 1 & 1 == wanted:
            return
        time.sleep(pause)


class Hearing(Case):
    """A test that hears signals, and whose children do: what starts it may ignore them, as a
    shell does for a job in the background."""

    def setUp(self) -> None:
        """Sets them as for a command in the foreground."""
        super().setUp()
        for number in interrupts.SIGNALS:
            usual: Any = signal.default_int_handler if number == signal.SIGINT else signal.SIG_DFL
            self.addCleanup(signal.signal, number, signal.signal(number, usual))


class Lines(Hearing):
    """A signal at every line of the module that writes files."""

    def interrupted(self, at: int, work: Callable[[], None], number: int) -> Optional[bool]:
        """Whether work was interrupted by a signal at a line; None if it has fewer."""
        lines = 0

        def trace(frame: FrameType, event: str, arg: Any) -> Any:
            nonlocal lines
            code = frame.f_code
            if code.co_filename not in (files.__file__, interrupts.__file__) or code.co_name in ("interruptible", "interrupt"):
                return None
            if event == "line":
                lines += 1
                if lines == at:
                    os.kill(os.getpid(), number)
            return trace

        try:
            with interrupts.interruptible():
                sys.settrace(trace)
                try:
                    work()
                finally:
                    sys.settrace(None)
        except interrupts.Interrupted as interrupted:
            self.assertEqual(interrupted.number, number)
            return True
        return None if lines < at else False

    def content(self) -> dict[str, bytes]:
        """What is in the folder."""
        return {path.name: path.read_bytes() for path in self.folder.iterdir()}

    def every_line(self, work: Callable[[], None], before: dict[str, bytes], after: dict[str, bytes]) -> None:
        """The folder is as before or as after, wherever the signal comes."""
        handlers = [signal.getsignal(each) for each in interrupts.SIGNALS]
        seen = set()
        for number in (signal.SIGINT, signal.SIGTERM):
            at, came = 0, None
            while came is not None or at == 0:
                at += 1
                for path in self.folder.iterdir():
                    path.unlink()
                for name, data in before.items():
                    self.file(name, data)
                came = self.interrupted(at, work, number)
                self.assertIn(self.content(), (before, after), at)
                seen.add((came, self.content() == after))
            self.assertGreater(at, 10)
        self.assertEqual(handlers, [signal.getsignal(each) for each in interrupts.SIGNALS])
        self.assertEqual(signal.pthread_sigmask(signal.SIG_BLOCK, ()) & interrupts.SIGNALS, set())
        self.assertLessEqual({(True, False), (True, True), (None, True)}, seen)

    def test_folder(self) -> None:
        def work() -> None:
            files.write_folder(str(self.folder), NEW, unwanted=["unwanted.html"])

        self.every_line(work, OLD, NEW)

    def test_file(self) -> None:
        name = str(self.folder / "a.html")
        self.every_line(lambda: files.write_file(name, b"new"), {"a.html": b"old"}, {"a.html": b"new"})

    def test_new_file(self) -> None:
        name = str(self.folder / "a.html")
        self.every_line(lambda: files.write_file(name, b"new", True, files.THERE), {}, {"a.html": b"new"})


class Command(Hearing):
    """The command, interrupted."""

    def test_importing(self) -> None:
        """From our first line on."""
        for module in ("taa1", "taa1.engine", "ctypes", "argparse", "taa1_desk.cli", "taa1_desk.marking.slips"):
            with self.subTest(module):
                command = [sys.executable, "-c", IMPORTING, module, str(ROOT / "taa1"), "slips"]
                done = subprocess.run(command, capture_output=True, check=False, timeout=60)
                self.assertEqual((done.stdout, done.stderr), (b"", b""))
                self.assertEqual(done.returncode, -signal.SIGINT)

    def test_package(self) -> None:
        """python3 -m taa1, at many moments from our first line on."""
        self.file("sitecustomize.py", COUNTING)
        path = os.pathsep.join((str(self.folder), str(ROOT / "python")))
        silent, moment, status = 0, 1, -signal.SIGINT
        while status and moment < 10_000:
            environment = {**os.environ, "PYTHONPATH": path, "MOMENT": str(moment)}
            command = [sys.executable, "-W", "error", "-m", "taa1", "scheme"]
            done = subprocess.run(command, env=environment, capture_output=True, check=False, timeout=60)
            status = done.returncode
            with self.subTest(moment):
                said = {-signal.SIGINT: b"", 130: b"taa1: interrupted\n", 0: b""}
                self.assertEqual(done.stderr, said.get(status, b"another status"))
            silent += status == -signal.SIGINT
            moment += 1 if moment < 60 else 50
        self.assertGreater(silent, 60)

    def test_package_from_outside(self) -> None:
        """The same by the clock, from when our first line has taken Python's handler away.
        What comes before that is Python's alone (docs/DECISIONS.md)."""
        environment = {**os.environ, "PYTHONPATH": str(ROOT / "python")}
        command = [sys.executable, "-W", "error", "-m", "taa1", "scheme"]
        seen = set()
        for moment in range(40):
            run = subprocess.Popen(command, env=environment, stdout=subprocess.DEVNULL, stderr=subprocess.PIPE)
            wait_for(run, "SigCgt", signal.SIGINT, pause=0)
            wait_for(run, "SigCgt", signal.SIGINT, wanted=0, pause=0)
            time.sleep(moment / 1000)
            run.send_signal(signal.SIGINT)
            error = run.communicate(timeout=60)[1]
            with self.subTest(moment):
                said = {-signal.SIGINT: b"", 130: b"taa1: interrupted\n", 0: b""}
                self.assertEqual(error, said.get(run.returncode, b"another status"))
            seen.add(run.returncode)
        self.assertIn(-signal.SIGINT, seen)

    def test_hosts(self) -> None:
        """A host's signals are left alone, also of one that is run as a package."""
        (self.folder / "host").mkdir()
        code = "import signal, taa1; print(signal.getsignal(2) is signal.default_int_handler)"
        self.file("host/__init__.py", code)
        self.file("host/__main__.py", "")
        path = os.pathsep.join((str(self.folder), str(ROOT / "python")))
        environment = {**os.environ, "PYTHONPATH": path}
        for run in (["-m", "host", "taa1"], ["-c", code, "-m", "taa1"]):
            with self.subTest(run):
                out = subprocess.check_output([sys.executable, *run], env=environment)
                self.assertEqual(out, b"True\n")

    def test_marking(self) -> None:
        """At some time of the marking: the status says so, and nothing is half done."""
        books = (CLASS / "ann.book").read_bytes()
        (self.folder / "class").mkdir()
        for number in range(200):
            self.file(f"class/{number}.book", books[:21] + bytes(21) + books[42:])
        pages = self.folder / "pages"
        # A signal may come between the opening of a file and its `with`: Python then closes it
        # and, where it is told to warn of such files, says so.
        python, *words = COMMAND
        command = [python, *words[:2], "-W", "ignore::ResourceWarning", *words[2:]]
        command += ["mark", str(CLASS / "sitting.txt"), str(CLASS / "model.txt"), "class"]
        command += ["--html", "pages"]
        start = time.monotonic()
        subprocess.run(command, cwd=self.folder, stdout=subprocess.DEVNULL, check=True)
        whole = time.monotonic() - start
        before = {path.name: path.stat().st_ino for path in pages.iterdir()}
        for part in range(1, 8):
            for number in (signal.SIGINT, signal.SIGTERM, signal.SIGHUP):
                run = subprocess.Popen(command, cwd=self.folder, stdout=subprocess.DEVNULL, stderr=subprocess.PIPE)
                wait_for(run, "SigCgt", signal.SIGTERM)
                time.sleep(whole * (part - 1) / 8)
                run.send_signal(number)
                error = (run.communicate()[1] or b"").decode()
                self.assertIn((run.returncode, error), (
                    (0, ""), (128 + number, "taa1: interrupted\n"), (-number, ""),
                ))  # fmt: skip
                now = {path.name: path.stat().st_ino for path in pages.iterdir()}
                self.assertEqual(set(now), set(before))
                same = sum(now[name] == before[name] for name in now)
                self.assertIn(same, (0, len(now)))
                before = now

    def test_ignored(self) -> None:
        """A signal that was ignored before is ignored still, as for a job in the background."""
        code = "import signal, sys; signal.signal(signal.SIGINT, signal.SIG_IGN); "
        code += "import os; os.execv(sys.argv[1], sys.argv[1:])"
        command = [sys.executable, "-c", code, *COMMAND, "book", "--lines"]
        run = subprocess.Popen(command, stdin=subprocess.PIPE, stdout=subprocess.PIPE, stderr=subprocess.PIPE)
        wait_for(run, "SigIgn", signal.SIGINT)
        run.send_signal(signal.SIGINT)
        out, error = run.communicate(b"", timeout=60)
        self.assertEqual((run.returncode, out, error), (0, b"entries 0\n", b""))
