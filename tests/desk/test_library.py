"""The Python module as a host uses it: where it finds the engine, what it takes."""

from __future__ import annotations

import array
import ctypes
import email
import mmap
import os
import shutil
import subprocess
import sys
import types
import unittest
import venv
import zipfile
from typing import Any, Callable
from unittest import mock

import make_wheel
import taa1
from common import DESK, ROOT, Case
from taa1 import library

ENGINE = DESK.host
KEY = bytes(range(16))


class Finding(Case):
    """The environment, then beside the package, then the repository."""

    def test_order(self) -> None:
        package = self.folder / "taa1"
        package.mkdir()
        target = self.folder / "target"
        target.mkdir()
        with mock.patch.object(library, "PACKAGE", package), mock.patch.object(
            library, "repository", lambda: self.folder
        ):
            with mock.patch.dict(os.environ, {library.VARIABLE: ""}):
                with self.assertRaisesRegex(taa1.LibraryError, "no shared object: TAA1_LIBRARY"):
                    library.find()
                (target / library.NAME).touch()
                self.assertEqual(library.find(), str(target / library.NAME))
                (package / library.SONAME).touch()
                self.assertEqual(library.find(), str(package / library.SONAME))
            with mock.patch.dict(os.environ, {library.VARIABLE: "elsewhere.so"}):
                self.assertEqual(library.find(), os.path.abspath("elsewhere.so"))

    def test_found(self) -> None:
        self.assertEqual(taa1.Engine().encrypt(KEY, KEY[:8]), ENGINE.encrypt(KEY, KEY[:8]))

    def test_wrong(self) -> None:
        """No file, a folder, no library, a library without the calls: one exception."""
        text = self.file("text.so", "no library\n")
        for path in ("/no/such/library", str(self.folder), str(text), "libc.so.6"):
            with self.subTest(path):
                with self.assertRaises(taa1.LibraryError) as caught:
                    taa1.Engine(path)
                self.assertIn(path, str(caught.exception))
        self.assertTrue(issubclass(taa1.LibraryError, OSError))

    def test_command(self) -> None:
        """The desk says it in a line."""
        environment = {**os.environ, library.VARIABLE: "/no/such/library"}
        said = "/no/such/library cannot be loaded: /no/such/library: cannot open shared object file: "
        tb7 = ("call", "tb7", "--group-key", "00" * 12)
        self.fails(2, said + "No such file or directory", *tb7, env=environment)


class Making(Case):
    """./build in a small repository of its own, with stand-ins for rt and cc that say they ran."""

    # It is called in a crate's folder. No two archives are the same.
    RT = """#!/bin/sh
name=${PWD##*/}
flock -n ../../crates.txt echo "without the lock" >>../../ran
echo "rt $* in $name" >>../../ran
mkdir -p out
cat src/*.rt /proc/sys/kernel/random/uuid >out/libengine.a
"""
    CC = '#!/bin/sh\necho cc >>ran\ncp target/staticlib/libengine.a "$3"\n'
    TOOLS = (
        "awk", "bash", "cat", "chmod", "cp", "dirname", "env", "find", "flock", "mkdir", "mv", "rm", "sed", "sh", "sha256sum",
        "sort", "tee",
    )  # fmt: skip
    OLD = "target/staticlib/libengine.a is missing, or not made from these sources"
    MADE = ["rt lib in engine", "cc"], (
        f"{OLD}: proving and compiling, half a minute to some minutes; the prover's lines go to target/build.log\n"
    )
    NOTHING: tuple[list[str], str] = [], ""

    def setUp(self) -> None:
        """Sources, and no engine yet."""
        super().setUp()
        self.commands = self.folder / "bin"
        self.source = self.folder / "crates" / "engine" / "src" / "lib.rt"
        self.edit = self.folder / "crates" / "engine" / "must-fail" / "one.edit"
        for path in (self.commands / "none", self.source, self.edit):
            path.parent.mkdir(parents=True)
        for name in self.TOOLS:
            (self.commands / name).symlink_to(shutil.which(name) or name)
        self.put("rt", self.RT)
        self.put("cc", self.CC)
        for name in ("build", "locked"):
            shutil.copy(ROOT / name, self.folder)
        self.header = self.folder / "include" / "taa1.h"
        self.header.parent.mkdir()
        shutil.copy(ROOT / "include" / "taa1.h", self.header)
        self.list = self.file("crates.txt", "engine:\n")
        self.source.write_text("first\n")
        self.edit.write_text("first\n")
        self.archive = self.folder / "target" / "staticlib" / "libengine.a"
        self.library = self.folder / "target" / library.NAME

    def put(self, name: str, text: str) -> None:
        """A command."""
        self.commands.joinpath(name).write_text(text)
        self.commands.joinpath(name).chmod(0o755)

    def made(self, status: int = 0, **environment: str) -> tuple[list[str], str]:
        """What ran, and what was said."""
        ran = self.file("ran", "")
        done = subprocess.run(
            [self.folder / "build", "library"], capture_output=True, check=False, text=True,
            env={"PATH": str(self.commands), **environment},
        )  # fmt: skip
        self.assertEqual((done.returncode, done.stdout), (status, ""), done.stderr)
        return ran.read_text().splitlines(), done.stderr

    def anew(self) -> None:
        """All is made, and then stays."""
        self.assertEqual(self.made(), self.MADE)
        self.assertEqual(self.library.read_bytes(), self.archive.read_bytes())
        self.assertEqual(self.made(), self.NOTHING)

    def test_first(self) -> None:
        self.anew()

    def test_changed_source(self) -> None:
        """A source that is changed, added or removed, or the list of crates; but no edit.
        The files' times say nothing, as after a copy that keeps them."""
        self.anew()
        other = self.source.with_name("other.rt")
        paths = (self.source, self.source.parent, self.edit, self.list, other)
        for moment in (None, 0):
            changes: tuple[Callable[[], Any], ...] = (
                lambda: self.source.write_text(f"changed {moment}\n"),
                lambda: other.write_text("added\n"),
                lambda: other.replace(self.source),
                lambda: self.list.write_text(f"engine: {moment}\n"),
            )
            for change in changes:
                change()
                if moment is not None:
                    for path in filter(os.path.exists, paths):
                        os.utime(path, (moment, moment))
                self.anew()
        self.edit.write_text("changed\n")
        for path in filter(os.path.exists, paths):
            path.touch()
        self.assertEqual(self.made(), self.NOTHING)

    def test_changed_meanwhile(self) -> None:
        self.put("rt", self.RT + "echo more >>src/lib.rt\n")
        self.made()
        self.put("rt", self.RT)
        self.anew()

    def test_other_files(self) -> None:
        """A library is linked anew if it or its digests are others, or gone; an archive that
        another hand made is not linked."""
        self.anew()
        digests = self.library.with_name(f"{library.NAME}.sha256")
        for spoiled, content in ((self.library, "other\n"), (digests, "other\n"), (self.library, ""), (digests, "")):
            spoiled.unlink()
            if content:
                spoiled.write_text(content)
            self.assertEqual(self.made(), (["cc"], ""))
            self.assertEqual(self.made(), self.NOTHING)
        self.header.write_text(self.header.read_text() + "\n")
        self.assertEqual(self.made(), (["cc"], ""))
        self.assertEqual(self.made(LDFLAGS="-Wl,-s"), (["cc"], ""))
        self.assertEqual(self.made(LDFLAGS="-Wl,-s"), self.NOTHING)
        self.library.unlink()
        self.archive.write_text("other\n")
        self.anew()

    def test_without_rt(self) -> None:
        """What was made from other sources is refused, each time; what fits goes on."""
        said = f'build: {self.OLD}, and rt, which makes it, is not on the PATH: see "The Rattle kit" in README.md\n'
        (self.commands / "rt").unlink()
        self.assertEqual(self.made(1), ([], said))
        self.put("rt", self.RT)
        self.anew()
        (self.commands / "rt").unlink()
        self.assertEqual(self.made(), self.NOTHING)
        self.source.write_text("other\n")
        os.utime(self.source, (0, 0))
        for _ in range(2):
            self.assertEqual(self.made(1), ([], said))
        self.source.write_text("first\n")
        self.assertEqual(self.made(), self.NOTHING)

    def test_not_proved(self) -> None:
        """Where rt fails, the library stays as it was, and is not taken for the new one."""
        self.anew()
        before = self.library.read_bytes()
        self.source.write_text("other\n")
        self.put("rt", "#!/bin/sh\nexit 1\n")
        for _ in range(2):
            said = self.made(1)[1].splitlines()
            self.assertEqual(said[1:], ["build: target/staticlib/libengine.a is not made: rt failed in crates/engine"])
        self.assertEqual(self.library.read_bytes(), before)

    def test_progress(self) -> None:
        """A line for each crate; the prover's others are in the log, and shown of one that fails."""
        proved = ("fn one: proved", "crate arrays: modules loaded=1 checked=2", "logic=proved functions=1", "error: a goal")
        said = "".join(f'echo "{line}"\n' for line in proved)
        self.put("rt", self.RT + said)
        self.assertEqual(self.made(), (self.MADE[0], self.MADE[1] + "arrays proved\n"))
        log = self.folder / "target" / "build.log"
        self.assertEqual(log.read_text(), "".join(f"{line}\n" for line in proved))
        self.source.write_text("other\n")
        self.put("rt", "#!/bin/sh\n" + said + 'echo "fn two: proved"; echo "rt: the library hurdle did not build" >&2; exit 1\n')
        failed = "the library hurdle did not build"
        shown = ["arrays proved", failed, "error: a goal", f"rt: {failed}"]
        self.assertEqual(self.made(1)[1].splitlines()[1:-1], shown)

    def test_not_linked(self) -> None:
        self.put("cc", "#!/bin/sh\nexit 1\n")
        self.assertEqual(self.made(1)[1].splitlines()[1:], ["build: cc could not link target/libtaa1.so"])
        (self.commands / "cc").unlink()
        said = "build: cc, which links target/libtaa1.so, is not on the PATH: install a C compiler\n"
        self.assertEqual(self.made(1), ([], said))
        self.assertFalse(self.library.exists())
        self.assertEqual(list(self.folder.glob("target/.*")), [])

    def test_at_once(self) -> None:
        """Of several, one makes it, and the others say that they wait."""
        os.mkfifo(self.folder / "go")
        self.put("rt", self.RT + "cat ../../go\n")
        waits = "rt: waiting for another rt in this repository, which holds the lock on crates.txt\n"
        self.file("ran", "")
        runs = []
        for said in (self.MADE[1], waits, waits):
            run = subprocess.Popen(
                [str(self.folder / "build"), "library"], stderr=subprocess.PIPE, text=True,
                env={"PATH": str(self.commands)},
            )  # fmt: skip
            self.addCleanup(run.kill)
            assert run.stderr
            self.assertEqual(run.stderr.readline(), said)
            runs.append(run)
        (self.folder / "go").write_text("")
        self.assertEqual([(run.communicate()[1], run.returncode) for run in runs], [("", 0)] * 3)
        self.assertEqual((self.folder / "ran").read_text().splitlines(), self.MADE[0])

    def test_use(self) -> None:
        """`./build` alone makes the archive; programs are made by name, and nothing else is."""
        for name in ("makering", "printtables"):
            (self.folder / "crates" / name).mkdir()
        program = self.RT.replace("cat src/*.rt", "cat").replace("libengine.a", "$name")
        running = 'echo "rt: running out/$name; to give it other input, run that file yourself" >&2\n'
        for words, status, rt, ran in (
            ("", 0, self.RT, "rt lib in engine\n"), ("archive", 0, self.RT, ""), ("--help", 0, self.RT, ""),
            # The status is the program's own.
            ("printtables makering", 0, program + running + "exit 2\n", "rt run in printtables\nrt run in makering\n"),
            ("printtables makering", 0, program, ""), ("all", 2, self.RT, ""),
        ):  # fmt: skip
            with self.subTest(words):
                self.put("rt", rt)
                self.file("ran", "")
                command, path = [str(self.folder / "build"), *words.split()], {"PATH": str(self.commands)}
                done = subprocess.run(command, capture_output=True, env=path, check=False, text=True)
                self.assertEqual((done.returncode, (self.folder / "ran").read_text()), (status, ran), done.stderr)
        # One that was not run was not made.
        for name in ("makering", "printtables"):
            (self.folder / "target" / "bin" / name).unlink()
        self.file("ran", "")
        self.put("rt", program + "exit 1\n")
        command = [str(self.folder / "build"), "printtables", "makering"]
        done = subprocess.run(command, capture_output=True, env={"PATH": str(self.commands)}, check=False, text=True)
        self.assertEqual((done.returncode, (self.folder / "ran").read_text()), (1, "rt run in printtables\n"))
        said = "build: target/bin/printtables is not made: rt failed in crates/printtables\n"
        self.assertTrue(done.stderr.endswith(said), done.stderr)

    def test_desk(self) -> None:
        """The desk has it made, once in a process, unless another library is used."""
        package = self.folder / "package"
        package.mkdir()
        with mock.patch.object(library, "PACKAGE", package), mock.patch.object(library, "build") as build:
            for root, named, beside, calls in (
                (self.folder, "", False, 1), (self.folder, "other.so", False, 0),
                (self.folder, "", True, 0), (None, "", False, 0),
            ):  # fmt: skip
                build.reset_mock()
                library.make.cache_clear()
                if beside:
                    (package / library.SONAME).touch()
                with mock.patch.object(library, "repository", lambda root=root: root), mock.patch.dict(
                    os.environ, {library.VARIABLE: named}
                ):
                    library.make()
                    library.make()
                self.assertEqual(build.call_args_list, [mock.call(self.folder, "library")] * calls)
        self.put("build", "#!/bin/sh\nexit 1\n")
        with self.assertRaisesRegex(taa1.LibraryError, r"/bin/build library failed, and has said why$"):
            library.build(self.commands, "library")
        library.make.cache_clear()


class Values(unittest.TestCase):
    """What the calls take."""

    def test_buffers(self) -> None:
        wanted = ENGINE.tb2(KEY)
        with mmap.mmap(-1, 16) as mapped:
            mapped[:] = KEY
            self.assertEqual(ENGINE.tb2(mapped), wanted)
        self.assertEqual(ENGINE.tb2(array.array("B", KEY)), wanted)
        self.assertEqual(ENGINE.tb2((ctypes.c_uint8 * 16)(*KEY)), wanted)
        self.assertEqual(ENGINE.tb2(memoryview(KEY + KEY)[::2]), KEY[::2] + KEY[::2])
        with self.assertRaisesRegex(TypeError, r"^tb2, argument 1 \(input\): .* items of 4 bytes"):
            ENGINE.tb2(array.array("I", [1, 2, 3, 4]))

    def test_wide_numbers(self) -> None:
        with self.assertRaisesRegex(OverflowError, r"^tb1, argument 2 \(width\): 0x1"):
            ENGINE.tb1(1, 1 << 64)
        with self.assertRaises(OverflowError) as caught:
            ENGINE.tb1(1 << 20000, 16)
        said = "tb1, argument 1 (value): a number of 20,001 bits does not fit 64 bits"
        self.assertEqual(str(caught.exception), said)
        with self.assertRaisesRegex(OverflowError, r"argument 3 \(response_mask\): -0x1 does not"):
            ENGINE.ta12(KEY, KEY[:10], -1, 0)


class Public(unittest.TestCase):
    """The package's names."""

    def test_names(self) -> None:
        """`__all__` is all, beside the package's own modules: nothing of ctypes, for one."""
        found = {name for name, value in vars(taa1).items() if not isinstance(value, types.ModuleType)}
        public = {name for name in found if not name.startswith("_")} | {"__version__"}
        self.assertEqual(public, set(taa1.__all__))
        self.assertEqual(len(taa1.__all__), len(public))
        modules = {name for name, value in vars(taa1).items() if isinstance(value, types.ModuleType)}
        self.assertLessEqual(
            {name for name in modules if not name.startswith("_")},
            {path.stem for path in library.PACKAGE.glob("*.py")},
        )
        for name in taa1.__all__:
            self.assertNotIn("ctypes", getattr(getattr(taa1, name), "__module__", ""), name)


class Installing(Case):
    """pip install, from the folder and without a network."""

    def wheel(self, made: str) -> dict[str, bytes]:
        """The files of a wheel that was made."""
        with zipfile.ZipFile(self.folder / made) as archive:
            return {name: archive.read(name) for name in archive.namelist()}

    def test_wheel(self) -> None:
        """Module, desk, engine and licence; the metadata of pyproject.toml."""
        files = self.wheel(make_wheel.build_wheel(str(self.folder)))
        names = {"taa1/py.typed", "taa1_desk/py.typed", "taa1/libtaa1.so.1", "taa1_desk/cli.py"}
        names.add("taa1_desk/printtables")
        self.assertLessEqual(names, set(files))
        release = taa1.__version__.replace("-dev", ".dev0")
        info = f"taa1-{release}.dist-info"
        self.assertEqual(files[f"{info}/licenses/LICENSE"], (ROOT / "LICENSE").read_bytes())
        said = email.message_from_bytes(files[f"{info}/METADATA"])
        self.assertEqual(said["Version"], release)
        self.assertEqual(said["License-Expression"], "MIT")
        self.assertTrue(said.get_payload().startswith("# Lirgotuul"))
        listed = {line.partition(",")[0] for line in files[f"{info}/RECORD"].decode().splitlines()}
        self.assertEqual(listed, set(files))

    def test_project(self) -> None:
        """The table is read as a parser of TOML reads it."""
        try:
            import tomllib
        except ImportError:
            self.skipTest("no tomllib")
        text = (ROOT / "pyproject.toml").read_text()
        self.assertEqual(make_wheel.project(), tomllib.loads(text)["project"])

    def test_editable(self) -> None:
        """An editable wheel leads to the folders, and has the command and no module."""
        files = self.wheel(make_wheel.build_editable(str(self.folder)))
        self.assertEqual(files["taa1.pth"].decode(), f"{ROOT / 'python'}\n{ROOT / 'desk'}\n")
        self.assertEqual(files[make_wheel.SCRIPT], make_wheel.COMMAND.encode())
        self.assertFalse([name for name in files if name.startswith(("taa1/", "taa1_desk/"))])

    def install(self, *options: str) -> None:
        """Runs pip."""
        pip = [sys.executable, "-m", "pip"]
        if subprocess.run([*pip, "--version"], capture_output=True, check=False).returncode:
            self.skipTest("no pip")
        done = subprocess.run(
            [*pip, *options, "--quiet", "--no-index", "--disable-pip-version-check"],
            capture_output=True, check=False, timeout=300,
        )  # fmt: skip
        self.assertEqual(done.returncode, 0, done.stderr.decode())

    def works(self, command: list[str], **environment: str) -> None:
        """The command makes a call."""
        made = subprocess.run(
            [*command, "call", "tb7", "--group-key", "00" * 12],
            capture_output=True, cwd=self.folder, check=False,
            env={"PATH": os.environ["PATH"], **environment},
        )  # fmt: skip
        self.assertEqual((made.stdout, made.stderr), (b"bytes " + b"0" * 32 + b"\n", b""))

    def test_pip(self) -> None:
        place = self.folder / "site"
        self.install("install", "--target", str(place), str(ROOT))
        for command in ([str(place / "bin" / "taa1")], [sys.executable, "-m", "taa1"]):
            self.works(command, PYTHONPATH=str(place))

    def test_pip_editable(self) -> None:
        place = self.folder / "environment"
        python = str(place / "bin" / "python")
        venv.create(place)
        self.install("--python", python, "install", "--editable", str(ROOT))
        for command in ([str(place / "bin" / "taa1")], [python, "-m", "taa1"]):
            self.works(command)

    def test_module_alone(self) -> None:
        """Copied without the desk, the module says what is missing."""
        shutil.copytree(library.PACKAGE, self.folder / "taa1")
        command = [sys.executable, "-m", "taa1", "slips"]
        done = subprocess.run(command, cwd=self.folder, capture_output=True, check=False)
        said = b"taa1: the module is here without the desk; `pip install .` in the repository installs both\n"
        self.assertEqual((done.returncode, done.stdout, done.stderr), (2, b"", said))
