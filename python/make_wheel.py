# SPDX-License-Identifier: MIT
"""Makes one wheel of the module and the desk, for pip, with the standard library alone.

The engine's shared object and program printtables go along, and are made first where they
are missing or not made from the sources as they are. An editable wheel names the
repository's folders instead.
"""

from __future__ import annotations

import base64
import hashlib
import json
import sys
import zipfile
from pathlib import Path
from typing import Any, Optional

HERE = Path(__file__).resolve().parent
ROOT = HERE.parent
PACKAGES = (HERE / "taa1", ROOT / "desk" / "taa1_desk")
sys.path.insert(0, str(HERE))

from taa1 import __version__ as VERSION  # noqa: E402
from taa1 import library  # noqa: E402

NAME = "taa1"
TAG = "py3-none-linux_x86_64"
RELEASE = VERSION.replace("-dev", ".dev0")  # as pip writes it
INFO = f"{NAME}-{RELEASE}.dist-info"
SCRIPT = f"{NAME}-{RELEASE}.data/scripts/{NAME}"
PRINTTABLES = "taa1_desk/printtables"

WHEEL = f"Wheel-Version: 1.0\nGenerator: {NAME}\nRoot-Is-Purelib: false\nTag: {TAG}\n"
# The command; as the repository's, it ends without a word if it is interrupted early, which
# the script that pip makes for an entry point would not.
COMMAND = """#!python
# SPDX-License-Identifier: MIT
import _signal as signal

if signal.getsignal(signal.SIGINT) is signal.default_int_handler:
    signal.signal(signal.SIGINT, signal.SIG_DFL)

import sys

from taa1_desk.cli import main

sys.exit(main())
"""


def project() -> dict[str, Any]:
    """The table [project] of pyproject.toml. Before 3.11 Python has no parser of TOML, but
    texts, and lists of them in one line, are written as in JSON."""
    text = (ROOT / "pyproject.toml").read_text(encoding="utf-8")
    lines = text.partition("\n[project]\n")[2].partition("\n[")[0].splitlines()
    pairs = (line.partition(" = ") for line in lines if line)
    return {key: json.loads(value) for key, _, value in pairs}


def metadata() -> str:
    """The package's METADATA."""
    table = project()
    lines = [
        "Metadata-Version: 2.4",
        f"Name: {table['name']}",
        f"Version: {RELEASE}",
        f"Summary: {table['description']}",
        f"License-Expression: {table['license']}",
        *(f"License-File: {name}" for name in table["license-files"]),
        f"Keywords: {','.join(table['keywords'])}",
        *(f"Classifier: {name}" for name in table["classifiers"]),
        f"Requires-Python: {table['requires-python']}",
        "Description-Content-Type: text/markdown; charset=UTF-8",
    ]
    readme = ROOT / str(table["readme"])
    return "\n".join(lines) + "\n\n" + readme.read_text(encoding="utf-8")


def about() -> dict[str, bytes]:
    """The files that every wheel has: the command, and what is said of the package."""
    licences = project()["license-files"]
    return {
        SCRIPT: COMMAND.encode(),
        f"{INFO}/METADATA": metadata().encode(),
        f"{INFO}/WHEEL": WHEEL.encode(),
        **{f"{INFO}/licenses/{name}": (ROOT / name).read_bytes() for name in licences},
    }


def packages() -> dict[str, bytes]:
    """The files of the module and the desk."""
    library.build(ROOT, "library", "printtables")
    found = {
        path.relative_to(package.parent).as_posix(): path.read_bytes()
        for package in PACKAGES
        for path in sorted((*package.rglob("*.py"), package / "py.typed"))
    }
    found[f"taa1/{library.SONAME}"] = (ROOT / "target" / library.NAME).read_bytes()
    found[PRINTTABLES] = (ROOT / "target" / "bin" / "printtables").read_bytes()
    return found


def _listed(name: str, data: bytes) -> str:
    """A file's line in the wheel's list."""
    digest = base64.urlsafe_b64encode(hashlib.sha256(data).digest()).rstrip(b"=").decode()
    return f"{name},sha256={digest},{len(data)}\n"


def write(folder: str, found: dict[str, bytes]) -> str:
    """Writes a wheel of these files, and its list of them; the wheel's name."""
    record = "".join(_listed(name, data) for name, data in found.items())
    found = {**found, f"{INFO}/RECORD": (record + f"{INFO}/RECORD,,\n").encode()}
    made = f"{NAME}-{RELEASE}-{TAG}.whl"
    with zipfile.ZipFile(Path(folder) / made, "w", zipfile.ZIP_DEFLATED) as archive:
        for name, data in found.items():
            entry = zipfile.ZipInfo(name)
            entry.compress_type = zipfile.ZIP_DEFLATED
            entry.external_attr = (0o100755 if name in (PRINTTABLES, SCRIPT) else 0o100644) << 16
            archive.writestr(entry, data)
    return made


# ---- what pip calls


def build_wheel(
    wheel_directory: str, config_settings: Any = None, metadata_directory: Optional[str] = None
) -> str:
    """A wheel with everything; its name."""
    return write(wheel_directory, {**packages(), **about()})


def build_editable(
    wheel_directory: str, config_settings: Any = None, metadata_directory: Optional[str] = None
) -> str:
    """A wheel that leads to the repository's folders; its name."""
    folders = "".join(f"{package.parent}\n" for package in PACKAGES)
    return write(wheel_directory, {f"{NAME}.pth": folders.encode(), **about()})
