"""Holds the test vectors against their schema, the header's refusals and four implementations.

main.py ANSWERS: the program of tests/peer, or nothing where there is no cargo.
"""

from __future__ import annotations

import copy
import re
import subprocess
import sys
import tempfile
from pathlib import Path
from typing import Any, Callable, Optional, Union

ROOT = Path(__file__).resolve().parents[2]
sys.path[:0] = [str(ROOT / folder) for folder in ("python", "desk", "tests/desk")]

from mistakes import Slip, altered, sealing_slips  # noqa: E402
from planted_opened import opening_slips  # noqa: E402
from taa1.calls import CALLS  # noqa: E402

from read import FOLDER, SCHEMA, Vector, content, files, vectors  # noqa: E402
from work import (  # noqa: E402
    Answer,
    EngineWork,
    IndependentWork,
    Lines,
    OsmoWork,
    ReferenceWork,
    agrees,
    known,
)

LIMIT = 300_000  # bytes of all files together
SHOWN = 5  # of the failures of one check
Work = Union[EngineWork, IndependentWork, OsmoWork, ReferenceWork]

# The mistakes that a flag's vectors are for: whoever makes one fails at every one of them.
MISTAKES = {
    "Exp2Sum": "exp2-xor",
    "Exp4Pairs": "exp4-outermost",
    "Exp4Sum": "exp4-xor",
    "Ta21Reversed": "ta21-unreversed",
    "Ta22NotReversed": "ta22-reversed",
    "DroppedByte": "drop-last",
    "ZeroByteBack": "zero-at-end",
    "ThreeBits": "three-bits",
}


class Checks:
    """Counts what was checked."""

    passed = failed = 0

    def check(self, name: str, wrong: list[str]) -> None:
        """One check, which passes if nothing is wrong."""
        if wrong:
            self.failed += 1
            print(f"{name}: {len(wrong)} FAILED")
            for line in wrong[:SHOWN]:
                print(f"  {line}")
        else:
            self.passed += 1
            print(name)


def made_again(checks: Checks) -> None:
    """vectors/make makes the same bytes."""
    done = subprocess.run([FOLDER / "make", "--check"], capture_output=True, text=True, check=False)
    said = (done.stdout + done.stderr).splitlines()
    checks.check("vectors/make makes the same files", said or (["it failed"] if done.returncode else []))
    size = sum(path.stat().st_size for path in [*files(), SCHEMA])
    checks.check(f"{size:,} bytes in all", [f"more than {LIMIT:,}"] if size > LIMIT else [])


def counts(checks: Checks) -> None:
    """The numbers in a file are those of its tests, and its notes are those of its flags."""
    for path in files():
        read = content(path)
        tests = [test for group in read["testGroups"] for test in group["tests"]]
        flags = {flag for test in tests for flag in test["flags"]}
        wrong = []
        if [test["tcId"] for test in tests] != list(range(1, read["numberOfTests"] + 1)):
            wrong.append("tcId or numberOfTests")
        if flags != set(read["notes"]):
            wrong.append(f"notes: {sorted(flags ^ set(read['notes']))}")
        checks.check(f"{path.name}: {len(tests)} tests, {len(flags)} flags", wrong)


def _spoiled(read: dict[str, Any]) -> list[tuple[str, dict[str, Any]]]:
    """A file with one thing wrong, in several ways."""
    made = []

    def spoil(name: str, change: Callable[[dict[str, Any], dict[str, Any]], Any]) -> None:
        other = copy.deepcopy(read)
        group = next(group for group in other["testGroups"] if group["type"] == "ta52")
        change(other, next(test for test in group["tests"] if test["result"] == "valid"))
        made.append((name, other))

    spoil("no algorithm", lambda file, test: file.pop("algorithm"))
    spoil("no notes", lambda file, test: file.pop("notes"))
    spoil("an unknown call", lambda file, test: file["testGroups"][0].update(type="ta99"))
    spoil("no result", lambda file, test: test.pop("result"))
    spoil("another result", lambda file, test: test.update(result="acceptable"))
    spoil("no flags", lambda file, test: test.update(flags=[]))
    spoil("an input that is missing", lambda file, test: test["inputs"].pop("version"))
    spoil("an input too many", lambda file, test: test["inputs"].update(room=1))
    spoil("an odd number of digits", lambda file, test: test["inputs"].update(text="0"))
    spoil("a version of 17 bits", lambda file, test: test["inputs"].update(version=65536))
    spoil("a key of nine bytes", lambda file, test: test["outputs"].update(key="00" * 9))
    spoil("outputs and a refusal", lambda file, test: test.update(refusal=11))
    spoil("a check that fails in a valid test", lambda file, test: test["outputs"].update(failed_checks=1))
    spoil("no check that fails in an invalid test", lambda file, test: test.update(result="invalid"))
    return made


def schema(checks: Checks) -> None:
    """The schema takes every file, and no spoiled one."""
    try:
        from jsonschema import Draft202012Validator
    except ImportError:
        print("left out, for want of python3-jsonschema: the schema")
        return
    rules = content(SCHEMA)
    Draft202012Validator.check_schema(rules)
    validator = Draft202012Validator(rules)
    for path in files():
        wrong = [f"{error.json_path}: {error.message[:200]}" for error in validator.iter_errors(content(path))]
        checks.check(f"{path.name}: as the schema has it", wrong)
    taken = [name for name, read in _spoiled(content(FOLDER / "sealed_texts_test.json")) if validator.is_valid(read)]
    checks.check("spoiled files: none as the schema has it", taken)


def refusals(checks: Checks, tests: list[Vector]) -> None:
    """Each call has tests: valid ones, and one for each refusal that docs/hosts.md lists."""
    table = (ROOT / "docs/hosts.md").read_text().partition("<!-- begin calls")[2].partition("<!-- end calls")[0]
    rows = re.findall(r"^\| `taa1_(\w+)` \| [^|]* \| ([^|]*) \|", table, re.M)
    listed = {name: {int(number) for number in re.findall(r"\d+", refused)} for name, refused in rows}
    del listed["release"]
    wrong = [f"{name}: no tests, or no row in docs/hosts.md" for name in sorted(listed.keys() ^ CALLS.keys())]
    for name in listed:
        mine = [test for test in tests if test.call == name]
        there = {test.refusal.get("refusal", 0) for test in mine}
        if there != {0, *listed[name]}:
            wrong.append(f"{name}: refusals {sorted(there)}, listed {sorted(listed[name])}")
    number = sum(map(len, listed.values()))
    checks.check(f"{len(listed)} calls, each with a test for each of its refusals, {number} in all", wrong)


def _otherwise(wanted: Answer) -> Answer:
    """An answer that differs in every byte and number."""
    return {
        name: bytes(byte ^ 0xFF for byte in value) if isinstance(value, bytes) else value + 1
        for name, value in wanted.items()
    }


UNSEALING = ("ta32", "ta52", "ta82", "ta92")


def argument(checks: Checks, tests: list[Vector]) -> None:
    """The texts in the table of docs/ARGUMENT.md are unsealed here, and the comments name its claims."""
    rows = re.findall(r'^name = "(.*)"$', (ROOT / "crates/claims/argument.toml").read_text(), re.M)
    texts = set(re.findall(r"\b[0-9a-f]{30}\b", (ROOT / "docs/ARGUMENT.md").read_text()))
    here = {value.hex() for test in tests if test.call in UNSEALING for value in test.inputs.values() if isinstance(value, bytes)}
    wrong = [f"{text}: not unsealed" for text in sorted(texts - here)] or ([] if texts else ["no texts in it"])
    named = {test.comment.partition(":")[0] for test in tests if "Argument" in test.flags}
    wrong += [f"{label}: no such claim" for label in sorted(named - set(rows))]
    checks.check(f"docs/ARGUMENT.md: {len(texts)} texts, and claims {', '.join(sorted(named))}", wrong)


def _told(answer: Answer) -> str:
    """An answer in hexadecimal, with -- for a byte that is not known."""

    def shown(value: Any) -> str:
        if value is None or isinstance(value, int):
            return str(value)
        return "".join("--" if byte is None else f"{byte:02x}" for byte in value)

    return ", ".join(f"{name} {shown(value)}" for name, value in answer.items())


def held(checks: Checks, work: Work) -> None:
    """The vectors against an implementation, file by file."""
    total = 0
    for path in files():
        wrong = []
        compared = 0
        tests = list(vectors(path))
        for test in tests:
            answer = work.answer(test)
            if answer is None or not known(answer):
                continue
            compared += 1
            if not agrees(test.wanted, answer):
                wrong.append(f"{test.name}: got {_told(answer)}, wanted {_told(test.wanted)}")
            if agrees(_otherwise(test.wanted), answer):
                wrong.append(f"{test.name}: any answer would do")
        total += compared
        if compared:
            checks.check(f"{work.name}: {path.name}, {compared} of {len(tests)}", wrong)
        else:
            print(f"{work.name}: {path.name}, nothing to compare")
    checks.check(f"{work.name}: {total} in all", [] if total else ["nothing was compared"])


def _wrongs(work: ReferenceWork, tests: list[Vector]) -> list[Vector]:
    """The vectors at which an altered working fails."""
    return [test for test in tests if _fails(work, test)]


def _fails(work: ReferenceWork, test: Vector) -> bool:
    try:
        answer: Optional[Answer] = work.answer(test)
    except (ValueError, OverflowError, IndexError):
        return True  # it cannot even be worked so
    return answer is not None and not agrees(test.wanted, answer)


def mistaken(checks: Checks, tests: list[Vector]) -> None:
    """Who makes a mistake that a flag is for fails at that flag's vectors; who makes any other, somewhere."""
    slips: dict[str, Slip] = {one.name: one for group in sealing_slips().values() for one in group}
    slips.update(opening_slips())
    for flag, name in MISTAKES.items():
        mine = [test for test in tests if flag in test.flags and ReferenceWork().answer(test) is not None]
        work = ReferenceWork(altered(slips[name]))
        failed = _wrongs(work, mine)
        wrong = [f"{test.name} is right" for test in mine if test not in failed] if mine else ["no vectors"]
        checks.check(f"{flag}: {slips[name].mistake}: wrong at each of {len(mine)}", wrong)
    short = [test for test in tests if sum(len(value) for value in test.inputs.values() if isinstance(value, bytes)) < 300]
    unfound = []
    for name, one in slips.items():
        work = ReferenceWork(altered(one))
        if not any(_fails(work, test) for test in short):
            unfound.append(f"{name}: {one.mistake}")
    checks.check(f"{len(slips)} mistakes of candidates: each is found", unfound)


MINE = """
import sys
sys.path[:0] = {path!r}
from mistakes import altered
from planted_sealed import slips
from read import Vector
from work import ReferenceWork

work = ReferenceWork({work})

def __getattr__(name):
    if name not in {names!r}:
        raise AttributeError(name)
    from taa1.calls import CALLS
    return lambda *values: work.single(name, dict(zip([each.name for each in CALLS[name].inputs], values)))
"""


def snippet(checks: Checks) -> None:
    """The lines of docs/hosts.md say nothing of a right implementation, and which tests a wrong one fails."""
    section = (ROOT / "docs/hosts.md").read_text().partition("## Test vectors")[2].partition("\n## ")[0]
    lines = [line[4:] for line in section.splitlines() if line.startswith("    ") or not line]
    program = "\n".join(lines).strip()
    path = [str(ROOT / folder) for folder in ("python", "desk", "tests/desk", "tests/vectors")]
    names = [name for name in CALLS if re.fullmatch(r"ta[3589][12]", name)]
    for words, work, wanted in (
        ("right", "", ""),
        ("mistaken", 'altered(slips()["drop-last"])', "ta31 "),
    ):
        with tempfile.TemporaryDirectory() as folder:
            Path(folder, "mine.py").write_text(MINE.format(path=path, work=work, names=names))
            done = subprocess.run(
                [sys.executable, "-W", "error", "-c", program],
                cwd=ROOT, env={"PYTHONPATH": folder, "PYTHONDONTWRITEBYTECODE": "1"}, capture_output=True, text=True, check=False,
            )  # fmt: skip
        right = done.returncode == 0 and (done.stdout.startswith(wanted) if wanted else done.stdout == "")
        wrong = [] if right else [done.stdout[:200], done.stderr[-400:]]
        checks.check(f"docs/hosts.md: the program, on a {words} implementation", wrong)


def main(arguments: list[str]) -> int:
    """Every check, and how many passed."""
    checks = Checks()
    made_again(checks)
    counts(checks)
    schema(checks)
    tests = [test for path in files() for test in vectors(path)]
    refusals(checks, tests)
    argument(checks, tests)
    held(checks, EngineWork())
    held(checks, ReferenceWork())
    if arguments:
        lines = Lines(Path(arguments[0]))
        try:
            held(checks, IndependentWork(lines))
            osmo = OsmoWork(lines)
            if osmo.there():
                held(checks, osmo)
            else:
                print("osmo-tetra could not be fetched: nothing is compared with it")
        finally:
            lines.close()
    else:
        print("left out, for want of cargo: the independent implementation and osmo-tetra")
    mistaken(checks, tests)
    snippet(checks)
    print(f"{checks.passed} passed, {checks.failed} failed")
    return 1 if checks.failed else 0


if __name__ == "__main__":
    sys.exit(main(sys.argv[1:]))
