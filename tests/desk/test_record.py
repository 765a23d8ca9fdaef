"""Records of marking: what they hold, that they come out the same elsewhere, and appeals."""

from __future__ import annotations

import json
import os
import random
import shutil
import stat
import unittest
from hashlib import sha256
from pathlib import Path
from typing import Any

from common import CLASS, ROOT, Case, seal, taa1
from common import SITTING as SITTING_OF_CLASS
from taa1_desk.command.folders import RECORD
from taa1_desk.command.record import THERE
from taa1_desk.reading.recorded import parse
from taa1_desk.reading.schemes import DEFAULT
from taa1_desk.showing.changes import Change, changed

try:
    import jsonschema
except ImportError:
    jsonschema = None  # type: ignore[assignment]

SCHEMA = ROOT / "docs" / "record.schema.json"
MOMENT = "2017-07-14T02:40:00Z"
AT = {**os.environ, "SOURCE_DATE_EPOCH": "1500000000"}


def digest(path: Path) -> str:
    """A file's SHA-256."""
    return sha256(path.read_bytes()).hexdigest()


class Day(Case):
    """A class in a folder, with what may lie in one."""

    def setUp(self) -> None:
        super().setUp()
        self.class_ = self.folder / "day" / "class"
        self.class_.mkdir(parents=True)
        self.day = self.class_.parent
        for name in ("sitting.txt", "model.txt", "names.txt"):
            shutil.copy(CLASS / name, self.day)
        for path in (*CLASS.glob("*.book"), CLASS / "ben.keys"):
            shutil.copy(path, self.class_)

    def clutter(self) -> None:
        """Hand-ins of which not all can be marked, and files that are none."""
        (self.class_ / "zoe").mkdir()
        shutil.copy(CLASS / "ann.book", self.class_ / "zoe" / "one")
        shutil.copy(CLASS / "cho.book", self.class_ / "zoe" / "two")
        (self.class_ / "yan").mkdir()
        shutil.copy(CLASS / "ann.book", self.class_ / "yan" / "mine")
        shutil.copy(CLASS / "ben.keys", self.class_ / "yan" / "my values.txt")
        (self.class_ / "xi").mkdir()
        (self.class_ / "mal.book").symlink_to("ann.book")
        (self.class_ / "note.txt").write_text("dear colleagues")
        (self.class_ / "lost.keys").write_text("D = 00")
        (self.class_ / "pic.png").write_bytes(b"\x89PNG\r\n\x1a\n")
        (self.class_ / "fay.keys").write_text("no value\n")
        (self.class_ / "\udcff.book").write_bytes((CLASS / "ann.book").read_bytes()[:-6])

    def mark(self, *more: Any, **options: Any) -> Any:
        """Marks the folder."""
        args = ("mark", "sitting.txt", "model.txt", "class", "--candidates", "names.txt", *more)
        return taa1(*args, cwd=self.day, env=options.pop("env", AT), **options)

    def record(self, name: str = "record.json") -> dict[str, Any]:
        """A record."""
        made: dict[str, Any] = json.loads((self.day / name).read_text())
        return made

    def same(self, *where: Any, record: str = "record.json", **options: Any) -> None:
        """All is as it was."""
        done = taa1("verify", self.day / record, *where, **options)
        self.assertEqual((done.status, done.error), (0, ""), done.out.decode())
        self.assertRegex(done.out.decode(), "\nas it was: every file, every mark, the engine and the desk\n$")

    def differs(self, *lines: str, where: str = ".") -> None:
        """These differences and no others."""
        done = taa1("verify", "record.json", where, cwd=self.day)
        first, *said = done.out.decode().splitlines()
        self.assertEqual((done.status, done.error), (1, ""))
        self.assertEqual(said, [*(f"  {line}" for line in lines), f"{len(lines)} difference{'s' * (len(lines) > 1)}"])


class Records(Day):
    def test_what_it_holds(self) -> None:
        self.assertEqual(self.mark("--record", "record.json").status, 0)
        made = self.record()
        self.assertEqual((made["form"], made["version"], made["made"]), ("taa1 record", 1, MOMENT))
        self.assertEqual(made["engine"]["library"], digest(ROOT / "target" / "libtaa1.so"))
        release = (ROOT / "VERSION").read_text().strip()
        self.assertEqual((made["engine"]["release"], made["desk"]), (release, release))
        self.assertEqual(made["against"], None)
        for role, name in {"sitting": "sitting.txt", "book": "model.txt", "names": "names.txt"}.items():
            self.assertEqual(made["files"][role], {"file": name, "sha256": digest(self.day / name)})
        self.assertEqual(made["files"]["scheme"], {"file": None, "sha256": sha256(DEFAULT.encode()).hexdigest()})
        rows = {row["file"]: row for row in made["hand_ins"]}
        self.assertEqual(sorted(rows), sorted(path.name for path in CLASS.glob("*.book")))
        for name, row in rows.items():
            self.assertEqual(row["sha256"], digest(CLASS / name))
        keys = {"file": "ben.keys", "type": "file", "sha256": digest(CLASS / "ben.keys")}
        self.assertEqual(rows["ben.book"]["beside"], [keys])
        self.assertEqual(stat.S_IMODE((self.day / "record.json").stat().st_mode), 0o600)
        # The marks are those of the JSON, under names that hold elsewhere.
        marks = json.loads(self.mark("--json").out)
        for sheet in marks["sheets"]:
            sheet["candidate"] = sheet["candidate"].removeprefix("class/")
        self.assertEqual(made["marks"], marks)

    def test_scheme_and_forms(self) -> None:
        (self.day / "scheme.txt").write_text("entry = 2\n")
        self.mark("--scheme", "scheme.txt", "--record", "record.json", "--as", "class/cho.book=bytes", "--as", "bytes")
        made = self.record()
        self.assertEqual(made["files"]["scheme"], {"file": "scheme.txt", "sha256": digest(self.day / "scheme.txt")})
        self.assertEqual(
            made["options"]["as"], [{"file": "cho.book", "form": "bytes"}, {"file": None, "form": "bytes"}]
        )
        self.same(self.day)

    def test_opened(self) -> None:
        book = self.file("day/handout.book", taa1(
            "seal", CLASS / "sitting.txt", CLASS / "model.txt", "--damage", "2:4,6"
        ).out)  # fmt: skip
        shutil.copy(CLASS / "gus.opened", self.day)
        done = taa1(
            "mark", "--opened", "sitting.txt", book.name, "gus.opened", "--record", "record.json", cwd=self.day
        )
        self.assertEqual((done.status, done.error), (0, ""))
        self.assertTrue(self.record()["options"]["opened"])
        self.same(self.day)

    @unittest.skipIf(jsonschema is None, "no python3-jsonschema: records are not held against their schema")
    def test_schema(self) -> None:
        schema = json.loads(SCHEMA.read_text())
        jsonschema.Draft7Validator.check_schema(schema)
        validator = jsonschema.Draft7Validator(schema)
        self.mark("--record", "record.json")
        self.clutter()
        self.mark("--record", "second.json", "--against", "record.json", "--reason", "more came in")
        for name in ("record.json", "second.json"):
            made = self.record(name)
            self.assertEqual(list(validator.iter_errors(made)), [], name)
            for key in made:
                less = {other: value for other, value in made.items() if other != key}
                self.assertNotEqual(list(validator.iter_errors(less)), [], f"{name} without {key}")
            self.assertNotEqual(list(validator.iter_errors({**made, "more": 1})), [])

    def test_kept(self) -> None:
        """A record is written over nothing, and not at all if what belongs to it is not."""
        self.mark("--record", "record.json")
        before = (self.day / "record.json").read_bytes()
        done = self.mark("--record", "record.json")
        self.assertEqual((done.status, done.out, done.error), (2, b"", f"taa1: record.json: {THERE}\n"))
        self.assertEqual((self.day / "record.json").read_bytes(), before)
        (self.day / "pages").write_text("no folder")
        done = self.mark("--record", "other.json", "--html", "pages")
        self.assertEqual((done.status, done.out), (2, b""))
        self.assertFalse((self.day / "other.json").exists())

    def test_no_hand_in(self) -> None:
        """A record among the hand-ins is none, named or not."""
        self.mark("--record", "class/record.json")
        self.same(self.day, record="class/record.json")
        done = self.mark("--dry")
        self.assertIn(f"class/record.json: {RECORD}\n", done.out.decode())

    def test_refused(self) -> None:
        self.mark("--record", "record.json")
        wants = "mark: --against RECORD wants --reason WORDS: why it is marked again"
        for error, args in {
            wants: ("--against", "record.json"),
            "mark: --reason is that of an appeal, so it wants --against RECORD": ("--reason", "late"),
            "mark: --dry says how hand-ins are read and marks none, so it takes no --record": (
                "--dry", "--record", "r.json",
            ),
            "mark: --against says what changed as text or on a page: with --csv or --json it wants --html": (
                "--csv", "--against", "record.json", "--reason", "late",
            ),
            "mark: --record and -o want two files": ("--record", "r.json", "-o", "./r.json"),
            "mark: --record wants the name of a file": ("--record", "-", "-o", "r.txt"),
            "names.txt: no record of a marking (mark --record writes one)": (
                "--against", "names.txt", "--reason", "late",
            ),
        }.items():  # fmt: skip
            with self.subTest(error):
                done = self.mark(*args)
                self.assertEqual((done.status, done.out, done.error), (2, b"", f"taa1: {error}\n"))
        done = taa1("mark", "-", "model.txt", "class", "--record", "r.json", cwd=self.day)
        said = "mark: --record is about files that can be found again: none may be standard input"
        self.assertEqual((done.status, done.error), (2, f"taa1: {said}\n"))


class Verified(Day):
    def test_elsewhere(self) -> None:
        """In another folder, time zone, locale and umask, with files in another order and of other
        names."""
        self.clutter()
        done = self.mark("--record", "record.json")
        self.assertEqual(done.status, 1)
        self.same(self.day)
        other = self.folder / "else where" / "deeper"
        other.mkdir(parents=True)
        paths = sorted(self.class_.rglob("*"))
        random.Random(1).shuffle(paths)
        for path in paths:
            if path.is_file() and not path.is_symlink():
                to = other / "books" / path.relative_to(self.class_)
                to.parent.mkdir(parents=True, exist_ok=True)
                shutil.copyfile(path, to)
        shutil.copyfile(self.day / "names.txt", other / "list")
        shutil.copyfile(self.day / "sitting.txt", other / "books" / "the sitting")
        shutil.copyfile(self.day / "model.txt", other / "model.txt")
        for more in (
            {"TZ": "Pacific/Kiritimati", "LC_ALL": "C"},
            {"TZ": "America/New_York", "LC_ALL": "POSIX", "PYTHONHASHSEED": "7"},
            {"TZ": "UTC", "LC_ALL": "C.UTF-8", "PYTHONUTF8": "1"},
        ):
            with self.subTest(more):
                environment = {key: value for key, value in os.environ.items() if not key.startswith("LC_")}
                old = os.umask(0o027)
                try:
                    self.same(other, env={**environment, **more})
                finally:
                    os.umask(old)

    def test_differences(self) -> None:
        self.mark("--record", "record.json")
        old = {name: digest(self.class_ / name)[:12] for name in ("dee.book", "cho.book")}
        (self.class_ / "dee.book").write_bytes(seal(SITTING_OF_CLASS))
        now = digest(self.class_ / "dee.book")[:12]
        (self.class_ / "late.book").write_bytes(b"late")
        (self.class_ / "eve.book").unlink()
        done = taa1("verify", "record.json", ".", cwd=self.day)
        said = done.out.decode()
        for line in (
            "eve.book: missing: no file in . has its digest or its name",
            f"Dee Darling: file dee.book, SHA-256: {now}, was {old['dee.book']}",
            "Dee Darling: right: 12, was 6",
            "Dee Darling: points for entries right: 12, was 6",
            "Dee Darling: opens: yes, was no",
            "Dee Darling: slip RS for RSO: -, was explains entries 2 to 7",
            "./class/late.book: new: it is not in the record",
        ):
            self.assertIn(f"  {line}\n", said)
        self.assertRegex(said, r"Dee Darling: entry 2: right, was wrong \(5 checks failing\)\n")
        self.assertEqual(done.status, 1)
        self.assertNotIn("Ann Archer", said)
        self.assertNotIn("Eve", said)

    def test_altered_marks(self) -> None:
        """Who alters marks in a record is found out."""
        self.mark("--record", "record.json")
        made = self.record()
        made["marks"]["sheets"][1]["points"]["sum"] = "24"
        made["marks"]["sheets"][1]["name"] = "Ben Bakker"
        made["engine"]["release"] = "1.0.7"
        made["engine"]["library"] = "0" * 64
        made["desk"] = "1.2.0"
        (self.day / "record.json").write_text(json.dumps(made))
        release = (ROOT / "VERSION").read_text().strip()
        sum_ = next(
            sheet["points"]["sum"] for sheet in json.loads(self.mark("--json").out)["sheets"] if "ben" in sheet["candidate"]
        )
        whole, half = divmod(int(sum_.partition("/")[0]), 2) if "/" in sum_ else (int(sum_), 0)
        self.differs(
            f"the engine's release: {release}, was 1.0.7",
            f"the engine's library, SHA-256: {digest(ROOT / 'target' / 'libtaa1.so')[:12]}, was {'0' * 12}",
            f"the desk's version: {release}, was 1.2.0",
            f"Ben Baker: points, sum: {whole}{' 1/2' * half}, was 24",
            "Ben Baker: name: Ben Baker, was Ben Bakker",
        )

    def test_names(self) -> None:
        """A file with the digest counts, whatever it is called; else one with the name."""
        self.mark("--record", "record.json")
        (self.day / "model.txt").rename(self.day / "the model")
        self.same(self.day)
        (self.day / "the model").write_text((self.day / "the model").read_text() + "# more\n")
        done = taa1("verify", "record.json", ".", cwd=self.day)
        self.assertEqual(done.status, 1)
        self.assertEqual(
            done.out.decode().splitlines()[1:],
            [
                "  model.txt: missing: no file in . has its digest or its name",
                "  nothing could be marked again, since marking goes by what is missing",
                "2 differences",
            ],
        )
        (self.day / "the model").rename(self.day / "model.txt")
        now, old = digest(self.day / "model.txt")[:12], self.record()["files"]["book"]["sha256"][:12]
        self.differs(f"book model.txt, SHA-256: {now}, was {old}")

    def test_names_of_hand_ins(self) -> None:
        """A hand-in's name says whose it is, so another name is a difference, and so are two that
        changed places."""
        self.mark("--record", "record.json")
        ann, cho, other = (self.class_ / name for name in ("ann.book", "cho.book", "anna"))
        ann.rename(other)
        self.differs("ann.book: now called ./class/anna")
        cho.rename(ann)
        other.rename(cho)
        self.differs("ann.book: now called ./class/cho.book", "cho.book: now called ./class/ann.book")

    def test_copies(self) -> None:
        """A copy elsewhere does not hide what was altered where it was marked."""
        self.mark("--record", "record.json")
        shutil.copytree(self.class_, self.day / "a copy")
        self.same(self.day)
        with (self.class_ / "ben.keys").open("a") as keys:
            keys.write("# more\n")
        self.differs("./class/ben.keys: new: it is not in the record")
        shutil.copy(self.day / "a copy" / "ben.keys", self.class_)
        shutil.copy(self.class_ / "ann.book", self.class_ / "cho.book")
        self.differs("./class/cho.book: new: it is not in the record")

    def test_long(self) -> None:
        """The record of a large class can be read again, though no other input may be so long."""
        self.mark("--record", "record.json")
        path = self.day / "record.json"
        path.write_text(path.read_text() + "\n" * (1 << 20))
        self.same(self.day)
        done = self.mark("--against", "record.json", "--reason", "it is long")
        self.assertIn("\n  Nothing changed.\n", done.out.decode())

    def test_wrong_use(self) -> None:
        self.mark("--record", "record.json")
        made = self.record()
        for name, content, said in (
            ("a", "{}", "no record of a marking (mark --record writes one)"),
            ("b", "[" * 100_000, "no record of a marking (mark --record writes one)"),
            ("c", json.dumps({**made, "version": 2}), "a record of form 2, where this desk reads form 1: "
             f"take the desk that made it, {made['desk']}"),
            ("d", json.dumps({**made, "hand_ins": []}), "a record that was altered or cut: marks, sheets is missing"
             " or no such thing"),
        ):  # fmt: skip
            self.file(name, content)
            self.fails(2, f"{name}: {said}", "verify", name, ".", cwd=self.folder)
        self.fails(2, "nowhere: no folder", "verify", "day/record.json", "nowhere", cwd=self.folder)

    def test_hostile_names(self) -> None:
        """A record's names lead to no place outside of where its files are laid out."""
        self.mark("--record", "record.json")
        text = json.dumps(self.record())
        for name in ("../out", "/etc/out", "a/../../out", "a//b", "..", "", "a\\u0000b"):
            data = text.replace('"file": "ann.book"', f'"file": "{name}"').encode()
            with self.subTest(name), self.assertRaisesRegex(Exception, "altered or cut: hand_ins, file"):
                parse(data, "it")


class Appeals(Day):
    def test_appeal(self) -> None:
        """What changed, as text and page, and a record that names the earlier one."""
        self.mark("--record", "record.json", "--html", "pages")
        (self.class_ / "dee.book").write_bytes(seal(SITTING_OF_CLASS))
        reason = "Dee's file was <another's>"
        done = self.mark("--record", "second.json", "--html", "pages", "--against", "record.json", "--reason", reason)
        self.assertEqual((done.status, done.error), (0, ""))
        said, before = done.out.decode(), digest(self.day / "record.json")
        for line in (
            f"against the record {before[:12]} of {MOMENT}: {reason}",
            "  1 of 6 candidates changed.",
            "  Dee Darling",
            "    points for entries right: 12, was 6",
            "  as they were: Ann Archer, Ben Baker, Cho Min-jun, Eve Ekström, Fay Fisher",
        ):
            self.assertIn(f"{line}\n", said)
        self.assertEqual(self.record("second.json")["against"], {"record": before, "made": MOMENT, "reason": reason})
        page = (self.day / "pages" / "appeal.html").read_text()
        self.assertIn("Dee&#x27;s file was &lt;another&#x27;s&gt;", page)
        row = '<td data-head="what">points for entries right</td><td data-head="was">6</td><td data-head="is">12</td>'
        self.assertIn(row, page)
        self.assertEqual(stat.S_IMODE((self.day / "pages" / "appeal.html").stat().st_mode), 0o600)
        self.same(self.day, record="second.json")

    def test_argument(self) -> None:
        """The argument's parts, one by one, and a total that is known now."""
        (self.day / "scheme").write_text("pass = 60%\n")
        self.mark("--record", "record.json", "--scheme", "scheme")
        (self.day / "arguments").write_text("ann = given 1, one entry full, properties 2, without it 2, was sealed 2\n")
        again = ("--scheme", "scheme", "--arguments", "arguments", "--against", "record.json", "--reason", "late")
        said = self.mark(*again).out.decode()
        for line in (
            "    argument, one entry: 3, was -",
            "    counts 0 so far: -, was argument",
            "    total, passed: yes, was not yet known",
            "    totals, mean: 22, was -",
        ):
            self.assertIn(f"{line}\n", said)
        self.assertNotIn("{", said)

    def test_nothing_changed(self) -> None:
        self.mark("--record", "record.json")
        done = self.mark("--against", "record.json", "--reason", "asked by Ben")
        self.assertIn("asked by Ben\n  Nothing changed.\n", done.out.decode())

    def test_one_candidate(self) -> None:
        self.mark("--record", "record.json")
        args = ("mark", "sitting.txt", "model.txt", "class/dee.book", "--against", "record.json", "--reason", "x")
        done = taa1(*args, cwd=self.day)
        self.assertIn("  not marked this time: ann, ben, cho, eve, fay\n".replace(
            "ann, ben, cho, eve, fay", "Ann Archer, Ben Baker, Cho Min-jun, Eve Ekström, Fay Fisher"
        ), done.out.decode())  # fmt: skip
        self.assertNotIn("  the class\n", done.out.decode())  # one candidate is no class

    def test_pages_of_a_record(self) -> None:
        """They are replaced if their record is named, or by --clean."""
        self.mark("--record", "record.json", "--html", "pages")
        before = {path.name: path.read_bytes() for path in (self.day / "pages").iterdir()}
        first = digest(self.day / "record.json")
        self.assertTrue(all(f'<meta name="taa1-record" content="{first}">'.encode() in page for page in before.values()))
        for more in ((), ("--record", "second.json")):
            done = self.mark("--html", "pages", *more)
            self.assertEqual((done.status, done.out), (2, b""))
            self.assertIn(f"pages/index.html: it belongs to the record {first[:12]}, so it is not replaced", done.error)
            self.assertEqual({path.name: path.read_bytes() for path in (self.day / "pages").iterdir()}, before)
            self.assertFalse((self.day / "second.json").exists())
        self.mark("--record", "other.json", "--html", "others", env={**AT, "SOURCE_DATE_EPOCH": "1"})
        done = self.mark("--html", "pages", "--against", "other.json", "--reason", "x")
        self.assertEqual(done.status, 2)
        self.assertEqual(self.mark("--html", "pages", "--against", "record.json", "--reason", "x").status, 0)
        self.assertEqual(self.mark("--html", "pages").status, 0)
        self.assertEqual(self.mark("--html", "others", "--clean").status, 0)

    def test_feet(self) -> None:
        """What ran, when, and the first digits of digests."""
        self.mark("--html", "pages", "--record", "record.json")
        release = (ROOT / "VERSION").read_text().strip()
        start = f"Engine {release}, desk {release}, 2017-07-14 02:40:00 UTC. SHA-256: "
        model, scheme = digest(self.day / "model.txt")[:12], sha256(DEFAULT.encode()).hexdigest()[:12]
        kept = digest(self.day / "record.json")[:12]
        theirs = f"hand-in {digest(CLASS / 'ben.book')[:12]}, keys {digest(CLASS / 'ben.keys')[:12]}, "
        for name, more in {"ben.book.html": theirs, "index.html": ""}.items():
            page = (self.day / "pages" / name).read_text()
            self.assertIn(f"<footer>{start}model {model}, scheme {scheme}, {more}record {kept}.</footer>", page)

    def test_body_is_the_same(self) -> None:
        """Another moment alters the foot and nothing else."""
        made = []
        for moment in ("1", "2"):
            self.mark("--html", moment, env={**AT, "SOURCE_DATE_EPOCH": moment})
            pages = {path.name: path.read_text() for path in (self.day / moment).iterdir()}
            made.append({name: page.replace(f"1970-01-01 00:00:0{moment}", "") for name, page in pages.items()})
        self.assertEqual(*made)


class Changes(unittest.TestCase):
    def test_changed(self) -> None:
        cases: list[tuple[Any, Any, list[tuple[str, str, str]]]] = [
            (1, 1, []),
            ({"a": 1}, {"a": 1, "b": None}, []),
            ({"a": 1}, {"a": 2, "b": True}, [("a", "1", "2"), ("b", "-", "yes")]),
            ({"points": {"sum": "37/2"}}, {"points": None}, [("points, sum", "18 1/2", "-")]),
            ({"points": {"sum": "37/2"}}, {"points": {"sum": "0"}}, [("points, sum", "18 1/2", "0")]),
            ({"mean": "2009/201"}, {"mean": "10"}, [("mean", "2009/201", "10")]),
            ({"mean": "2049/200"}, {"mean": "10"}, [("mean", "10.24", "10")]),
            (
                {"slips": [{"slip": "x", "candidates": 1}]},
                {"slips": [{"slip": "y", "candidates": 2}]},
                [("slip x", "1 candidate", "-"), ("slip y", "-", "2 candidates")],
            ),
            ({"missing": []}, {"missing": [1, 2]}, [("missing", "-", "1, 2")]),
        ]
        for was, now, wanted in cases:
            with self.subTest(now=now):
                self.assertEqual(list(changed(was, now)), [Change(*each) for each in wanted])


if __name__ == "__main__":
    unittest.main()
