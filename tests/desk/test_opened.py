"""What candidates opened: damaged books, lines and flags, and the command."""

from __future__ import annotations

import json
import unittest
from fractions import Fraction
from unittest import mock

from common import CLASS, DESK, ENTRIES, LINES, PLAIN_BOOK, RING, SITTING, Case, seal, sheet_of, taa1
from taa1_desk.handed import KeyFile
from taa1_desk.marking.keys import KeyMarker
from taa1_desk.marking.opened import OpenedMarker
from taa1_desk.marking.opening_slips import OPENING_SLIPS
from taa1_desk.marking.scoring import score
from taa1_desk.marking.sealed import SealedMarker
from taa1_desk.marking.slipped import opened
from taa1_desk.marking.slips import SLIPS
from taa1_desk.marking.working import Steps
from taa1_desk.problems import Problem
from taa1_desk.reading import schemes
from taa1_desk.reading.lineends import DAMAGED as BROKEN
from taa1_desk.reading.lineends import LINE_ENDS
from taa1_desk.records import KINDS, PLAIN, SEALED, split
from taa1_desk.setting.damage import Damage, damaged
from taa1_desk.sheet import Sheet
from taa1_desk.showing.sheet_text import sheet_text

SEALED_BOOK = seal()
DAMAGED = damaged(DESK, RING, ENTRIES, SEALED_BOOK, [Damage(2, 4), Damage(6)])
MARKER = OpenedMarker(DESK, SITTING, RING, DAMAGED, "handout")
TRUE = [line for line in LINES.splitlines() if line.startswith("entry ")]
TRUE[2], TRUE[6] = "entry 2 flag", "entry 6 flag"




def mark(*lines: str) -> Sheet:
    return sheet_of(MARKER, "hand-in", "\n".join(lines).encode())


def but(index: int, line: str) -> Sheet:
    """The right lines, but for one."""
    return mark(*TRUE[:index], line, *TRUE[index + 1 :])


class FollowThrough(unittest.TestCase):
    """What is right under the candidate's own keys, by proved calls."""

    def test_once(self) -> None:
        """An entry whose flag is set, and said, is right, and counts once, though it fails under
        the candidate's own keys as well."""
        own = KeyFile({"O": bytes(range(16))})
        ring = RING._replace(o=bytes(range(16)))
        under = [opened(Steps(DESK), ring, [record])[0] for record in split(DAMAGED, SEALED)]
        lines = [
            f"entry {at} flag" if each.failed else line for at, (each, line) in enumerate(zip(under, TRUE))
        ]
        sheet = sheet_of(MARKER, "a", "\n".join(lines).encode(), "", own)
        states = {entry.index: entry.state for entry in sheet.entries}
        self.assertEqual((states[2], states[6]), ("right", "right"))
        self.assertEqual([e.index for e in sheet.entries if e.follows and e.state == "right"], [])
        self.assertEqual(sheet.following, sum(each.failed > 0 for each in under) - 2)
        points = score(schemes.parse(schemes.DEFAULT, ""), sheet)
        self.assertEqual(points.of("entries right"), sheet.right)
        self.assertEqual(points.of("entries right under own keys"), Fraction(sheet.following, 2))

    def test_working_at_fault(self) -> None:
        """A fault in the working step by step gives no marks, rather than wrong ones."""
        for name in ("tb4", "exp1"):
            right = getattr(Steps, name)
            wrong = lambda self, *given, right=right: right(self, *given)[::-1]  # noqa: E731
            with mock.patch.object(Steps, name, wrong):
                with self.assertRaisesRegex(Problem, "is not what the engine answers"):
                    OpenedMarker(DESK, SITTING, RING, DAMAGED, "handout")
                with self.assertRaisesRegex(Problem, "is not what the engine answers"):
                    SealedMarker(DESK, SITTING, RING, PLAIN_BOOK)

    def test_keys_by_calls(self) -> None:
        """What follows from own values is what the steps give, and takes no step."""
        marker = KeyMarker(DESK, SITTING, RING)
        owns: tuple[dict[str, bytes], ...] = (
            {}, {"session key 1": bytes(16)}, {"session key 2": bytes(range(16)), "key 1": bytes(10)},
            {"key 2": bytes(range(10))},
        )  # fmt: skip
        for own in owns:
            self.assertEqual(marker.worked(own), Steps(DESK).keys(SITTING, own))
            with mock.patch.object(Steps, "keys", side_effect=AssertionError):
                marker.mark(KeyFile(own))


class Damages(unittest.TestCase):
    """seal --damage: the flag is set, and by the check that is wanted."""

    def test_each_check(self) -> None:
        for index, entry in enumerate(ENTRIES):
            kind = KINDS[entry.kind]
            for check in (None, *range(kind.checks)):
                book = damaged(DESK, RING, ENTRIES, SEALED_BOOK, [Damage(index, check)])
                before, after = split(SEALED_BOOK, SEALED), split(book, SEALED)
                self.assertEqual([i for i in range(12) if before[i] != after[i]], [index])
                self.assertEqual(before[index][:6], after[index][:6])
                failed = DESK.call(
                    kind.unseal, after[index][6:], getattr(RING, kind.sealing_key), entry.version
                )["failed_checks"]
                self.assertEqual(failed, failed if check is None else 1 << check)
                self.assertNotEqual(failed, 0)

    def test_wrong(self) -> None:
        for wanted, said in (
            (Damage(12), "damage: entry 12, where the book has 0 to 11"),
            (Damage(0, 5), "damage: check 5 of entry 0, whose kind has 0 to 4"),
            (Damage(4, 3), "damage: check 3 of entry 4, whose kind has 0 to 2"),
        ):
            with self.assertRaisesRegex(Problem, said):
                damaged(DESK, RING, ENTRIES, SEALED_BOOK, [wanted])


class Lines(unittest.TestCase):
    """How lines are read and marked."""

    def test_right(self) -> None:
        sheet = mark(*TRUE)
        self.assertTrue(sheet.perfect)
        words = "12 of 12 entries right; every flag right; read as lines"
        self.assertEqual(sheet_text(sheet), f"hand-in: {words}\n")
        self.assertTrue(mark(*TRUE[::-1]).perfect)

    def test_flags(self) -> None:
        """A flag may be called set or clear, and have the fields after it."""
        fields = TRUE[3].partition(" kind ")[2]
        behind = f"{TRUE[2]} kind {fields}"
        for line in ("entry 2 flag set", "entry 2: flag true", "ENTRY 2 FLAG 1", behind):
            self.assertTrue(but(2, line).perfect, line)
        self.assertTrue(but(3, f"{TRUE[3]} flag clear").perfect)
        sheet = but(3, "entry 3 flag")
        assert sheet.flags is not None
        self.assertEqual((sheet.right, sheet.flags.invented), (11, (3,)))
        self.assertIn("  entry 3: flag invented\n", sheet_text(sheet))

    def test_fields_behind_a_flag(self) -> None:
        """Flags alone show no slip; the bytes after them do."""
        slip = next(slip for slip in SLIPS if slip.name == "RSO reversed")
        steps = Steps(DESK, slip.altered)
        keys = steps.keys(SITTING)
        ring = RING._replace(o=keys["O"] or b"")
        made = opened(steps, ring, split(DAMAGED, SEALED))
        alone = [f"entry {i} flag" if o.failed else TRUE[i] for i, o in enumerate(made)]
        self.assertEqual(mark(*alone).slips, ())
        behind = [
            f"entry {i} flag kind {o.kind} identity {o.identity:06x} version {o.version} "
            f"key {o.key.hex()} number {'-' if o.number is None else o.number}"
            for i, o in enumerate(made)
            if o.failed
        ]
        sheet = mark(*behind, *(line for line in alone if "flag" not in line))
        self.assertEqual([(s.name, s.entries) for s in sheet.slips], [("RSO reversed", (3, 4, 5, 7))])

    def test_further_lines(self) -> None:
        """A second line about an entry is extra, and so is one about no entry."""
        sheet = mark(*TRUE, TRUE[0], "entry 12 flag")
        self.assertEqual((sheet.right, sheet.extra, sheet.perfect), (12, 2, False))
        first = sheet_text(sheet).splitlines()[1]
        self.assertEqual(first, "  2 extra records: 14 records, where the model has 12 entries")
        said = "not marked: another line is the answer about the entry, or there is no such entry"
        self.assertEqual(sheet.problems, (f"lines 13 and 14: {said}",))
        sheet = mark(*TRUE[:11], "entry 0 flag")  # in the place of an answer about entry 11
        self.assertEqual((sheet.right, sheet.missing, sheet.extra), (11, (11,), 0))
        self.assertEqual(sheet.problems, (f"line 12: {said}",))

    def test_bad_lines(self) -> None:
        """A line that can't be read costs its own entry alone."""
        sheet = but(4, "entry 4 kind 3 identity 00c001 version 256 key 31 number 4660")
        self.assertEqual(sheet.right, 11)
        words = "  entry 4: line 5: key of kind 3: 2 hexadecimal digits, not 20\n"
        self.assertIn(words, sheet_text(sheet))
        sheet = but(4, "entry four flag")
        self.assertEqual((sheet.right, sheet.missing), (11, (4,)))
        self.assertIn("  line 5: no number after entry\n", sheet_text(sheet))

    def test_number_alone(self) -> None:
        """A line may begin with the entry's number, without the word."""
        lines = [line.removeprefix("entry ").replace(" flag", ": MF set") for line in TRUE]
        sheet = mark(*lines)
        self.assertEqual((sheet.right, sheet.problems), (12, ()))

    def test_many_invented(self) -> None:
        """Where flags alone are invented, it is said what would tell more."""
        sheet = mark(*(f"entry {i} flag" for i in range(12)))
        self.assertEqual((sheet.right, sheet.slips), (2, ()))
        self.assertIn("what set these flags can't be told from flags alone", sheet_text(sheet))
        self.assertNotIn("what set these flags", sheet_text(but(0, "entry 0 flag")))

    def test_other_lines(self) -> None:
        """A heading, a count and comments are no answers."""
        sheet = mark("Candidate 17", "# mine", *TRUE, "entries 12", "the end")
        self.assertEqual((sheet.right, sheet.extra), (12, 0))
        lines = [f"line {n}: it is about no entry, and is not read" for n in (1, 16)]
        self.assertEqual(sheet.problems, tuple(lines))

    def test_no_index(self) -> None:
        """A line without entry I is about the next entry."""
        lines = [line.partition(" kind ")[2] for line in TRUE]
        made = [f"kind {line}" if line else TRUE[index] for index, line in enumerate(lines)]
        self.assertTrue(mark(*made).perfect)

    def test_left_out(self) -> None:
        """Where entries are left out, lines are about those that they are most like, whether
        they have no numbers, are counted on, or are in another order."""
        fields = [line.partition(" kind ")[2] for line in TRUE]
        for left_out in ((0,), (5,), (2, 6), (0, 2, 6, 11)):
            kept = [i for i in range(12) if i not in left_out and i not in (2, 6)]
            bare = [f"kind {fields[i]}" for i in kept]
            missing = tuple(sorted({2, 6, *left_out}))
            for lines in (bare, [f"entry {i} {line}" for i, line in enumerate(bare)], bare[::-1]):
                sheet = mark(*lines)
                self.assertEqual((sheet.right, sheet.missing, sheet.extra), (len(kept), missing, 0))
                assert sheet.flags is not None
                self.assertEqual((sheet.flags.missed, sheet.flags.left_out), ((), (2, 6)))
                self.assertEqual(sheet.slips, ())
            lines = [*bare, "entry 2 flag", "entry 6 flag"]
            self.assertEqual(mark(*lines).missing, tuple(i for i in left_out if i not in (2, 6)))

    def test_left_out_and_wrong(self) -> None:
        """A slip is found also where nothing is right and the lines have no numbers."""
        slip = next(slip for slip in OPENING_SLIPS if slip.name == "identity reversed")
        made = opened(Steps(DESK, slip.altered), RING, split(DAMAGED, SEALED))
        lines = [
            f"kind {o.kind} identity {o.identity:06x} version {o.version} "
            f"key {o.key.hex()} number {'-' if o.number is None else o.number}"
            for i, o in enumerate(made)
            if i not in (0, 2, 6)
        ]
        (found,) = mark(*lines).slips
        self.assertEqual((found.name, len(found.entries)), ("identity reversed", 9))

    def test_slips_under_own_keys(self) -> None:
        """A slip after a wrong D is found with the D that was handed in."""
        ring = RING._replace(d=bytes([RING.d[0] ^ 1]) + RING.d[1:])
        slip = next(slip for slip in OPENING_SLIPS if slip.name == "no chaining in BL2")
        made = opened(Steps(DESK, slip.altered), ring, split(DAMAGED, SEALED))
        ones = tuple(i for i, o in enumerate(made) if o.kind == 1)
        lines = [
            f"entry {i} flag kind 1 identity {o.identity:06x} version {o.version} key {o.key.hex()}"
            if i in ones
            else TRUE[i]
            for i, o in enumerate(made)
        ]
        keys = KeyFile({"D": ring.d})
        (found,) = sheet_of(MARKER, "hand-in", "\n".join(lines).encode(), "", keys).slips
        self.assertEqual((found.name, found.entries, found.own), (slip.name, ones, True))
        self.assertEqual(mark(*lines).slips, ())

    def test_flag_words(self) -> None:
        """A flag that is said to be clear is not taken as set, and MF is the flag."""
        for words in ("flag", "MF", "mf = 1", "flag yes", "flagged", "flag is set", "manipulated"):
            self.assertTrue(but(2, f"entry 2 {words}").perfect, words)
        clear = ("no flag", "flag not set", "flag is not set", "flag no", "flag ok", "flag unset")
        for words in (*clear, "no flag set", "MF 0", "not flagged", "flag off"):
            sheet = but(2, f"entry 2 {words}")
            assert sheet.flags is not None
            self.assertEqual((sheet.right, sheet.flags.missed), (11, (2,)), words)
            self.assertIn("entry 2: flag missed: 1 of 5 checks", sheet_text(sheet))
            self.assertTrue(but(3, f"{TRUE[3]} {words}").perfect, words)
            sheet = but(3, f"entry 3 {words}")
            assert sheet.flags is not None
            self.assertEqual((sheet.right, sheet.flags.invented, sheet.slips), (11, (), ()), words)
            self.assertIn("  entry 3: line 4: a clear flag, and no fields\n", sheet_text(sheet))

    def test_unread_flag(self) -> None:
        """Of a line that can't be read nothing is taken: no point, no flag, no slip."""
        for words in ("broken", "flag maybe", "no flag unset", "flag not", "perhaps flag", ""):
            for index in (2, 3):
                sheet = but(index, f"entry {index} {words}")
                assert sheet.flags is not None
                self.assertEqual((sheet.right, sheet.slips), (11, ()), words)
                self.assertEqual((sheet.flags.missed, sheet.flags.invented), ((), ()), words)
                self.assertIn(f"  entry {index}: line {index + 1}: ", sheet_text(sheet))

    def test_zeroed(self) -> None:
        """Bytes can't say a flag, also where zeros stand for the entry; of others they are wrong."""
        records = split(PLAIN_BOOK, PLAIN)
        for index, state in ((2, "unsaid"), (3, "wrong")):
            data = b"".join([*records[:index], bytes(PLAIN), *records[index + 1 :]])
            made = {entry.model: entry for entry in sheet_of(MARKER, "hand-in", data).entries}[index]
            self.assertEqual((made.state, "no such kind" in made.note), (state, state == "wrong"))

    def test_no_book(self) -> None:
        for data, said in (
            (b"\n", "the file is empty"),
            (b"\0" * 17, "this looks like no plain book: 17 bytes, where a record has 18"),
            (
                b"nothing",
                "this looks like text that is neither lines of entries nor hexadecimal (a line is "
                "`entry I kind K identity I version V key HEX number N`, or `entry I flag`)",
            ),
            (PLAIN_BOOK.replace(b"\n", b""), f"this looks like {BROKEN}: {LINE_ENDS}"),
            (PLAIN_BOOK.replace(b"\n", b"\r"), f"this looks like {BROKEN}: {LINE_ENDS}"),
        ):
            sheet = sheet_of(MARKER, "hand-in", data)
            self.assertEqual((sheet.problem, sheet.right, len(sheet.missing)), (said, 0, 12))


class Command(Case):
    """taa1 mark --opened, and seal --damage."""

    def test_command(self) -> None:
        handout, lines = self.folder / "handout.book", self.file("ann.opened", "\n".join(TRUE))
        plain = self.file("ben.opened", PLAIN_BOOK)
        sitting, model = CLASS / "sitting.txt", CLASS / "model.txt"
        self.accepted("seal", sitting, model, "--damage", "2:4,6", "-o", handout)
        self.assertEqual(handout.read_bytes(), DAMAGED)
        done = self.accepted("mark", "--opened", sitting, handout, lines, plain)
        self.assertEqual(
            done.decode(),
            f"{lines}: 12 of 12 entries right; every flag right; read as lines\n"
            "  points 12 of 12\n"
            f"{plain}: 10 of 12 entries right; 2 flags set, which bytes can't say "
            "(lines can: entry I flag)\n"
            "  entries 2 and 6: the flag is set, which bytes can't say\n"
            "  points 10 of 12\n"
            "candidates 2: 1 all right, 0 not marked\n",
        )
        said = json.loads(self.accepted("mark", "--opened", sitting, handout, plain, "--json"))
        (sheet,) = said["sheets"]
        self.assertEqual((sheet["right"], sheet["opens"]), (10, None))
        self.assertEqual(sheet["flags"]["unsaid"], [2, 6])
        self.assertEqual([e["state"] for e in sheet["entries"]].count("unsaid"), 2)
        pages = self.folder / "pages"
        self.accepted("mark", "--opened", sitting, handout, lines, plain, "--html", pages)
        self.assertIn("1 all right, 0 not marked.", (pages / "index.html").read_text())

    def test_refused(self) -> None:
        """A handed-out book that can't be opened entry by entry; and wrong uses."""
        sitting, lines = CLASS / "sitting.txt", self.file("ann.opened", "\n".join(TRUE))
        kind = self.file("kind.book", SEALED_BOOK[:42] + b"\7" + SEALED_BOOK[43:])
        said = f"{kind}: refused 3 at 2 (kind not 1 to 6)"
        self.fails(1, said, "mark", "--opened", sitting, kind, lines)
        cut = self.file("cut.book", SEALED_BOOK[:-1])
        self.fails(
            1,
            f"{cut}: refused 2 at 0 (book not a whole number of records)",
            *("mark", "--opened", sitting, cut, lines),
        )
        done = taa1("seal", sitting, CLASS / "model.txt", "--damage", "12")
        said = "taa1: damage: entry 12, where the book has 0 to 11\n"
        self.assertEqual((done.status, done.out, done.error), (2, b"", said))
        done = taa1("seal", sitting, CLASS / "model.txt", "--damage", "one")
        self.assertEqual((done.status, done.out), (2, b""))
        self.assertIn("'one' is no entry I nor I:CHECK, as in 3,5:4", done.error)


if __name__ == "__main__":
    unittest.main()
