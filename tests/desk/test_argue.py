"""The marking aid: the claims, each with an instance that holds, or why it has none."""

from __future__ import annotations

import json
import re
import stat
from collections import Counter
from typing import Any, Optional
from unittest import mock

import reference
from common import CLASS, DESK, ENTRIES, PLAIN_BOOK, RING, SITTING, Case, here, ring_for, seal, taa1
from taa1 import Refused, Sitting
from taa1_desk.engine import Engine
from taa1_desk.marking.working import Steps
from taa1_desk.names import both
from taa1_desk.reading.sittings import Heading
from taa1_desk.records import PLAIN, SEALED, Entry, split
from taa1_desk.showing.argue import argument_sheet
from taa1_desk.showing.claims import CLAIMS, PARTS, RULES, STEPS
from taa1_desk.showing.document import as_page, as_text
from taa1_desk.showing.html import Code, grouped
from taa1_desk.showing.instance import (
    ALTERED, ALTERED_WORKING, BY_PROOF, COUNTED, GIVEN, WORKING, Maker,
)  # fmt: skip
from taa1_desk.showing.instances import INSTANCES, NONE, PROOF, Instance
from taa1_desk.showing.paper import QUESTION

INPUTS = (CLASS / "sitting.txt", CLASS / "model.txt")
KIND1 = PLAIN_BOOK[:PLAIN]  # a book of kind 1 alone
WORKED = reference.Working()  # by other hands than the engine's and the desk's
# The claims whose instance is the proof's example, whatever the sitting and its book.
EXAMPLES = {
    "f-collides", "two-rings", "two-versions", "kind-1-only", "o-and-g-differ",
    "flag-notices-every-change", "one-byte-1-2-5", "sharp", "f-bytes", "zero-at-end-either-way",
}  # fmt: skip


def maker(sitting: Sitting = SITTING, plain: bytes = PLAIN_BOOK, desk: Optional[Engine] = None) -> Maker:
    """What makes a sitting's instances."""
    return Maker(desk or DESK, sitting, ring_for(sitting), plain)


MAKER = maker()


def made(name: str, of: Maker = MAKER) -> Instance:
    """A claim's instance."""
    return INSTANCES[name](of)


def values(instance: Instance) -> dict[str, Any]:
    """An instance's values by their names; the last of those that have the same name."""
    return {name: value for name, _, value in instance.rows}


def by_proof(of: Maker) -> set[str]:
    """The claims whose instance is the proof's example."""
    return {name for name in INSTANCES if made(name, of).source.startswith(PROOF)}


class Recording(Engine):
    """A desk that keeps what is asked of the engine, and its answers."""

    def __init__(self) -> None:
        """Keeps nothing yet but the ring's call."""
        super().__init__(DESK.host)
        self.calls: list[tuple[str, tuple[Any, ...], dict[str, Any]]] = []
        self.call("ring", *SITTING)

    def call(self, name: str, *values: Any, room: Optional[int] = None) -> dict[str, Any]:
        """Answers as a desk does."""
        try:
            answer = super().call(name, *values, room=room)
        except Refused:
            self.calls.append((name, values, {}))
            raise
        self.calls.append((name, values, answer))
        return answer

    def answered(self, mark: str, value: Any) -> bool:
        """Whether a call of this mark gave a value, which may stand in a sentence."""
        said = [answer for name, _, answer in self.calls if mark[3:].lower() == name]
        given = [each for answer in said for each in answer.values()]
        strings = [each.to_bytes(3, "big") if isinstance(each, int) else each for each in given]
        if isinstance(value, tuple):
            return all(self.answered(mark, each) for each in value)
        if isinstance(value, Code):
            found = re.search(r"(?:[0-9a-f]{4} )+[0-9a-f]{2,4}", value)
            value = bytes.fromhex(found.group()) if found else b""
        if isinstance(value, bytes):
            return any(value in each for each in strings)
        return bool(said)


class Claims(Case):
    """The table of claims; `contracts` holds it against its file."""

    def test_instances(self) -> None:
        """Every claim has an instance or says why not, and every instance has a claim."""
        self.assertEqual(sorted(claim.name for claim in CLAIMS), sorted([*INSTANCES, *NONE]))
        open_ = {claim.name for claim in CLAIMS if claim.verdict == "open"}
        self.assertEqual(set(NONE) - open_, {"other-keys-other-texts"})


class Made(Case):
    """The instances."""

    def test_of_the_sitting(self) -> None:
        """With every kind in the book, some claims alone have the proof's example."""
        self.assertEqual(by_proof(MAKER), EXAMPLES)

    def test_lacking_kinds(self) -> None:
        """What a book has no entry for is the proof's example, and said to be."""
        lacking = {
            "seven-others", "eight-without", "bits-unchecked", "one-result-so-sealed", "three-and-four",
        }  # fmt: skip
        self.assertEqual(by_proof(maker(plain=KIND1)), EXAMPLES | lacking)

    def test_every_kind_first(self) -> None:
        """Whichever kind comes first, every instance holds."""
        for kind in range(1, 7):
            plain = b"".join(entry.data for entry in ENTRIES if entry.kind == kind)
            for sides in (1, 2, 3):
                of = maker(SITTING._replace(sides=sides), plain)
                for name in INSTANCES:
                    self.assertTrue(made(name, of).rows)

    def test_odd_books(self) -> None:
        """Every instance holds of a book whose records are equal, and of as many as there may be."""
        for plain in (ENTRIES[0].data * 2, ENTRIES[0].data * 1024):
            of = maker(plain=plain)
            for name in INSTANCES:
                self.assertTrue(made(name, of).rows)
        self.assertEqual(made("doubled", of).rows[2][2], "to 3 entries, the same in that order")

    def test_blind_sittings(self) -> None:
        """A sitting on whose bytes a mistake can't be seen has the proof's example."""
        same = SITTING._replace(rand2=bytes(range(5)) + bytes(range(4, -1, -1)), rso=bytes(10))
        of = maker(same)
        for name in ("challenge-reversed", "last-byte-xored"):
            self.assertTrue(made(name, of).source.startswith(PROOF), name)
            self.assertFalse(made(name).source.startswith(PROOF), name)
        found = values(made("challenge-reversed", of))
        wanted = (bytes.fromhex("c90a4ec3"), bytes.fromhex("3e4246fc16fddd291b0c"))
        self.assertEqual(found["RES2 and DCK2"], wanted)

    def test_marks(self) -> None:
        """Of each value that is said to be a call's, that call gave it; others are the
        sitting's or the book's, altered, counted, the working's or the proof's."""
        others = {GIVEN, ALTERED, COUNTED, WORKING, ALTERED_WORKING, BY_PROOF}
        own = b"|".join([PLAIN_BOOK, *(each for each in SITTING if isinstance(each, bytes))])
        desk = Recording()
        of = maker(desk=desk)
        before = len(desk.calls)
        for name in INSTANCES:
            instance = made(name, of)
            for row, mark, value in instance.rows:
                with self.subTest(claim=name, row=row):
                    if mark not in others:
                        self.assertTrue(desk.answered(mark, value), (mark, value))
                    elif mark == GIVEN and name not in {*EXAMPLES, "palindrome"} and isinstance(value, bytes):
                        self.assertIn(value, own)
            del desk.calls[before:]

    def test_no_call_by_the_working(self) -> None:
        """What is a call is not worked: the working gives BL1, BL2, expansions, and texts of
        what no entry expands to."""
        sealed = {text for entry, record in zip(ENTRIES, split(seal(), SEALED)) for text in (record[6:],)}
        for name in INSTANCES:
            for row, mark, value in made(name).rows:
                if mark in (WORKING, ALTERED_WORKING) and isinstance(value, bytes):
                    self.assertNotIn(value, sealed, (name, row))

    def test_reference(self) -> None:
        """What the calls answer, the papers' working by other hands gives, too."""
        desk = Recording()
        for name in INSTANCES:
            made(name, maker(desk=desk))
        compared: Counter[str] = Counter()
        seen = {(name, *given): answer for name, given, answer in desk.calls if answer}
        for (name, *given), answer in seen.items():
            if name in ("encrypt", "decrypt", "tb4", "tb7", "ta21", "ta41", "ta31", "ta51", "ta81", "ta91"):
                self.assertEqual(getattr(WORKED, name)(*given), answer["bytes"], name)
            elif name in ("ta32", "ta52", "ta82", "ta92"):
                found = getattr(WORKED, name)(*given)
                has = (answer["key"], answer.get("number"), answer["failed_checks"])
                self.assertEqual(found, has, name)
            elif name == "ta22":
                self.assertEqual(WORKED.ta22(*given), (answer["response"], answer["key"]))
            elif name == "ta61_inverse":
                self.assertEqual(WORKED.ta61_inverse(*given), answer["identity"])
            elif name in ("tb1", "tb3"):
                key, version = (bytes(16), given[0]) if name == "tb1" else given[:2]
                self.assertEqual(reference.xor(key, version.to_bytes(2, "big") * 8), answer["bytes"])
            elif name == "open_book":
                ring = reference.Ring(given[0][:10], given[0][10:26], given[0][26:36], given[0][36:])
                opened = [WORKED.open_record(ring, record) for record in split(given[1], SEALED)]
                self.assertEqual(reference.plain_book(entry for entry, _ in opened), answer["out"])
                self.assertFalse(any(failed for _, failed in opened))
            elif name == "seal_book":
                ring = reference.Ring(given[0][:10], given[0][10:26], given[0][26:36], given[0][36:])
                entries = [reference.Entry(*Entry.of(record)) for record in split(given[1], PLAIN)]
                self.assertEqual(WORKED.sealed_book(ring, entries), answer["out"])
            else:
                self.assertEqual(name, "ring")
                keys = WORKED.recipe(reference.Sitting(*given))
                self.assertEqual(b"".join(keys.ring), answer["ring"])
            compared[name] += 1
        self.assertGreater(compared["ta82"] + compared["ta52"], 20)
        self.assertEqual(len(compared), 21)

    def test_cores(self) -> None:
        """f, and what is worked of BL1, BL2 and the dropped byte, as the papers' working has it."""
        for half in ("00030136", "0003c136"):
            self.assertEqual(WORKED.f(bytes.fromhex(half), bytes(12)), values(made("f-collides"))["f of either"])
        entry, ring = ENTRIES[0], reference.Ring(*RING)
        key, data = WORKED.short_core_key(ring.d, entry.version), WORKED.ta31_data(entry.key)
        output = WORKED.bl1(key, data)
        text = WORKED.drop(output)
        found = values(made("nothing-lost"))
        self.assertEqual((found["input of BL1"], found["its output"]), (data, output))
        self.assertEqual(found["BL2 of the text with 00 as B8, then 00"], WORKED.unseal(key, text) + b"\0")
        inputs = [value for name, _, value in made("shared").rows if name.startswith("input for")]
        self.assertEqual({WORKED.drop(WORKED.bl1(key, each)) for each in inputs}, {text})
        found = values(made("fewer-keys"))
        inputs = [found["input"], found["another with its zero byte there"]]
        self.assertEqual([each[8] for each in inputs], [0, 0])
        self.assertEqual({WORKED.drop(WORKED.bl1(key, each)) for each in inputs}, {found["text of either"]})
        found = values(made("chaining"))
        for name in ("input", "another that ends in a zero byte"):
            blocks = WORKED.encrypt(key, found[name][:8]) + WORKED.encrypt(key, found[name][8:])
            self.assertEqual(WORKED.drop(blocks), found["text of either without chaining"])
        found = values(made("any-byte-put-back"))
        other = WORKED.bl2(key, text[:7] + b"\1" + text[7:])
        self.assertEqual(found["with 01 as B8"], (other[:8], other[8:]))
        found = values(made("bl2-is-bl1-backwards"))
        self.assertEqual(found["BL2 of that output"], WORKED.bl2(key, output))
        self.assertEqual(found["BL2 of it with 00 as B8"], data[:15])
        self.assertEqual(values(made("dropped-byte-zero"))["the dropped byte"], output[7:8])
        self.assertNotEqual(output[7], 0)

    def test_either_way(self) -> None:
        """A text that opens wherever the zero byte is put back."""
        at_end = reference.Working()
        with mock.patch.object(at_end, "put_back", lambda text: text + b"\0"):
            text = values(made("zero-at-end-either-way"))["text"]
            wrong = at_end.ta82(text, bytes(range(16)), 7)
        self.assertEqual(wrong, WORKED.ta82(text, bytes(range(16)), 7))
        self.assertEqual(wrong.failed, 0)

    def test_kinds_3_and_4(self) -> None:
        """An entry of kind 3, and what it opens to as kind 4."""
        at = next(i for i, entry in enumerate(ENTRIES) if entry.kind == 3)
        entry, record = ENTRIES[at], split(seal(), SEALED)[at]
        found = made("three-and-four")
        as_four = DESK.call("ta92", record[6:], RING.o, entry.version)
        self.assertEqual(as_four["failed_checks"], 0)
        self.assertTrue(found.source.startswith(f"entry {at},"))
        self.assertEqual(values(found)["text"], record[6:])
        self.assertEqual(values(found)["opens as kind 4"], f"GSKO {grouped(as_four['key'])}")

    def test_ring_and_version(self) -> None:
        """The ring and the versions under which a book has the same texts."""
        found = values(made("ring-and-versions"))
        ring = b"".join(found[f"{both(name)} of the other ring"] for name in "DOCG")
        plain = b"".join(e._replace(version=e.version ^ 1).data for e in ENTRIES)
        sealed = split(DESK.call("seal_book", ring, plain)["out"], SEALED)
        self.assertEqual([r[6:] for r in sealed], [r[6:] for r in split(seal(), SEALED)])

    def test_eight_texts(self) -> None:
        """The eight texts of an entry of kind 2, and what each unseals to."""
        found = made("seven-others")
        entry = next(entry for entry in ENTRIES if entry.kind == 2)
        texts = [value for name, _, value in found.rows if name.startswith("number byte")]
        self.assertEqual(len(set(texts)), 8)
        for at, text in enumerate(texts):
            opened = DESK.call("ta52", text, RING.o, entry.version)
            self.assertEqual((opened["key"], opened["number"]), (entry.key, entry.number))
            self.assertEqual(opened["failed_checks"], 16 if at else 0)

    def test_identity(self) -> None:
        """A record with another encrypted identity opens, to another identity."""
        found = values(made("identity-free"))
        entries = [Entry.of(DESK.call("open_book", RING.data, found[name])["out"])
                   for name in ("sealed record", "another encrypted identity")]  # fmt: skip
        self.assertNotEqual(entries[0].identity, entries[1].identity)
        self.assertEqual(entries[0][2:], entries[1][2:])

    def test_zero_byte(self) -> None:
        """With its zero byte at the end the text no longer opens."""
        found = values(made("zero-at-end"))
        self.assertEqual(found["with the zero byte as B8"], "no check fails: it opens")
        self.assertIn("fail", found["with the zero byte at the end"])

    def test_every_bit(self) -> None:
        """The bits of a key that leave the text's first seven bytes: those of its last bytes, of
        which the left block has none."""
        for kind, said in ((1, "32 of 80"), (2, "32 of 80"), (3, "24 of 80"), (4, "40 of 96")):
            plain = next(entry.data for entry in ENTRIES if entry.kind == kind)
            found = values(made("every-bit", maker(plain=plain)))
            self.assertEqual(found["bits of the key that leave the first seven"], said)

    def test_marked_so(self) -> None:
        """`mark` counts equal records as the claims have it."""
        records = split(seal(), SEALED)
        wrong = records[0][:-1] + bytes([records[0][-1] ^ 1])
        hand_ins = {
            "backwards": records[::-1],
            "wrong": [*records[:0:-1], wrong],
            "copies": [*records, *[records[0]] * 3],
            "twice": [wrong, *records[1:], records[1]],
        }
        for name, book in hand_ins.items():
            self.file(f"{name}.book", b"".join(book))
            done = here("mark", *INPUTS, f"{name}.book", "--json", cwd=self.folder)
            (sheet,) = json.loads(done.out)["sheets"]
            right = sum((Counter(book) & Counter(records)).values())
            self.assertEqual((sheet["right"], sheet["of"]), (right, len(records)), name)
            self.assertEqual(sheet["extra"], max(0, len(book) - len(records)), name)
        counted = [made(name).rows for name in ("equal-records", "copies-beyond", "all-right")]
        said = [value for rows in counted for row, _, value in rows if row.startswith("records")]
        self.assertEqual(said, ["11 of 12", 3, "12 of 12", 0])

    def test_no_false_instance(self) -> None:
        """Where the engine answered otherwise than a claim, no sheet would be made."""
        right = Maker.unseal
        texts = {values(made("seven-others"))["number byte 3f"]}

        def wrong(self: Maker, kind: int, text: bytes, *values: Any) -> Any:
            found = right(self, kind, text, *values)
            return found._replace(failed=0) if text in texts else found

        with mock.patch.object(Maker, "unseal", wrong):
            done = here("argue", *INPUTS, cwd=self.folder)
        said = "an instance is not what its claim says: no sheet is made"
        self.assertEqual((done.status, done.out, done.error), (2, b"", f"taa1: {said}\n"))

    def test_wrong_working(self) -> None:
        """Where the working gave another answer than the engine, no sheet would be made."""
        said = "the working, step by step, is not what the engine answers: no sheet is made"
        alterations = {
            "dropped": lambda steps, output: output[:15],
            "zero_back": lambda steps, text: text + b"\0",
            "tb7": lambda steps, group_key: bytes(16),
            "five_bits": lambda steps, number: number & 15,
        }
        for name, altered in alterations.items():
            with mock.patch.object(Steps, name, altered):
                done = here("argue", *INPUTS, cwd=self.folder)
            self.assertEqual((done.status, done.out, done.error), (2, b"", f"taa1: {said}\n"), name)


class Sheets(Case):
    """taa1 argue."""

    def test_text(self) -> None:
        """A marker who has nothing else has the question, the argument, the rubric and the claims."""
        said = " ".join(self.accepted("argue", *INPUTS).decode().split())
        words = [QUESTION, *RULES, *NONE.values()]
        words += [word for step in STEPS for word in step]
        words += [word for part in PARTS for word in (part.name, part.asks, part.full, part.half, part.none)]
        for claim in CLAIMS:
            words += [f"{claim.label}, {claim.verdict}: “{claim.sentence}”", claim.why, claim.instead]
            words.append(claim.theorem)
        for word in words:
            self.assertIn(" ".join(word.split()), said)
        self.assertEqual(said.count("[ ] [ ] [ ] __"), len(CLAIMS))

    def test_page(self) -> None:
        """The page is private, and has the text's values."""
        name = self.folder / "argue.html"
        self.assertEqual(self.accepted("argue", *INPUTS, "--html", name), b"")
        self.assertEqual(stat.S_IMODE(name.stat().st_mode), 0o600)
        sheet = argument_sheet(DESK, SITTING, RING, Heading(), PLAIN_BOOK)
        self.assertEqual(name.read_text(), as_page(sheet))
        self.assertEqual(self.accepted("argue", *INPUTS).decode(), as_text(sheet))
        self.assertEqual(name.read_text().count('<i class="tick">'), 3 * len(CLAIMS))
        self.assertEqual(name.read_text().count("<i></i>"), len(CLAIMS) + len(PARTS))

    def test_question(self) -> None:
        """The paper asks what the sheet says that it asks."""
        paper = " ".join(self.accepted("paper", *INPUTS, "--part", "paper").decode().split())
        self.assertIn(QUESTION, paper)
        first = (
            "Why can a sealed text open to one entry only? Say what must be fixed for that, which property of "
            "each step of the sealing your argument uses, and what is no longer so without it."
        )
        self.assertEqual(QUESTION, f"{first} Then say why every text that opens was sealed from an entry.")

    def test_wrong_use(self) -> None:
        self.file("empty.txt", "entries 0\n")
        said = "empty.txt: no entry in it, so there is no instance of a claim"
        self.fails(2, said, "argue", INPUTS[0], "empty.txt", cwd=self.folder)
        said = "argue: --html writes the page into its file: no -o"
        self.fails(2, said, "argue", *INPUTS, "--html", "a", "-o", "b", cwd=self.folder)
        bad = self.file("bad.txt", INPUTS[0].read_text().replace("sides         = 3", "sides         = 4"))
        done = taa1("argue", bad, INPUTS[1])
        self.assertEqual((done.status, done.out), (1, b""))
