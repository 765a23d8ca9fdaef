"""The cipher step by step, its trace, and the slips that are found by one block."""

from __future__ import annotations

import json
import random
import unittest
from unittest import mock

from common import CLASS, DESK, Case
from taa1 import NAMES
from taa1_desk.marking import hurdle
from taa1_desk.marking.cipher_slips import CIPHER_SLIPS
from taa1_desk.marking.cipher_tables import copied_wrongly, find
from taa1_desk.marking.hurdle import HURDLE_STEPS, Hurdle, agrees, at_once
from taa1_desk.marking.miscopied import miscopied, slip_of_pen
from taa1_desk.marking.trace import traced
from taa1_desk.problems import Problem
from taa1_desk.showing import trace
from reference import Working
from wrong_ciphers import MISCOPIED, WRONG, working

DRAW = random.Random(46)
KEY, BLOCK = bytes(range(16)), bytes(range(0x80, 0x88))
EDGES = [(bytes([k]) * 16, bytes([b]) * 8) for k in (0, 1, 0xFF) for b in (0, 0x80, 0xFF)]


def drawn(times: int) -> list[tuple[bytes, bytes]]:
    return [(DRAW.randbytes(16), DRAW.randbytes(8)) for _ in range(times)]


class Steps(unittest.TestCase):
    """HURDLE-II step by step."""

    def test_engine(self) -> None:
        """Unaltered it is the engine's, both ways."""
        self.assertTrue(agrees(DESK.host, [*EDGES, *drawn(3000)]))

    def test_at_once(self) -> None:
        """f without its steps is f with them."""
        cipher = Hurdle()
        for key, block in [*EDGES, *drawn(2000)]:
            self.assertEqual(at_once(block[:4], key[:12]), cipher.f(block[:4], key[:12]))
        same = Hurdle({"output": Hurdle.output})
        for pair in drawn(50):
            self.assertEqual(same.encrypt(*pair), cipher.encrypt(*pair))

    def test_disagreement(self) -> None:
        with mock.patch.object(hurdle, "D", bytes(16)):
            self.assertFalse(agrees(DESK.host, drawn(1)))

    def test_cases(self) -> None:
        """01's cases of f and of the schedule."""
        cipher = Hurdle()
        self.assertEqual(cipher.f(bytes(4), bytes(12)).hex(), "844a189c")
        registers = cipher.registers(bytes(16))
        self.assertEqual(cipher.round_key(registers[1]).hex(), "7957dfc0380a331ef38cf4f7")
        self.assertEqual((len(registers), registers[16]), (17, bytes(16)))

    def test_registers(self) -> None:
        """Q1 to Q17 are the engine's registers."""
        for key, _ in drawn(50):
            turns = [DESK.call("register", key, at)["bytes"] for at in range(17)]
            self.assertEqual(Hurdle().registers(key), turns)

    def test_rounds(self) -> None:
        """The rounds of a trace are those of the reference: its f, and its halves."""
        work = Working()
        for key, block in drawn(30):
            for decrypt in (False, True):
                keys = work.round_keys(key)[:: -1 if decrypt else 1]
                left, right = block[:4], block[4:]
                for each, k in zip(Hurdle().rounds(key, block, decrypt), keys):
                    self.assertEqual((each.left, each.right, each.round_key), (left, right, k))
                    self.assertEqual(each.register[4:], k)
                    self.assertEqual(each.result, work.f(right, k))
                    self.assertEqual(work.choose_bits(each.chain[4:]), each.result)
                    left, right = each.new_left, each.new_right

    def test_names(self) -> None:
        """Every step is a method, and every slip alters steps."""
        for name in HURDLE_STEPS:
            self.assertTrue(callable(getattr(Hurdle, name)), name)
        names = [slip.name for slip in CIPHER_SLIPS]
        self.assertEqual(len(names), len(set(names)))
        for slip in CIPHER_SLIPS:
            self.assertLessEqual(set(slip.altered), set(HURDLE_STEPS), slip.name)
            self.assertTrue(slip.step[1].startswith("6."))


class Slips(unittest.TestCase):
    """The slips of the cipher, beside wrong ciphers by the reference's hands."""

    def test_altering(self) -> None:
        """Each slip alters encryption or decryption, and no two are the same."""
        made: dict[object, str] = {}
        pairs = drawn(3)
        right = Hurdle()
        for slip in CIPHER_SLIPS:
            cipher = slip.cipher()
            given = tuple((cipher.encrypt(*pair), cipher.decrypt(*pair)) for pair in pairs)
            wanted = tuple((right.encrypt(*pair), right.decrypt(*pair)) for pair in pairs)
            self.assertNotEqual(given, wanted, slip.name)
            self.assertNotIn(given, made, slip.name)
            made[given] = slip.name

    def test_found(self) -> None:
        """Each wrong cipher is named by what it makes of one block, either way."""
        for name, steps in {**WRONG, **MISCOPIED}.items():
            with self.subTest(name):
                work, (key, block) = working(steps), drawn(1)[0]
                while work.encrypt(key, block) == Working().encrypt(key, block):
                    key, block = drawn(1)[0]  # one entry of S is not in every block
                made = [slip.name for slip in find(key, block, work.encrypt(key, block))]
                if name in MISCOPIED:  # a T that is looked up last shows its low nibble alone
                    self.assertIn(name, made)
                else:
                    self.assertEqual(made, [name])
                back = work.decrypt(key, block)
                if name in WRONG and back != Working().decrypt(key, block):
                    self.assertIn(name, [slip.name for slip in find(key, block, back, True)])

    def test_direction(self) -> None:
        """Decryption for encryption is the round keys' order."""
        key, block = drawn(1)[0]
        made = find(key, block, Working().decrypt(key, block))
        self.assertEqual([slip.name for slip in made], ["decryption's round keys for encryption's"])

    def test_none(self) -> None:
        """What is nobody's slip has no name."""
        self.assertEqual(find(KEY, BLOCK, bytes(8)), [])

    def test_planted(self) -> None:
        """Nearly every slip of the table has a wrong cipher of other hands beside it."""
        rest = {slip.name for slip in CIPHER_SLIPS} - set(WRONG)
        self.assertLess(len(rest), 20, rest)
        self.assertLessEqual(set(WRONG), {slip.name for slip in CIPHER_SLIPS})
        self.assertLessEqual(set(MISCOPIED), {slip.name for slip in copied_wrongly()})


class Pen(unittest.TestCase):
    """Digits that are copied wrongly."""

    def test_both_ways(self) -> None:
        """What is made is told, and nothing else is."""
        for digits in ("1e", "00", "a1b2c3"):
            made = dict(miscopied(digits))
            self.assertNotIn(digits, made)
            for other, said in made.items():
                if sum(a != b for a, b in zip(other, digits)) < 3:
                    self.assertEqual(slip_of_pen(other, digits), said)
        self.assertEqual(len(list(miscopied("1e"))), 31)
        self.assertEqual(slip_of_pen("1234", "1236"), "one digit differs: 4 for 6 at place 4")
        swapped = "two neighbouring digits are exchanged: 43 for 34 at places 3 and 4"
        self.assertEqual(slip_of_pen("1243", "1234"), swapped)
        for has in ("1234", "123", "4321", "2143"):
            self.assertIsNone(slip_of_pen(has, "1234"))


class Command(Case):
    """taa1 trace."""

    def test_text(self) -> None:
        made = self.accepted("trace", KEY.hex(), BLOCK.hex()).decode().splitlines()
        output = DESK.call("encrypt", KEY, BLOCK)["bytes"]
        self.assertEqual(made[-1], f"output, R then L: {output.hex()} (6.2)")
        self.assertEqual(len(made), 2 + 16 * 9 + 1)
        self.assertEqual(sum(line.startswith("round ") for line in made), 16)
        back = self.accepted("trace", KEY.hex(), output.hex(), "--decrypt").decode().splitlines()
        self.assertEqual(back[-1], f"output, R then L: {BLOCK.hex()} (6.2)")
        self.assertIn("register Q16 ", back[2])

    def test_json(self) -> None:
        made = json.loads(self.accepted("trace", KEY.hex(), BLOCK.hex(), "--json"))
        self.assertEqual(made["output"], DESK.call("encrypt", KEY, BLOCK)["bytes"].hex())
        self.assertEqual([each["register_number"] for each in made["rounds"]], list(range(1, 17)))
        work = Working()
        for each in made["rounds"]:
            values = {name: bytes.fromhex(value) for name, value in each.items() if isinstance(value, str)}
            f = work.f(values["right"], values["round_key"])
            self.assertEqual((values["f"], values["new_left"]), (f, values["right"]))

    def test_page(self) -> None:
        page = self.accepted("trace", KEY.hex(), BLOCK.hex(), "--html").decode()
        self.assertEqual(page.count("Round "), 16)
        self.assertIn("6.4.2", page)

    def test_find(self) -> None:
        given = (KEY.hex(), BLOCK.hex(), "--find")
        right = DESK.call("encrypt", KEY, BLOCK)["bytes"]
        self.assertEqual(self.accepted("trace", *given, right.hex()).decode(), f"{trace.RIGHT}\n")
        name = "halves not exchanged at the end"
        other = right[4:] + right[:4]
        said = f"slip: {name} (step: halves exchanged, 6.2)\n"
        self.assertEqual(self.accepted("trace", *given, other.hex()).decode(), said)
        made = json.loads(self.accepted("trace", *given, other.hex(), "--json"))
        wanted = {"slip": name, "step": "halves exchanged", "clause": "6.2"}
        self.assertEqual(made, {"right": False, "slips": [wanted]})
        self.assertEqual(self.accepted("trace", *given, "00" * 8).decode(), f"{trace.NO_SLIP}\n")

    def test_refused(self) -> None:
        said = f"trace: refused 11 ({NAMES[11]}): KEY has 1 byte, not 16; BLOCK has 2 bytes, not 8"
        self.fails(1, said, "trace", "00", "0000")
        bad = "trace: --find takes an output of 8 bytes, and makes no page (no --html)"
        self.fails(2, bad, "trace", KEY.hex(), BLOCK.hex(), "--find", "00")
        self.fails(2, bad, "trace", KEY.hex(), BLOCK.hex(), "--find", "00" * 8, "--html")

    def test_confirmed(self) -> None:
        """Nothing is written that the engine does not confirm."""
        with mock.patch.object(hurdle, "D", bytes(16)), self.assertRaisesRegex(Problem, "no trace"):
            traced(DESK, KEY, BLOCK)

    def test_solution(self) -> None:
        """The worked solution has the trace of TA61's block."""
        inputs = (CLASS / "sitting.txt", CLASS / "model.txt")
        text = self.accepted("paper", *inputs, "--part", "solution").decode()
        self.assertEqual(sum(" T0 to T11 " in line for line in text.splitlines()), 16)
        self.assertIn("taa1 trace KEY BLOCK", text)


if __name__ == "__main__":
    unittest.main()
