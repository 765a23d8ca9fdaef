"""The table of the calls, beside the header and the engine."""

from __future__ import annotations

import json
import re
import unittest
from typing import Any, get_type_hints

from common import DESK, ROOT, Case, taa1
from taa1 import NAMES, Bytes, Engine, KeyNumber, Refused, Release, Sitting, Version
from taa1.calls import ANSWERS, CALLS, PURPOSES, Call, Field, Parameter

HEADER = re.sub(r"/\*.*?\*/", " ", (ROOT / "include" / "taa1.h").read_text(), flags=re.S)
CONSTANTS = {name: int(value) for name, value in re.findall(r"\b(TAA1_\w+) = (\d+)", HEADER)}

C_TYPES = {
    "version": "taa1_version",
    "number": "taa1_key_number",
    "mask": "uint16_t",
    "identity": "uint64_t",
    "value": "uint64_t",
}

WIDTHS = {"identity": 6, "mask": 4}  # hexadecimal digits
# Values that every call takes, by the parameter's kind and name.
NUMBERS = {"sides": 3, "width": 16, "response_mask": 0xF000, "key_mask": 0x0FFC}


def parameters(call: Call) -> str:
    """The parameters as the header declares them."""
    made = []
    for p in call.parameters:
        if p.kind in ("bytes", "out"):
            const = "const " if p.kind == "bytes" else ""
            alone = "" if p.kind == "bytes" else "TAA1_RESTRICT "
            made += [f"{const}uint8_t *{alone}{p.name}", f"size_t {p.name}_length"]
        else:
            made.append(f"{C_TYPES[p.kind]} {p.name}")
    return ", ".join(made)


def member(field: Field) -> str:
    """A field as the header declares it."""
    if field.length:
        return f"uint8_t {field.name}[{field.length}]"
    return f"{'size_t' if field.bits == 64 else f'uint{field.bits}_t'} {field.name}"


def value(parameter: Parameter) -> Any:
    """A value that the engine takes."""
    if parameter.kind == "bytes":
        return bytes(parameter.length or 0)
    return NUMBERS.get(parameter.name, 0)


def values(call: Call) -> list[Any]:
    """Values that the engine takes, but for a result that has no input."""
    return [value(p) for p in call.inputs]


class Table(unittest.TestCase):
    """The table and the header say the same."""

    def test_calls(self) -> None:
        declared = {
            name: (answer, " ".join(inputs.split()))
            for answer, name, inputs in re.findall(r"\btaa1_(\w+) taa1_(\w+)\(([^)]*)\) TAA1_USE_ANSWER;", HEADER)
        }
        wanted = {call.name: (call.answer, parameters(call)) for call in CALLS.values()}
        wanted["release"] = ("release_numbers", "void")  # takes nothing and refuses nothing
        self.assertEqual(wanted, declared)
        self.assertEqual(set(PURPOSES), set(CALLS))

    def test_answers(self) -> None:
        declared = {}
        for body, name in re.findall(r"typedef struct \{([^}]*)\} taa1_(\w+);", HEADER):
            for constant, number in CONSTANTS.items():
                body = re.sub(rf"\b{constant}\b", str(number), body)
            declared[name] = [" ".join(line.split()) for line in body.split(";") if line.strip()]
        numbers = {"version", "key_number", "release_numbers"}
        self.assertEqual(set(declared), set(ANSWERS) | numbers)
        wanted = [f"uint32_t {name}" for name in Release._fields]
        self.assertEqual(wanted, declared["release_numbers"])
        for name, fields in ANSWERS.items():
            with self.subTest(name):
                wanted = ["uint32_t refusal", *map(member, fields)]
                self.assertEqual(wanted, declared[name])

    def test_module(self) -> None:
        """The typed methods take what the table has, under the same names."""
        kinds: dict[str, Any] = {"bytes": Bytes, "version": Version, "number": KeyNumber}
        methods = {name: call for name, call in vars(Engine).items() if not name.startswith("_")}
        self.assertEqual(set(methods), set(CALLS) | {"release"})
        for call in CALLS.values():
            with self.subTest(call.name):
                # A sitting is kept and read, so that its byte strings are bytes.
                method = Sitting if call.name == "ring" else methods[call.name]
                taken = get_type_hints(method)
                taken.pop("return", None)
                of_kind = {**kinds, "bytes": bytes} if method is Sitting else kinds
                wanted = {p.name: of_kind.get(p.kind, int) for p in call.inputs}
                self.assertEqual(list(taken.items()), list(wanted.items()))

    def test_lengths(self) -> None:
        """Each fixed length of the table is the one that the engine takes."""
        for call in CALLS.values():
            for at, parameter in enumerate(call.inputs):
                if parameter.kind != "bytes" or parameter.length is None:
                    continue
                for change in (-1, 1):
                    with self.subTest(call=call.name, parameter=parameter.name):
                        wrong = values(call)
                        wrong[at] = bytes(parameter.length + change)
                        with self.assertRaises(Refused) as caught:
                            DESK.call(call.name, *wrong)
                        self.assertEqual(caught.exception.number, 11)

    def test_accepted(self) -> None:
        for call in CALLS.values():
            with self.subTest(call.name):
                fields = DESK.call(call.name, *values(call))
                out = ["out"] if call.record else []
                self.assertEqual(list(fields), [f.name for f in call.fields] + out)

    def test_outputs(self) -> None:
        """An output's length for each record is what the engine needs and writes."""
        records = {
            "ta12_class": bytes(20),
            "seal_book": bytes([1]) + bytes(17) + bytes([4]) + bytes(17),
            "open_book": DESK.call("seal_book", bytes(52), (bytes([1]) + bytes(17)) * 2)["out"],
            "plain_to_columns": bytes(36),
            "plain_from_columns": bytes(36),
            "sealed_to_columns": bytes(42),
            "sealed_from_columns": bytes(42),
            "lineage": (bytes(5) + bytes([10]) + bytes(16)) * 2,
        }
        outs = {call.name: call for call in CALLS.values() if call.record}
        self.assertEqual(set(records), set(outs))
        for name, call in outs.items():
            with self.subTest(name):
                given = [records[name] if v == b"" else v for v in values(call)]
                length = call.record
                self.assertEqual(DESK.call(name, *given, room=2 * length)["written"], 2 * length)
                with self.assertRaises(Refused) as caught:
                    DESK.call(name, *given, room=2 * length - 1)
                self.assertEqual(caught.exception.number, 12)


class Command(Case):
    """taa1 call."""

    def arguments(self, call: Call) -> list[str]:
        made = ["call", call.name]
        for parameter, given in zip(call.parameters, values(call)):
            text = given.hex() if isinstance(given, bytes) else str(given)
            if parameter.kind in WIDTHS:
                text = f"{given:0{WIDTHS[parameter.kind]}x}"
            made += ["--" + parameter.name.replace("_", "-"), text]
        return made

    def test_every_call(self) -> None:
        """Each prints its fields, one a line, and the same as JSON."""
        for call in CALLS.values():
            with self.subTest(call.name):
                fields = DESK.call(call.name, *values(call))
                shown = {k: v.hex() if isinstance(v, bytes) else v for k, v in fields.items()}
                if "identity" in shown:
                    shown["identity"] = f"{shown['identity']:06x}"
                lines = [f"{name} {v}" for name, v in shown.items()]
                arguments = self.arguments(call)
                self.assertEqual(self.accepted(*arguments).decode(), "\n".join(lines) + "\n")
                self.assertEqual(json.loads(self.accepted(*arguments, "--json")), shown)

    def test_help(self) -> None:
        listed = self.accepted("call", "--help").decode()
        for call in CALLS.values():
            self.assertIn(call.name, listed)
        said = self.accepted("call", "ta51", "--help").decode()
        for word in ("--cipher-key", "--version", "--sealing-key", "--number", "10 bytes"):
            self.assertIn(word, said)

    def test_refusals(self) -> None:
        key, root = "00" * 10, "00" * 16
        seal = ("call", "ta51", "--cipher-key", key, "--version", 7, "--sealing-key", root)
        self.fails(1, f"ta51: refused 5 ({NAMES[5]})", *seal, "--number", 32)
        self.fails(1, f"tb1: refused 9 ({NAMES[9]})", "call", "tb1", "--value", 1, "--width", 15)
        book = ("call", "check_plain", "--plain", "09" + "00" * 17)
        self.fails(1, f"check_plain: refused 3 at 0 ({NAMES[3]})", *book)

    def test_lengths(self) -> None:
        """A refused length is named with its option, both lengths with it."""
        key, root = "00" * 10, "00" * 16
        seal = ("call", "ta51", "--version", 7, "--number", 3)
        said = f"ta51: refused 11 ({NAMES[11]}): --cipher-key has 1 byte, not 10"
        self.fails(1, said, *seal, "--cipher-key", "00", "--sealing-key", root)
        both = f"{said}; --sealing-key has 10 bytes, not 16"
        self.fails(1, both, *seal, "--cipher-key", "00", "--sealing-key", key)
        said = f"schedule: refused 11 ({NAMES[11]}): KEY has 10 bytes, not 16"
        self.fails(1, said, "schedule", key)

    def test_numbers(self) -> None:
        """Identities and masks are hexadecimal, six digits and four; 0x is taken anywhere."""
        key = "c0c1c2c3c4c5c6c7c8c9"
        ta61 = ("call", "ta61", "--common-key", key, "--identity")
        wanted = self.accepted(*ta61, "00000a")
        for text in ("0x00000a", "00000A"):
            self.assertEqual(self.accepted(*ta61, text), wanted)
        self.assertEqual(self.accepted("call", "ta61", "--common-key", f"0x{key}", "--identity", "00000a"), wanted)
        for text in ("10", "0xa", "0000010", "00000g"):
            error = f"call ta61: argument --identity: {text!r}: wanted 6 hexadecimal digits"
            self.fails(2, error, *ta61, text)
        ta12 = ("call", "ta12", "--session-key", "00" * 16, "--challenge", key, "--key-mask", "6db6")
        self.accepted(*ta12, "--response-mask", "9009")
        error = "call ta12: argument --response-mask: '36873': wanted 4 hexadecimal digits"
        self.fails(2, error, *ta12, "--response-mask", "36873")
        error = "call ta101: argument --mni: '1': wanted 6 hexadecimal digits"
        self.fails(2, error, "call", "ta101", "--ks", "00" * 16, "--gck0", key, "--mni", "1")
        tb1 = self.accepted("call", "tb1", "--value", "0x201", "--width", "0x10")
        self.assertEqual(tb1, self.accepted("call", "tb1", "--value", "513", "--width", "16"))

    def test_files(self) -> None:
        """A value from a file, in bytes or hexadecimal, or from standard input."""
        wanted = self.accepted("call", "tb2", "--input", "0123456789abcdef" * 2)
        self.file("bytes", bytes.fromhex("0123456789abcdef" * 2))
        self.file("hex", "01234567 89abcdef\n" * 2)
        for name in ("bytes", "hex"):
            self.assertEqual(self.accepted("call", "tb2", "--input", "@" + name, cwd=self.folder), wanted)
        given = b"0123456789abcdef" * 2
        self.assertEqual(self.accepted("call", "tb2", "--input", "@-", stdin=given), wanted)

    def test_wrong_uses(self) -> None:
        tb1 = ("call", "tb1")
        for error, args in (
            ("call tb1: the following arguments are required: --value, --width", tb1),
            ("call tb1: argument --value: 'x' is no decimal number, nor one in 0x..", (*tb1, "--value", "x")),
            ("call tb1: argument --value: '-1' is no decimal number, nor one in 0x..", (*tb1, "--value=-1")),
            (
                "tb1, argument 1 (value): 0x10000000000000000 does not fit 64 bits",
                (*tb1, "--value", 1 << 64, "--width", 16),
            ),
            (
                "call tb2: argument --input: the value: an odd number of hexadecimal digits, 3",
                ("call", "tb2", "--input", "012"),
            ),
            (
                "call tb2: argument --input: the value, line 1, column 3: 'z' is no hexadecimal digit",
                ("call", "tb2", "--input", "01z2"),
            ),
            ("no-such-file: No such file or directory", ("call", "tb2", "--input", "@no-such-file")),
        ):
            with self.subTest(args=args):
                self.fails(2, error, *args, cwd=self.folder)
        wide = taa1(*tb1, "--value", "9" * 5000, "--width", 16)
        self.assertEqual(wide.status, 2)
        self.assertLess(len(wide.error), 200)
        unknown = taa1("call", "ta99")
        self.assertEqual(unknown.status, 2)
        self.assertRegex(unknown.error, r"^taa1: call: argument NAME: invalid choice: 'ta99'")
