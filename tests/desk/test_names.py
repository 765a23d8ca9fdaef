"""The field's names: what the tables say of the kinds is what the engine does."""

from __future__ import annotations

from common import DESK, ENTRIES, RING, Case, taa1
from taa1 import Refused
from taa1.calls import CALLS
from taa1_desk import names
from taa1_desk.asked import MADE as STEPS
from taa1_desk.reading.sittings import SITTING
from taa1_desk.records import KINDS


class Names(Case):
    """taa1_desk.names, and taa1 help kinds."""

    def test_kinds(self) -> None:
        """Each kind's highest number is accepted, and one above it is not."""
        self.assertEqual(set(names.KIND_NAMES), set(KINDS))
        for kind, of_kind in names.KIND_NAMES.items():
            entry = next(entry for entry in ENTRIES if entry.kind == kind)
            self.assertEqual(of_kind.number is None, entry.number is None)
            if of_kind.number is not None:
                DESK.call("check_plain", entry._replace(number=of_kind.highest).data)
                with self.assertRaises((Refused, OverflowError)):
                    DESK.call("check_plain", entry._replace(number=of_kind.highest + 1).data)

    def test_sealing(self) -> None:
        """The algorithm and the key of a row seal the kind's entries as a book does."""
        for entry in ENTRIES:
            row = dict(zip(names.KIND_HEADS, names.kind_rows()[entry.kind - 1]))
            self.assertEqual(row["bytes"], str(len(entry.key)))
            key = getattr(RING, row["under"].split(" (")[0].lower())
            values = [entry.key, entry.version, key]
            values += [] if entry.number is None else [entry.number]
            made = DESK.call(row["by"].lower(), *values)["bytes"]
            book = DESK.call("seal_book", RING.data, entry.data)["out"]
            self.assertEqual(made, book[6:])
            self.assertEqual(names.TERMS[row["under"].split(" (")[0]].field, row["under"][3:-1])

    def test_values(self) -> None:
        """Every value of a sitting and of its working is in the table."""
        self.assertEqual(set(names.IN_SITTING), {name.name for name in SITTING})
        numbers = {"sides", "response mask", "key mask"}
        self.assertEqual(set(names.IN_SITTING.values()) - set(names.TERMS), numbers)
        self.assertEqual({name for name, _, _ in STEPS} - set(names.TERMS), set())
        fields = [term.field for term in names.TERMS.values()]
        self.assertEqual(len(fields), len(set(fields)))

    def test_both(self) -> None:
        self.assertEqual(names.both("root"), "root (K)")
        self.assertEqual(names.both("RS"), "RS")
        self.assertEqual(names.sealing(6), "GCK under G (EGSKO)")

    def test_help(self) -> None:
        said = self.accepted("help", "kinds").decode()
        for row in names.kind_rows():
            for word in row:
                self.assertIn(word, said)
        for term in names.TERMS.values():
            self.assertIn(term.field, said)

    def test_help_of_calls(self) -> None:
        """The options of every call that seals or unseals have the kind's names."""
        for call in CALLS.values():
            for parameter in call.parameters:
                field = names.parameter_field(call.name, parameter.name)
                kinds = [k for k, shape in KINDS.items() if call.name in (shape.seal, shape.unseal)]
                self.assertFalse(kinds and not field, (call.name, parameter.name))
        self.assertIn("a key number (SCKN, 0 to 31)", self.accepted("call", "ta51", "--help").decode())
        self.assertIn("a key number (GCKN, 0 to 65535)", self.accepted("help", "call", "ta81").decode())

    def test_help_of_commands(self) -> None:
        self.assertEqual(self.accepted("help", "mark"), self.accepted("mark", "--help"))
        self.assertEqual(self.accepted("help"), self.accepted("--help"))
        done = taa1("help", "nosuch")
        self.assertEqual((done.status, done.out), (2, b""))
        self.assertIn("'nosuch'", done.error)
