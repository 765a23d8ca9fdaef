# SPDX-License-Identifier: MIT
"""The question paper, the blank answer form and the worked solution of a sitting.

The paper and the form are the candidate's: they are made of what is given and of what
things are called. The solution is the working, step by step, with the engine's values.
"""

from __future__ import annotations

from typing import Any, Callable, Iterator, NamedTuple, Optional, Sequence

from taa1 import Sitting

from ..asked import ARGUMENT, RECORD, ROW, THIRD, asked
from ..engine import Engine
from ..marking.clauses import STEPS as WORKED
from ..marking.model import model_answer
from ..marking.working import Step, Steps, ring_of
from ..names import IN_SITTING, KIND_NAMES, both, sealing
from ..points import said
from ..problems import Problem
from ..reading.schemes import Scheme
from ..reading.sittings import Heading
from ..records import KINDS, PLAIN, Entry, split
from .document import Block, Boxes, Document, Fields, Head, Lines, Pairs, Table, Together, Words
from .html import Code, Number, Row
from .model import sitting_values
from .trace import solution_blocks
from .worth import Worth, argument_table, points, summary

WHOSE = ("Name", "Candidate's number")  # at the head of each sheet of the form
ARGUMENT_LINES = 24
MISPRINT = (
    "TS 104 053-3 V1.1.1 misprints the key schedule's constant D, which is not the key D: in clause "
    "6.5 its twelfth byte, D4, is “le”, with a letter l. Read 1e."
)
QUESTION = (
    "Why can a sealed text open to one entry only? Say what must be fixed for that, which property "
    "of each step of the sealing your argument uses, and what is no longer so without it. Then say "
    "why every text that opens was sealed from an entry."
)


class Examination(NamedTuple):
    """A sitting and its model book, with the engine's answer."""

    heading: Heading
    sitting: Sitting
    entries: list[Entry]
    model: dict[str, Any]
    keys: list[Step]  # the working of the first two generations
    strings: list[Step]  # that of TA61's strings
    records: list[list[Step]]  # and that of each entry
    cipher: list[Block]  # the trace of one block
    worth: Optional[Worth] = None  # the points, if they are printed
    words: Sequence[str] = ()  # the setter's own, in paragraphs

    @property
    def argued(self) -> bool:
        """Whether an argument is asked for."""
        return self.worth is None or not self.worth.no_argument


def examination(
    engine: Engine,
    sitting: Sitting,
    heading: Heading,
    plain: bytes,
    where: str,
    scheme: Optional[Scheme] = None,
    words: Sequence[str] = (),
) -> Examination:
    """Works a sitting, by the engine's calls and step by step; both must agree."""
    model = model_answer(engine, sitting, plain, where)
    entries = [Entry.of(record) for record in split(plain, PLAIN)]
    steps = Steps(engine, trace=True)
    made = steps.keys(sitting)
    ring = ring_of(made)
    keys, steps.trace = steps.trace, []
    strings = steps.k_strings(ring.c)
    of_strings, steps.trace = steps.trace, []
    records, sealed = [], b""
    for entry in entries:
        sealed += steps.sealed(entry, ring, strings)
        records.append(steps.trace)
        steps.trace = []
    answered = {key["name"]: key["value"] for key in model["keys"]}
    if made != answered or sealed != model["sealed"]:
        raise Problem("the working, step by step, is not what the engine answers: no page is made")
    bc = next(step.inputs for step in of_strings if step.method == "bc")
    cipher = solution_blocks(engine, bc["key"], bc["block"])
    worth = None
    if scheme is not None:
        values = [value.name for _, each in asked(sitting.sides) for value in each]
        worth = Worth(scheme, values, [entry.kind for entry in entries])
    return Examination(
        heading, sitting, entries, model, keys, of_strings, records, cipher, worth, words
    )


def chosen(mask: int) -> str:
    """The bytes that a mask chooses, in their order."""
    return " ".join(f"B{bit}" for bit in range(15, -1, -1) if mask >> bit & 1)


# ---- the candidate's pages


def _given(sitting: Sitting) -> Pairs:
    rows: list[tuple[str, Any]] = []
    for name, value in sitting_values(sitting._asdict()):
        if name.endswith("mask"):
            value = Code(f"{value.hex()}: {chosen(getattr(sitting, name))}")
        rows.append((both(IN_SITTING[name]), value))
    return Pairs(rows)


def _entries(entries: list[Entry]) -> Table:
    heads = ("entry", "kind", "identity (SSI)", "version", "number", "key")
    rows = [
        (
            index,
            f"{entry.kind}: {sealing(entry.kind)}",
            entry.identity.to_bytes(3, "big"),
            entry.version,
            entry.number,
            entry.key,
        )
        for index, entry in enumerate(entries)
    ]
    return Table(heads, rows)


def _idle(sides: int) -> list[Block]:
    """What is said of a side that does not run."""
    idle = {1: "TA22", 2: "TA12"}.get(sides)
    if idle is None:
        return []
    return [Words(f"{idle} does not run: zeros stand for its key in TB4.")]


def _decimals(kinds: Sequence[int]) -> str:
    """How versions, and the numbers of these kinds, are written, and in how many bytes."""
    words = {1: "one byte", 2: "two bytes"}
    of = {size: [str(kind) for kind in kinds if KINDS[kind].number == size] for size in words}
    said = [
        f"{words[size]} in {'kinds' if len(found) > 1 else 'kind'} {' and '.join(found)}"
        for size, found in of.items()
        if found
    ]
    if not said:
        return "Versions are decimal, two bytes with the high one first."
    return (
        "Versions and numbers are decimal: a version is two bytes, "
        f"a number {', '.join(said)}; of two bytes the high one is first."
    )


def _points(of: Examination) -> list[str]:
    """The head of a column of points, if they are printed."""
    return ["points"] if of.worth else []


def _worth(of: Examination, name: str) -> list[Number]:
    """A value's points, if they are printed."""
    return [Number(said(of.worth.value(name)))] if of.worth else []


def question_paper(of: Examination) -> Document:
    """What is given, and what is asked."""
    kinds = sorted({entry.kind for entry in of.entries})
    generations: list[Block] = []
    for title, values in asked(of.sitting.sides):
        rows = [
            (value.row, both(value.name), value.length, value.how, *_worth(of, value.name))
            for value in values
        ]
        table = Table((*ROW, "made by", *_points(of)), rows, "asked")
        generations.append(Together((Head(title, 3), table)))
    sealed = "; ".join(f"{name} ({count})" for name, count in RECORD)
    kind_rows = [
        (
            kind,
            sealing(kind),
            KINDS[kind].seal.upper(),
            KIND_NAMES[kind].version,
            KIND_NAMES[kind].number,
            KIND_NAMES[kind].sealed,
        )
        for kind in kinds
    ]
    third: list[Block] = [
        Head(THIRD, 3),
        Words(
            "For each entry, in the order of the entries, a sealed record of 21 bytes: "
            f"{sealed}. The ESI is TA61 of the identity under {both('C')}."
        ),
    ]
    if kinds:
        heads = ("kind", "seals", "by", "version", "number", "sealed text")
        third.append(Table(heads, kind_rows))
    last: list[Block] = [Head(ARGUMENT, 3), Words(QUESTION)] if of.argued else third
    if of.worth:
        last += [*argument_table(of.worth), *summary(of.worth)]
    argument = ", and the argument after them" if of.argued else ""
    return Document(
        "Question paper",
        of.heading.line,
        [
            *map(Words, of.words),
            Words(
                "Bytes are in hexadecimal, the leftmost first; the one at the right end of a "
                f"string is B0. {_decimals(kinds)} "
                f"Write the answers on the form{argument}."
            ),
            Words(MISPRINT),
            Head("What is given"),
            _given(of.sitting),
            Head("The plain entries"),
            _entries(of.entries) if of.entries else Words("None."),
            Head("What is asked"),
            *generations,
            *_idle(of.sitting.sides),
            *([Together(third)] if of.argued else []),
            Together(last),
        ],
    )


def answer_form(of: Examination) -> Document:
    """Boxes for what is asked."""
    blocks: list[Block] = [
        Fields(("Date",)),
        Words("A box is a byte, two hexadecimal digits; the leftmost byte comes first."),
    ]
    for title, values in asked(of.sitting.sides):
        rows = [
            (value.row, both(value.name), Boxes(value.length), *(f"of {n}" for n in _worth(of, value.name)))
            for value in values
        ]
        table = Table((*ROW, *_points(of)), rows, "form rows")
        blocks.append(Together((Head(title), table)))
    heads = ("entry", *(name for name, _ in RECORD))
    rows_ = [
        (index, *(Boxes(number) for _, number in RECORD)) for index in range(len(of.entries))
    ]
    worth = of.worth.parts if of.worth else {}
    third, argument = (
        f"{title}, {points(worth[title])}" if title in worth else title for title in (THIRD, ARGUMENT)
    )
    blocks += [Head(third), Table(heads, rows_, "form boxed")]
    if of.argued:
        blocks += [Head(argument, new_page=True), Lines(ARGUMENT_LINES)]
    return Document("Answer form", of.heading.line, blocks, WHOSE)


# ---- the solution

_WHAT = {
    method: (getattr(Steps, method).__doc__ or "").partition("\n")[0].rstrip(".") for method in WORKED
}
# Steps that only hand on what they take.
_PASSED_ON = {WORKED[method][0] for method in ("inputs", "entry", "sealed_as", "ring")}


def _flat(step: Step, top: bool = True) -> Iterator[tuple[Step, bool]]:
    """A step after those that it is made of; one that only hands them on is left out."""
    for inner in step.steps:
        yield from _flat(inner, False)
    outputs = tuple(inner.output for inner in step.steps)
    if top or not outputs or step.output not in (outputs, outputs[-1]):
        yield step, top


def _output(step: Step) -> Any:
    """What a step gives, for a cell."""
    if isinstance(step.output, int):
        return step.output.to_bytes(1, "big")
    return step.output


def _what(step: Step) -> str:
    """What a step does, in words; of some also with which bytes."""
    what = _WHAT[step.method]
    if step.name == "⊕ with a K-string":
        return f"{what}: {step.inputs['string'].hex()}"
    if step.name == "bytes chosen by a mask":
        mask = step.inputs["mask"]
        return f"mask {mask:04x}: {chosen(mask)}"
    if step.name == "byte 8 dropped":
        return f"BL1's output without B8, which is {step.inputs['output'][7]:02x}"
    if step.name == "the kind's sealing key":
        return both(KINDS[step.inputs["kind"]].sealing_key.upper())
    return what


def _steps(
    title: str, steps: list[Step], results: dict[str, str], given: Sequence[tuple[str, bytes]] = ()
) -> Table:
    """The steps as a table, after what they take; a result's step has the name of what it
    gives."""
    rows = [Row((None, name, None, value, "taken")) for name, value in given]
    shown = [each for step in steps for each in _flat(step) if step.name not in _PASSED_ON]
    for number, (step, top) in enumerate(shown, 1):
        result = results.get(step.name, "") if top else ""
        cells = (number, step.name, step.clause, _output(step), result or _what(step))
        rows.append(Row(cells, "result" if result else ""))
    return Table(("step", "name", "clause", "gives", "what"), rows, "steps", title)


# What the algorithms of the first two generations take, and what they give.
_MADE = {
    "TA11": (("root", "RS"), ("session key 1",)),
    "TA12": (("session key 1", "RAND1"), ("response 1", "key 1")),
    "TA21": (("root", "RS"), ("session key 2",)),
    "TA22": (("session key 2", "RAND2"), ("response 2", "key 2")),
    "TA41": (("root", "RSO"), ("O",)),
    "TB4": (("key 1", "key 2"), ("D",)),
    "TB7": (("group key",), ("G",)),
}


def solution(of: Examination) -> Document:
    """Every step on the way."""
    blocks: list[Block] = [
        Words(
            "Each step with the clause of TS 104 053-3 that it stands in (01: the examination's "
            "own rules). The last step of each part gives what is asked for, or what the entries need."
        ),
        Head("What is given"),
        _given(of.sitting),
        Head("The first two generations"),
    ]
    for step in of.keys:
        if step.name in _MADE:
            takes, gives = ([both(name) for name in names] for names in _MADE[step.name])
            title = f"{step.name}: {' and '.join(gives)}"
            given = list(zip(takes, step.inputs.values()))  # masks stand after them
            blocks.append(_steps(title, [step], {step.name: " | ".join(gives)}, given))
    blocks += [
        *_idle(of.sitting.sides),
        Head("The sealed book"),
        _steps(
            f"TA61: the K-strings of {both('C')}, for every identity",
            of.strings,
            {"K-strings": "K1 | K2 | K3"},
            [(both("C"), of.sitting.c)],
        ),
    ]
    for index, (entry, steps) in enumerate(zip(of.entries, of.records)):
        number = "" if entry.number is None else f", {KIND_NAMES[entry.kind].number} {entry.number}"
        title = (
            f"Entry {index}: kind {entry.kind}, {sealing(entry.kind)}, "
            f"{KIND_NAMES[entry.kind].version} {entry.version}{number}"
        )
        taken = (
            (f"key ({KIND_NAMES[entry.kind].key})", entry.key),
            (both("identity"), entry.identity.to_bytes(3, "big")),
        )
        results = {
            KINDS[entry.kind].seal.upper(): f"sealed text ({KIND_NAMES[entry.kind].sealed})",
            "identity encrypted": both("encrypted identity"),
            "the sealed record": " | ".join(name for name, _ in RECORD),
        }
        blocks.append(_steps(title, steps, results, taken))
    blocks.append(Words(f"Sealing the book takes {of.model['runs']} cipher runs."))
    blocks += [Head("The cipher, round by round"), *of.cipher]
    return Document("Worked solution", of.heading.line, blocks)


SOLUTION = "solution"
PARTS: dict[str, Callable[[Examination], Document]] = {
    "paper": question_paper,
    "form": answer_form,
    SOLUTION: solution,
}
CANDIDATES = tuple(part for part in PARTS if part != SOLUTION)  # what they get
