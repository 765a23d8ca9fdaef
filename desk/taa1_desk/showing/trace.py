# SPDX-License-Identifier: MIT
"""The trace of a block through HURDLE-II, round by round, to lay beside a program's own print."""

from __future__ import annotations

from typing import Any, Sequence

from ..engine import Engine
from ..marking.hurdle import HURDLE_STEPS, Round
from ..marking.trace import Search, Traced, traced
from .document import Block, Document, Pairs, Table, Words

RIGHT = "it is the cipher's output: no slip"
NO_SLIP = "no slip that is known gives it: compare the rounds with those of a trace without --find"
# The lines of a round: what each is called, and the step that makes it.
LINES = (
    ("L", "halves"),
    ("R", "halves"),
    ("k11 to k0", "round_key"),
    ("E0 to E11", "expanded"),
    ("E0 + k0 to E11 + k11", "added"),
    ("T0 to T11", "chained"),
    ("f, Y3 to Y0", "transposed"),
)


def _values(of: Round) -> tuple[bytes, ...]:
    """A round's values, in the order of LINES."""
    words = (bytes(each) for each in (of.expanded, of.sums, of.chain))
    return (of.left, of.right, of.round_key, *words, of.result)


def _clause(step: str) -> str:
    return HURDLE_STEPS[step][1]


def trace_text(trace: Traced) -> str:
    """The trace in lines; each value with its clause of 000."""
    lines = [f"{trace.mode} under {trace.key.hex()}", f"block {trace.block.hex()}"]
    for each in trace.rounds:
        register = f"Q{trace.register(each.number)}"
        lines.append(f"round {each.number}: register {register} {each.register.hex()} (6.5)")
        for (name, step), value in zip(LINES, _values(each)):
            lines.append(f"  {name:20} {value.hex(' '):35} {_clause(step)}")
        halves = f"{each.new_left.hex(' ')} | {each.new_right.hex(' ')}"
        lines.append(f"  {'new L and R':20} {halves:35} 6.2")
    lines.append(f"output, R then L: {trace.output.hex()} (6.2)")
    return "\n".join(lines) + "\n"


def trace_json(trace: Traced) -> dict[str, Any]:
    """The trace for programs."""
    return {
        "mode": trace.mode,
        "key": trace.key,
        "block": trace.block,
        "rounds": [
            {
                "round": each.number,
                "register_number": trace.register(each.number),
                "register": each.register,
                "round_key": each.round_key,
                "left": each.left,
                "right": each.right,
                "e0_to_e11": bytes(each.expanded),
                "sums_0_to_11": bytes(each.sums),
                "t0_to_t11": bytes(each.chain),
                "f": each.result,
                "new_left": each.new_left,
                "new_right": each.new_right,
            }
            for each in trace.rounds
        ],
        "output": trace.output,
    }


def trace_blocks(trace: Traced) -> list[Block]:
    """The trace as tables of a page."""
    blocks: list[Block] = []
    for each in trace.rounds:
        register = f"Q{trace.register(each.number)}"
        title = f"Round {each.number}"
        rows: list[Sequence[Any]] = [(register, "6.5", each.register)]
        rows += [
            (name, _clause(step), value) for (name, step), value in zip(LINES, _values(each))
        ]
        rows.append(("new L and R", "6.2", (each.new_left, each.new_right)))
        blocks.append(Table(("what", "clause", "value"), rows, "", title))
    return blocks


def trace_document(trace: Traced) -> Document:
    """A page of it."""
    given = [("key", trace.key), ("block", trace.block), ("output, R then L", trace.output)]
    said = (
        f"HURDLE-II, {trace.mode}ion, round by round, with the clauses of TS 104 053-3. "
        "E, the sums and the T's stand from 0 to 11, every other string leftmost byte first."
    )
    return Document("Trace of a block", "", [Words(said), Pairs(given), *trace_blocks(trace)])


def solution_blocks(engine: Engine, key: bytes, block: bytes) -> list[Block]:
    """What a worked solution says of the cipher: one block's trace, and how others are made."""
    trace = traced(engine, key, block)
    words = (
        "Every block of the cipher goes through sixteen such rounds. This is TA61's; "
        "taa1 trace KEY BLOCK makes the same of any other, with --decrypt for unsealing."
    )
    rows: list[Sequence[Any]] = []
    for each in trace.rounds:
        rows += [
            (each.number, f"k11 to k0, of Q{trace.register(each.number)}", "6.5", each.round_key),
            (None, "L and R", "6.2", (each.left, each.right)),
            (None, "E0 + k0 to E11 + k11", "6.4.2", bytes(each.sums)),
            (None, "T0 to T11", "6.4.2", bytes(each.chain)),
            (None, "f", "6.4.4", each.result),
        ]
    return [
        Words(words),
        Pairs([("key", key), ("block", block), ("output, R then L", trace.output)]),
        Table(("round", "what", "clause", "value"), rows, "rounds"),
    ]


def search_text(made: Search) -> str:
    """The slips with the step and clause of each."""
    if made.right:
        return f"{RIGHT}\n"
    lines = [f"slip: {s.name} (step: {s.step[0]}, {s.step[1]})\n" for s in made.slips]
    return "".join(lines) or f"{NO_SLIP}\n"


def search_json(made: Search) -> dict[str, Any]:
    """The same for programs."""
    slips = [{"slip": s.name, "step": s.step[0], "clause": s.step[1]} for s in made.slips]
    return {"right": made.right, "slips": slips}
