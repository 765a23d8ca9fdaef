"""Files of keys beside sealed books, with planted mistakes in the first two generations.

A candidate writes down what was worked before the book: names and values, any of them missing. A
value, or an entry, that is wrong under the model may be right under the candidate's own keys.
"""

from __future__ import annotations

from dataclasses import dataclass
from typing import Dict, Iterator, List, Optional, Tuple

from exams import RIGHT, SEALED, Exam, exam, exams
from mistakes import Slip, Step, altered, core, slip
from planted_sealed import right, slips
from reference import Keys, Ring, Working, fold, records

Values = Dict[str, bytes]
NAMES = (
    "session key 1",
    "session key 2",
    "response 1",
    "key 1",
    "response 2",
    "key 2",
    "D",
    "O",
    "G",
)


@dataclass(frozen=True)
class KeyFile:
    """A candidate's file of keys and the sealed book that it lies beside."""

    name: str
    group: str
    exam: Exam
    text: bytes  # the file's contents
    values: Tuple[Tuple[str, bytes], ...]  # what is in it, where it can be read
    book: bytes
    slips: Tuple[str, ...]
    mistake: str
    wrong: Tuple[str, ...]  # the values that are not the model's, where one is asked for
    followed: Tuple[str, ...]  # of these, right under the candidate's own keys
    entries_followed: int  # wrong entries that are right under the candidate's own keys
    say: str

    @property
    def right(self) -> int:
        """The entries that are right under the model."""
        return right(self.exam.sealed, self.book)


def values_of(keys: Keys) -> Values:
    """What a recipe gives to each name; of a half that did not run, nothing."""
    made = {"D": keys.ring.d, "O": keys.ring.o, "G": keys.ring.g}
    for side, session, response, key in (
        ("1", keys.session1, keys.response1, keys.key1),
        ("2", keys.session2, keys.response2, keys.key2),
    ):
        if session is not None:
            made[f"session key {side}"] = session
            made[f"response {side}"], made[f"key {side}"] = response, key
    return {name: made[name] for name in NAMES if name in made}


def text_of(values: Values, put: str = "{} = {}\n") -> bytes:
    """The file."""
    return "".join(put.format(name, value.hex()) for name, value in values.items()).encode()


def followed(of: Exam, values: Values) -> Values:
    """What the candidate's own session keys and keys lead to, rightly worked."""
    masks = (of.sitting.response_mask, of.sitting.key_mask)
    made: Values = {}
    for side, challenge, runs in (
        ("1", of.sitting.rand1, of.keys.session1),
        ("2", of.sitting.rand2, of.keys.session2),
    ):
        session = values.get(f"session key {side}")
        if runs is not None and session is not None and len(session) == 16:
            both = RIGHT.ta12(session, challenge, *masks)
            made[f"response {side}"], made[f"key {side}"] = both
    asked = {one: value for one, value in values.items() if one in values_of(of.keys)}
    one, other = asked.get("key 1", of.keys.key1), asked.get("key 2", of.keys.key2)
    if len(one) == len(other) == 10:
        made["D"] = RIGHT.tb4(one, other)
    return made


def own_ring(of: Exam, values: Values) -> Ring:
    """The ring with the candidate's own keys where they are given and have their length."""
    ring = of.ring
    for name, model in (("d", ring.d), ("o", ring.o), ("g", ring.g)):
        value = values.get(name.upper(), model)
        if len(value) == len(model):
            ring = ring._replace(**{name: value})
    return ring


def planted(
    of: Exam,
    name: str,
    group: str,
    mistake: str,
    values: Values,
    book: bytes,
    text: Optional[bytes] = None,
    say: str = "",
    made_by: Tuple[str, ...] = (),
) -> KeyFile:
    """A planted file, with what is wrong in it and what follows from it."""
    model = values_of(of.keys)
    wrong = tuple(one for one in values if one in model and values[one] != model[one])
    own = followed(of, values)
    through = tuple(one for one in wrong if values[one] == own.get(one))
    rightly = records(RIGHT.sealed_book(own_ring(of, values), of.entries), SEALED)
    entries = sum(
        record != wanted and record == follows
        for record, wanted, follows in zip(
            records(book, SEALED), records(of.sealed, SEALED), rightly
        )
    )
    found = [
        f"wrong: {', '.join(wrong) or 'nothing'}",
        f"right under the candidate's own keys: {', '.join(through) or 'none'}",
        f"{right(of.sealed, book)} of {len(of.entries)} entries right",
        f"{entries} more right under the candidate's own keys",
    ]
    return KeyFile(
        f"{of.name}/{name}",
        group,
        of,
        text_of(values) if text is None else text,
        tuple(values.items()),
        book,
        made_by,
        mistake,
        wrong,
        through,
        entries,
        "; ".join(found + [say] * bool(say)),
    )


# One step wrong, and everything after it right


def _exp2_xor(work: Working, root: bytes, seed: bytes) -> bytes:
    return work.bl1(root, work.exp1(seed) + bytes([fold(seed)]))


def _mistyped(name: str) -> Step:
    """A step's result with its first digit wrong, which the candidate goes on with."""
    run = getattr(Working, name)

    def step(work: Working, *given: bytes) -> bytes:
        made: bytes = run(work, *given)
        return bytes([made[0] ^ 0x10]) + made[1:]

    return step


def _split(name: str, change: Slip) -> Step:
    """TA12 or TA22 with another choice of bytes."""
    run = getattr(Working, name)
    return lambda work, *given: run(altered(change), *given)


def _one_step() -> List[Slip]:
    """Slips of one step, as against those that are made wherever the step occurs."""
    masks = slips()["masks-from-left"]
    return [
        slip("session1-exp2-xor", "TA11 with EXP2's last byte as ⊕", ta11=_exp2_xor),
        slip(
            "session1-unchained",
            "TA11 without chaining in BL1",
            ta11=lambda work, root, seed: core(False, False)(work, root, work.exp2(seed)),
        ),
        slip(
            "session2-decrypting",
            "TA21 with decryption for encryption",
            ta21=lambda work, root, seed: core(True, True)(work, root, work.exp2(seed[::-1])),
        ),
        slip(
            "session2-exp2-xor",
            "TA21 with EXP2's last byte as ⊕",
            ta21=lambda work, root, seed: _exp2_xor(work, root, seed[::-1]),
        ),
        slip("session1-digit", "a digit of session key 1 wrong", ta11=_mistyped("ta11")),
        slip("session2-digit", "a digit of session key 2 wrong", ta21=_mistyped("ta21")),
        slip("key1-masks", "TA12's masks counted from the left", ta12=_split("ta12", masks)),
        slip("d-digit", "a digit of D wrong", tb4=_mistyped("tb4")),
        slip("o-exp2-xor", "TA41 with EXP2's last byte as ⊕", ta41=_exp2_xor),
        slip("o-digit", "a digit of O wrong", ta41=_mistyped("ta41")),
        slip("g-digit", "a digit of G wrong", tb7=_mistyped("tb7")),
    ]


# Slips of sealing's table that make the keys wrong.
SHARED = (
    "ta21-unreversed",
    "ta21-digits",
    "ta11-reversed",
    "sessions-exchanged",
    "ta22-reversed",
    "ta12-reversed",
    "rands-exchanged",
    "rand1-twice",
    "rand2-twice",
    "rso-for-rs",
    "ta12-under-root",
    "masks-from-left",
    "masks-low-first",
    "key-leftmost",
    "key-middle",
    "tb4-sum",
    "d-key1",
    "d-key2",
    "rs-for-rso",
    "ta41-reversed",
    "g-x16",
    "g-zeros",
    "exp2-xor",
    "exp2-zero",
    "exp1-before",
    "unchained-in-keys",
    "decrypting-in-keys",
    "decrypting-unchained-in-keys",
    "sides-both",
    "sides-other",
)


def _slipped(of: Exam) -> Iterator[KeyFile]:
    """Each slip of the keys; the book is sealed under what they lead to."""
    made = [("one step", one) for one in _one_step()]
    made += [("throughout", slips()[name]) for name in SHARED]
    for group, one in made:
        keys = altered(one).recipe(of.sitting)
        if keys != of.keys:
            book = RIGHT.sealed_book(keys.ring, of.entries)
            values = values_of(keys)
            yield planted(of, one.name, group, one.mistake, values, book, made_by=(one.name,))


def _several(of: Exam) -> Iterator[KeyFile]:
    """A slip on the way from a wrong value, and slips in two branches."""
    steps = {one.name: one for one in _one_step()}
    steps.update(slips())
    for names in (
        ("session1-digit", "ta12-reversed"),
        ("session1-exp2-xor", "d-key1"),
        ("session2-digit", "tb4-sum"),
        ("ta21-unreversed", "o-exp2-xor"),
        ("ta22-reversed", "g-x16"),
        ("session1-digit", "o-digit", "g-digit"),
    ):
        made = [steps[name] for name in names]
        keys = altered(*made).recipe(of.sitting)
        book = RIGHT.sealed_book(keys.ring, of.entries)
        mistake = "; ".join(one.mistake for one in made)
        yield planted(
            of, "+".join(names), "several", mistake, values_of(keys), book, made_by=names
        )


def _edited(of: Exam) -> Iterator[KeyFile]:
    """Files that don't fit their book, or in which values stand wrongly."""
    model = values_of(of.keys)
    book = of.sealed

    def plant(name: str, mistake: str, values: Values, sealed: bytes, say: str = "") -> KeyFile:
        return planted(of, name, "edited", mistake, values, sealed, say=say)

    def mistyped(name: str) -> Values:
        return {**model, name: bytes([model[name][0] ^ 0x10]) + model[name][1:]}

    def exchanged(one: str, other: str) -> Values:
        return {**model, one: model[other], other: model[one]}

    def under(**keys: bytes) -> bytes:
        return RIGHT.sealed_book(of.ring._replace(**keys), of.entries)

    other_d = bytes(range(0x30, 0x3A))
    yield plant("right", "nothing", model, book, "all right")
    yield plant(
        "session1-miscopied",
        "a digit of session key 1 wrong in the file only",
        mistyped("session key 1"),
        book,
        "what is after it is right under the model: only session key 1 costs",
    )
    yield plant("d-miscopied", "a digit of D wrong in the file only", mistyped("D"), book)
    yield plant("o-miscopied", "a digit of O wrong in the file only", mistyped("O"), book)
    yield plant(
        "d-unexplained",
        "another D, which nothing explains, and kind 1 sealed under it",
        {**model, "D": other_d},
        under(d=other_d),
        "no slip is claimed for D",
    )
    yield plant(
        "d-right-book-wrong",
        "D is right, but kind 1 is sealed under another",
        model,
        under(d=other_d),
        "the entries of kind 1 are wrong under the model and under the candidate's keys",
    )
    yield plant(
        "o-right-book-wrong",
        "O is right, but kinds 2 to 4 are sealed under G",
        model,
        RIGHT.sealed_book(of.ring._replace(o=of.ring.g), of.entries),
        "G for O in the book",
    )
    yield plant(
        "response-key-exchanged",
        "response 1 and key 1 exchanged",
        exchanged("response 1", "key 1"),
        book,
        "both have another's length",
    )
    yield plant(
        "keys-exchanged",
        "key 1 and key 2 exchanged: D is the same",
        exchanged("key 1", "key 2"),
        book,
    )
    yield plant(
        "sessions-miscopied",
        "the session keys exchanged in the file only",
        exchanged("session key 1", "session key 2"),
        book,
    )
    yield plant("d-o-miscopied", "D and O exchanged in the file", exchanged("D", "O"), book)
    for name, kept in (
        ("only-d", ("D",)),
        ("only-sessions", ("session key 1", "session key 2")),
        ("only-responses", ("response 1", "response 2")),
        ("no-ring", NAMES[:6]),
    ):
        some = {one: model[one] for one in kept}
        yield plant(name, f"only {', '.join(kept)}", some, book, "nothing is said of the others")
    yield plant("none", "an empty file", {}, book, "nothing is said of any value")
    seen = values_of(slips_keys(of, "tb4-sum"))
    yield plant(
        "only-d-wrong",
        "only D, as a byte sum, and the entries of kind 1 under it",
        {"D": seen["D"]},
        under(d=seen["D"]),
    )


def slips_keys(of: Exam, name: str) -> Keys:
    """A recipe worked with one slip."""
    return altered(slips()[name]).recipe(of.sitting)


def _forms(of: Exam) -> Iterator[KeyFile]:
    """The right values, or nearly, in other dresses."""
    model = values_of(of.keys)
    text = text_of(model).decode()

    def plant(name: str, done: str, content: str, say: str, encoding: str = "utf-8") -> KeyFile:
        made = content.encode(encoding)
        return planted(of, name, "forms", done, model, of.sealed, text=made, say=say)

    alike, odd = "read alike", "read, or the line is named"
    spaced = "".join(f"{name} = {value.hex(' ')}\n" for name, value in model.items())
    yield plant("crlf", "0d 0a line ends", text.replace("\n", "\r\n"), alike)
    yield plant("byte-order-mark", "a byte order mark in front", text, alike, "utf-8-sig")
    yield plant("utf-16", "UTF-16", text, alike, "utf-16")
    yield plant("upper", "capital letters", text.upper(), alike)
    yield plant("lower", "small letters", text.lower(), alike)
    yield plant("spaced", "spaces between bytes", spaced, alike)
    yield plant("0x", "0x in front of the values", text.replace("= ", "= 0x"), alike)
    yield plant("tight", "no spaces around =", text.replace(" = ", "="), alike)
    yield plant("comments", "comments", f"# candidate 17\n\n{text}# end\n", alike)
    yield plant("joined-names", "names in one word", text.replace("key ", "key"), odd)
    yield plant("colons", "colons for =", text.replace(" =", ":"), odd)
    yield plant("reordered", "the lines backwards", "".join(text.splitlines(True)[::-1]), alike)
    for name, done, content, say in (
        ("unknown-name", "a name that is none", text + "E = 00\n", "the line is named"),
        ("twice", "D twice, with two values", text + f"D = {'00' * 10}\n", "the line is named"),
        ("short", "D without its last byte", _cut_value(text, "D", -2), "both lengths are named"),
        ("odd", "D without its last digit", _cut_value(text, "D", -1), "the odd digit is named"),
        ("letter", "the letter O in D", _lettered(text), "the word is named"),
    ):
        made = {one: value for one, value in model.items() if one != "D"}
        yield planted(
            of, name, "bad", done, made, of.sealed, text=content.encode(), say=f"{say}, no silent 0"
        )


def _cut_value(text: str, name: str, end: int) -> str:
    """A text in which a value has lost digits at its end."""
    return "".join(
        f"{one[:end]}\n" if one.startswith(f"{name} ") else f"{one}\n" for one in text.splitlines()
    )


def _lettered(text: str) -> str:
    """A text with a letter O for a digit in D."""
    return "".join(
        f"{one[:10]}O{one[11:]}\n" if one.startswith("D ") else f"{one}\n"
        for one in text.splitlines()
    )


def _one_sided(of: Exam) -> Iterator[KeyFile]:
    """A half that did not run, written down all the same."""
    model = values_of(of.keys)
    both = values_of(RIGHT.recipe(of.sitting._replace(sides=3)))
    other = "2" if of.sitting.sides == 1 else "1"
    named = (f"session key {other}", f"response {other}", f"key {other}")
    zeros = {f"response {other}": bytes(4), f"key {other}": bytes(10)}
    yield planted(
        of,
        "other-half-worked",
        "one side",
        "the half that did not run worked as well, D right",
        {**model, **{name: both[name] for name in named}},
        of.sealed,
        say=f"side {other} did not run: its values are not asked for",
    )
    yield planted(
        of,
        "other-half-zeros",
        "one side",
        "the zeros of the half that did not run written down",
        {**model, **zeros},
        of.sealed,
        say="these zeros are not asked for",
    )


def key_files() -> Iterator[KeyFile]:
    """Every planted file of keys."""
    for of in exams():
        yield from _slipped(of)
    for name in ("network", "radio"):
        yield from _one_sided(exam(name))
    of = exam("both")
    yield from _several(of)
    yield from _edited(of)
    yield from _forms(of)
