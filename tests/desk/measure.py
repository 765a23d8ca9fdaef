"""Times the marking of a large class, in processor time: measure.py [CANDIDATES [ENTRIES]].

Last come the seconds of marking alone, without the slips that are tried and with them. Each candidate's book is the model under one slip of the table in turn, and every fourth
under a slip inside the cipher, everywhere or in TA61 alone; one in seven is shuffled, and
one in five has half of its entries replaced by noise.
"""

from __future__ import annotations

import random
import resource
import subprocess
import sys
import tempfile
import time
from pathlib import Path
from typing import Any
from unittest import mock

ROOT = Path(__file__).resolve().parents[2]
sys.path[:0] = [str(ROOT / folder) for folder in ("python", "desk")]

from taa1_desk.command.inputs import read_sitting  # noqa: E402
from taa1_desk.engine import Engine  # noqa: E402
from taa1_desk.handed import HandIn  # noqa: E402
from taa1_desk.marking.cipher_slips import CIPHER_SLIPS  # noqa: E402
from taa1_desk.marking.sealed import SealedMarker  # noqa: E402
from taa1_desk.marking.slipped import work  # noqa: E402
from taa1_desk.marking.slips import SLIPS  # noqa: E402
from taa1_desk.marking.trials import Trial, cipher_trials  # noqa: E402
from taa1_desk.marking.tried import Tried  # noqa: E402
from taa1_desk.reading.sittings import sitting_ring  # noqa: E402
from taa1_desk.records import KINDS, SEALED, Entry  # noqa: E402

SITTING = ROOT / "samples" / "class" / "sitting.txt"
DRAW = random.Random(1)
MOST_NUMBER = {0: 0, 1: 31, 2: 0xFFFF}


def entry(kind: int) -> Entry:
    """An entry of a kind, drawn."""
    shape = KINDS[kind]
    number = DRAW.randint(0, MOST_NUMBER[shape.number]) if shape.number else None
    key = DRAW.randbytes(shape.key)
    return Entry(kind, DRAW.getrandbits(24), DRAW.getrandbits(16), key, number)


def in_cipher(marker: SealedMarker) -> list[dict[int, bytes]]:
    """The records under each slip inside the cipher, everywhere and in TA61 alone."""
    tried = marker.book.tried

    def record(trial: Trial, at: int) -> bytes:
        head, model = marker.model[at], tried.work.truth[at]
        made = {part: tried._made(trial, (at, part)) or model[part] for part in model}
        return bytes(head[:1] + made["identity"] + made["text"][1:])

    trials = [trial for slip in CIPHER_SLIPS for trial in list(cipher_trials(slip))[:2]]
    return [{at: record(trial, at) for at in range(len(marker.model))} for trial in trials]


def untried(tried: Tried, found: Any, *others: Any, **options: Any) -> Any:
    """`Tried.more` without what is tried."""
    return found


def marking(engine: Engine, plain: bytes, books: list[bytes]) -> float:
    """The processor time of marking these books, with what is worked once for a class."""
    start = time.process_time()
    sitting = read_sitting(str(SITTING))
    marker = SealedMarker(engine, sitting, sitting_ring(engine, sitting, SITTING.name), plain)
    for book in books:
        marker.mark(HandIn("book", book))
    return time.process_time() - start


def main() -> None:
    """Makes the class, and prints how long its marking takes."""
    candidates, entries = ([int(arg) for arg in sys.argv[1:]] + [1000, 100][len(sys.argv) - 1 :])[:2]
    engine = Engine()
    sitting = read_sitting(str(SITTING))
    plain = b"".join(entry(1 + at % len(KINDS)).data for at in range(entries))
    marker = SealedMarker(engine, sitting, sitting_ring(engine, sitting, SITTING.name), plain)
    model, ciphers = marker.model, in_cipher(marker)
    slips = list(work(engine, sitting, plain))
    with tempfile.TemporaryDirectory() as folder:
        (Path(folder) / "plain").write_bytes(plain)
        names = []
        for number in range(candidates):
            altered = slips[number % len(slips)].records
            if number % 4 == 3:
                altered = ciphers[number // 4 % len(ciphers)]
            records = [altered.get(at, record) for at, record in enumerate(model)]
            if number % 7 == 0:
                DRAW.shuffle(records)
            if number % 5 == 0:
                records = [r if DRAW.random() < 0.5 else DRAW.randbytes(SEALED) for r in records]
            names.append(Path(folder) / f"{number}.book")
            names[-1].write_bytes(b"".join(records))
        command = [sys.executable, *map(str, (ROOT / "taa1", "mark", SITTING, Path(folder) / "plain", *names))]
        what = f"{candidates:,} books of {entries:,} entries, {len(SLIPS)} slips and those that are tried"
        pages = ["--html", str(Path(folder) / "pages")]
        ways: dict[str, list[str]] = {"text": [], "pages": pages}
        for form, more in ways.items():
            start = resource.getrusage(resource.RUSAGE_CHILDREN)
            subprocess.run([*command, *more], stdout=subprocess.DEVNULL, check=True)
            end = resource.getrusage(resource.RUSAGE_CHILDREN)
            spent = end.ru_utime + end.ru_stime - start.ru_utime - start.ru_stime
            print(f"{what}, as {form}: {spent:.1f} s")
        books = [name.read_bytes() for name in names]
        with mock.patch.object(Tried, "more", untried):
            without = marking(engine, plain, books)
        tried = marking(engine, plain, books)
        print(f"marking alone: {without:.1f} s without what is tried, {tried:.1f} s with it")


if __name__ == "__main__":
    main()
