"""A marking as plain data: what it takes and gives can be sent to another process."""

from __future__ import annotations

import multiprocessing
import os
import pickle
import unittest
from hashlib import sha256
from unittest import mock

from common import CLASS, Case
from taa1 import Refused
from taa1_desk.command.job import Job, marked
from taa1_desk.command.mark import to_see_to
from taa1_desk.command.pages import pages
from taa1_desk.engine import RefusedFile
from taa1_desk.problems import Problem


def sample(**more: object) -> Job:
    """The sample class."""
    hand_ins = (str(CLASS / "ann.book"), str(CLASS / "ben.book"))
    job = Job(str(CLASS / "sitting.txt"), str(CLASS / "model.txt"), hand_ins, names=str(CLASS / "names.txt"))
    return job._replace(**more)  # type: ignore[arg-type]


def silent(done: int, of: int) -> None:
    """Nobody looks on."""


class Sent(Case):
    @mock.patch.dict(os.environ, SOURCE_DATE_EPOCH="1500000000")
    def test_outcome_of_another_process(self) -> None:
        own = marked(sample(), silent)
        with multiprocessing.get_context("spawn").Pool(1) as pool:
            sent = pool.apply(marked, (sample(), silent))
        self.assertEqual(pages(sent), pages(own))
        self.assertEqual(list(to_see_to(sent)), list(to_see_to(own)))
        self.assertEqual((sent.digests, sent.found, sent.origin), (own.digests, own.found, own.origin))
        self.assertEqual(own.origin.made, "2017-07-14T02:40:00Z")

    def test_problems(self) -> None:
        for problem in (
            Problem("one"), Problem("one", "two"), RefusedFile("a file", Refused(6, 2)),
            RefusedFile("a file", Refused(11), "a length"),
        ):
            sent = pickle.loads(pickle.dumps(problem))
            self.assertEqual(str(sent), str(problem))
            self.assertEqual(getattr(sent, "lines", ()), getattr(problem, "lines", ()))
        self.assertEqual(str(Problem("one", "two")), "one\ntwo")
        self.assertEqual(
            str(RefusedFile("a", Refused(11), "b")), "a: refused 11 (input of a wrong length): b"
        )

    def test_progress(self) -> None:
        told = []
        marked(sample(), lambda done, of: told.append((done, of)))
        self.assertEqual(told, [(0, 2), (1, 2), (0, 0)])

    def test_digests(self) -> None:
        read = marked(sample(), silent).digests
        names = ("sitting.txt", "model.txt", "names.txt", "ann.book", "ann.keys", "ben.book", "ben.keys")
        self.assertEqual(
            read, {str(CLASS / name): sha256((CLASS / name).read_bytes()).hexdigest() for name in names}
        )


if __name__ == "__main__":
    unittest.main()
