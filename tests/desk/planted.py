"""Candidates' hand-ins with planted mistakes, made by the reference working alone.

`sealed_books`, `opened_books`, `key_files` and `hand_ins` yield them, alike in each run. Each says
what was done wrong, in a custodian's words, and what a marker must say of it.
"""

from __future__ import annotations

from exams import MOST, SEALED, Exam, exam, exams
from planted_files import HandIn, hand_ins
from planted_keys import KeyFile, key_files
from planted_opened import OpenedBook, opened_books
from planted_sealed import SealedBook, sealed_books

__all__ = [
    "MOST",
    "SEALED",
    "Exam",
    "HandIn",
    "KeyFile",
    "OpenedBook",
    "SealedBook",
    "exam",
    "exams",
    "hand_ins",
    "key_files",
    "opened_books",
    "sealed_books",
]
