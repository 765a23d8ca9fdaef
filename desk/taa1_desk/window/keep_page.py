# SPDX-License-Identifier: MIT
"""The last page: the class's page, the marking aid and the table; record, verify, appeal."""

from __future__ import annotations

import tkinter as tk
from tkinter import ttk
from typing import Callable

from ..command import day as at
from ..command.beside import Done
from ..command.job import APPEAL, INDEX
from .app import App, Page
from .day import Command
from .widgets import AIR, Message, buttons


class KeepPage(Page):
    """Look, keep, check again."""

    title = "Class and record"

    def __init__(self, app: App) -> None:
        super().__init__(app)
        class_, record, appeal = (ttk.Labelframe(self, text=text) for text in ("The class", "The record", "An appeal"))
        for row in (class_, record, appeal):
            row.pack(fill="x", pady=(0, AIR))
        pages = {"Class's page": lambda: self._open(at.PAGES, INDEX), "Table (CSV)": lambda: self._open(at.MARKS)}
        buttons(class_, {**pages, "Marking aid for the argument": lambda: self.run("Making it", self.day.argue, at.ARGUE)})
        buttons(record, {"Write the record": lambda: self.run("Marking for the record", self.day.record)})
        buttons(record, {"Verify the record": lambda: self.run("Marking again", self.day.verify)})
        ttk.Label(appeal, text="The reason").pack(side="left", padx=(0, AIR))
        self.reason = ttk.Entry(appeal, width=20)
        self.reason.pack(side="left", fill="x", expand=True, padx=(0, AIR))
        self.reason.bind("<Return>", lambda event: self._compare())
        buttons(appeal, {"Mark again and compare": self._compare})
        self.message = Message(self)
        self.message.pack(fill="x")
        self.wrote = tk.Text(self, wrap="word", relief="flat", padx=AIR, pady=AIR, height=4, font="TkTextFont", state="disabled")
        self.wrote.pack(fill="both", expand=True)

    def _open(self, *names: str) -> None:
        there = self.day.has(names[0])
        self.message.say("" if there else f"{names[0]}: not there yet: mark the hand-ins first (page 2)", style="Alarm")
        if there:
            self.app.show(*names)

    def _compare(self) -> None:
        self.run("Marking again", lambda: self.day.appeal(self.reason.get()), at.PAGES, APPEAL)

    def run(self, what: str, lines: Callable[[], list[Command]], *page: str) -> None:
        """Runs commands, shows what they write, and opens a page."""

        def ended(done: Done) -> None:
            said = self.day.marked(done)
            if done.outcome or done.wrote:  # the last line of verify says how it came out
                self.message.say(*(said if done.outcome else done.wrote[-1:]), style="" if done.outcome or not done.status else "Alarm")
            self.wrote.configure(state="normal")
            self.wrote.delete("1.0", "end")
            self.wrote.insert("1.0", "\n".join((*(done.said if done.outcome else ()), *done.wrote)))
            self.wrote.configure(state="disabled")
            if page and (done.outcome or not done.status):
                self.app.show(*page)

        self.app.command(self.message, what, lines, ended)
