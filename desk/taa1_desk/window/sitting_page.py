# SPDX-License-Identifier: MIT
"""The first page: the sitting and its model book, points, the setter's words, and the paper."""

from __future__ import annotations

import tkinter as tk
from functools import partial
from tkinter import filedialog, messagebox, ttk

from ..command import day as at
from .app import App, Page
from .day import Day
from .widgets import AIR, Message, buttons, field, fill

SIDES = {"drawn by lot": "", "1: the radio proves itself": "1", "2: the network does": "2", "3: both do": "3"}
FIELDS = {"title": "Title", "date": "Date", "kinds": "Kinds, as 1,1,2,5", "entries": "or how many entries"}
WORDS = "The setter's words, which stand on the paper: time, aids, how to hand in"
SURE = "The worked solution has every answer. Make it, and open it on this screen?"


class SittingPage(Page):
    """Draw or choose, set points and words, print."""

    title = "Sitting and paper"

    def __init__(self, app: App) -> None:
        super().__init__(app)
        above, words, below = ttk.Frame(self), ttk.Labelframe(self, text=WORDS), ttk.Frame(self)  # as the tab key goes
        below.pack(side="bottom", fill="x", pady=(AIR, 0))
        prints = {"Question paper": "paper", "Answer form": "form", "Worked solution…": "solution"}
        self.buttons = buttons(below, {text: partial(self._print, part) for text, part in prints.items()})
        self.printed = Message(below)
        self.printed.pack(side="left", fill="x", expand=True)
        words.pack(side="bottom", fill="both", expand=True, pady=(AIR, 0))
        self.words = tk.Text(words, height=3, wrap="word", relief="flat", padx=4, pady=4, font="TkTextFont")
        self.words.bind("<FocusOut>", lambda event: self._set_words())
        self.words.bind("<Tab>", "tk::TabToWindow [tk_focusNext %W]; break")  # as in the other fields
        self.words.pack(fill="both", expand=True)
        above.pack(fill="x")
        self.halves = [ttk.Labelframe(above, text=text) for text in ("Sitting and model book", "Points")]
        self._drawing(self.halves[0])
        self._points(self.halves[1])
        above.columnconfigure(0, weight=1)

    def _drawing(self, frame: ttk.Labelframe) -> None:
        frame.columnconfigure(1, weight=1)
        self.fields = {name: field(frame, row, 0, text) for row, (name, text) in enumerate(FIELDS.items())}
        ttk.Label(frame, text="Sides").grid(row=4, column=0, sticky="w")
        self.sides = ttk.Combobox(frame, values=list(SIDES), state="readonly", width=12)
        self.sides.grid(row=4, column=1, sticky="we", pady=2)
        self.sides.current(0)
        takes = {"Take a sitting…": partial(self._choose, at.SITTING), "a book…": partial(self._choose, at.MODEL)}
        self.buttons[:0] = buttons(row := ttk.Frame(frame), {"Draw": self._draw, **takes})
        row.grid(row=5, column=0, columnspan=2, sticky="w", pady=(AIR, 0))
        self.drawn = Message(frame)
        self.drawn.grid(row=6, column=0, columnspan=2, sticky="we", pady=(AIR, 0))

    def _points(self, frame: ttk.Labelframe) -> None:
        lines = Day("").points()
        high = -(-len(lines) // 3)  # in three columns
        self.points = {line.name: field(frame, at % high, 2 * (at // high), line.name, 5) for at, line in enumerate(lines)}
        self.scheme = Message(frame)
        self.scheme.grid(row=high, column=0, columnspan=6, sticky="we", pady=(AIR, 0))
        for line in lines:
            self.points[line.name].bind("<FocusIn>", lambda event, what=line.what: self._hint(what))  # type: ignore[misc]
            for keys in ("<FocusOut>", "<Return>"):
                self.points[line.name].bind(keys, lambda event: self._set_points())

    def fit(self) -> None:
        """The halves stand beside each other, or one below the other where that is too wide."""
        wide = sum(each.winfo_reqwidth() for each in self.halves) + 4 * AIR > self.canvas.winfo_width()
        for at_, each in enumerate(self.halves):
            each.grid(row=at_ * wide, column=at_ * (not wide), sticky="nsew", padx=(AIR * at_ * (not wide), 0))
        self.update_idletasks()
        super().fit()

    def load(self) -> None:
        """Fields have what the files say; what is there is not drawn again."""
        heading = self.day.heading()
        for name, entry in self.fields.items():
            fill(entry, heading.get(name, entry.get() if entry.instate(["!disabled"]) else ""), name not in heading)
        self.sides.current(int(heading.get("sides", 0 if "disabled" in self.sides.state() else self.sides.current())))
        self.sides.configure(state="disabled" if "sides" in heading else "readonly")
        self._show_points()
        if (words := self.day.text(at.WORDS).rstrip()) != self.words.get("1.0", "end").rstrip():
            self.words.delete("1.0", "end")
            self.words.insert("1.0", words)
        self.words.edit_modified(False)
        both = {"sides", "kinds"} <= set(heading)
        for each, off in zip(self.buttons, (both, "sides" in heading, "kinds" in heading, *[not both] * 3)):
            each.state(["disabled" if off else "!disabled"])

    def _draw(self) -> None:
        given = {name: entry.get() for name, entry in self.fields.items()}
        given["sides"] = SIDES[self.sides.get()]
        self.app.command(self.drawn, "Drawing", lambda: self.day.draw(given), lambda done: None)

    def _choose(self, name: str) -> None:
        other = filedialog.askopenfilename(title=f"A file to take as the day's {name}")
        if other and self.app.tell(self.drawn, lambda: self.day.choose(name, other)):
            self.app.load()

    def _hint(self, what: str) -> None:
        if str(self.scheme.cget("style")) != "Alarm.TLabel":  # what is wrong stays until it is mended
            self.scheme.say(what, style="Quiet")

    def _show_points(self) -> None:
        self.shown = {line.name: line.value for line in self.day.points()}
        for name, value in self.shown.items():
            fill(self.points[name], value)

    def _set_points(self) -> None:
        for name, entry in self.points.items():
            if entry.get().strip() != self.shown[name]:
                if not self.app.tell(self.scheme, partial(self.day.put, at.SCHEME, name, entry.get())):
                    return
        self._show_points()  # some lines follow others

    def _set_words(self) -> None:
        text = self.words.get("1.0", "end").strip()
        if self.words.edit_modified() and self.app.tell(self.printed, lambda: self.day.write(at.WORDS, f"{text}\n")):
            self.words.edit_modified(False)

    def keeps(self) -> None:
        """Points and words."""
        self._set_points()
        self._set_words()

    def _print(self, part: str) -> None:
        page = at.SOLUTION if part == "solution" else at.PAPER, f"{part}.html"
        opens = lambda done: done.status or self.app.show(*page)  # noqa: E731
        if part != "solution" or messagebox.askyesno(message=SURE, default="no"):
            self.app.command(self.printed, "Making the pages", partial(self.day.paper, part), opens)
