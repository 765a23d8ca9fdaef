# SPDX-License-Identifier: MIT
"""The second page: a table of the candidates, and the points of one's argument."""

from __future__ import annotations

from functools import partial
from tkinter import filedialog, font, ttk
from typing import Any, Callable, Optional, Union

from ..command import day as at
from ..command.beside import Done
from ..points import said
from ..reading.handin import READ_AS
from ..showing.rows import Row
from .app import App, Page
from .day import AS_IT_LOOKS
from .widgets import AIR, ALARM, ROWS, Message, buttons, field, fill

COLUMNS = {  # the head, how many letters it has at least, and its share of what is left
    "name": ("candidate", 9, 2), "file": ("file", 6, 1), "read": ("read as, or why not", 10, 4), "points": ("points", 6, 0),
    "argument": ("argument", 9, 0), "total": ("total", 6, 0), "passed": ("passed", 7, 0),
}  # fmt: skip
HINT = "Enter or a double click: the candidate's page. F2: the name. F3: read the file otherwise. F4: the argument."


class HandInsPage(Page):
    """Take in, mark, decide, give the argument's points."""

    title = "Hand-ins and argument"

    def __init__(self, app: App) -> None:
        super().__init__(app)
        takes = {"Take in a folder of hand-ins…": self._take_in, "Take a list of names…": self._take_names}
        buttons(above := ttk.Frame(self), {**takes, "Mark (F5)": self.mark})
        above.pack(fill="x", pady=(0, AIR))
        self.message, self.changed, self.says, hint = (Message(self) for _ in range(4))
        self.message.pack(fill="x")
        self.changed.pack(side="bottom", fill="x")
        self.table = ttk.Treeview(self, columns=list(COLUMNS), show="headings", selectmode="browse", height=ROWS)
        self.rubric, self.parts = ttk.Labelframe(self), dict[str, ttk.Entry]()
        self.whose, self.filled = "", dict[str, str]()  # the row of the fields, and what they were filled with
        self.rubric.pack(side="bottom", fill="x", pady=(AIR, 0))
        self.says.pack(side="bottom", fill="x")
        hint.pack(side="bottom", fill="x")
        hint.say(HINT, style="Quiet")
        bar = ttk.Scrollbar(self, command=self.table.yview)
        self.table.configure(yscrollcommand=bar.set)
        bar.pack(side="right", fill="y")
        self.table.pack(fill="both", expand=True)
        self.table.tag_configure("look", foreground=ALARM)
        keys = {"Double-1": self._open, "Return": self._open, "F2": self._rename, "F3": self._reread, "F4": self._argue}
        for key, does in {**keys, "<TreeviewSelect>": self.picked, "Configure": self.fit}.items():
            self.table.bind(f"<{key}>", lambda event, does=does: does())  # type: ignore[misc]
        for each in (self.table, bar):  # who scrolls has left the field over a cell
            each.bind("<Button>", lambda event: self.table.focus_set())
        app.root.bind("<F5>", lambda event: self.mark())

    @property
    def row(self) -> Optional[Row]:
        """The row that is selected."""
        return self._row_of(*self.table.selection())

    def _row_of(self, *keys: str) -> Optional[Row]:
        return next((row for row in self.day.rows if row.key in keys), None)

    def pick(self, key: str) -> None:
        """Selects a row, and shows it."""
        self.table.selection_set(key)
        self.table.focus(key)
        self.table.see(key)

    def load(self) -> None:
        """The rows of the last marking, and fields for the parts that the scheme has points for."""
        parts, before = self.day.parts(), self.table.selection()
        if list(self.parts) != [part.name for part in parts]:
            self.whose = ""
            for child in self.rubric.winfo_children():
                child.destroy()
            places = [(number // 3, 2 * (number % 3)) for number in range(len(parts))]  # three beside each other
            texts = {part.name: f"{part.name}, of {said(part.of)}" for part in parts}
            self.parts = {name: field(self.rubric, *place, text, 8) for place, (name, text) in zip(places, texts.items())}
            for entry in self.parts.values():
                entry.bind("<Return>", lambda event: self.keep(True))
                entry.bind("<FocusOut>", lambda event: self.keep(False))
        self.table.delete(*self.table.get_children())
        for row in self.day.rows:
            values = [" ".join(row.cells.get(name, "").split()) for name in COLUMNS]
            self.table.insert("", "end", iid=row.key, values=values, tags=["look"] * row.look)
        keys = [row.key for row in self.day.rows]
        for key in [key for key in keys if key in before] or keys[:1]:
            self.pick(key)
        self.picked()

    def fit(self) -> None:
        """Gives each column its width, and what is left to those that grow."""
        super().fit()
        letter, left = font.nametofont("TkHeadingFont", self).measure("0"), self.table.winfo_width() - 2
        left -= sum(letters * letter + AIR for _, letters, _ in COLUMNS.values())
        shares = sum(grows for _, _, grows in COLUMNS.values())
        for name, (head, letters, grows) in COLUMNS.items():
            anchor: Any = "w" if grows else "center" if name == "passed" else "e"
            self.table.heading(name, text=head, anchor=anchor)
            width = letters * letter + AIR + max(left, 0) * grows // shares
            self.table.column(name, anchor=anchor, width=width, stretch=False)

    def look(self) -> None:
        """What changed since the last marking."""
        self.changed.say(self.day.changed(), style="Alarm")

    def picked(self) -> None:
        """All that is to be said of the row, and its argument; what was refused stays in its field."""
        self.keeps()
        row = self.row
        self.says.say(*(row.says[:4] if row else ()), style="Alarm" if row and row.look else "")
        whose = f"The argument of {row.name}" if row and row.sheet else "The argument"
        self.rubric.configure(text=f"{whose}: points as 2, 1/2 or 1.5, full, half or none; Enter goes on to the next")
        if not row or row.key != self.whose or self.filled:
            self.whose, given = (row.key, row.given) if row else ("", {})
            self.filled = {name: given.get(name, "") for name in self.parts}
            for name, entry in self.parts.items():
                fill(entry, self.filled[name], bool(row and row.sheet))

    def _take_in(self) -> None:
        folder = filedialog.askdirectory(title="A folder of hand-ins, which is copied into the day")
        if folder and self.app.tell(self.message, lambda: self.day.take_in(str(folder))):
            self.message.say("The hand-ins are taken in.")
        self.app.look()

    def _take_names(self) -> None:
        file = filedialog.askopenfilename(title="A list of names: a line FILE = Name for each hand-in")
        if file and self.app.tell(self.message, lambda: self.day.choose(at.NAMES, file)):
            self.message.say("The names are taken in.")
        self.app.look()

    def mark(self) -> None:
        """Marks the folder, and shows what was marked."""

        def marked(done: Done) -> None:
            self.message.say(*self.day.marked(done), style="" if done.outcome else "Alarm")
            self.table.focus_set()

        self.app.turn(self)
        self.app.command(self.message, "Marking", self.day.mark, marked)

    def _open(self) -> None:
        if self.row and self.row.page:
            self.app.show(at.PAGES, self.row.page)

    def _argue(self) -> None:
        for entry in list(self.parts.values())[:1]:
            entry.focus_set()
            entry.select_range(0, "end")

    def keeps(self) -> None:
        """What was typed over a cell, and of an argument."""
        for each in self.table.winfo_children():
            each.event_generate("<<Keep>>")
        self.keep(False)

    def keep(self, goes_on: bool) -> None:
        """Keeps the points typed for whom the fields are of, though a click has selected another; the sums follow."""
        row, given = self._row_of(self.whose), {name: entry.get() for name, entry in self.parts.items()}
        if row and given != self.filled:
            self.filled = given if self.app.tell(self.message, partial(self.day.set_argument, row, given)) else {}
            for name, cell in (self._row_of(row.key) or row).cells.items():
                self.table.set(row.key, name, cell)
            self.app.look()
        if row and given == self.filled and goes_on:
            self.pick(self.table.next(row.key) or row.key)
            self.picked()
            self._argue()

    def _rename(self) -> None:
        if self.row and self.row.sheet:
            entry = ttk.Entry(self.table)
            entry.insert(0, self.row.name)
            entry.select_range(0, "end")
            self._edit("name", entry, partial(self.day.set_name, self.row))

    def _reread(self) -> None:
        if self.row and self.row.sheet:
            choice = ttk.Combobox(self.table, values=[AS_IT_LOOKS, *READ_AS], state="readonly")
            choice.set(self.row.form or AS_IT_LOOKS)
            self._edit("read", choice, partial(self.day.set_form, self.row))
        elif self.row:
            self.message.say("This file was left out, so no form can be chosen: below the table stands why.")

    def _edit(self, column: str, widget: Union[ttk.Entry, ttk.Combobox], keep: Callable[[str], Any]) -> None:
        """Lays a field or a choice over a cell: Enter, or leaving it, keeps what it says, Escape does not."""
        before = widget.get()

        def end(keeps: bool) -> str:
            text, inside = widget.get(), str(self.tk.call("focus")).startswith(str(widget))
            widget.destroy()
            if keeps and text != before and self.app.tell(self.message, lambda: keep(text)):
                self.app.load()
            if inside:
                self.table.focus_set()
            return "break"

        self.table.see(self.table.selection()[0])
        x, y, wide, high = self.table.bbox(self.table.selection()[0], column) or (0, 0, 0, 0)
        widget.place(x=x, y=y, width=wide, height=high)
        widget.focus_set()
        for keys in ("<Return>", "<<ComboboxSelected>>", "<<Keep>>"):
            widget.bind(keys, lambda event: end(True))
        widget.bind("<Escape>", lambda event: end(False))
        within = f"{widget}."  # a choice's list is, and takes the keyboard
        widget.bind("<FocusOut>", lambda event: str(self.tk.call("focus")).startswith(within) or end(True))
