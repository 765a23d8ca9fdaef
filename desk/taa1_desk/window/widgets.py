# SPDX-License-Identifier: MIT
"""What the pages are made of: a plain theme, messages that wrap, buttons and fields."""

from __future__ import annotations

import tkinter as tk
from tkinter import font, ttk
from typing import Any, Callable

AIR = 8  # points between things
ROWS = 7  # of a table at least
LEAST, MOST = 8, 24  # the sizes of letters
BACK, RAISED, INK, QUIET, LINE, ALARM, PICKED = "#f6f5f2 #e9e6df #1c1c1c #5a5a5a #bdb9b0 #8f1d12 #2f5d8a".split()


def dress(root: tk.Tk) -> None:
    """A plain theme; Enter presses a button, as the space bar does."""
    style = ttk.Style(root)
    style.theme_use("clam")
    root.configure(background=BACK)
    style.configure(".", background=BACK, foreground=INK, bordercolor=LINE, lightcolor=BACK, darkcolor=BACK)
    style.configure("TButton", padding=(AIR, AIR // 2), background=RAISED, width=-4)
    style.map("TButton", background=[("disabled", BACK), ("active", LINE)], foreground=[("disabled", LINE)])
    for name in ("TEntry", "TCombobox"):
        style.configure(name, padding=3, fieldbackground="white")
        style.map(name, fieldbackground=[("disabled", BACK)], foreground=[("disabled", QUIET)])
        style.map(name, selectbackground=[("readonly", "white")], selectforeground=[("readonly", INK)])
    style.configure("TLabelframe", padding=AIR)
    style.configure("Treeview", fieldbackground="white", background="white")
    style.map("Treeview", background=[("selected", PICKED)], foreground=[("selected", "white")])
    style.configure("Treeview.Heading", padding=4, background=RAISED)
    style.configure("TScrollbar", background=RAISED, troughcolor="white")
    style.configure("TProgressbar", troughcolor="white", background=PICKED)
    style.configure("Quiet.TLabel", foreground=QUIET)
    style.configure("Alarm.TLabel", foreground=ALARM)
    style.configure("TNotebook.Tab", background=RAISED)
    style.map("TNotebook.Tab", background=[("selected", BACK)])
    root.bind_class("TButton", "<Return>", "event generate %W <space>")  # Tcl's: a dialog's are no objects of Python's


def set_letters(root: tk.Tk, size: int) -> int:
    """Makes all letters so large, and the rows of tables with them; the size that it is."""
    size = min(max(size, LEAST), MOST)
    for name in ("TkDefaultFont", "TkTextFont", "TkHeadingFont", "TkMenuFont"):
        font.nametofont(name, root).configure(size=size)
    high = font.nametofont("TkDefaultFont", root).metrics("linespace")
    ttk.Style(root).configure("Treeview", rowheight=high + AIR)
    ttk.Style(root).configure("TNotebook.Tab", padding=(high, AIR // 2))
    root.update_idletasks()
    left: list[tk.Misc] = [root]
    while left:  # fields and tables take the new size when they are set anew
        each = left.pop()
        left += each.winfo_children()
        if isinstance(each, ttk.Entry):
            each.configure(font="TkTextFont")
        elif isinstance(each, ttk.Treeview):
            each.configure(height=ROWS)
    return size


class Message(ttk.Label):
    """Sentences, which wrap in whatever width there is."""

    def __init__(self, parent: tk.Misc) -> None:
        """Says nothing at first."""
        super().__init__(parent, justify="left", anchor="w")
        self.bind("<Configure>", lambda event: self.configure(wraplength=max(event.width - 4, 100)))

    def say(self, *lines: str, style: str = "") -> None:
        """Says these lines, as they are: plain, Quiet or Alarm."""
        self.configure(text="\n".join(lines), style=f"{style}.TLabel" if style else "TLabel")


def buttons(parent: tk.Misc, does: dict[str, Callable[[], Any]]) -> list[ttk.Button]:
    """Buttons in a row."""
    made = [ttk.Button(parent, text=text, command=do) for text, do in does.items()]
    for each in made:
        each.pack(side="left", padx=(0, AIR))
    return made


def field(parent: tk.Misc, row: int, column: int, text: str, width: int = 0) -> ttk.Entry:
    """A field with its name before it, in a grid; one with a width is for numbers."""
    ttk.Label(parent, text=text).grid(row=row, column=column, sticky="w", padx=(0, AIR), pady=2)
    made = ttk.Entry(parent, width=width or 12, justify="right" if width else "left")
    made.grid(row=row, column=column + 1, sticky="w" if width else "we", padx=(0, 2 * AIR * bool(width)), pady=2)
    return made


def fill(entry: ttk.Entry, text: str, enabled: bool = True) -> None:
    """Puts a text into a field."""
    entry.state(["!disabled"])
    entry.delete(0, "end")
    entry.insert(0, text)
    entry.state(["!disabled" if enabled else "disabled"])
