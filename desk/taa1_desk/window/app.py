# SPDX-License-Identifier: MIT
"""The window: the day's folder above, its steps as pages, and how far the work is below."""

from __future__ import annotations

import tkinter as tk
import webbrowser
from functools import partial
from pathlib import Path
from tkinter import filedialog, font, ttk
from typing import Any, Callable, Optional, Sequence

from ..command import day as at
from ..command.beside import Done, Main, Progress, Work
from ..problems import Problem, shown
from . import widgets
from .day import Command, Day
from .widgets import AIR, Message, buttons

EVERY, LOOK = 100, 2000  # milliseconds between two looks at the work, and at the folder


class Page(ttk.Frame):
    """A page of the day, which scrolls where it is too high; below it stands what is missing."""

    title, whole = "", False  # whole: the day could be shown

    def __init__(self, app: App) -> None:
        self.app, self.holder = app, ttk.Frame(app.notebook)
        self.canvas = tk.Canvas(self.holder, highlightthickness=0, background=widgets.BACK)
        super().__init__(self.canvas, padding=AIR)
        self.bar = ttk.Scrollbar(self.holder, command=self.canvas.yview)
        self.canvas.configure(yscrollcommand=self.bar.set)
        self.canvas.pack(side="left", fill="both", expand=True)
        self.canvas.create_window(0, 0, anchor="nw", window=self, tags="page")
        self.canvas.bind("<Configure>", lambda event: self.after_idle(self.fit))
        self.next = Message(self)
        self.next.pack(side="bottom", fill="x", pady=(AIR, 0))

    def fit(self) -> None:
        """Takes the width that there is, and the height that it needs."""
        wide, high, needs = self.canvas.winfo_width(), self.canvas.winfo_height(), self.winfo_reqheight()
        self.canvas.itemconfigure("page", width=wide, height=max(high, needs))
        self.canvas.configure(scrollregion=(0, 0, wide, max(high, needs)))
        if needs > high:
            self.bar.pack(side="right", fill="y")
        else:
            self.bar.pack_forget()

    def see(self, widget: tk.Misc) -> None:
        """Scrolls to what has the keyboard."""
        top, high, seen = widget.winfo_rooty() - self.winfo_rooty(), self.winfo_height(), self.canvas.winfo_height()
        first, last = top - AIR, top + widget.winfo_height() + AIR
        if not self.canvas.canvasy(0) <= first <= last <= self.canvas.canvasy(0) + seen:
            self.canvas.yview_moveto(max(0, last - seen) / high)

    @property
    def day(self) -> Day:
        """The day that is open."""
        return self.app.day

    def keeps(self) -> None:
        """Keeps what was typed: a click on a button, or the window's end, leaves no field."""

    def load(self) -> None:
        """Shows the day as its folder has it: it was taken up, or work has ended."""

    def look(self) -> None:
        """Says what has changed; what somebody types stays as it is."""


class App:
    """The window."""

    def __init__(self, root: tk.Tk, folder: str, main: Main, pages: Sequence[Callable[[App], Page]]) -> None:
        self.root, self.main, self.day = root, main, Day(folder)
        self.work: Optional[Work] = None
        root.title("TAA1 examination")
        root.geometry("1024x700")
        root.protocol("WM_DELETE_WINDOW", self.close)
        widgets.dress(root)
        self.size = widgets.set_letters(root, abs(int(font.nametofont("TkDefaultFont", root).cget("size"))))
        head, foot = ttk.Frame(root, padding=AIR), ttk.Frame(root, padding=(AIR, AIR // 2))
        head.pack(side="top", fill="x")
        foot.pack(side="bottom", fill="x")
        smaller, larger = partial(self.letters, -2), partial(self.letters, 2)
        buttons(right := ttk.Frame(head), {"Open a day… (Ctrl+O)": self.open, "A−": smaller, "A+": larger})
        right.pack(side="right")
        self.where = ttk.Label(head, anchor="w")
        self.where.pack(side="left", fill="x", expand=True)
        self.doing = ttk.Label(foot, style="Quiet.TLabel")
        self.doing.pack(side="left")
        self.working = ttk.Frame(foot)  # is seen while work is under way
        self.bar = ttk.Progressbar(self.working, length=260)
        self.bar.pack(side="left", padx=AIR)
        buttons(self.working, {"End (Esc)": self.end})
        self.notebook = ttk.Notebook(root)
        self.notebook.pack(fill="both", expand=True, padx=AIR)
        self.pages = [page(self) for page in pages]
        keys: dict[str, Callable[[], Any]] = {"Control-o": self.open, "Escape": lambda: self.end()}
        keys.update({"Control-plus": larger, "Control-equal": larger, "Control-minus": smaller})
        for number, page in enumerate(self.pages, 1):
            self.notebook.add(page.holder, text=f"{number}  {page.title}")
            keys[f"Alt-Key-{number}"] = partial(self.turn, page)
        for key, does in keys.items():
            root.bind(f"<{key}>", lambda event, does=does: does())  # type: ignore[misc]
        root.bind("<FocusIn>", self._focus, add=True)
        self.notebook.bind("<<NotebookTabChanged>>", lambda event: self.look())
        self.load()
        self.look(LOOK)

    def turn(self, page: Page) -> None:
        """Shows a page, with the keyboard in it."""
        self.notebook.select(page.holder)
        self.root.update()  # what is not yet shown takes no keyboard
        page.next.tk_focusNext().focus_set()  # type: ignore[union-attr]

    def _focus(self, event: Any) -> None:
        for page in self.pages:
            if str(event.widget).startswith(f"{page}."):
                page.see(event.widget)

    def letters(self, more: int) -> None:
        """Makes letters larger or smaller."""
        self.size = widgets.set_letters(self.root, self.size + more)
        self.look()

    def open(self) -> None:
        """Takes another day up."""
        folder = filedialog.askdirectory(title="The day's folder: a new one, or that of an earlier day")
        if folder and self.work is None:
            self.keeps()
            before, self.day = self.day, Day(str(folder))
            if not before.folder and not any(map(self.day.has, (at.SCHEME, at.WORDS))):
                self.keeps()  # what was typed before there was a folder
            for each in [each for page in self.pages for each in vars(page).values() if isinstance(each, Message)]:
                each.say("")  # it was said of the other day
            self.load()

    def keeps(self) -> None:
        """Keeps what was typed, on every page."""
        for page in self.pages:
            page.keeps()

    def load(self) -> None:
        """Shows the day as its folder has it, on every page."""
        self.where.configure(text=f"The day's folder: {shown(self.day.folder) or 'none yet'}")
        for page in self.pages:
            page.whole = self.tell(page.next, page.load)
        self.look()

    def look(self, again: int = 0) -> None:
        """Says on the page that is seen what has changed, and what is missing; again after a while."""
        if again:
            self.root.after(again, self.look, again)
        number = self.notebook.index("current")  # type: ignore[no-untyped-call]
        page = self.pages[number]
        page.fit()
        page.whole = page.whole or self.tell(page.next, page.load)
        if page.whole and self.tell(page.next, page.look):
            page.next.say(self.day.missing(number + 1), style="Quiet")

    def tell(self, message: Message, does: Callable[[], Any]) -> bool:
        """Does something, and says at its place what is wrong, in the words of the command line."""
        try:
            does()
        except Problem as problem:
            message.say(*problem.lines, style="Alarm")
            return False
        if str(message.cget("style")) == "Alarm.TLabel":  # what was wrong is mended
            message.say("")
        return True

    def show(self, *names: str) -> Any:
        """Opens a page of the day in the browser, as a file."""
        if not webbrowser.open(Path(self.day.path(*names)).as_uri()):
            self.doing.configure(text=f"No browser was found: open {shown(self.day.path(*names))} by hand.")

    def command(self, message: Message, what: str, lines: Callable[[], list[Command]], then: Callable[[Done], Any]) -> None:
        """Starts commands; what they say stands in a message, and `then` takes how they ended."""
        made: list[Command] = []
        self.keeps()
        if self.work is not None:
            message.say("Other work is under way: wait, or end it with Esc.", style="Alarm")
        elif self.tell(message, lambda: made.extend(lines())):

            def ended(done: Done) -> None:
                message.say(*done.said, style="Alarm" if done.status else "")
                then(done)
                self.keeps()
                self.load()

            message.say("")
            self.work, self._then = Work(self.main, made), ended
            self.doing.configure(text=what)
            self.working.pack(side="right")
            self.bar.configure(mode="indeterminate", maximum=100)
            self.bar.start()
            self.root.after(EVERY, self._poll)

    def _poll(self) -> None:
        for news in self.work.news() if self.work else ():
            if isinstance(news, Progress):
                self.bar.stop()
                self.bar.configure(mode="determinate", maximum=news.of, value=news.done)
                self.doing.configure(text=f"{news.done} of {news.of} are marked")
            else:
                self.end("")
                self._then(news)
        if self.work is not None:
            self.root.after(EVERY, self._poll)

    def end(self, said: str = "Ended. The folder is as it was.") -> None:
        """Ends the work that is under way; the folder stays whole."""
        if self.work is not None:
            self.work.end()
            self.work = None
            self.bar.stop()
            self.working.pack_forget()
            self.doing.configure(text=said)

    def close(self) -> None:
        """Closes the window, and ends the work."""
        self.keeps()
        self.end()
        for waiting in str(self.root.eval("after info")).split():
            self.root.after_cancel(waiting)
        self.root.destroy()
