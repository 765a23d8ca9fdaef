# SPDX-License-Identifier: MIT
"""Opens the window, where there is a display."""

from __future__ import annotations

import os
import sys
import tkinter as tk
from typing import Any, Optional

from ..command import day as at
from ..command.beside import Main
from ..problems import Problem, shown
from .app import App
from .handins_page import HandInsPage
from .keep_page import KeepPage
from .sitting_page import SittingPage


def open_window(folder: Optional[str], main: Main) -> int:
    """The window on a day's folder: the one given, the current one if a sitting lies in it, or none yet."""
    if folder is None:
        folder = os.curdir if os.path.isfile(at.SITTING) else ""
    elif os.path.lexists(folder) and not os.path.isdir(folder):
        raise Problem(f"{shown(folder)}: a day is a folder, and this is none")
    try:
        root = tk.Tk()
    except tk.TclError as error:
        raise Problem(f"window: no display to open it on: {error}; every other command works without") from None
    raised: list[BaseException] = []

    def report(kind: Any, error: BaseException, trace: Any) -> None:
        """An interrupt ends the window; a fault of its own is told where it was started."""
        if isinstance(error, KeyboardInterrupt):
            raised.append(error)
            app.close()
        else:
            sys.excepthook(kind, error, trace)

    root.report_callback_exception = report
    app = App(root, folder, main, (SittingPage, HandInsPage, KeepPage))
    root.mainloop()
    if raised:
        raise raised[0]
    return 0
