"""How far a script is, on standard error where that is a terminal."""

from __future__ import annotations

import sys
import time


class Steps:
    """One line that is written over: which step of how many, and for how long it has run."""

    def __init__(self, total: int) -> None:
        """Starts before the first step."""
        self.total = total
        self.number = 0
        self.text = ""
        self.start = 0.0
        self.shown = ""

    def begin(self, text: str) -> None:
        """The next step, in words."""
        self.number += 1
        self.text = text
        self.start = time.monotonic()
        self.look()

    def change(self, text: str) -> None:
        """Other words for the same step."""
        self.text = text
        self.look()

    def look(self) -> None:
        """Shows the line where it has changed."""
        seconds = int(time.monotonic() - self.start)
        self.show(f"[{self.number}/{self.total}] {self.text}" + (f", {seconds} s" if seconds else ""))

    def tell(self, line: str) -> None:
        """Writes a line that stays, also where standard error is no terminal."""
        self.show("")
        print(line, file=sys.stderr, flush=True)

    def end(self) -> None:
        """Leaves nothing behind."""
        self.show("")

    def show(self, line: str) -> None:
        """Writes over what is there."""
        if line != self.shown and sys.stderr.isatty():
            print(f"\r{line:{len(self.shown)}}" + ("" if line else "\r"), end="", file=sys.stderr, flush=True)
        self.shown = line
