"""Tokens of a text file, each with its line, separated as in the files of `hub`."""

from __future__ import annotations

import re
from dataclasses import dataclass
from pathlib import Path

from .faults import at
from .quantities import SIZE, Quantity

SEPARATORS = re.compile(r"[ \t\r,;]+")


def read_text(path: Path) -> str:
    """The text of a file, without the mark that some editors put at its start."""
    content = path.read_bytes()
    try:
        return content.decode("utf-8-sig").replace("\r\n", "\n").replace("\r", "\n")
    except UnicodeDecodeError as error:
        # Without the mark at the start, which is not counted, the byte may stand three places further on.
        line = error.object.count(b"\n", 0, error.start) + 1
        wrong = error.object[error.start : error.start + 1]
        raise at(path, line, "a text in UTF-8", f"the byte {wrong.hex().upper()}") from None


@dataclass(frozen=True)
class Token:
    """A word of a file."""

    text: str
    line: int


class Tokens:
    """The tokens of one file from first to last; each read says what it wants."""

    def __init__(self, path: Path, by_line: bool = True) -> None:
        """Takes all tokens of a file. By line, rows of a table have a line each, so that a wrong line can be told."""
        self.path = path
        self.by_line = by_line
        self.lines: list[list[str]] = []
        self.items: list[Token] = []
        self.next = 0
        for number, line in enumerate(read_text(path).split("\n"), 1):
            words = [word for word in SEPARATORS.split(line) if word]
            self.lines.append(words)
            self.items.extend(Token(word, number) for word in words)

    def left(self) -> int:
        """How many tokens are left."""
        return len(self.items) - self.next

    def line(self) -> int:
        """The line of the next token, or the last line of the file."""
        return self.items[self.next].line if self.left() else max(1, len(self.lines) - (self.lines[-1] == []))

    def words_in_line(self) -> int:
        """How many tokens stand in the line of the next one, if it is the first there; else 0."""
        first = self.left() and (self.next == 0 or self.items[self.next - 1].line < self.line())
        return len(self.lines[self.line() - 1]) if first else 0

    def read(self, quantity: Quantity, which: str = "") -> str:
        """The next token, which must be such a quantity; `which` says which one it is."""
        wanted = quantity.wanted(which)
        if not self.left():
            raise at(self.path, self.line(), wanted, None)
        token = self.items[self.next]
        if quantity.read(token.text) is None:
            raise at(self.path, token.line, wanted, f"'{token.text}'")
        self.next += 1
        return token.text

    def read_size(self) -> int:
        """The number of nodes."""
        return int(SIZE.read(self.read(SIZE)) or 0)

    def read_matrix(self, size: int, quantity: Quantity) -> list[list[str]]:
        """A matrix row by row. Where its first row stands on a line of its own, each row must."""
        by_line = self.by_line and self.words_in_line() == size
        rows: list[list[str]] = []
        for i in range(1, size + 1):
            found = self.words_in_line()
            if by_line and self.left() and found != size:
                raise at(self.path, self.line(), f"row {i} of {size} numbers, {quantity.name} each", f"{found} numbers")
            rows.append([self.read(quantity, f"from {i} to {j}") for j in range(1, size + 1)])
        return rows

    def finish(self) -> None:
        """Nothing may follow."""
        if self.left():
            raise at(self.path, self.line(), "the end of the file", f"'{self.items[self.next].text}'")
