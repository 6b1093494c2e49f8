"""The first part of a certificate: what it costs, its hubs and its routes. The proof behind them is left to `hub check`."""

from __future__ import annotations

from dataclasses import dataclass
from pathlib import Path
from typing import TextIO

from .faults import at


@dataclass(frozen=True)
class Plan:
    """Hubs and routes, nodes from 0; costs in 10^-12."""

    cost: int
    bound: int
    hubs: list[int]
    routes: list[list[tuple[int, int]]]
    """By origin and destination: the first hub and the last."""


class Lines:
    """The lines of a certificate, each with a keyword and numbers."""

    def __init__(self, path: Path, file: TextIO) -> None:
        """Starts before the first line."""
        self.path = path
        self.file = file
        self.line = 0

    def numbers(self, keyword: str, count: int | None = None) -> list[int]:
        """The numbers of the next line; so many, where a count is given."""
        self.line += 1
        text = self.file.readline()
        word, *rest = text.split() or [""]
        if word != keyword or not all(item.isdecimal() for item in rest) or count not in (None, len(rest)):
            raise at(
                self.path,
                self.line,
                f"the line '{keyword} ..' of a certificate",
                f"'{text.strip()[:80]}'" if text else None,
            )
        return [int(item) for item in rest]


def read_top(lines: Lines) -> tuple[int, int, int, list[int]]:
    """Size, cost, bound and hubs, nodes from 0: the lines before the routes."""
    lines.numbers("HUBCERT", 1)
    size = lines.numbers("size", 2)[0]
    cost = lines.numbers("cost", 1)[0]
    bound = lines.numbers("bound", 1)[0]
    return size, cost, bound, [hub - 1 for hub in lines.numbers("hubs")]


def read_hubs(path: Path) -> list[int]:
    """The hubs alone, counted from 1 as in the text."""
    with path.open(encoding="ascii", errors="replace") as file:
        return [hub + 1 for hub in read_top(Lines(path, file))[3]]


def read_plan(path: Path) -> Plan:
    """The plan that a certificate names."""
    with path.open(encoding="ascii", errors="replace") as file:
        lines = Lines(path, file)
        size, cost, bound, hubs = read_top(lines)
        routes: list[list[tuple[int, int]]] = []
        for _ in range(size):
            ways = [lines.numbers("route", 4) for _ in range(size)]
            routes.append([(way[2] - 1, way[3] - 1) for way in ways])
    return Plan(cost, bound, hubs, routes)
