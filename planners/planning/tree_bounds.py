"""What each place costs at least as a hub, by the proof of a certificate that `hub check` has accepted."""

from __future__ import annotations

from collections.abc import Iterator
from dataclasses import dataclass
from pathlib import Path
from typing import TextIO

from .faults import Fault
from .loads import FIXED_UNITS


@dataclass
class Cut:
    """The sums of a cut's duals, which stand for `part` times the costs; nodes from 0."""

    part: int
    price: int
    values: dict[int, int]

    def add(self, words: list[str], times: int) -> None:
        """Adds a price and values, as a line of duals has them, so many times."""
        self.price += times * int(words[0])
        for node, value in zip(words[1::2], words[2::2]):
            self.values[int(node) - 1] = self.values.get(int(node) - 1, 0) + times * int(value)


@dataclass
class Branch:
    """Which candidates are hubs on the way to a part of the tree, and which are closed."""

    opened: list[int]
    closed: list[int]


def read_cuts(lines: Iterator[list[str]]) -> list[Cut]:
    """The cuts, with the line behind them, which says how many lines the tree has."""
    cuts: list[Cut] = []
    for words in lines:
        if words[0] == "cut":
            cuts.append(Cut(int(words[2]) if len(words) > 2 else 1, 0, {}))
        elif words[0] == "dual":
            cuts[-1].add(words[3:], 1)
        elif words[0] == "duals":
            cuts[-1].add(words[4:], int(words[3]))
        elif words[0] != "proof":
            break
    return cuts


def leaf_costs(
    words: list[str], cuts: list[Cut], fixed: list[int], candidates: list[int], at: Branch
) -> dict[int, int]:
    """For each candidate that is not closed there, below what no network of a leaf costs in which it is a hub; in
    10^-12, rounded down."""
    scale = int(words[1])
    weights = [(cuts[int(cut) - 1], int(weight)) for cut, weight in zip(words[2::2], words[3::2])]
    worth = {
        node: scale * fixed[node] - sum(weight // cut.part * cut.values.get(node, 0) for cut, weight in weights)
        for node in candidates
    }
    undecided = [node for node in candidates if node not in at.opened and node not in at.closed]
    bound = sum(weight // cut.part * cut.price for cut, weight in weights)
    bound += sum(worth[node] for node in at.opened) + sum(min(0, worth[node]) for node in undecided)
    costs = {node: bound // scale for node in at.opened}
    return costs | {node: (bound + max(0, worth[node])) // scale for node in undecided}


def least_costs(certificate: Path, fixed: list[int], candidates: list[int]) -> dict[int, int]:
    """For each candidate, below what no network costs in which it is a hub, in 10^-12; one is left out that is a hub
    in none. `fixed` has the fixed costs in 10^-6. The network may have any number of hubs."""
    with certificate.open(encoding="ascii", errors="replace") as file:
        lines = words_of(file)
        try:
            next(words for words in lines if words[0] == "cuts")
            return over_leaves(lines, read_cuts(lines), [FIXED_UNITS * cost for cost in fixed], candidates)
        except (ValueError, IndexError, StopIteration):
            raise Fault(f"{certificate}: the file was changed while it was read") from None


def words_of(file: TextIO) -> Iterator[list[str]]:
    """The words of each line."""
    return (line.split() or [""] for line in file)


def over_leaves(
    lines: Iterator[list[str]], cuts: list[Cut], fixed: list[int], candidates: list[int]
) -> dict[int, int]:
    """The least over all leaves of a tree in preorder: after a branch comes first the part in which its node is a hub."""
    least: dict[int, int] = {}
    parts = [Branch([], [])]
    while parts:
        words, at = next(lines), parts.pop()
        if words[0] == "branch":
            node = int(words[1]) - 1
            parts += [Branch(at.opened, [*at.closed, node]), Branch([*at.opened, node], at.closed)]
        elif words[0] == "leaf":
            for node, cost in leaf_costs(words, cuts, fixed, candidates, at).items():
                least[node] = min(cost, least.get(node, cost))
    return least
