"""The kinds of files that circulate, each read into one `Source`."""

from __future__ import annotations

from dataclasses import dataclass, replace
from pathlib import Path
from typing import Literal

from .faults import Fault, at
from .quantities import COORDINATE, DISTANCE, FACTOR, FIXED_COST, FLOW, LISTED_HUBS, SIZE, Quantity
from .tokens import Tokens


@dataclass(frozen=True)
class Source:
    """What a planner has: numbers are kept as the file spells them. A part that it has not is None."""

    names: list[str]
    flows: list[list[str]]
    distances: list[list[str]] | None = None
    points: list[tuple[str, str]] | None = None
    """Plane coordinates x and y."""
    places: list[tuple[str, str]] | None = None
    """Longitude and latitude in degrees."""
    fixed: list[str] | None = None
    existing: list[bool] | None = None
    """Which nodes have a hub already, so that its fixed cost is spent."""
    factors: tuple[str, str, str] | None = None
    """Of collection, trunk and delivery."""
    listed: str = "0"
    """The listed number of hubs, which decides nothing."""

    def size(self) -> int:
        """The number of nodes."""
        return len(self.flows)

    def only(self, nodes: list[int]) -> "Source":
        """The part of these nodes (from 0), in the order given."""

        def rows(matrix: list[list[str]]) -> list[list[str]]:
            return [[matrix[i][j] for j in nodes] for i in nodes]

        def some(items: list) -> list:
            return [items[i] for i in nodes]

        return replace(
            self,
            names=some(self.names),
            flows=rows(self.flows),
            distances=self.distances and rows(self.distances),
            points=self.points and some(self.points),
            places=self.places and some(self.places),
            fixed=self.fixed and some(self.fixed),
            existing=self.existing and some(self.existing),
        )

    def spent(self) -> "Source":
        """The source in which hubs that exist cost nothing."""
        if not self.fixed or not self.existing:
            return self
        return replace(self, fixed=["0" if exists else cost for cost, exists in zip(self.fixed, self.existing)])


def numbered(size: int) -> list[str]:
    """Names of nodes that have none."""
    return [str(i) for i in range(1, size + 1)]


Tail = Literal["ignored", "fixed", "fixed if any"]
"""What to make of the numbers after the factors of an AP file."""


def read_ap(tokens: Tokens, tail: Tail) -> Source:
    """The AP files: size, coordinates, flows, listed hubs, three factors and a tail."""
    size = tokens.read_size()
    points = [(tokens.read(COORDINATE, f"x of {i}"), tokens.read(COORDINATE, f"y of {i}")) for i in range(1, size + 1)]
    flows = tokens.read_matrix(size, FLOW)
    listed = tokens.read(LISTED_HUBS)
    factors = (
        tokens.read(FACTOR, "of collection"),
        tokens.read(FACTOR, "of the trunk"),
        tokens.read(FACTOR, "of delivery"),
    )
    fixed = read_fixed(tokens, size) if tail == "fixed" or (tail == "fixed if any" and tokens.left()) else None
    return Source(numbered(size), flows, points=points, fixed=fixed, factors=factors, listed=listed)


def read_fixed(tokens: Tokens, size: int) -> list[str]:
    """A fixed cost for each node, and nothing more."""
    fixed = [tokens.read(FIXED_COST, f"of {i}") for i in range(1, size + 1)]
    tokens.finish()
    return fixed


def read_matrices(tokens: Tokens, distance_first: bool) -> Source:
    """The size, and flows and distances as two matrices."""
    size = tokens.read_size()
    first, second = (DISTANCE, FLOW) if distance_first else (FLOW, DISTANCE)
    matrices = [tokens.read_matrix(size, first), tokens.read_matrix(size, second)]
    tokens.finish()
    flows, distances = reversed(matrices) if distance_first else matrices
    return Source(numbered(size), flows, distances=distances)


def read_two_files(flow_path: Path, distance_path: Path) -> Source:
    """Flows and distances as a matrix each."""
    flows = read_one_matrix(flow_path, FLOW)
    distances = read_one_matrix(distance_path, DISTANCE)
    if len(flows) != len(distances):
        raise Fault(f"{distance_path}: wanted {len(flows)} nodes as in {flow_path}, found {len(distances)}")
    return Source(numbered(len(flows)), flows, distances=distances)


def read_one_matrix(path: Path, quantity: Quantity) -> list[list[str]]:
    """A file of one matrix. Its size stands alone in the first line, or is the number of numbers in that line."""
    tokens = Tokens(path)
    count = tokens.words_in_line()
    size = tokens.read_size() if count <= 1 else count
    if size > SIZE.most:
        raise at(path, tokens.line(), f"at most {SIZE.most} numbers in a row", f"{size} numbers")
    matrix = tokens.read_matrix(size, quantity)
    tokens.finish()
    return matrix


def read_rows(tokens: Tokens) -> Source:
    """The size, and rows `i j flow distance`. By line, the size may be left out; then it is the greatest node."""
    size = None if tokens.by_line and tokens.words_in_line() > 1 else tokens.read_size()
    rows = read_pairs(tokens, Quantity("a node", 0, 1, size or SIZE.most))
    size = size or max(max(pair) for pair in rows)
    nodes = range(1, size + 1)
    for i in nodes:
        rows.setdefault((i, i), ("0", "0"))
        for j in nodes:
            if (i, j) not in rows:
                raise at(tokens.path, tokens.line(), f"a row for the pair {i} {j}", None)
    flows, distances = ([[rows[i, j][part] for j in nodes] for i in nodes] for part in (0, 1))
    return Source(numbered(size), flows, distances=distances)


def read_pairs(tokens: Tokens, node: Quantity) -> dict[tuple[int, int], tuple[str, str]]:
    """Flow and distance of each pair that has a row."""
    rows: dict[tuple[int, int], tuple[str, str]] = {}
    while tokens.left():
        line = tokens.line()
        if tokens.by_line and tokens.words_in_line() != 4:
            raise at(tokens.path, line, "a row `i j flow distance`", f"{tokens.words_in_line()} numbers")
        i, j = (node.read(tokens.read(node, which)) or 0 for which in ("i", "j"))
        if (i, j) in rows:
            raise at(tokens.path, line, "each pair once", f"{i} {j} again")
        rows[i, j] = (tokens.read(FLOW, f"from {i} to {j}"), tokens.read(DISTANCE, f"from {i} to {j}"))
    return rows
