"""An instance as `hub` takes it from a file with options: whole numbers in its units."""

from __future__ import annotations

from dataclasses import dataclass, replace
from pathlib import Path

from .distances import plane
from .options import Options, factors, fixed_cost
from .quantities import DISTANCE, FACTOR, FIXED_COST, FLOW, Quantity
from .sources import Source, read_ap, read_fixed, read_matrices, read_rows
from .tokens import Tokens


@dataclass(frozen=True)
class Instance:
    """Flows in 10^-6, distances in 10^-3, factors in 10^-3 and fixed costs in 10^-6; nodes from 0."""

    flows: list[list[int]]
    distances: list[list[int]]
    factors: tuple[int, int, int]
    """Of collection, trunk and delivery."""
    fixed: list[int]
    points: list[tuple[float, float]] | None
    """Plane coordinates, where the file has them."""

    def size(self) -> int:
        """The number of nodes."""
        return len(self.flows)


def whole(matrix: list[list[str]], quantity: Quantity) -> list[list[int]]:
    """A matrix in the quantity's units."""
    return [[quantity.read(text) or 0 for text in row] for row in matrix]


def read_file(options: Options) -> Source:
    """The file in its layout."""
    tokens = Tokens(options.file, by_line=False)
    if options.layout == "cab-matrix":
        return read_matrices(tokens, options.values.get("order") == "distance-first")
    if options.layout == "cab-rows":
        return read_rows(tokens)
    return read_ap(tokens, "fixed" if options.values.get("tail") == "fixed" else "ignored")


def read_instance(options: Options) -> Instance:
    """The instance of a file and options that `hub` has accepted."""
    source = read_file(options)
    values = options.values
    if "costs" in values:
        source = replace(source, fixed=read_fixed(Tokens(Path(values["costs"])), source.size()))
    size = source.size()
    divisor = int(values.get("divide", "1"))
    lengths = whole(source.distances or plane(source.points or [], divisor), DISTANCE)
    if source.distances:
        lengths = [[length // divisor for length in row] for row in lengths]
    flows = whole(source.flows, FLOW)
    for i in range(size):
        lengths[i][i] = 0
        flows[i][i] *= not options.no_self
    file_factors = tuple(FACTOR.read(text) or 0 for text in source.factors or ("1", "1", "1"))
    fixed = [FIXED_COST.read(text) or 0 for text in source.fixed] if source.fixed else [fixed_cost(values)] * size
    points = [(float(x), float(y)) for x, y in source.points] if source.points else None
    return Instance(flows, lengths, factors(values, file_factors), fixed, points)
