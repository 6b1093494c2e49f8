"""From Python: a problem of numpy arrays or of files, solved and proved by `hub`. Nodes count from 0 here."""

from __future__ import annotations

import inspect
import os
import shutil
import warnings
import weakref
from collections.abc import Iterable
from dataclasses import dataclass, field, replace
from decimal import ROUND_HALF_EVEN, Decimal
from pathlib import Path
from tempfile import mkdtemp
from typing import Any

import numpy as np

from . import pythons
from .convert import read_tables, with_distances
from .faults import Fault
from .files import put_all
from .options import LISTED, QUANTITIES
from .quantities import COST_PLACES, DISTANCE, FACTOR, FIXED_COST, FLOW, SIZE, Quantity, decimal, trimmed
from .report_files import all_results
from .solving import ASKED, CERTIFICATE, Question, answer, answer_in, question_of, served
from .sources import Source, numbered, read_ap, read_fixed
from .tables import Named
from .tokens import Tokens


def exact_text(value: Any, quantity: Quantity, which: str, rounded: bool) -> str:
    """A number as decimal text: of a float the shortest that is read back as the same float. One with more decimals
    than `hub` keeps is refused, or rounded to the nearest where that was asked."""
    text = np.format_float_positional(value, trim="-") if isinstance(value, (float, np.floating)) else str(value)
    try:
        number = Decimal(text)
    except ArithmeticError:
        number = Decimal("NaN")
    if not number.is_finite():
        raise Fault(f"{which}: wanted {quantity.wanted()}, found {value}")
    text = format(number, "f")
    if len(text.partition(".")[2].rstrip("0")) > quantity.places:
        if not rounded:
            kept = f"hub keeps {quantity.places} decimals, and {text} has more"
            raise Fault(f"{which}: {kept}; round it, or say rounded=True")
        # Whatever precision the caller's context has, this one is enough for all limits.
        text = format(number.quantize(Decimal(1).scaleb(-quantity.places), ROUND_HALF_EVEN), "f")
    if quantity.read(text) is None:
        raise Fault(f"{which}: wanted {quantity.wanted()}, found {value}")
    return text


def matrix_texts(values: Any, quantity: Quantity, name: str, rounded: bool) -> list[list[str]]:
    """A square matrix as texts."""
    array = np.asarray(values)
    if array.ndim != 2 or array.shape[0] != array.shape[1] or not 1 <= len(array) <= SIZE.most:
        raise Fault(f"{name}: wanted a square matrix of 1 to {SIZE.most} rows, found the shape {array.shape}")
    return [
        [exact_text(item, quantity, f"{name}[{i}, {j}]", rounded) for j, item in enumerate(row)]
        for i, row in enumerate(array)
    ]


def vector_texts(values: Any, size: int, name: str, rounded: bool) -> list[str]:
    """A fixed cost for each node: one number for all of them, or a vector."""
    array = np.broadcast_to(np.asarray(values), size) if np.ndim(values) == 0 else np.asarray(values)
    if array.shape != (size,):
        raise Fault(f"{name}: wanted one number or {size} of them, found the shape {array.shape}")
    return [exact_text(item, FIXED_COST, f"{name}[{i}]", rounded) for i, item in enumerate(array)]


@dataclass(frozen=True, repr=False)
class Result:
    """A network that `hub check` has accepted. Costs are exact."""

    named: Named
    folder: Path
    """It is removed when the result is; `save` keeps what is in it."""
    question: Question
    """What was asked."""

    def __repr__(self) -> str:
        """The hubs, what they cost, and what is proved of that."""
        proved = "optimal" if self.is_optimal else f"bound={self.bound}, gap={self.named.verdict.short_gap()}"
        return f"Result(hubs={self.hubs}, cost={self.cost}, {proved})"

    @property
    def hubs(self) -> list[int]:
        """The open hubs, ascending."""
        return list(self.named.network.plan.hubs)

    @property
    def cost(self) -> Decimal:
        """What the network costs."""
        return exact_cost(self.named.verdict.cost)

    @property
    def bound(self) -> Decimal:
        """No network costs less than this."""
        return exact_cost(self.named.verdict.bound)

    @property
    def gap(self) -> Decimal:
        """How far the bound is below the cost, in per cent of the cost, rounded up to four decimals."""
        return Decimal(self.named.verdict.gap())

    @property
    def solved_by(self) -> str:
        """The command of `hub` that found it: `optimize` or `solve`."""
        return self.question.verb

    @property
    def is_optimal(self) -> bool:
        """Whether no network costs less than this one."""
        return self.named.verdict.is_optimal()

    @property
    def parts(self) -> dict[str, Decimal]:
        """The cost of collection, trunk, delivery and of the hubs, whose sum is `cost`."""
        return {part: exact_cost(cost) for part, cost in self.named.network.costs().items()}

    @property
    def names(self) -> list[str]:
        """The names of the nodes."""
        return list(self.named.names)

    @property
    def certificate(self) -> Path:
        """The file that proves it, while this result lives."""
        return self.folder / CERTIFICATE

    def route(self, i: int, j: int) -> tuple[int, int]:
        """The first hub and the last, by which the flow of node i reaches node j."""
        return self.named.network.plan.routes[i][j]

    def route_cost(self, i: int, j: int) -> Decimal:
        """What the flow of node i to node j costs."""
        return exact_cost(self.named.network.route_costs[i][j])

    def save(self, folder: str | os.PathLike, title: str = "", with_map: bool = True) -> Path:
        """Writes the folder that the script `study` writes: instance, certificate, tables, map and page."""
        if with_map and not pythons.has("matplotlib"):
            raise Fault("matplotlib is wanted for a map; say with_map=False to do without")
        here, there = self.folder, Path(folder)
        results = all_results(self.named, self.question.options(here), here, title, with_map)
        there.mkdir(parents=True, exist_ok=True)
        for name in [*self.question.texts, CERTIFICATE, ASKED]:
            part = there / f"{name}.part"
            shutil.copyfile(here / name, part)
            part.replace(there / name)
        put_all({there / name: content for name, content in results.items()})
        return there


def exact_cost(units: int) -> Decimal:
    """A cost of units of 10^-12."""
    return Decimal(decimal(units, COST_PLACES))


@dataclass(frozen=True)
class Problem:
    """Places, flows, distances and fixed costs."""

    source: Source = field(repr=False)
    layout: str
    values: dict[str, str]
    """Options of the instance, as for `hub`."""

    @classmethod
    def from_arrays(
        cls, flows: Any, distances: Any, fixed: Any = 0, names: Iterable[str] | None = None, rounded: bool = False
    ) -> "Problem":
        """A problem of two square matrices and fixed costs: one number, or one for each node."""
        flow_texts = matrix_texts(flows, FLOW, "flows", rounded)
        lengths = matrix_texts(distances, DISTANCE, "distances", rounded)
        size = len(flow_texts)
        if len(lengths) != size:
            raise Fault(f"distances: wanted {size} rows, as flows has, found {len(lengths)}")
        named = list(names) if names is not None else numbered(size)
        if len(set(named)) != size:
            raise Fault(f"names: wanted {size} names, each once, found {len(set(named))}")
        costs = vector_texts(fixed, size, "fixed", rounded)
        return cls(Source(named, flow_texts, distances=lengths, fixed=costs), "cab-matrix", {})

    @classmethod
    def from_csv(
        cls, nodes: str | os.PathLike, flows: str | os.PathLike, unit: str = "km", delimiter: str = ","
    ) -> "Problem":
        """A problem of a table of nodes and one of flows, as `study` reads them."""
        source = read_tables(Path(nodes), Path(flows), delimiter)
        if source.points:
            return cls(source, "ap", {})
        return cls(with_distances(source, unit), "cab-matrix", {})

    @classmethod
    def from_ap(
        cls, file: str | os.PathLike, costs: str | os.PathLike | None = None, divide: int = 1
    ) -> "Problem":
        """A problem of an AP file, with its fixed costs at its end or in a file of their own, if it has any."""
        source = read_ap(Tokens(Path(file)), "ignored" if costs else "fixed if any")
        if costs:
            source = replace(source, fixed=read_fixed(Tokens(Path(costs)), source.size()))
        return cls(source, "ap", {"divide": str(divide)} if divide != 1 else {})

    def solve(
        self,
        fixed: Any = None,
        hubs: int | str | None = None,
        max_length: Any = None,
        collect: Any = None,
        trunk: Any = None,
        deliver: Any = None,
        candidates: Iterable[int] | None = None,
        no_self: bool = False,
        gap: Any = None,
        nodes: int | None = None,
        workers: int | None = None,
        format: int | None = None,
        by: str = "optimize",
        rounded: bool = False,
        again: Result | str | os.PathLike | None = None,
    ) -> Result:
        """The network that costs least. What is given here takes the place of what the problem has.

        `hubs` is how many hubs there are to be, or "file" for as many as an AP file lists; `max_length` how long a
        route may be, in the unit of the distances; `candidates` are the nodes that may be hubs. `gap` ends the search
        once the bound is within so many per cent of the cost, `nodes` at so many nodes of its tree. `by` may be
        "solve" for its fixed rule, and `rounded` has numbers rounded to the decimals that `hub` keeps. `again` is an
        older result, or the file of its certificate, with which `optimize` begins: it may be of any problem with the
        same numbers of nodes and candidates, and the answer rests on nothing in it. Where this `hub` has `hubs` or
        `max_length` for `solve` alone, that takes the place of `optimize`, and a warning says so.

        A `Fault` where `hub` does not take what is given, or finds no network; it is a `NoNetwork` where all candidates
        together lack a route that is short enough.
        """
        source, values = self.source, dict(self.values)
        if by not in ("optimize", "solve"):
            raise Fault(f"by: wanted 'optimize' or 'solve', found {by!r}")
        if fixed is not None:
            source = replace(source, fixed=vector_texts(fixed, source.size(), "fixed", rounded))
        for name, number in (("collect", collect), ("trunk", trunk), ("deliver", deliver), ("max-length", max_length)):
            if number is not None:
                values[name] = exact_text(number, QUANTITIES[name], name.replace("-", "_"), rounded)
        if hubs is not None:
            values["hubs"] = whole_text(hubs, "hubs")
        if candidates is not None:
            values["candidates"] = candidate_list(candidates, source.size())
        counts = (("nodes", nodes), ("workers", workers), ("format", format))
        search = {name: whole_text(number, name) for name, number in counts if number is not None}
        if gap is not None:
            # It is not cut by hub, so a Decimal with zeros at its end is written without them.
            search["gap"] = trimmed(exact_text(gap, QUANTITIES["gap"], "gap", rounded))
        question = question_of(source, self.layout, values, no_self, verb=by, **search)
        if again is not None:
            question = replace(question, older=again.certificate if isinstance(again, Result) else Path(again))
        return result_of(question)


def whole_text(value: Any, name: str) -> str:
    """A whole number as hub wants it, or the word for the number that an AP file lists."""
    if isinstance(value, str) and (name, value) == ("hubs", LISTED):
        return LISTED
    return trimmed(exact_text(value, QUANTITIES[name], name, False))


def calls_from_outside() -> int:
    """By how many calls who asks this is led back to the one who called this module."""
    frame, calls = inspect.currentframe(), 0
    while frame and frame.f_code.co_filename == __file__:
        frame, calls = frame.f_back, calls + 1
    return calls


def result_of(question: Question) -> Result:
    """The answer to a question, in a folder that is removed with it."""
    question, note = served(question)
    if note:
        warnings.warn(note, stacklevel=calls_from_outside())
    folder = Path(mkdtemp(prefix="hub-"))
    try:
        answer(question, folder)
        result = Result(answer_in(question, folder), folder, question)
    except BaseException:
        shutil.rmtree(folder, ignore_errors=True)
        raise
    weakref.finalize(result, shutil.rmtree, folder, ignore_errors=True)
    return result


def candidate_list(candidates: Iterable[int], size: int) -> str:
    """The candidates as hub wants them, from 1."""
    nodes = [int(node) for node in candidates]
    if not nodes or len(set(nodes)) != len(nodes) or not all(0 <= node < size for node in nodes):
        raise Fault(f"candidates: wanted nodes from 0 to {size - 1}, each once, found {nodes}")
    return ",".join(str(node + 1) for node in sorted(nodes))


def solve(
    flows: Any,
    distances: Any,
    fixed: Any = 0,
    names: Iterable[str] | None = None,
    rounded: bool = False,
    **options: Any,
) -> Result:
    """The network that costs least for two square matrices, whose rows are origins, and whose distances are in any
    unit; `fixed` is one cost of a hub, or one for each node, and `options` are those of `Problem.solve`. Numbers with
    more decimals than `hub` keeps are refused with a `Fault`, or rounded where `rounded` says so."""
    return Problem.from_arrays(flows, distances, fixed, names, rounded).solve(rounded=rounded, **options)
