"""Questions about a network that is found: it without each of its hubs, and with further places as hubs."""

from __future__ import annotations

import shlex
from collections.abc import Callable
from dataclasses import dataclass
from pathlib import Path

from .alternatives import ACCEPTED, WITH, WITHOUT, Alternatives, Line
from .files import put_all
from .loads import FIXED_UNITS
from .options import Options
from .program import command, lacking, read_cost
from .quantities import FIXED_COST, decimal, trimmed
from .results import Result, Sweep
from .scenarios import Scenario
from .sweep import Threads, do_all
from .tables import Named
from .tree_bounds import least_costs

ALL_ASKED = 50
"""In networks of at most this many places each one that is no hub is tried."""
MOST_ASKED = 10
"""In greater ones so many, the best by the bound, unless another number was said."""


@dataclass(frozen=True)
class Asking:
    """A network that `hub check` accepted, and how further questions are put."""

    named: Named
    options: Options
    certificate: Path
    command: str
    """`optimize` or `solve`."""
    search: dict[str, str]
    """The options of the search."""
    places: int | None = None
    """How many further places are tried; None where the size of the network decides."""

    def candidates(self) -> list[int]:
        """The nodes that may be hubs."""
        listed = self.options.values.get("candidates")
        if listed is None:
            return list(range(self.named.network.instance.size()))
        return [int(node) - 1 for node in listed.split(",")]

    def further(self) -> list[int]:
        """The places that are no hubs and are tried, ascending. Where the number of hubs is given none is."""
        if "hubs" in self.options.values:
            return []
        instance = self.named.network.instance
        rest = [node for node in self.candidates() if node not in self.named.network.plan.hubs]
        most = MOST_ASKED if self.places is None else self.places
        if most >= len(rest) or (self.places is None and instance.size() <= ALL_ASKED):
            return rest
        least = least_costs(self.certificate, instance.fixed, self.candidates())
        return sorted(sorted((node for node in rest if node in least), key=lambda node: least[node])[:most])

    def lack(self) -> str:
        """Why there is no network without a hub, where too few candidates are left; else empty."""
        left = len(self.candidates()) - 1
        wanted = len(self.named.network.plan.hubs) if "hubs" in self.options.values else 1
        if left >= wanted:
            return ""
        return f"no network: {left or 'no'} candidate{'s are' if left > 1 else ' is'} left, and {wanted} wanted"

    def costs(self, node: int) -> str:
        """The text of a costs file in which this node costs nothing."""
        fixed = [0 if i == node else cost for i, cost in enumerate(self.named.network.instance.fixed)]
        return " ".join(trimmed(decimal(cost, FIXED_COST.places)) for cost in fixed) + "\n"

    def scenario(self, number: int, kind: str, node: int, folder: Path) -> Scenario:
        """A question as a scenario, whose costs lie in this folder. A forced hub leaves the numbers of nodes and candidates
        as they are, so that the search begins with the certificate of the network, where this `hub` can."""
        cells = {"asked": kind, "node": str(node + 1), "name": self.named.names[node]}
        if kind == WITHOUT:
            rest = ",".join(str(other + 1) for other in self.candidates() if other != node)
            return Scenario(number, cells, self.options.changed({"candidates": rest}), self.command, self.search)
        options = self.options.changed({"costs": str(costs_file(folder, node))})
        begins = self.command == "optimize" and not lacking("optimize", ["from"])
        return Scenario(number, cells, options, self.command, self.search, begin=self.certificate if begins else None)

    def line(self, scenario: Scenario, result: Result | None) -> Line:
        """What came of a question. A place that had to be a hub cost nothing there: here it costs its own, and is a hub
        in any case."""
        kind, node = scenario.cells["asked"], int(scenario.cells["node"]) - 1
        words = shlex.join(command(scenario.command, scenario.options, extra=scenario.search_words())[1:])
        if result is None or result.outcome != ACCEPTED:
            return Line(kind, node, told(result), words)
        own = self.named.network.instance.fixed[node] * FIXED_UNITS if kind == WITH else 0
        hubs = {int(hub) - 1 for hub in result.open_hubs.split()} | ({node} if kind == WITH else set())
        cost, bound = (read_cost(text) + own for text in (result.cost, result.bound))
        return Line(kind, node, ACCEPTED, words, cost, bound, frozenset(hubs), result.seconds)


def costs_file(folder: Path, node: int) -> Path:
    """The costs file in which a node costs nothing."""
    return folder / f"{node + 1}.costs"


def told(result: Result | None) -> str:
    """Why a question has no answer."""
    if result is None:
        return "not done"
    return f"hub check did not accept: {result.verdict}" if result.outcome == "not accepted" else result.outcome


@dataclass(frozen=True)
class Means:
    """By what questions are answered: a folder that keeps what is done, so many side by side, and for how long each."""

    folder: Path
    jobs: int
    limit: float | None
    keep: bool


def ask_all(asking: Asking, means: Means, show: Callable[[int, int], None]) -> Alternatives:
    """Asks all that is not answered in the folder yet; `show` gets how many are done, and of how many."""
    rows, lack = means.folder / "rows", asking.lack()
    questions = [] if lack else [(WITHOUT, hub) for hub in asking.named.network.plan.hubs]
    questions += [(WITH, node) for node in asking.further()]
    rows.mkdir(parents=True, exist_ok=True)
    put_all({costs_file(rows, node): asking.costs(node) for kind, node in questions if kind == WITH})
    scenarios = [asking.scenario(number, *question, rows) for number, question in enumerate(questions, 1)]
    sweep = Sweep(scenarios, means.folder, means.limit, means.keep, asking.named.names)
    if scenarios:
        do_all(sweep, lambda left: Threads(sweep, left, means.jobs), lambda done: show(done, len(scenarios)))
    sweep.clean()
    lost = [Line(WITHOUT, hub, lack) for hub in asking.named.network.plan.hubs if lack]
    return Alternatives(asking.named, lost + [asking.line(scenario, sweep.result(scenario)) for scenario in scenarios])
