"""What a network costs without each of its hubs, and with further places as hubs: the answers, told as a table."""

from __future__ import annotations

from dataclasses import dataclass

from .quantities import COST_PLACES, decimal, gap_percent, trimmed
from .tables import Named, Table, cost_text

WITHOUT, WITH = "without", "with"
ACCEPTED = "accepted"
HEADER = ["asked", "node", "name", "outcome", "cost", "bound", "rise", "rise_percent", "least_rise"]
HEADER += ["opened", "closed", "open_hubs", "seconds", "words"]


@dataclass(frozen=True)
class Line:
    """What came of one question: the network without a hub, or with a place as a hub. Costs in 10^-12."""

    kind: str
    node: int
    outcome: str
    """`accepted`, or why there is no network."""
    words: str = ""
    """Those by which `hub` was asked."""
    cost: int = 0
    """With the fixed costs of all its hubs."""
    bound: int = 0
    hubs: frozenset[int] = frozenset()
    seconds: str = ""

    def is_answered(self) -> bool:
        """Whether there is a network that `hub check` accepted."""
        return self.outcome == ACCEPTED


@dataclass(frozen=True)
class Alternatives:
    """A network and what came of the questions."""

    named: Named
    lines: list[Line]

    def of(self, kind: str) -> list[Line]:
        """The answered lines of a kind, the least cost first."""
        found = [line for line in self.lines if line.kind == kind and line.is_answered()]
        return sorted(found, key=lambda line: line.cost)

    def missing(self) -> list[str]:
        """The message for each question without an answer."""
        return [f"{self.asked(line)}: {line.outcome}" for line in self.lines if not line.is_answered()]

    def asked(self, line: Line) -> str:
        """A question in words."""
        return f"{line.kind} {self.named.names[line.node]}"

    def rise(self, line: Line) -> int:
        """How much more the network of a line costs, in 10^-12."""
        return line.cost - self.named.verdict.cost

    def least_rise(self, line: Line) -> int:
        """How much more, at least, each network costs that answers the question."""
        return line.bound - self.named.verdict.cost

    def percent(self, rise: int) -> str:
        """A rise in per cent of the cost, rounded up; empty where the cost is 0."""
        cost = self.named.verdict.cost
        return gap_percent(cost, cost - rise) if cost else ""

    def short_rise(self, line: Line) -> str:
        """A rise for a reader's eye; what is not proved is the most that it can be."""
        percent = self.percent(self.rise(line))
        front = "at most " if line.bound < line.cost else ""
        return f"{front}{float(percent):+.2f} %" if percent else f"{front}{trimmed(cost_text(self.rise(line)))}"

    def opened(self, line: Line) -> list[int]:
        """The hubs of a line, but for its own place, that the network has not."""
        return sorted(line.hubs.difference(self.named.network.plan.hubs, [line.node]))

    def closed(self, line: Line) -> list[int]:
        """The hubs of the network, but for the place of the line, that the line has not."""
        return [hub for hub in self.named.network.plan.hubs if hub not in line.hubs and hub != line.node]

    def change(self, line: Line) -> str:
        """Which hubs come and go, in words."""
        parts = [("opens", self.opened(line)), ("closes", self.closed(line))]
        return "; ".join(f"{word} {self.named.names_of(nodes)}" for word, nodes in parts if nodes)

    def said(self) -> list[str]:
        """A summary in few lines: the rise of each loss, and the further places that cost least."""
        told = []
        for kind, most in ((WITHOUT, None), (WITH, 3)):
            rises = [f"{self.named.names[line.node]} {self.short_rise(line)}" for line in self.of(kind)[:most]]
            told += [f"{kind}: {', '.join(rises)}"] if rises else []
        return told

    def table(self) -> Table:
        """All lines as a table."""
        return [HEADER, *(self.row(line) for line in self.lines)]

    def row(self, line: Line) -> list[str]:
        """The cells of a line."""
        front = [line.kind, str(line.node + 1), self.named.names[line.node], line.outcome]
        if not line.is_answered():
            return [*front, *[""] * (len(HEADER) - len(front) - 1), line.words]
        rise, least = self.rise(line), self.least_rise(line)
        costs = [cost_text(line.cost), cost_text(line.bound), decimal(rise, COST_PLACES), self.percent(rise)]
        names = [self.named.names_of(nodes) for nodes in (self.opened(line), self.closed(line))]
        hubs = " ".join(str(hub + 1) for hub in sorted(line.hubs))
        return [*front, *costs, decimal(least, COST_PLACES), *names, hubs, line.seconds, line.words]

    def data(self) -> list[dict[str, object]]:
        """What the page is given of each line; numbers are texts."""
        rows = []
        for line in self.lines:
            row = {"kind": line.kind, "node": line.node, "outcome": line.outcome}
            if line.is_answered():
                row["rise"] = trimmed(cost_text(self.rise(line)))
                row["percent"] = trimmed(self.percent(self.rise(line)))
                row["least"] = trimmed(cost_text(self.least_rise(line)))
                row["change"] = self.change(line)
            rows.append(row)
        return rows
