"""The picture of a network with its hubs, trunks and spokes."""

from __future__ import annotations

from dataclasses import dataclass
from io import BytesIO
from math import sqrt

import matplotlib

matplotlib.use("Agg")

import numpy as np
from matplotlib import pyplot
from matplotlib.axes import Axes
from matplotlib.collections import LineCollection
from matplotlib.lines import Line2D

from .labels import Labels, Node
from .loads import Links
from .tables import Named

HUB, NODE, TRUNK, SPOKE = "#c8401f", "#5b8db8", "#1f3b63", "#8c8c8c"
NEW = {"edgecolors": "white", "linewidths": 0.6}
EXISTS = {"edgecolors": "black", "linewidths": 1.8}
"""The rims of marks: of places that exist as hubs, and of all others."""
FLOW_UNITS = 10**6
HUB_FIRST = 0.35
"""A mark lies on a hub's only if its flow is smaller than this part of the hub's."""
ALL_NAMED = 30
"""So many nodes, or so many hubs, are all named."""
MOST_TRUNKS = 150
"""So many trunks are drawn, the strongest."""
STRONG = 0.25
"""Names keep off trunks with at least this part of the strongest one's flow."""
MOST_SIDE, LEAST_SIDE, LEGEND, TITLE = 7.5, 4.5, 2.3, 0.7
"""In inches: the longer side of the map, the least of each side, and the room beside and above it."""


@dataclass(frozen=True)
class Style:
    """Sizes in points, by how many nodes are drawn."""

    largest: float
    """The radius of the node with the most flow."""
    smallest: float
    hub: float
    """The least radius of a hub, which may have little flow of its own."""
    trunk: float
    """The width of the trunk with the most flow."""
    spoke: float
    text: float
    share: float
    """A spoke with a smaller share of its node's flow is left out."""


def style_for(size: int) -> Style:
    """Many nodes are drawn smaller, and without their weakest spokes."""
    if size <= 30:
        return Style(11, 2.5, 2.5, 8, 1.6, 8, 0)
    if size <= 80:
        return Style(8, 1.8, 3, 6, 1.2, 7, 0.05)
    return Style(6, 1.2, 3, 5, 0.9, 6, 0.15)


def both_ways(links: list[Links]) -> dict[tuple[int, int], float]:
    """The flow between two nodes, both directions together, by the lesser node and the greater."""
    flows: dict[tuple[int, int], float] = {}
    for loads in links:
        for (start, stop), load in loads.items():
            pair = (min(start, stop), max(start, stop))
            flows[pair] = flows.get(pair, 0) + load.flow / FLOW_UNITS
    return flows


class Map:
    """One picture while it is drawn."""

    def __init__(self, named: Named, places: np.ndarray) -> None:
        """Works out what each mark stands for."""
        self.network = named.network
        self.names = named.names
        self.places = places
        self.size = len(places)
        self.style = style_for(self.size)
        flows = np.array(self.network.instance.flows, dtype=float) / FLOW_UNITS
        self.flow = flows.sum(axis=0) + flows.sum(axis=1)
        self.trunks = both_ways([self.network.trunks])
        self.all_trunks = len(self.trunks)
        strongest = sorted(self.trunks, key=lambda pair: -self.trunks[pair])[:MOST_TRUNKS]
        self.trunks = {pair: self.trunks[pair] for pair in strongest}
        self.spokes = both_ways([self.network.collection, self.network.delivery])
        self.hubs = self.network.plan.hubs
        self.existing = named.existing

    def radius(self, flow: float) -> float:
        """A node's radius in points: its area tells its flow."""
        most = self.flow.max() or 1
        return max(self.style.smallest, self.style.largest * sqrt(flow / most))

    def radius_of(self, node: int) -> float:
        """The radius of a node, by its flow; a hub's is never too small to be seen."""
        return max(self.radius(self.flow[node]), self.style.hub if node in self.hubs else 0)

    def draw(self, axes: Axes) -> None:
        """Lines first, then marks, then names."""
        drawn = {pair: flow for pair, flow in self.spokes.items() if self.is_strong(pair, flow)}
        self.lines(axes, drawn, SPOKE, self.style.spoke, 1)
        self.lines(axes, self.trunks, TRUNK, self.style.trunk, 2)
        # The smaller marks come later, and hubs before others only if these are much smaller, so that none is hidden.
        for node in sorted(
            range(self.size), key=lambda node: -self.flow[node] * (HUB_FIRST if node in self.hubs else 1)
        ):
            hub = node in self.hubs
            axes.scatter(
                *self.places[node],
                s=(2 * self.radius_of(node)) ** 2,
                marker="s" if hub else "o",
                color=HUB if hub else NODE,
                **(EXISTS if node in self.existing else NEW),
                zorder=3,
            )
        axes.set_aspect("equal", adjustable="datalim")
        axes.margins(0.08)
        axes.set_axis_off()

    def is_strong(self, pair: tuple[int, int], flow: float) -> bool:
        """Whether a spoke is drawn: it carries enough of the flow of one of its ends that is no hub."""
        ends = [node for node in pair if node not in self.hubs] or list(pair)
        return any(flow >= self.style.share * self.flow[node] for node in ends)

    def lines(self, axes: Axes, flows: dict[tuple[int, int], float], color: str, widest: float, order: int) -> None:
        """Links with their width by flow, the strongest on top."""
        pairs = sorted(flows, key=lambda pair: flows[pair])
        most = max(flows.values(), default=1) or 1
        widths = [max(0.4, widest * flows[pair] / most) for pair in pairs]
        segments = [self.places[list(pair)] for pair in pairs]
        axes.add_collection(
            LineCollection(segments, colors=color, linewidths=widths, alpha=0.75, capstyle="round", zorder=order)
        )

    def write_names(self, axes: Axes) -> None:
        """Few names in any case; of many those that find room, hubs before others, the most flow first."""
        axes.figure.canvas.draw()
        nodes = [
            Node(tuple(self.places[node]), self.radius_of(node), node in self.hubs) for node in range(self.size)
        ]
        most = max(self.trunks.values(), default=0)
        strong = [self.places[list(pair)] for pair, flow in self.trunks.items() if flow >= STRONG * most]
        labels = Labels(axes, nodes, strong)
        for node in sorted(range(self.size), key=lambda node: (node not in self.hubs, -self.flow[node], node)):
            is_hub = nodes[node].is_hub
            forced = self.size <= ALL_NAMED or (is_hub and len(self.hubs) <= ALL_NAMED)
            labels.place(self.names[node], nodes[node], self.style.text + is_hub, forced)

    def legend(self, axes: Axes, note: str) -> None:
        """What the marks mean, beside the picture."""
        entries: list[tuple[Line2D, str]] = []
        for flow in steps(self.flow.max()):
            mark = Line2D([], [], marker="o", ls="", color=NODE, markersize=2 * self.radius(flow))
            entries.append((mark, f"flow {readable(flow)}"))
        entries.append((Line2D([], [], marker="s", ls="", color=HUB, markersize=2 * self.style.largest * 0.7), "hub"))
        if self.existing:
            mark = Line2D([], [], marker="s", ls="", color=HUB, markersize=2 * self.style.largest * 0.7)
            mark.set(markeredgecolor=EXISTS["edgecolors"], markeredgewidth=EXISTS["linewidths"])
            entries.append((mark, "existing, its cost\ncounts as 0"))
        most = max(self.trunks.values(), default=0)
        for flow in steps(most):
            entries.append(
                (
                    Line2D([], [], color=TRUNK, alpha=0.75, lw=max(0.4, self.style.trunk * flow / most)),
                    f"trunk {readable(flow)}",
                )
            )
        if len(self.trunks) < self.all_trunks:
            entries.append((Line2D([], [], ls=""), f"the {len(self.trunks)} strongest\nof {self.all_trunks} trunks"))
        if self.spokes:
            entries.append((Line2D([], [], color=SPOKE, lw=self.style.spoke), "to and from a hub" + self.left_out()))
        if note:
            entries.append((Line2D([], [], ls=""), note))
        marks, texts = zip(*entries)
        axes.legend(
            marks, texts, loc="center left", bbox_to_anchor=(1, 0.5), frameon=False, fontsize=8, labelspacing=1.6
        )

    def left_out(self) -> str:
        """What the legend says of spokes that are not drawn."""
        return f"\n(from {self.style.share:.0%} of a place's flow)" if self.style.share else ""


def steps(most: float) -> list[float]:
    """Round numbers up to the greatest, for a legend."""
    if most <= 0:
        return []
    power = 10.0 ** np.floor(np.log10(most))
    top = next(step * power for step in (5, 2, 1) if step * power <= most)
    return [top, top / 5] if top >= power else [top]


def readable(number: float) -> str:
    """A number in a few letters."""
    for size, letter in ((1e9, " bn"), (1e6, " M"), (1e3, " k")):
        if number >= size:
            return f"{number / size:.6g}{letter}"
    return f"{number:.6g}"


def picture_bytes(figure: pyplot.Figure, kind: str) -> bytes:
    """A picture as a file of a kind, `.png`, `.svg` or `.pdf`; the same input gives the same bytes."""
    held = BytesIO()
    date = {".svg": {"Date": None}, ".pdf": {"CreationDate": None}}.get(kind)
    with matplotlib.rc_context({"svg.hashsalt": "hub"}):
        figure.savefig(held, format=kind[1:], dpi=150, metadata=date)
    pyplot.close(figure)
    return held.getvalue()


def paper_for(places: np.ndarray) -> tuple[pyplot.Figure, Axes]:
    """A figure of the shape of the places, with room for a title above and a legend at the right; sizes in inches."""
    wide, high = np.ptp(places, axis=0)
    longer = max(wide, high) or 1
    across, up = (max(LEAST_SIDE, MOST_SIDE * side / longer) for side in (wide, high))
    width, height = across + LEGEND, up + TITLE
    figure = pyplot.figure(figsize=(width, height))
    return figure, figure.add_axes((0, 0, across / width, up / height))


def picture(named: Named, places: np.ndarray, title: str, note: str) -> pyplot.Figure:
    """The whole picture of a network, with a row x, y of places for each node."""
    figure, axes = paper_for(places)
    drawn = Map(named, places)
    drawn.draw(axes)
    figure.suptitle("\n".join(filter(None, [title, named.verdict.title()])), fontsize=12)
    drawn.legend(axes, note)
    drawn.write_names(axes)
    return figure
