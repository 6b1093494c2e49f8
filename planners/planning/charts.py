"""The picture of a sweep: costs above, numbers of hubs below, unless these stand along the bottom."""

from __future__ import annotations

import matplotlib

matplotlib.use("Agg")

from matplotlib import pyplot
from matplotlib.axes import Axes
from matplotlib.lines import Line2D
from matplotlib.ticker import FuncFormatter, MaxNLocator

from .drawing import readable
from .plot import Point

SPREAD = 0.06
"""How far apart, in hubs, the lines of the lower picture are drawn."""

LABELS = {"hubs": "number of hubs", "max_length": "length of the longest route", "fixed": "fixed cost of a hub"}
"""What stands along the bottom, where it is not the column's name."""


def draw_costs(axes: Axes, lines: dict[str, list[Point]]) -> None:
    """The costs. What is not proved optimal is hollow, with a bar down to its bound."""
    for number, (name, points) in enumerate(lines.items()):
        color = f"C{number}"
        axes.plot([point.at for point in points], [point.cost for point in points], color=color, label=name)
        for point in points:
            axes.plot(point.at, point.cost, "o", color=color, markerfacecolor=color if point.is_proved else "white")
            if not point.is_proved:
                axes.vlines(point.at, point.bound, point.cost, color=color, linewidth=1, linestyle=":")
    axes.set_ylabel("cost")
    axes.yaxis.set_major_formatter(FuncFormatter(lambda cost, _: readable(cost)))


def draw_hubs(axes: Axes, lines: dict[str, list[Point]]) -> None:
    """The numbers of hubs. Lines on the same course are drawn a little apart, so that each is seen."""
    for number, points in enumerate(lines.values()):
        shift = SPREAD * (number - (len(lines) - 1) / 2)
        hubs = [point.hubs + shift for point in points]
        axes.plot([point.at for point in points], hubs, color=f"C{number}", marker=".")
    axes.set_ylabel("hubs")
    axes.yaxis.set_major_locator(MaxNLocator(integer=True))
    axes.set_ylim(0, 0.5 + max(point.hubs for points in lines.values() for point in points))


def chart(lines: dict[str, list[Point]], title: str, against: str) -> pyplot.Figure:
    """The whole picture of a sweep, with a line for each name."""
    is_named = any(lines)
    heights = (1,) if against == "hubs" else (2, 1)
    rows = len(heights)
    sizes = {"figsize": (8.5, 2.6 + 1.7 * rows), "gridspec_kw": {"height_ratios": heights}}
    figure, grid = pyplot.subplots(rows, 1, sharex=True, squeeze=False, **sizes)
    axes = grid[:, 0]
    figure.subplots_adjust(left=0.11, right=0.76 if is_named else 0.97, bottom=0.14 + 0.06 / rows, top=0.9)
    draw_costs(axes[0], lines)
    if rows > 1:
        draw_hubs(axes[1], lines)
    for axis in axes:
        axis.grid(color="#e0e0e0")
        axis.spines[["top", "right"]].set_visible(False)
    if is_named:
        axes[0].legend(loc="upper left", bbox_to_anchor=(1, 1), frameon=False, fontsize=8)
    marks = [Line2D([], [], ls="", marker="o", color="#404040", markerfacecolor=fill) for fill in ("#404040", "white")]
    texts = ["proved optimal", "not proved; dotted down to the bound"]
    figure.legend(marks, texts, loc="lower center", ncol=2, frameon=False, fontsize=8)
    axes[0].set_title(title, fontsize=11)
    axes[-1].set_xlabel(LABELS.get(against, against))
    if against == "hubs":
        axes[-1].xaxis.set_major_locator(MaxNLocator(integer=True))
    return figure
