"""The picture of what a network costs without each hub, and with further ones: a bar for each rise."""

from __future__ import annotations

import matplotlib

matplotlib.use("Agg")

from matplotlib import pyplot
from matplotlib.axes import Axes
from matplotlib.patches import Patch
from matplotlib.ticker import FuncFormatter

from .alternatives import WITH, WITHOUT, Alternatives, Line
from .drawing import HUB, NODE, readable

COST_UNITS = 10**12
COLORS = {WITHOUT: HUB, WITH: NODE}
MEANING = {WITHOUT: "without this hub", WITH: "with this place as a hub"}
BAR, HEAD, WIDTH = 0.24, 1.9, 9.0
"""In inches: the height of a bar's row, the room above and below, and the width."""
ROOM = 0.62
"""How far the longest bar goes, as a part of the width, so that there is room for what stands behind it."""


def draw_bar(axes: Axes, found: Alternatives, line: Line, at: int) -> None:
    """A rise with what it comes with. One that is not proved is hollow, and dotted from the least to the most."""
    rise, least = (part / COST_UNITS for part in (found.rise(line), found.least_rise(line)))
    is_proved, color = line.bound == line.cost, COLORS[line.kind]
    axes.barh(at, rise, height=0.7, facecolor=color if is_proved else "white", edgecolor=color, linewidth=0.8)
    if not is_proved:
        axes.hlines(at, least, rise, color=color, linewidth=1, linestyle=":")
    change = found.change(line)
    text = f" {found.short_rise(line)}" + (f"  {change}" if change else "")
    axes.text(max(rise, 0), at, text, va="center", fontsize=7, clip_on=False)


def chart(found: Alternatives, title: str) -> pyplot.Figure:
    """The whole picture: the losses first, then the further places, each the least rise first."""
    lines = found.of(WITHOUT) + found.of(WITH)
    figure, axes = pyplot.subplots(figsize=(WIDTH, HEAD + BAR * max(len(lines), 1)))
    for at, line in enumerate(lines):
        draw_bar(axes, found, line, at)
    rises = [found.rise(line) / COST_UNITS for line in lines]
    axes.set_xlim(min([0.0, *rises]), (max([0.0, *rises]) or 1) / ROOM)
    axes.set_yticks(range(len(lines)), [found.named.names[line.node] for line in lines], fontsize=8)
    axes.set_ylim(len(lines) - 0.4, -0.6)
    axes.xaxis.set_major_formatter(FuncFormatter(lambda cost, _: "-" * (cost < 0) + readable(abs(cost))))
    axes.grid(axis="x", color="#e0e0e0")
    axes.set_axisbelow(True)
    axes.spines[["top", "right"]].set_visible(False)
    axes.set_xlabel("rise in cost")
    kinds = [kind for kind in (WITHOUT, WITH) if found.of(kind)]
    marks = [Patch(facecolor=COLORS[kind]) for kind in kinds]
    texts = [MEANING[kind] for kind in kinds]
    if any(line.bound < line.cost for line in lines):
        marks.append(Patch(facecolor="white", edgecolor="#404040"))
        texts.append("not proved; dotted from the least to the most")
    figure.legend(marks, texts, loc="lower center", ncol=3, frameon=False, fontsize=8)
    without = [f"no network {found.asked(line)}" for line in found.lines if not line.is_answered()][:3]
    figure.suptitle("\n".join(filter(None, [title, found.named.verdict.title(), ", ".join(without)])), fontsize=11)
    height = figure.get_size_inches()[1]
    figure.subplots_adjust(left=0.16, right=0.97, bottom=0.85 / height, top=1 - 0.75 / height)
    return figure
