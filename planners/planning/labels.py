"""Names beside their nodes, so that no name lies on another or on a mark."""

from __future__ import annotations

from dataclasses import dataclass

import numpy as np
from matplotlib import patheffects
from matplotlib.axes import Axes

REACH = (1.5, 12, 24)
"""How far from its mark a name may stand, in points; only the first where it may be left out."""
OUTSIDE = 1000
"""What a name that leaves the picture counts as, in names that it hides."""
ON_A_TRUNK = 0.5
"""What a name on a strong trunk counts as: it can be read, but worse."""
STEPS = np.linspace(0, 1, 200)[:, None]
"""Where along a trunk it is looked whether a name lies on it."""


@dataclass(frozen=True)
class Side:
    """On which side of its node a name stands: -1, 0 or 1 to the right, and the same up."""

    across: int
    up: int

    def share(self) -> float:
        """Which part of the distance counts along each axis, so that corners are not farther away."""
        return 0.75 if self.across and self.up else 1


SIDES = [Side(*side) for side in ((1, 0), (-1, 0), (0, 1), (0, -1), (1, 1), (1, -1), (-1, 1), (-1, -1))]
ACROSS = {1: "left", 0: "center", -1: "right"}
UP = {1: "bottom", 0: "center", -1: "top"}


@dataclass(frozen=True)
class Node:
    """What a name is written beside: a place on the map, and a mark with its radius in points."""

    place: tuple[float, float]
    radius: float
    is_hub: bool


class Labels:
    """The names that are placed so far, over the marks that they must not hide."""

    def __init__(self, axes: Axes, nodes: list[Node], trunks: list[np.ndarray]) -> None:
        """Starts with the marks alone, and with the strong trunks, each by its two ends."""
        self.axes = axes
        self.renderer = axes.figure.canvas.get_renderer()
        self.frame = axes.get_window_extent(self.renderer)
        self.scale = axes.figure.dpi / 72
        centres = axes.transData.transform([node.place for node in nodes])
        radii = np.array([[node.radius * self.scale] for node in nodes])
        self.taken = np.hstack([centres - radii, centres + radii])
        """A row x, y, x, y of the corners of each box, in pixels."""
        ends = [axes.transData.transform(ends) for ends in trunks]
        self.on_trunks = np.vstack([np.empty((0, 2)), *(first + STEPS * (last - first) for first, last in ends)])
        """Places on the strong trunks, in pixels."""

    def place(self, name: str, node: Node, size: float, forced: bool) -> None:
        """Writes a node's name, if there is room; a forced one in any case, farther away or where it hides least."""
        text = self.axes.annotate(
            name,
            node.place,
            (0, 0),
            textcoords="offset points",
            zorder=9,
            fontsize=size,
            color="#202020",
            fontweight="bold" if node.is_hub else "normal",
        )
        # A white rim keeps a line below the name from crossing its letters.
        text.set_path_effects([patheffects.withStroke(linewidth=2, foreground="white")])
        extent = text.get_window_extent(self.renderer)
        choices = [(away, side) for away in (REACH if forced else REACH[:1]) for side in SIDES]
        boxes = [self.box(node, away, side, extent.width, extent.height) for away, side in choices]
        hidden = [self.hidden_by(box) for box in boxes]
        best = hidden.index(min(hidden))
        if hidden[best] >= 1 and not forced:
            text.remove()
            return
        away, side = choices[best]
        self.taken = np.vstack([self.taken, boxes[best]])
        reach = (node.radius + away) * side.share()
        offset = (side.across * reach, side.up * reach)
        text.set(position=offset, ha=ACROSS[side.across], va=UP[side.up])
        if away > REACH[0]:
            line = {"arrowstyle": "-", "lw": 0.5, "shrinkA": 0, "shrinkB": node.radius}
            self.axes.annotate("", node.place, offset, textcoords="offset points", arrowprops=line, zorder=8)

    def box(self, node: Node, away: float, side: Side, width: float, height: float) -> np.ndarray:
        """The corners of a name of this size in pixels, so far away on this side of its node."""
        reach = (node.radius + away) * side.share() * self.scale
        x, y = self.axes.transData.transform(node.place) + reach * np.array([side.across, side.up])
        left, bottom = x - width * (1 - side.across) / 2, y - height * (1 - side.up) / 2
        return np.array([left, bottom, left + width, bottom + height])

    def hidden_by(self, box: np.ndarray) -> float:
        """How many marks and names a box would lie on, and somewhat more if it lies on a strong trunk."""
        apart = (self.taken[:, :2] > box[2:]).any(axis=1) | (self.taken[:, 2:] < box[:2]).any(axis=1)
        inside = (
            self.frame.x0 <= box[0] and box[2] <= self.frame.x1 and self.frame.y0 <= box[1] and box[3] <= self.frame.y1
        )
        crossed = ((box[:2] <= self.on_trunks) & (self.on_trunks <= box[2:])).all(axis=1).any()
        return int((~apart).sum()) + (ON_A_TRUNK if crossed else 0) + (0 if inside else OUTSIDE)
