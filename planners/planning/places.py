"""Where the nodes of a network are drawn."""

from __future__ import annotations

from math import cos, radians
from pathlib import Path

import numpy as np

from .csv_tables import read_nodes
from .faults import Fault
from .instance import Instance


def positions(instance: Instance, names: Path | None) -> tuple[np.ndarray, str]:
    """A row x, y for each node, and what the picture says of where they come from."""
    table = read_nodes(names) if names else None
    if table and len(table.names) != instance.size():
        raise Fault(f"{names}: wanted {instance.size()} nodes, found {len(table.names)}")
    if table and table.places:
        return on_globe(np.array([[float(x), float(y)] for x, y in table.places])), ""
    if table and table.points:
        return np.array([[float(x), float(y)] for x, y in table.points]), ""
    if instance.points:
        return np.array(instance.points), ""
    return from_distances(np.array(instance.distances, dtype=float)), "places worked out\nfrom the distances"


def on_globe(places: np.ndarray) -> np.ndarray:
    """Longitude and latitude in degrees, with as many of them to the inch as hold at the middle of the map."""
    middle = (places[:, 1].min() + places[:, 1].max()) / 2
    return np.column_stack([places[:, 0] * cos(radians(middle)), places[:, 1]])


def from_distances(lengths: np.ndarray) -> np.ndarray:
    """Places in the plane whose distances are near the given ones, by classical scaling."""
    size = len(lengths)
    squares = ((lengths + lengths.T) / 2) ** 2
    centre = np.eye(size) - 1 / size
    values, vectors = np.linalg.eigh(-centre @ squares @ centre / 2)
    # The two greatest come last. Signs are fixed, so that the same file gives the same picture.
    axes = vectors[:, ::-1][:, :2] * np.sqrt(np.maximum(values[::-1][:2], 0))
    places = np.zeros((size, 2))
    places[:, : axes.shape[1]] = axes
    return places * np.where(places[np.abs(places).argmax(axis=0), [0, 1]] < 0, -1, 1)
