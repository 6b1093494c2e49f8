"""Distances of places, in the unit and to the three decimals to which `hub` keeps them."""

from __future__ import annotations

from math import asin, cos, isqrt, radians, sin, sqrt

from .quantities import COORDINATE, DISTANCE_PLACES, decimal

EARTH_RADIUS = {"km": 6371.0088, "miles": 3958.7613}
"""The mean radius of the earth."""


def plane(points: list[tuple[str, str]], divisor: int = 1) -> list[list[str]]:
    """Straight lines over a divisor, the most thousandths that are not longer: what `hub` takes from an ap file."""
    at = [(COORDINATE.read(x) or 0, COORDINATE.read(y) or 0) for x, y in points]
    return [
        [decimal(isqrt((a - c) ** 2 + (b - d) ** 2) // (1000 * divisor), DISTANCE_PLACES) for c, d in at] for a, b in at
    ]


def great_circle(places: list[tuple[str, str]], unit: str) -> list[list[str]]:
    """Along the surface of the earth as a ball, from longitude and latitude in degrees, to the nearest thousandth."""
    at = [(radians(float(longitude)), radians(float(latitude))) for longitude, latitude in places]

    def arc(a: tuple[float, float], b: tuple[float, float]) -> float:
        half = sin((a[1] - b[1]) / 2) ** 2 + cos(a[1]) * cos(b[1]) * sin((a[0] - b[0]) / 2) ** 2
        return 2 * EARTH_RADIUS[unit] * asin(min(1.0, sqrt(half)))

    return [[f"{arc(a, b):.3f}" for b in at] for a in at]
