"""Exact numbers as `hub` reads and prints them: whole multiples of a power of ten."""

from __future__ import annotations

import re
from dataclasses import dataclass

NUMBER = re.compile(r"([+-]?)(?:([0-9]+)\.?([0-9]*)|\.([0-9]+))(?:[eE]([+-]?[0-9]{1,3}))?")
MOST_BYTES = 40
COST_PLACES = 12
FLOW_PLACES = 6
DISTANCE_PLACES = 3
GAP_PLACES = 4
"""Of a gap in per cent, as it is printed."""


@dataclass(frozen=True)
class Quantity:
    """A kind of number: what it is called, to how many decimals it is kept, and its limits."""

    name: str
    places: int
    least: int
    most: int

    def wanted(self, which: str = "") -> str:
        """What a user should write; `which` says which one it is."""
        return f"{self.name}{which and ' ' + which}, a number from {self.least} to {self.most}"

    def read(self, text: str) -> int | None:
        """The number in units of 10^-places, or None where the text is none within the limits."""
        units = read_units(text, self.places)
        scale = 10**self.places
        if units is None or not self.least * scale <= units <= self.most * scale:
            return None
        return units


SIZE = Quantity("the number of nodes", 0, 1, 200)
COORDINATE = Quantity("a coordinate", 6, -1_000_000, 1_000_000)
LONGITUDE = Quantity("a longitude in degrees", 6, -180, 180)
LATITUDE = Quantity("a latitude in degrees", 6, -90, 90)
FLOW = Quantity("a flow", FLOW_PLACES, 0, 10_000_000)
DISTANCE = Quantity("a distance", DISTANCE_PLACES, 0, 10_000_000)
FACTOR = Quantity("a factor", 3, 0, 1000)
FIXED_COST = Quantity("a fixed cost", 6, 0, 10**12)
LISTED_HUBS = Quantity("the listed number of hubs", 0, 0, 1000)


def read_units(text: str, places: int) -> int | None:
    """The number that the text writes, cut toward zero to so many decimals, in units of 10^-places."""
    match = NUMBER.fullmatch(text) if len(text) <= MOST_BYTES else None
    if match is None:
        return None
    sign, whole, part, bare, exponent = match.groups()
    digits = (whole or "") + (part or bare or "")
    shift = int(exponent or 0) - len(part or bare or "") + places
    units = int(digits) * 10**shift if shift >= 0 else int(digits) // 10**-shift
    return -units if sign == "-" else units


def decimal(units: int, places: int) -> str:
    """A number of units of 10^-places, with this number of decimals."""
    sign = "-" if units < 0 else ""
    whole, part = divmod(abs(units), 10**places)
    return f"{sign}{whole}.{part:0{places}}" if places else f"{sign}{whole}"


def trimmed(text: str) -> str:
    """A decimal without zeros at its end."""
    return text.rstrip("0").rstrip(".") if "." in text else text


def gap_percent(cost: int, bound: int) -> str:
    """How far the bound is below the cost, in per cent of the cost to four decimals, rounded up: it is 0 only where it
    is closed."""
    if cost == 0:
        return decimal(0, GAP_PLACES)
    return decimal(-((bound - cost) * 100 * 10**GAP_PLACES // cost), GAP_PLACES)
