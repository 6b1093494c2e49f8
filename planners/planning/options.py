"""The options with which `hub` reads an instance; the scripts take the same words and hand them on."""

from __future__ import annotations

import argparse
import re
from dataclasses import dataclass
from pathlib import Path

from .faults import Fault, Parser
from .quantities import DISTANCE, FACTOR, FIXED_COST, SIZE, Quantity

QUANTITIES = {
    "collect": FACTOR,
    "trunk": FACTOR,
    "deliver": FACTOR,
    "fixed": FIXED_COST,
    "divide": Quantity("a divisor of distances", 0, 1, 1_000_000),
    "hubs": Quantity("a number of hubs", 0, 1, SIZE.most),
    "max-length": Quantity("the length of the longest route", 3, 0, 3 * DISTANCE.most),
    "nodes": Quantity("a number of nodes of the tree", 0, 1, 10**18),
    "workers": Quantity("a number of workers", 0, 1, 64),
    "format": Quantity("a format of certificates", 0, 1, 9),
    "gap": Quantity("a gap in per cent of the cost", 3, 0, 100),
}
"""The options of hub whose value is a number, of the instance and of the search."""
LAYOUTS = ["cab-matrix", "cab-rows", "ap"]
TOLD = {
    "order": ("ORDER", "flow-first or distance-first, of cab-matrix"),
    "tail": ("TAIL", "ignore or fixed, of ap"),
    "divide": ("D", "divides the distances"),
    "collect": ("X", "the factor of collection"),
    "trunk": ("X", "the factor of the trunk"),
    "deliver": ("X", "the factor of delivery"),
    "fixed": ("X", "the fixed cost of every node"),
    "costs": ("FILE", "a file with a fixed cost for each node"),
    "candidates": ("LIST", "which nodes may be hubs: numbers with commas between"),
    "hubs": ("P", "exactly this number of hubs, or 'file' for the number in an ap file"),
    "max-length": ("R", "no route is longer"),
    "gap": ("G", "stop the search once the bound is within so many per cent of the cost"),
    "nodes": ("N", "stop the search at so many nodes, with a bound"),
    "workers": ("W", "so many workers share the work"),
    "format": ("F", "the format of the certificate"),
}
"""What the help of a script says of each option of hub that takes a value."""
NOT_IN_EACH = {"hubs": "1", "max-length": "1", "format": "1", "gap": "1", "from": "/dev/null"}
"""Options that not each command of each version of `hub` has, with a value to try it with."""
OF_SEARCH = ["gap", "nodes", "workers", "format"]
"""The names of the options of a search, which are none of the instance."""
OF_LAYOUT = {"order": "cab-matrix", "tail": "ap"}
"""Options of one layout alone."""
CHOICES = {"order": ("flow-first", "distance-first"), "tail": ("ignore", "fixed")}
"""The values of options whose value is a word."""
LISTED = "file"
"""The value of --hubs for as many hubs as an ap file lists."""
FACTORS = ["collect", "trunk", "deliver"]
VALUED = ["order", "tail", "divide", *FACTORS, "fixed", "costs", "candidates", "hubs", "max-length"]
"""The names of the options that take a value."""


@dataclass(frozen=True)
class Options:
    """An instance as the words of `hub` name it: layout, file, and the options that were given, by name."""

    layout: str
    file: Path
    values: dict[str, str]
    no_self: bool

    def words(self) -> list[str]:
        """The options as words for `hub`."""
        return [f"--{name}={value}" for name, value in self.values.items()] + ["--no-self"] * self.no_self

    def changed(self, values: dict[str, str]) -> "Options":
        """The same instance with further options; one that was given gives way."""
        costs = {"fixed", "costs"} & values.keys()
        kept = {name: value for name, value in self.values.items() if not (costs and is_costs(name, value))}
        return Options(self.layout, self.file, kept | values, self.no_self)


def is_costs(name: str, value: str) -> bool:
    """Whether an option says where the fixed costs are."""
    return name in ("fixed", "costs") or (name, value) == ("tail", "fixed")


def add_options(parser: Parser) -> None:
    """Puts layout, file and options of the instance on a command line."""
    parser.add_argument("layout", choices=LAYOUTS, help="the layout of the instance")
    parser.add_argument("file", type=Path, help="the instance")
    group = parser.add_argument_group("options of the instance", "as for hub")
    add_valued(group, VALUED)
    group.add_argument("--no-self", action="store_true", help="flows from a node to itself count as 0")


def add_valued(group: argparse._ArgumentGroup, names: list[str]) -> None:
    """Puts options of hub that take a value on a command line."""
    for name in names:
        letter, what = TOLD[name]
        later = "" if name not in NOT_IN_EACH else ", where this hub has the option"
        group.add_argument(f"--{name}", metavar=letter, help=what + later)


def values_of(args: argparse.Namespace, names: list[str]) -> dict[str, str]:
    """Those of these options that were given, with their values."""
    found = {name: getattr(args, name.replace("-", "_"), None) for name in names}
    return {name: value for name, value in found.items() if value is not None}


def options_of(args: argparse.Namespace) -> Options:
    """What the command line says of the instance; a fault where `hub` would not take it."""
    values = values_of(args, VALUED)
    test_values(values, args.layout)
    return Options(args.layout, args.file, values, args.no_self)


def is_taken(name: str, text: str) -> bool:
    """Whether `hub` takes a text as the number of this option. Whole numbers are digits without a leading zero; a gap
    has at most three decimals, since it is not cut."""
    if (name, text) == ("hubs", LISTED):
        return True
    quantity = QUANTITIES[name]
    if name == "gap":
        plain = re.fullmatch(r"[0-9]{1,3}(\.[0-9]{1,3})?", text) is not None
    else:
        plain = quantity.places > 0 or (text.isascii() and text.isdecimal() and not text.startswith("0"))
    return plain and quantity.read(text) is not None


def is_list_of_nodes(text: str) -> bool:
    """Whether `hub` takes a text as a list of candidates."""
    words = text.split(",")
    nodes = [int(word) for word in words if re.fullmatch("[1-9][0-9]{0,2}", word)]
    return len(nodes) == len(words) and nodes == sorted(set(nodes)) and nodes[-1] <= SIZE.most


def wanted(name: str) -> str:
    """What a user should write as the number of this option."""
    more = {"gap": " with at most 3 decimals", "hubs": f", or '{LISTED}'"}
    return QUANTITIES[name].wanted() + more.get(name, "")


def test_values(values: dict[str, str], layout: str) -> None:
    """A fault of the first option whose value `hub` would not take, or of the first two that may not stand together."""
    for name, text in values.items():
        if name in QUANTITIES and not is_taken(name, text):
            raise Fault(f"--{name}: wanted {wanted(name)}, found '{text}'")
        if name in CHOICES and text not in CHOICES[name]:
            raise Fault(f"--{name}: wanted {' or '.join(CHOICES[name])}, found '{text}'")
        if name == "candidates" and not is_list_of_nodes(text):
            raise Fault(f"--candidates: wanted ascending numbers of nodes with commas between, found '{text}'")
        if OF_LAYOUT.get(name, layout) != layout:
            raise Fault(f"--{name} is an option of the layout {OF_LAYOUT[name]} alone")
    reason = not_together(values, layout)
    if reason:
        raise Fault(reason)


def not_together(values: dict[str, str], layout: str) -> str:
    """Why `hub` would refuse these options together, each of which it takes; empty where it would not."""
    if "hubs" in values and "max-length" in values:
        return "--hubs and --max-length may not stand together; hub has no search for both"
    if values.get("hubs") == LISTED and layout != "ap":
        return f"--hubs {LISTED} wants the layout ap, whose files list a number of hubs"
    if values.get("format") == "1" and ("hubs" in values or "max-length" in values):
        return "--format 1 has no lines for --hubs and --max-length; leave it out, or say --format 2"
    costs = [f"--{name} {value}" for name, value in values.items() if is_costs(name, value)]
    return f"{costs[0]} and {costs[1]} may not stand together" if len(costs) > 1 else ""


def given(values: dict[str, str], name: str, quantity: Quantity, default: int) -> int:
    """The number of an option in its units, or what stands where it was not given."""
    if name not in values:
        return default
    units = quantity.read(values[name])
    if units is None:
        raise Fault(f"--{name}: wanted {quantity.wanted()}, found '{values[name]}'")
    return units


def factors(values: dict[str, str], default: tuple[int, int, int]) -> tuple[int, int, int]:
    """The factors of collection, trunk and delivery in thousandths."""
    collect, trunk, deliver = (
        given(values, name, FACTOR, units) for name, units in zip(FACTORS, default)
    )
    return collect, trunk, deliver


def fixed_cost(values: dict[str, str]) -> int:
    """The one fixed cost of all nodes, in millionths."""
    return given(values, "fixed", FIXED_COST, 0)
