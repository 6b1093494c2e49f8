"""The message for a network whose certificate is too long for `hub check`: it is found, and not proved."""

from __future__ import annotations

from collections.abc import Iterable
from pathlib import Path

from .certificate import read_plan
from .instance import read_instance
from .loads import network_of
from .options import Options
from .program import short


def best_found(options: Options, certificate: Path, names: list[str] | None, verb: str, search: Iterable[str]) -> str:
    """The line for the user: hubs and cost, computed again from the first part of the text, and what makes a shorter one.
    `search` has the names of the options of the search."""
    plan = read_plan(certificate)
    network_of(read_instance(options), plan)
    hubs = ", ".join(names[hub] if names else str(hub + 1) for hub in plan.hubs)
    limited = options.values.keys() & {"hubs", "max-length"}
    helps = [
        *(["a greater --gap" if "gap" in search else "--gap"] if verb == "optimize" else []),
        *(["--format 2"] if verb in ("optimize", "solve") and not limited and "format" not in search else []),
        "fewer candidates",
    ]
    listed = " or ".join([", ".join(helps[:-1]), helps[-1]] if len(helps) > 1 else helps)
    found = f"the best network found costs {short(plan.cost)}, with the hubs {hubs}"
    return f"{found}; it is not proved, for its certificate is too long for hub check: try {listed}"
