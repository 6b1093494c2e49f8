"""Hub location beside the program `hub`: files in, exact numbers, tables and pictures out; and, from Python, `solve`.

`solve(flows, distances, ..)` and `Problem` want numpy; what goes wrong is a `Fault` with one line. The scripts load no
more of the package than they use, so these names but the faults are loaded when they are first asked for.
"""

from __future__ import annotations

from typing import Any

from .faults import Fault, NoNetwork

__all__ = ["Fault", "NoNetwork", "Problem", "Result", "solve"]


def __getattr__(name: str) -> Any:
    """What is loaded at its first use."""
    if name not in __all__:
        raise AttributeError(f"module 'planning' has no attribute '{name}'")
    from . import problem

    return getattr(problem, name)
