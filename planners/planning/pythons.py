"""Which Python runs a script: where it lacks a package that the system's own Python has, that one takes over."""

from __future__ import annotations

import os
import subprocess
import sys
from importlib.util import find_spec

from .faults import Fault

SYSTEM = "/usr/bin/python3"
"""Where Debian's packages are found, whatever Python is first on the path."""
TAKEN_OVER = "HUB_PYTHON_TAKEN_OVER"
"""Stands in the environment of a script that was handed to the system's Python, so that it is handed on once only."""
ASK = """
import sys
from importlib.util import find_spec
sys.exit(sys.version_info < (3, 9) or any(find_spec(name) is None for name in sys.argv[1:]))
"""


def has(package: str) -> bool:
    """Whether this Python has a package; it is not loaded."""
    return find_spec(package) is not None


def can_take_over(system: str, packages: tuple[str, ...]) -> bool:
    """Whether another Python is there, new enough, and has these packages."""
    try:
        return subprocess.run([system, "-c", ASK, *packages], capture_output=True, check=False).returncode == 0
    except OSError:
        return False


def want(*packages: str, without: str = "") -> None:
    """Sees to it, before any work is done, that these packages are there: by this Python, or else by the system's.
    `without` is the message for a user who wants to do without the last one."""
    missing = [package for package in packages if not has(package)]
    if not missing:
        return
    if TAKEN_OVER not in os.environ and can_take_over(SYSTEM, packages):
        sys.stdout.flush()
        os.execve(SYSTEM, [SYSTEM, *sys.argv], os.environ | {TAKEN_OVER: "1"})
    more = f"; {without}" if without and missing == [packages[-1]] else ""
    raise Fault(lacking(missing, sys.executable, SYSTEM) + more)


def lacking(missing: list[str], running: str, system: str) -> str:
    """What a script says where no Python has what it wants."""
    names = " and ".join(missing)
    debian = " ".join(f"python3-{name}" for name in missing)
    who = f"{running} lacks" if running == system else f"neither {running} nor {system} has"
    return f"wants the Python package{'s' * (len(missing) > 1)} {names}, which {who} (Debian: apt install {debian})"
