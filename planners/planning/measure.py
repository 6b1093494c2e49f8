"""One process with a time limit: how it ended, how long it took, and its peak memory."""

from __future__ import annotations

import os
import re
import resource
import signal
import subprocess
import time
from collections.abc import Callable
from dataclasses import dataclass
from pathlib import Path
from threading import Event

from .faults import Fault

PEAK = re.compile(r"^VmHWM:\s*([0-9]+) kB$", re.MULTILINE)
SHORTEST_WAIT, LONGEST_WAIT = 0.001, 0.02
"""Seconds between two looks at a process."""
SHORTEST_SEEN = 0.05
"""A process that ends sooner, in seconds, may end before its peak is seen."""
OWN_ERROR = 4096
"""By how many KiB the system may count this script's own memory wrong."""
STOPPING = (-signal.SIGHUP, -signal.SIGINT, -signal.SIGTERM)
"""A process that ends so was stopped, and tells nothing of its scenario: Ctrl-C goes to it as to this script."""


@dataclass(frozen=True)
class Ended:
    """The end of a process."""

    status: int | None
    """None where the time limit came first."""
    seconds: float
    peak: int
    """The most memory that it held, in KiB; 0 where it ended too soon to be seen."""
    error: str
    """The first line that it wrote to standard error."""


class Stopped(Fault):
    """The process was ended because the sweep was stopped."""


def peak_so_far(process: int) -> int:
    """The most memory held so far, in KiB, or 0 where the system does not tell it."""
    try:
        match = PEAK.search(Path(f"/proc/{process}/status").read_text())
    except OSError:
        return 0
    return int(match[1]) if match else 0


def run(words: list[str], out: Path, limit: float | None, stop: Event, look: Callable[[], None] | None = None) -> Ended:
    """Runs a program with its standard output into a file, until it ends or the limit in seconds is over; `look` is
    called from time to time while it runs."""
    start = time.monotonic()
    with out.open("wb") as file, subprocess.Popen(
        words, stdin=subprocess.DEVNULL, stdout=file, stderr=subprocess.PIPE
    ) as process:
        try:
            seen, pause = peak_so_far(process.pid), SHORTEST_WAIT
            while (usage := reap(process)) is None:
                seen = max(seen, peak_so_far(process.pid))
                if stop.is_set():
                    raise Stopped("stopped")
                if look:
                    look()
                if limit is not None and time.monotonic() - start > limit:
                    process.kill()
                    process.wait()
                    return Ended(None, time.monotonic() - start, seen, "")
                time.sleep(pause)
                pause = min(2 * pause, LONGEST_WAIT)
            if process.returncode in STOPPING:
                raise Stopped("a process of hub was stopped")
            seconds = time.monotonic() - start
            error = process.stderr.read().decode(errors="replace") if process.stderr else ""
            most = peak(usage, seen if seconds > SHORTEST_SEEN else 0)
            return Ended(process.returncode, seconds, most, error.split("\n")[0])
        finally:
            if process.returncode is None:
                process.kill()


def reap(process: subprocess.Popen[bytes]) -> resource.struct_rusage | None:
    """What a process used, if it has ended; its status goes into `process`."""
    found, status, usage = os.wait4(process.pid, os.WNOHANG)
    if found == 0:
        return None
    process.returncode = os.waitstatus_to_exitcode(status)
    return usage


def peak(usage: resource.struct_rusage, seen: int) -> int:
    """The most memory held, in KiB.

    The system counts this script's own memory too, since a process begins as its copy. So its number is exact where it
    is well above that; else the last look at the process serves, which may be a little too small.
    """
    own = resource.getrusage(resource.RUSAGE_SELF).ru_maxrss
    return usage.ru_maxrss if usage.ru_maxrss > own + OWN_ERROR else seen
