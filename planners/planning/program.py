"""The program `hub`, which the scripts run for every answer that they rest on."""

from __future__ import annotations

import os
import re
import shutil
import subprocess
from collections.abc import Iterable
from dataclasses import dataclass
from functools import cache
from pathlib import Path

from .faults import Fault, NoNetwork
from .options import NOT_IN_EACH, Options
from .quantities import COST_PLACES, decimal, gap_percent, trimmed


BUILT = "crates/hub_cli/out/hub_cli"
"""What the first start of this repository's `hub` builds."""
USAGE = 3
"""The status with which `hub` refuses words, before it opens any file."""
NO_NETWORK = 8
"""The status with which `hub` says that no network keeps to the longest route."""
NO_ROUTE = re.compile(r"hub: no network for ([0-9]+) ([0-9]+)")
"""What it says then: the first two nodes that no route joins which is short enough."""
NOT_TAKEN = 2
"""The status with which `hub` says that an older certificate does not serve, by a line on standard output."""
TOO_LONG = "no TooLong"
"""What `hub check` says of a text of more bytes than it takes."""
TAKES_PLACE = "takes its place, which serves up to some 25 nodes"
"""The message where `optimize` has not an option."""
MOST_STATUS = 15
"""A greater status, or a signal, is none of hub's."""


def program() -> str:
    """The program that HUB in the environment names, or the one of this repository, or the one of the path. A fault where
    that of this repository is not built yet: no script begins with an hour or more in which it shows nothing."""
    own = Path(__file__).resolve().parents[2] / "hub"
    named = os.environ.get("HUB") or (str(own) if own.is_file() else "hub")
    found = shutil.which(named)
    if found is None:
        raise Fault(f"{named}: no such program; HUB in the environment may name another")
    path = Path(found).resolve()
    if path == own and not (own.parent / BUILT).is_file():
        begin = f"begin with `{own} demo 7 5`, which proves and builds it"
        raise Fault(f"{own}: this program is not built yet; {begin}, or name another by HUB in the environment")
    return str(path)


@cache
def refuses(name: str, verb: str, *words: str) -> bool:
    """Whether this program takes these options of a command for no words of its own. The files are empty."""
    files = ["/dev/null"] * (1 if verb in ("solve", "optimize") else 2)
    asked = [name, verb, *words, "--", "cab-matrix", *files]
    ended = subprocess.run(asked, capture_output=True, text=True, errors="replace", check=False)
    if not 0 <= ended.returncode <= MOST_STATUS:
        said = ended.stderr.strip().split("\n")[0] or f"status {ended.returncode}"
        raise Fault(f"{name}: this program does not answer as hub does: {said}")
    return ended.returncode == USAGE


def lacking(verb: str, names: Iterable[str]) -> list[str]:
    """Those of these options that this `hub` has not for a command that it has."""
    return [name for name in names if name in NOT_IN_EACH and refuses(program(), verb, f"--{name}={NOT_IN_EACH[name]}")]


def require(verb: str, names: Iterable[str] = ()) -> None:
    """A fault where this `hub` has not the command, or has not one of its options of these names."""
    if refuses(program(), verb):
        raise Fault(f"{program()}: this hub has no command {verb}")
    for name in lacking(verb, names):
        raise Fault(f"{program()}: this hub has no option --{name} for {verb}")


def serving(verb: str, names: Iterable[str]) -> tuple[str, str]:
    """The command that solves with these options, and a message for the user: the command that was chosen, without a
    message; or `solve` in the place of `optimize` where this `hub` has not one of them for that. A fault where
    neither serves."""
    names = list(names)
    missing = [] if refuses(program(), verb) else lacking(verb, names)
    if verb != "optimize" or not missing or refuses(program(), "solve"):
        require(verb, names)
        return verb, ""
    options = " and ".join(f"--{name}" for name in missing)
    beside = lacking("solve", names)
    if not beside:
        return "solve", f"this hub has no option {options} for optimize; hub solve {TAKES_PLACE}"
    more = "" if beside == missing else f", and no --{beside[0]} for solve, which could take its place"
    raise Fault(f"{program()}: this hub has no option {options} for optimize{more}")


def serving_again(verb: str) -> str:
    """The command that solves from an older certificate what this one solves from the start: `optimize` itself, where this `hub`
    has --from for it; else `resolve`."""
    return "resolve" if verb != "optimize" or lacking(verb, ["from"]) else verb


def no_network(said: str, names: list[str] | None, longest: str) -> NoNetwork:
    """The message where no network keeps to the longest route, from the line of `hub`; places by their names,
    where they have any."""
    match = NO_ROUTE.fullmatch(said)
    if match is None or not longest:
        return NoNetwork(f"no network keeps to the longest route: {said}", None, None)
    origin, destination = (int(node) - 1 for node in match.groups())
    start, stop = (names[node] if names else node + 1 for node in (origin, destination))
    route = f"from {start} to {stop} no route is that short, even with all candidates as hubs"
    return NoNetwork(f"no network keeps to --max-length {longest}: {route} ({said})", origin, destination)


def command(verb: str, options: Options, *files: Path, extra: list[str] | None = None) -> list[str]:
    """The words of a command on an instance, with options of the command itself as extra ones."""
    if verb == "resolve" or options.values.keys() & NOT_IN_EACH.keys():
        require(verb, options.values)
    return [
        program(),
        verb,
        *options.words(),
        *(extra or []),
        "--",
        options.layout,
        str(options.file),
        *map(str, files),
    ]


@dataclass(frozen=True)
class Verdict:
    """What `hub check` said of a certificate that it accepted; costs in 10^-12."""

    cost: int
    bound: int

    def line(self) -> str:
        """The line of `hub check`."""
        cost, bound = decimal(self.cost, COST_PLACES), decimal(self.bound, COST_PLACES)
        return f"optimal {cost}" if self.is_optimal() else f"bounds {bound} {cost}"

    def is_optimal(self) -> bool:
        """Whether no plan costs less."""
        return self.cost == self.bound

    def title(self) -> str:
        """The cost and what is proved of it, in words."""
        if self.is_optimal():
            return f"cost {short(self.cost)}, proved optimal"
        least = f"no plan costs less than {short(self.bound)} (gap {self.short_gap()})"
        return f"cost {short(self.cost)}, not proved optimal:\n{least}"

    def gap(self) -> str:
        """How far the bound is below the cost, in per cent of the cost."""
        return gap_percent(self.cost, self.bound)

    def short_gap(self) -> str:
        """The same for a reader's eye."""
        return trimmed(self.gap()) + " %"


def short(cost: int) -> str:
    """A cost with commas and at most three decimals, for a reader's eye."""
    whole, part = decimal(cost, COST_PLACES).split(".")
    shown = part[:3].rstrip("0")
    return f"{int(whole):,}" + (f".{shown}" if shown else "") + ("…" if part[3:].strip("0") else "")


LINE = re.compile(r"optimal ([0-9]+\.[0-9]{12})|bounds ([0-9]+\.[0-9]{12}) ([0-9]+\.[0-9]{12})")


def verdict_of(status: int, line: str) -> Verdict | None:
    """The verdict that a line of `hub check` tells, or None where it did not accept."""
    match = LINE.fullmatch(line)
    if match is None or status != (0 if match[1] else 1):
        return None
    cost = read_cost(match[1] or match[3])
    return Verdict(cost, cost if match[1] else read_cost(match[2]))


def read_cost(text: str) -> int:
    """A printed cost in 10^-12."""
    whole, part = text.split(".")
    return int(whole + part)


def judge(options: Options, certificate: Path) -> tuple[Verdict | None, str]:
    """The verdict on a certificate, or None where `hub check` did not accept it; and what it said."""
    ended = subprocess.run(command("check", options, certificate), capture_output=True, text=True, check=False)
    line = ended.stdout.strip()
    said = line or ended.stderr.strip().split("\n")[0] or f"status {ended.returncode}"
    return verdict_of(ended.returncode, line), said


def check(options: Options, certificate: Path) -> Verdict:
    """The verdict on a certificate; a fault where `hub check` did not accept it."""
    verdict, said = judge(options, certificate)
    if said == TOO_LONG:
        raise Fault(f"{certificate}: this certificate is too long for hub check, so that nothing of it is proved")
    if verdict is None:
        raise Fault(f"{certificate}: hub check did not accept this certificate: {said}")
    return verdict
