"""What is known of the scenarios of a sweep, kept in a folder so that what is done is not done again."""

from __future__ import annotations

import json
import mmap
import shutil
from dataclasses import asdict, dataclass
from pathlib import Path
from tempfile import TemporaryDirectory
from threading import Event
from typing import Any

from .certificate import read_hubs
from .csv_tables import table_text
from .files import put_all
from .measure import run
from .program import NO_NETWORK, NOT_TAKEN, TOO_LONG, Verdict, command, no_network, verdict_of
from .quantities import COST_PLACES, decimal
from .scenarios import Scenario
from .too_long import best_found


@dataclass(frozen=True)
class Result:
    """What is known of a scenario once its two processes have ended; texts as they stand in the table."""

    key: str
    outcome: str
    """`accepted`, `not accepted`, `time limit`, or what the search said where it failed."""
    limit: float | None
    """The time limit in seconds under which this came."""
    seconds: str = ""
    peak_mib: str = ""
    check_seconds: str = ""
    verdict: str = ""
    cost: str = ""
    bound: str = ""
    gap_percent: str = ""
    number_of_hubs: str = ""
    open_hubs: str = ""
    tree_nodes: str = ""
    again_from: str = ""
    """The row from whose certificate it was solved again; empty where it was solved from the start."""
    anew_seconds: str = ""
    """What this row took where it was solved from the start, else the last one before it that was."""

    def is_answer_to(self, key: str, limit: float | None) -> bool:
        """Whether the scenario of this key need not be run again under this time limit."""
        longer = self.limit is not None and (limit is None or limit > self.limit)
        return self.key == key and not (self.outcome == "time limit" and longer)

    @property
    def gain(self) -> str:
        """How many times as long the last row before it took that was solved from the start, where this one was solved again."""
        if not self.again_from or not float(self.seconds):
            return ""
        return f"{float(self.anew_seconds) / float(self.seconds):.2f}"


SHOWN = [
    "outcome",
    "cost",
    "bound",
    "gap_percent",
    "number_of_hubs",
    "open_hubs",
    "tree_nodes",
    "seconds",
    "check_seconds",
    "peak_mib",
    "verdict",
]
"""The columns of a result in the table of results, after those of the scenario."""
OF_AGAIN = ["again_from", "gain"]
"""Further ones, where rows are solved again."""
AT_WORK = ".at-work-"
"""Stands in the names of the folders of scenarios that are being done, after their numbers."""


@dataclass(frozen=True)
class Sweep:
    """Scenarios, and the folder that keeps what is done of them."""

    scenarios: list[Scenario]
    folder: Path
    limit: float | None
    keep: bool
    names: list[str] | None = None
    """The names of the nodes, where they are known."""

    def file(self, scenario: Scenario, end: str) -> Path:
        """A file of one scenario."""
        return self.folder / "rows" / f"{scenario.number}.{end}"

    def result(self, scenario: Scenario) -> Result | None:
        """What is known of a scenario, if it is done."""
        try:
            result = Result(**json.loads(self.file(scenario, "json").read_text(encoding="utf-8")))
        except (FileNotFoundError, ValueError, TypeError):
            return None
        return result if result.is_answer_to(scenario.key(), self.limit) else None

    def chains(self) -> list[list[Scenario]]:
        """All scenarios, those together that may go on from each other."""
        chains: list[list[Scenario]] = []
        for scenario in self.scenarios:
            if scenario.again_by:
                chains[-1].append(scenario)
            else:
                chains.append([scenario])
        return chains

    def do_chain(self, chain: list[Scenario], stop: Event) -> None:
        """Does scenarios one after another; certificates from which others may go on are kept for so long."""
        for done, scenario in enumerate(chain):
            self.do(scenario, stop, self.keep or len(chain) > 1)
            if scenario.again_by == "optimize" and self.file(scenario, "cert").exists():
                self.forget(chain[:done])
        self.forget(chain)

    def forget(self, scenarios: list[Scenario]) -> None:
        """Removes the certificates of scenarios, unless all are to be kept."""
        if not self.keep:
            for scenario in scenarios:
                self.file(scenario, "cert").unlink(missing_ok=True)

    def older(self, scenario: Scenario) -> tuple[Scenario, Result] | None:
        """The scenario from whose certificate this one is solved again, and its result: the last accepted one before it
        whose certificate serves and is there."""
        chain = next(chain for chain in self.chains() if scenario in chain)
        for other in reversed(chain[: chain.index(scenario)]):
            result = self.result(other)
            serves = result and is_of_use(other, result) and scenario.goes_on_from(other)
            if serves and self.file(other, "cert").exists():
                return other, result
        return None

    def do(self, scenario: Scenario, stop: Event, keep: bool) -> None:
        """Solves and checks a scenario, unless it is done, and keeps the result; and its certificate, where that was
        asked for and another row may go on from it."""
        if self.result(scenario):
            return
        # Files in a folder of their own: what a killed sweep has left running may be at the same scenario.
        with TemporaryDirectory(prefix=f"{scenario.number}{AT_WORK}", dir=self.folder / "rows") as held:
            folder = Path(held)
            result = self.solve(scenario, folder, stop)
            if (self.keep or (keep and is_of_use(scenario, result))) and (folder / "cert").exists():
                (folder / "cert").replace(self.file(scenario, "cert"))
            part = folder / "json"
            part.write_text(json.dumps(asdict(result), indent=1) + "\n", encoding="utf-8")
            part.replace(self.file(scenario, "json"))

    def words(self, scenario: Scenario, older: Scenario | None) -> list[str]:
        """The words that solve a scenario, from the start or again from the certificate of an older one."""
        if older and scenario.again_by == "resolve":
            # A format is one of the certificate to be written; `resolve` has its own.
            return command(
                "resolve", scenario.options, self.file(older, "cert"), extra=scenario.search_words(("format",))
            )
        first = self.file(older, "cert") if older else scenario.begin
        begin = [f"--from={first}"] if first else []
        return command(scenario.command, scenario.options, extra=[*scenario.search_words(), *begin])

    def solve(self, scenario: Scenario, folder: Path, stop: Event) -> Result:
        """Runs the search, and `hub check` on what it wrote into this folder."""
        key, certificate = scenario.key(), folder / "cert"
        older, known = (self.older(scenario) if scenario.again_by else None) or (None, None)
        solved = run(self.words(scenario, older), certificate, self.limit, stop)
        seconds = f"{solved.seconds:.3f}"
        used = {
            "limit": self.limit,
            "seconds": seconds,
            "peak_mib": f"{solved.peak / 1024:.1f}" if solved.peak else "",
            "again_from": str(older.number) if older else "",
            "anew_seconds": known.anew_seconds if known else seconds,
        }
        if solved.status is None:
            return Result(key, "time limit", **used)
        if solved.status == NO_NETWORK:
            longest = scenario.options.values.get("max-length", "")
            return Result(key, str(no_network(solved.error, self.names, longest)), **used)
        if older and solved.status == NOT_TAKEN:
            line = certificate.read_text(errors="replace").strip()
            return Result(key, f"the certificate of row {older.number} does not serve: {line}", **used)
        if solved.status not in (0, 1):
            return Result(key, f"failed with status {solved.status}: {solved.error}", **used)
        told = folder / "verdict"
        checked = run(command("check", scenario.options, certificate), told, self.limit, stop)
        used["check_seconds"] = f"{checked.seconds:.3f}"
        if checked.status is None:
            return Result(key, "time limit", **used)
        verb = scenario.again_by if older else scenario.command
        said = told.read_text(errors="replace").strip() or checked.error
        return self.judged(scenario, verb, certificate, (checked.status, said), used)

    def judged(
        self, scenario: Scenario, verb: str, certificate: Path, checked: tuple[int, str], used: dict[str, Any]
    ) -> Result:
        """The result of what this command of `hub` wrote, by the status and the line of `hub check`."""
        key, said, verdict = scenario.key(), checked[1], verdict_of(*checked)
        if verdict is not None:
            return accepted(key, verdict, certificate, used)
        outcome = "not accepted"
        if said == TOO_LONG:
            outcome = best_found(scenario.options, certificate, self.names, verb, scenario.search)
        return Result(key, outcome, verdict=said, **used)

    def clean(self) -> None:
        """Removes what killed processes have left."""
        for left in (self.folder / "rows").glob(f"*{AT_WORK}*"):
            shutil.rmtree(left, ignore_errors=True)

    def write_results(self) -> list[Result]:
        """Writes the table of results once all scenarios are done."""
        self.clean()
        results = [result for scenario in self.scenarios if (result := self.result(scenario))]
        columns = list(self.scenarios[0].cells)
        shown = SHOWN + (OF_AGAIN if any(scenario.again_by for scenario in self.scenarios) else [])
        rows = [
            [
                str(scenario.number),
                *scenario.cells.values(),
                *(str(getattr(result, name)) for name in shown),
                *self.hub_names(result),
            ]
            for scenario, result in zip(self.scenarios, results)
        ]
        header = ["row", *columns, *shown, *(["hub_names"] if self.names else [])]
        put_all({self.folder / "results.csv": table_text([header, *rows])})
        return results

    def hub_names(self, result: Result) -> list[str]:
        """A cell with the names of the open hubs, where names are known."""
        if not self.names:
            return []
        return [", ".join(self.names[int(hub) - 1] for hub in result.open_hubs.split())]


def is_of_use(scenario: Scenario, result: Result) -> bool:
    """Whether others may go on from the certificate of a scenario: `hub check` accepted it, and it was not made by
    `resolve` from an older one, whose cuts it would have beside its own, and serve worse."""
    return result.outcome == "accepted" and not (scenario.again_by == "resolve" and result.again_from)


def accepted(key: str, verdict: Verdict, certificate: Path, used: dict[str, Any]) -> Result:
    """The result of a certificate that `hub check` accepted."""
    hubs = read_hubs(certificate)
    return Result(
        key,
        "accepted",
        verdict=verdict.line().split()[0],
        cost=decimal(verdict.cost, COST_PLACES),
        bound=decimal(verdict.bound, COST_PLACES),
        gap_percent=verdict.gap(),
        number_of_hubs=str(len(hubs)),
        open_hubs=" ".join(map(str, hubs)),
        tree_nodes=tree_nodes(certificate),
        **used,
    )


def tree_nodes(certificate: Path) -> str:
    """How many nodes the tree of an accepted certificate has. Cuts are long, so the line is looked for at once."""
    with certificate.open("rb") as file, mmap.mmap(file.fileno(), 0, access=mmap.ACCESS_READ) as text:
        start = text.find(b"\nnodes ") + len(b"\nnodes ")
        return text[start : text.find(b"\n", start)].decode()
