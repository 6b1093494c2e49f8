"""The rows of a sweep: a table of options, tested before anything is run."""

from __future__ import annotations

import hashlib
import json
import re
from dataclasses import dataclass
from functools import cache
from pathlib import Path

from .csv_tables import Row, read_table
from .faults import Fault, at
from .options import OF_SEARCH, QUANTITIES, Options, is_costs, is_list_of_nodes, is_taken, not_together, wanted

NUMBERS = {name.replace("-", "_"): quantity for name, quantity in QUANTITIES.items() if name != "divide"}
"""The columns of numbers."""
COLUMNS = [*NUMBERS, "costs", "candidates"]
"""What a table may change."""
ALONE = "gap"
"""An option of `optimize` that `resolve` has not, so that no row with it is solved by that."""


@dataclass(frozen=True)
class Scenario:
    """One row of a sweep."""

    number: int
    """Counted from 1."""
    cells: dict[str, str]
    """What the table says, by column."""
    options: Options
    """The instance."""
    command: str
    """The command of `hub` that solves it from the start: `optimize` or `solve`."""
    search: dict[str, str]
    """The options of the search, by name."""
    again_by: str = ""
    """The command of `hub` that solves it from the certificate of a row before: `optimize` or `resolve`; empty where it
    is always solved from the start."""
    begin: Path | None = None
    """A certificate with which its search begins. It is no part of the question, for the answer rests on nothing in
    it."""

    def goes_on_from(self, other: "Scenario") -> bool:
        """Whether that command takes a certificate of another row. `optimize` believes nothing of it, and wants the
        same candidates; `resolve` has no gap, and keeps the cuts, which hold where no more than fixed costs or the
        number of hubs is another."""
        if self.again_by == "optimize":
            return self.options.values.get("candidates") == other.options.values.get("candidates")
        return ALONE not in self.search and is_same_network(self.options, other.options)

    def search_words(self, left_out: tuple[str, ...] = ()) -> list[str]:
        """The options of the search as words for `hub`."""
        return [f"--{name}={value}" for name, value in self.search.items() if name not in left_out]

    def key(self) -> str:
        """What tells whether two rows ask the same: the words and the bytes of the files."""
        costs = self.options.values.get("costs")
        files = [digest(self.options.file), digest(Path(costs)) if costs else ""]
        words = [word for word in self.options.words() if not word.startswith("--costs=")]
        text = json.dumps([self.options.layout, files, sorted(words), self.command, self.search_words(), self.again_by])
        return hashlib.sha256(text.encode()).hexdigest()


@cache
def digest(path: Path) -> str:
    """A digest of a file's bytes."""
    return hashlib.sha256(path.read_bytes()).hexdigest()


def tested(row: Row, column: str) -> str:
    """A cell that `hub` would take as the value of the option of this name."""
    text = row.cells[column]
    if column in NUMBERS:
        if not is_taken(column.replace("_", "-"), text):
            raise row.fault(column, wanted(column.replace("_", "-")))
    elif column == "candidates":
        text = re.sub(r"[\s,]+", ",", text)
        if not is_list_of_nodes(text):
            raise row.fault(column, "ascending numbers of nodes with spaces or commas between")
    elif not Path(text).is_file():
        raise row.fault(column, "a file")
    return text


def is_same_network(first: Options, second: Options) -> bool:
    """Whether two options of one instance differ in fixed costs or the number of hubs alone, so that the cuts of a
    certificate of one hold for the other."""

    def others(options: Options) -> dict[str, str]:
        return {name: value for name, value in options.values.items() if name != "hubs" and not is_costs(name, value)}

    return others(first) == others(second)


def read_scenarios(path: Path, base: Options, search: dict[str, str], command: str) -> list[Scenario]:
    """The rows of a table of scenarios of an instance, each to be solved by this command of `hub` with these options of
    the search."""
    scenarios: list[Scenario] = []
    for row in read_table(path, []):
        unknown = [column for column in row.cells if column not in (*COLUMNS, "name")]
        if unknown:
            raise at(path, 1, f"the columns name, {', '.join(COLUMNS)}", f"'{unknown[0]}'")
        values = {column.replace("_", "-"): tested(row, column) for column in COLUMNS if row.cells.get(column)}
        if "fixed" in values and "costs" in values:
            raise row.fault("costs", "no file beside a number in the column 'fixed'")
        asked = search | {name: values.pop(name) for name in OF_SEARCH if name in values}
        options = base.changed(values)
        reason = not_together(options.values | asked, base.layout)
        if reason:
            raise Fault(f"{path}:{row.line}: {reason}")
        scenarios.append(Scenario(len(scenarios) + 1, row.cells, options, command, asked))
    if not scenarios:
        raise Fault(f"{path}: wanted at least one row")
    return scenarios
