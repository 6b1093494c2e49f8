"""Tables with a header: nodes, flows between them, and what the scripts themselves write."""

from __future__ import annotations

import csv
import io
from collections.abc import Iterator
from dataclasses import dataclass
from pathlib import Path

from .faults import Fault, at
from .quantities import COORDINATE, FIXED_COST, FLOW, LATITUDE, LONGITUDE, SIZE, Quantity
from .tokens import read_text

YES, NO = ("yes", "1"), ("no", "0", "")
"""What the cells of the column `existing` may say."""
ALIASES = {"lon": "longitude", "lng": "longitude", "lat": "latitude"}


@dataclass(frozen=True)
class Row:
    """One row of a table: its cells by column, without spaces at their ends."""

    path: Path
    line: int
    cells: dict[str, str]

    def number(self, column: str, quantity: Quantity) -> str:
        """The cell of this column, which must be such a quantity."""
        if quantity.read(self.cells[column]) is None:
            raise self.fault(column, quantity.wanted())
        return self.cells[column]

    def fault(self, column: str, wanted: str) -> Fault:
        """What is wrong with the cell of this column."""
        return at(self.path, self.line, f"in the column '{column}' {wanted}", f"'{self.cells[column]}'")


def read_table(path: Path, needed: list[str], delimiter: str = ",") -> Iterator[Row]:
    """Each row of a table that is not blank; the columns of its header in small letters."""
    reader = csv.reader(read_text(path).splitlines(), delimiter=delimiter)
    try:
        header = [cell.strip().lower() for cell in next(reader, [])]
        columns = [ALIASES.get(column, column) for column in header]
        missing = [column for column in needed if column not in columns]
        if missing or len(set(columns)) != len(columns):
            wanted = f"the column '{missing[0]}'" if missing else "each column once"
            raise at(path, 1, f"{wanted} in the header", f"'{delimiter.join(header)}'" + other_delimiter(header, missing))
        for cells in reader:
            if not any(cell.strip() for cell in cells):
                continue
            if len(cells) != len(columns):
                raise at(path, reader.line_num, f"{len(columns)} cells", f"{len(cells)} cells")
            yield Row(path, reader.line_num, dict(zip(columns, (cell.strip() for cell in cells))))
    except csv.Error as error:
        raise Fault(f"{path}:{reader.line_num}: {error}") from None


def other_delimiter(header: list[str], missing: list[str]) -> str:
    """The message where the whole header lies in one cell, with something else between."""
    for delimiter, name in ((";", "';'"), ("\t", "a tab")):
        if missing and len(header) == 1 and missing[0] in header[0].split(delimiter):
            return f", with {name} between; say it by --delimiter"
    return ""


@dataclass(frozen=True)
class NodeTable:
    """The names of the nodes, and what the table has beside them; what it has not is None."""

    names: list[str]
    points: list[tuple[str, str]] | None
    places: list[tuple[str, str]] | None
    fixed: list[str] | None
    existing: list[bool] | None
    """Which nodes have a hub already."""


def read_nodes(path: Path, delimiter: str = ",") -> NodeTable:
    """A table of nodes: `name`, with `x` and `y` or `longitude` and `latitude`, `fixed` and `existing`, where they
    stand."""
    rows = list(read_table(path, ["name"], delimiter))
    if not 1 <= len(rows) <= SIZE.most:
        raise Fault(f"{path}: wanted 1 to {SIZE.most} nodes, found {len(rows)}")
    names: list[str] = []
    for row in rows:
        if not row.cells["name"] or row.cells["name"] in names:
            raise row.fault("name", "a name that stands once")
        names.append(row.cells["name"])

    def column(name: str, quantity: Quantity) -> list[str] | None:
        return [row.number(name, quantity) for row in rows] if name in rows[0].cells else None

    def pairs(first: list[str] | None, second: list[str] | None) -> list[tuple[str, str]] | None:
        return list(zip(first, second)) if first and second else None

    return NodeTable(
        names,
        pairs(column("x", COORDINATE), column("y", COORDINATE)),
        pairs(column("longitude", LONGITUDE), column("latitude", LATITUDE)),
        column("fixed", FIXED_COST),
        [is_marked(row, "existing") for row in rows] if "existing" in rows[0].cells else None,
    )


def is_marked(row: Row, column: str) -> bool:
    """Whether the cell of this column says yes; an empty one says no."""
    cell = row.cells[column].lower()
    if cell not in (*YES, *NO):
        raise row.fault(column, "yes or no")
    return cell in YES


def read_flows(path: Path, names: list[str], delimiter: str = ",") -> list[list[str]]:
    """A table of flows: `origin`, `destination` and `amount`. A pair that does not stand there has no flow."""
    number = {name: i for i, name in enumerate(names)}
    flows = [["0"] * len(names) for _ in names]
    seen: set[tuple[int, int]] = set()
    for row in read_table(path, ["origin", "destination", "amount"], delimiter):
        for column in ("origin", "destination"):
            if row.cells[column] not in number:
                raise row.fault(column, "a name of the table of nodes")
        i, j = number[row.cells["origin"]], number[row.cells["destination"]]
        if (i, j) in seen:
            raise row.fault("destination", f"a pair that stands once ({names[i]} to {names[j]} stood before)")
        seen.add((i, j))
        flows[i][j] = row.number("amount", FLOW)
    return flows


def table_text(rows: list[list[str]]) -> str:
    """The text of a table whose first row is its header."""
    text = io.StringIO()
    csv.writer(text, lineterminator="\n").writerows(rows)
    return text.getvalue()
