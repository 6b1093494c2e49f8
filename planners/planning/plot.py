"""The script `plot-sweep`: cost and number of hubs of a sweep against one of its columns."""

from __future__ import annotations

from dataclasses import dataclass
from pathlib import Path

from . import pythons
from .csv_tables import read_table
from .faults import Fault, Parser
from .files import picture_path, put_all
from .scenarios import NUMBERS

NEEDED = ["outcome", "cost", "bound", "number_of_hubs"]
MOST_LINES = 10
NO_NETWORK = "no network "
"""So begins the outcome of a scenario whose longest route no network keeps to."""


@dataclass(frozen=True)
class Point:
    """One accepted scenario."""

    at: float
    cost: float
    bound: float
    hubs: int
    is_proved: bool


def read_lines(path: Path, against: str, by: list[str]) -> tuple[dict[str, list[Point]], list[str]]:
    """The points of each line, by what they have in common, and what became of the scenarios without an accepted
    certificate."""
    lines: dict[str, list[Point]] = {}
    left_out: list[str] = []
    for row in read_table(path, [*NEEDED, against, *by]):
        if row.cells["outcome"] != "accepted":
            left_out.append(row.cells["outcome"])
            continue
        name = ", ".join(f"{column} {row.cells[column] or '(none)'}" for column in by)
        if NUMBERS[against].read(row.cells[against]) is None:
            raise row.fault(against, NUMBERS[against].wanted())
        cells = [row.cells[column] for column in ("cost", "bound", "number_of_hubs")]
        try:
            cost, bound, hubs = float(cells[0]), float(cells[1]), int(cells[2])
        except ValueError:
            raise row.fault("cost", "a number, as in 'bound' and 'number_of_hubs'") from None
        # Whether both are equal is read off their texts, for a small gap is lost in these numbers.
        point = Point(float(row.cells[against]), cost, bound, hubs, cells[0] == cells[1])
        lines.setdefault(name, []).append(point)
    if not lines:
        raise Fault(f"{path}: no scenario has a certificate that hub check accepted")
    if len(lines) > MOST_LINES:
        raise Fault(f"--by {','.join(by)} makes {len(lines)} lines; {MOST_LINES} are the most that can be told apart")
    for name, points in lines.items():
        points.sort(key=lambda point: point.at)
        if len({point.at for point in points}) < len(points):
            raise Fault(
                f"{path}: two scenarios have the same {against}{name and ' and ' + name}; name what differs with --by"
            )
    return lines, left_out


def notes(left_out: list[str]) -> list[str]:
    """What the picture says of scenarios that it leaves out, by what became of them."""
    none = sum(outcome.startswith(NO_NETWORK) for outcome in left_out)
    counts = [(none, "for which there is no network"), (len(left_out) - none, "without an accepted certificate")]
    return [f"{count} scenario{'s' * (count > 1)} {what} left out" for count, what in counts if count]


def parser() -> Parser:
    """The command line."""
    words = Parser(description=__doc__.split(": ")[1])
    add = words.add_argument
    add("results", type=Path, help="the results.csv of a sweep")
    add("--against", choices=list(NUMBERS), required=True, help="the column along the bottom")
    add("--by", default="", metavar="COLUMNS", help="a line for each value of these columns, with commas between")
    add("--title", default="", help="a line above the picture")
    add("--out", required=True, help="the picture: a name that ends in .svg, .png or .pdf")
    return words


def main(words: list[str]) -> int:
    """Draws a sweep."""
    args = parser().parse_args(words)
    path = picture_path(args.out)
    pythons.want("numpy", "matplotlib")
    from .charts import chart
    from .drawing import picture_bytes

    lines, left_out = read_lines(args.results, args.against, [word for word in args.by.split(",") if word])
    title = "\n".join(filter(None, [args.title, *notes(left_out)]))
    put_all({path: picture_bytes(chart(lines, title, args.against), path.suffix)})
    return 0
