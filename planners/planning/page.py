"""The script `page`: a network as one HTML file, which opens without a network connection and can be asked."""

from __future__ import annotations

import html
import json
import shlex
from pathlib import Path
from typing import TYPE_CHECKING

from . import pythons
from .alternatives import Alternatives
from .faults import Fault, Parser
from .files import put_all
from .loads import FIXED_UNITS, Network
from .options import options_of
from .program import short
from .quantities import trimmed
from .tables import Named, add_accepted, cost_text, flow_text, read_named

if TYPE_CHECKING:
    import numpy as np

PARTS = Path(__file__).resolve().parent / "page_parts"
"""The page without its contents, its style and its script."""
WIDTH = 1000
"""The longer side of the map, in the numbers of the page; the browser fits it to its window."""


def map_places(places: "np.ndarray") -> tuple[list[list[float]], list[float]]:
    """Places from the upper left corner, to the right and down, and the two sides of the map."""
    least = places.min(axis=0)
    sides = places.max(axis=0) - least
    moved = (places - least) * (WIDTH / (sides.max() or 1))
    wide, high = sides * (WIDTH / (sides.max() or 1))
    moved[:, 1] = high - moved[:, 1]
    return moved.round(2).tolist(), [round(float(wide), 2), round(float(high), 2)]


def hub_rows(network: Network) -> list[dict[str, str]]:
    """What the page says of each hub."""
    return [
        {
            "fixed": trimmed(cost_text(network.instance.fixed[hub] * FIXED_UNITS)),
            "collected": trimmed(flow_text(network.collected[hub])),
            "delivered": trimmed(flow_text(network.delivered[hub])),
        }
        for hub in network.plan.hubs
    ]


def page_data(
    named: Named, places: "np.ndarray", note: str, found: Alternatives | None
) -> dict[str, object]:
    """What the script of the page works with; nodes from 0. Rows of numbers are texts, which are read faster."""
    network, hubs = named.network, named.network.plan.hubs
    number = {hub: place for place, hub in enumerate(hubs)}
    ways = [" ".join(str(number[k] * len(hubs) + number[m]) for k, m in row) for row in network.plan.routes]
    where, extent = map_places(places)
    return {
        "names": named.names,
        "places": where,
        "extent": extent,
        "note": note.replace("\n", " "),
        "hubs": hubs,
        "whatIf": found.data() if found else [],
        "existing": sorted(named.existing),
        "hubRows": hub_rows(network),
        "trunkRows": [
            [start, stop, trimmed(flow_text(load.flow)), trimmed(cost_text(load.cost))]
            for (start, stop), load in sorted(network.trunks.items())
        ],
        "parts": [[part, trimmed(cost_text(cost))] for part, cost in network.costs().items()],
        "total": trimmed(cost_text(named.verdict.cost)),
        "bound": trimmed(cost_text(named.verdict.bound)),
        "gap": named.verdict.short_gap(),
        "ways": ways,
        "flows": [" ".join(trimmed(flow_text(flow)) for flow in row) for row in network.instance.flows],
        "costs": [" ".join(trimmed(cost_text(cost)) for cost in row) for row in network.route_costs],
    }


def verdict_text(named: Named) -> str:
    """The verdict in words."""
    verdict = named.verdict
    if verdict.is_optimal():
        return f"Proved optimal: this network costs {short(verdict.cost)}, and none costs less."
    return (
        f"Not proved optimal: this network costs {short(verdict.cost)}, and none costs less than"
        f" {short(verdict.bound)}; the gap is {verdict.short_gap()} of the cost."
    )


def page_text(
    named: Named, places: "np.ndarray", note: str, title: str, command: str, found: Alternatives | None = None
) -> str:
    """The whole page; `command` has the words with which its certificate is checked again."""
    size, hubs = len(named.names), len(named.network.plan.hubs)
    # No "<" of a name can end the script element that holds the data.
    data = json.dumps(page_data(named, places, note, found), ensure_ascii=False, separators=(",", ":")).replace("<", "\\u003c")
    texts = {
        "title": html.escape(title or f"A network of {size} places and {hubs} hub{'s' * (hubs != 1)}"),
        "status": "optimal" if named.verdict.is_optimal() else "bounds",
        "verdict": html.escape(verdict_text(named)),
        "line": html.escape(named.verdict.line()),
        "spent": f"<p>{html.escape(named.spent()).replace('e', 'E', 1)}.</p>" if named.existing else "",
        "command": html.escape(command),
        "style": (PARTS / "page.css").read_text(encoding="utf-8"),
        "script": (PARTS / "page.js").read_text(encoding="utf-8"),
        "data": data,
    }
    first, *rest = (PARTS / "page.html").read_text(encoding="utf-8").split("{{")
    pieces = [piece.split("}}", 1) for piece in rest]
    return first + "".join(texts[name] + after for name, after in pieces)


def parser() -> Parser:
    """The command line."""
    words = Parser(description=__doc__.split(": ")[1], epilog=EPILOG)
    add_accepted(words)
    words.add_argument("--title", default="", help="the title of the page")
    words.add_argument("--out", type=Path, required=True, help="the page: a name that ends in .html")
    return words


def main(words: list[str]) -> int:
    """Writes the page of a network."""
    args = parser().parse_args(words)
    if args.out.suffix != ".html":
        raise Fault(f"--out wants a name that ends in .html, found '{args.out}'")
    pythons.want("numpy")
    from .places import positions

    options = options_of(args)
    named = read_named(options, args.certificate, args.names)
    places, note = positions(named.network.instance, args.names)
    command = shlex.join(["hub", "check", options.layout, str(options.file), str(args.certificate), *options.words()])
    put_all({args.out: page_text(named, places, note, args.title, command)}, [options.file, args.certificate])
    return 0


EPILOG = """The page needs nothing beside itself: click on a place for its routes and their costs, on a hub for its
loads, choose origins, sort the tables. A certificate that hub check does not accept gets no page."""
