"""The tables of a network, and the script `network`: certificate and instance into CSV or JSON."""

from __future__ import annotations

import json
from collections.abc import Iterable
from dataclasses import dataclass
from pathlib import Path

from .certificate import read_plan
from .csv_tables import read_nodes, table_text
from .faults import Fault, Parser
from .files import put_all
from .instance import read_instance
from .loads import FIXED_UNITS, Links, Network, network_of
from .options import Options, add_options, options_of
from .program import Verdict, check
from .quantities import COST_PLACES, FLOW_PLACES, decimal
from .sources import numbered


@dataclass(frozen=True)
class Named:
    """An accepted network and the names of its nodes."""

    network: Network
    verdict: Verdict
    names: list[str]
    existing: frozenset[int] = frozenset()
    """The nodes that have a hub already, whose cost counts as 0."""

    def names_of(self, nodes: Iterable[int]) -> str:
        """The names of nodes, with commas between."""
        return ", ".join(self.names[node] for node in nodes)

    def spent(self) -> str:
        """What is said of the hubs that exist; empty where none does."""
        if not self.existing:
            return ""
        idle = sorted(self.existing.difference(self.network.plan.hubs))
        more = f"; not used: {self.names_of(idle)}" if idle else ""
        return f"existing hubs, whose costs are spent and count as 0: {self.names_of(sorted(self.existing))}{more}"


def read_named(options: Options, certificate: Path, names: Path | None) -> Named:
    """The network of a certificate that `hub check` accepts."""
    verdict = check(options, certificate)
    network = network_of(read_instance(options), read_plan(certificate))
    size = network.instance.size()
    if verdict.cost != network.plan.cost:
        raise Fault(f"{certificate}: the file was changed while it was read")
    if names is None:
        return Named(network, verdict, numbered(size))
    found = read_nodes(names)
    if len(found.names) != size:
        raise Fault(f"{names}: wanted {size} nodes, found {len(found.names)}")
    existing = frozenset(node for node, exists in enumerate(found.existing or []) if exists)
    return Named(network, verdict, found.names, existing)


Table = list[list[str]]
"""Rows of cells, the header first."""


def cost_text(cost: int) -> str:
    """A cost as `hub report` prints it."""
    return decimal(cost, COST_PLACES)


def flow_text(flow: int) -> str:
    """A flow as `hub report` prints it."""
    return decimal(flow, FLOW_PLACES)


def summary(named: Named) -> Table:
    """The cost and its parts, the bound, and the gap between both."""
    status = "optimal" if named.verdict.is_optimal() else "bounds"
    parts = [[part, cost_text(cost)] for part, cost in named.network.costs().items()]
    ends = [["total", cost_text(named.verdict.cost)], ["bound", cost_text(named.verdict.bound)]]
    return [["item", "value"], ["status", status], *parts, *ends, ["gap_percent", named.verdict.gap()]]


def hubs(named: Named) -> Table:
    """Each hub with the flow that it takes in first and gives out last, and whether it existed, where some do."""
    network = named.network
    rows = [
        [
            str(hub + 1),
            named.names[hub],
            cost_text(network.instance.fixed[hub] * FIXED_UNITS),
            flow_text(network.collected[hub]),
            flow_text(network.delivered[hub]),
            *(["yes" if hub in named.existing else ""] if named.existing else []),
        ]
        for hub in network.plan.hubs
    ]
    more = ["existing"] if named.existing else []
    return [["node", "name", "fixed_cost", "collected_flow", "delivered_flow", *more], *rows]


def routes(named: Named) -> Table:
    """Each pair of nodes with the hubs by which its flow goes."""
    network, names = named.network, named.names
    header = ["origin", "origin_name", "destination", "destination_name", "first_hub", "first_hub_name"]
    table = [[*header, "last_hub", "last_hub_name", "flow", "cost"]]
    for i, row in enumerate(network.plan.routes):
        for j, (first, last) in enumerate(row):
            nodes = [text for node in (i, j, first, last) for text in (str(node + 1), names[node])]
            table.append([*nodes, flow_text(network.instance.flows[i][j]), cost_text(network.route_costs[i][j])])
    return table


def links(named: Named, loads: Links) -> Table:
    """Each link that carries flow, by the nodes that it joins."""
    names = named.names
    rows = [
        [str(start + 1), names[start], str(stop + 1), names[stop], flow_text(load.flow), cost_text(load.cost)]
        for (start, stop), load in sorted(loads.items())
    ]
    return [["from", "from_name", "to", "to_name", "flow", "cost"], *rows]


def all_tables(named: Named) -> dict[str, Table]:
    """All tables by their names."""
    network = named.network
    return {
        "summary": summary(named),
        "hubs": hubs(named),
        "routes": routes(named),
        "trunks": links(named, network.trunks),
        "collection": links(named, network.collection),
        "delivery": links(named, network.delivery),
    }


def as_json(tables: dict[str, Table]) -> str:
    """The tables as lists of objects, the summary as one. Numbers are texts, so that no digit is lost."""
    objects: dict[str, object] = {
        name: [dict(zip(table[0], row)) for row in table[1:]] for name, table in tables.items()
    }
    objects["summary"] = dict(tables["summary"][1:])
    return json.dumps(objects, indent=1, ensure_ascii=False) + "\n"


def as_csv(tables: dict[str, Table]) -> dict[str, str]:
    """A CSV file for each table."""
    return {f"{name}.csv": table_text(table) for name, table in tables.items()}


def add_accepted(parser: Parser) -> None:
    """Puts on a command line what `read_named` reads: an instance, a certificate and names."""
    add_options(parser)
    parser.add_argument("certificate", type=Path, help="what hub wrote for this instance with these options")
    columns = "a CSV table of the nodes in order: name, and for places x,y or longitude,latitude"
    parser.add_argument("--names", type=Path, metavar="FILE", help=columns)


def parser() -> Parser:
    """The command line."""
    words = Parser(description=__doc__.split(": ")[1].strip(), epilog=EPILOG)
    add_accepted(words)
    words.add_argument("--format", choices=["csv", "json"], default="csv", help="default: csv")
    words.add_argument("--out", type=Path, required=True, help="the folder for the CSV files, or the JSON file")
    return words


def main(words: list[str]) -> int:
    """Writes the tables of a network."""
    args = parser().parse_args(words)
    tables = all_tables(read_named(options_of(args), args.certificate, args.names))
    if args.format == "json":
        put_all({args.out: as_json(tables)})
    else:
        put_all({args.out / name: text for name, text in as_csv(tables).items()})
    return 0


EPILOG = """The tables: summary (the cost and its parts), hubs, routes, and the links with their flow and cost: trunks,
collection, delivery. Sums are exact, as those of hub report. Without a certificate that hub check accepts there are
none."""
