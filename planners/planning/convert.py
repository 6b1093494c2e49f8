"""The script `convert`: circulating files into the three layouts of `hub`."""

from __future__ import annotations

import argparse
import shlex
from dataclasses import replace
from pathlib import Path

from . import distances
from .csv_tables import read_flows, read_nodes, table_text
from .faults import Fault, Parser, at
from .files import put_all
from .quantities import FLOW
from .sources import Source, read_ap, read_fixed, read_matrices, read_rows, read_two_files
from .tokens import Tokens

EPILOG = """It writes OUT.txt, the instance; OUT.costs.txt, a costs file, where there are fixed costs; and OUT.names.csv,
the numbers and names of the nodes with their places. Then it prints the words with which hub takes them. On any fault
it writes nothing."""


def common_words() -> Parser:
    """The options that each kind has."""
    common = Parser(add_help=False)
    add = common.add_argument
    add("--out", required=True, metavar="OUT", help="the first part of the names of the files to write")
    layouts = "the layout; ap where the places are plane, else cab-matrix"
    add("--to", choices=["cab-matrix", "cab-rows", "ap"], help=layouts)
    add("--costs", type=Path, metavar="FILE", help="fixed costs, one number for each node of the files in order")
    add("--tail", action="store_true", help="put the fixed costs at the end of the ap file")
    part = common.add_mutually_exclusive_group()
    part.add_argument("--first", type=int, metavar="N", help="only the first N nodes")
    some = "only these nodes, in this order: names or numbers with commas between"
    part.add_argument("--only", metavar="LIST", help=some)
    return common


def parser() -> Parser:
    """The command line."""
    top = Parser(description=__doc__.split(": ")[1], epilog=EPILOG)
    kinds = top.add_subparsers(dest="kind", required=True, metavar="KIND")
    common = common_words()
    named = Parser(add_help=False, parents=[common])
    columns = "a CSV table of the nodes in order: name, and x,y or longitude,latitude"
    named.add_argument("--names", type=Path, metavar="FILE", help=columns)
    parts = "AP files: size, coordinates, flows, listed hubs, three factors, perhaps fixed costs"
    ap = kinds.add_parser("ap", parents=[named], help=parts)
    ap.add_argument("file", type=Path)
    ap.add_argument("--ignore-tail", action="store_true", help="what follows the factors is not looked at")
    matrices = kinds.add_parser("matrices", parents=[named], help="CAB data as two matrices, in one file or two")
    matrices.add_argument("flows", type=Path, help="the flows; or the size and both matrices")
    matrices.add_argument("distances", type=Path, nargs="?")
    matrices.add_argument("--distance-first", action="store_true", help="the one file has the distances first")
    rows = kinds.add_parser("rows", parents=[named], help="CAB data as rows `i j flow distance`")
    rows.add_argument("file", type=Path)
    add_tables(kinds.add_parser("csv", parents=[common], help="a CSV table of nodes and one of flows"))
    return top


def add_tables(words: argparse.ArgumentParser) -> None:
    """Puts what `read_tables` reads on a command line."""
    add = words.add_argument
    columns = (
        "a CSV table with the columns name, x and y or longitude and latitude, fixed where there are costs, and"
        " existing where hubs exist, whose costs count as 0"
    )
    add("node_table", type=Path, metavar="NODES", help=columns)
    columns = "one with the columns origin, destination, amount; a pair without a row has no flow"
    add("flow_table", type=Path, metavar="FLOWS", help=columns)
    add("--delimiter", default=",", help="what stands between two cells (default: a comma)")
    units = "of distances from longitude and latitude (default: km)"
    add("--unit", choices=["km", "miles"], default="km", help=units)


def read_source(args: argparse.Namespace) -> Source:
    """The files of the kind that was named."""
    if args.kind == "ap":
        return read_ap(Tokens(args.file), "ignored" if args.ignore_tail else "fixed if any")
    if args.kind == "matrices":
        if args.distances and args.distance_first:
            raise Fault("--distance-first is for one file with both matrices")
        if args.distances:
            return read_two_files(args.flows, args.distances)
        return read_matrices(Tokens(args.flows), args.distance_first)
    if args.kind == "rows":
        return read_rows(Tokens(args.file))
    return read_tables(args.node_table, args.flow_table, args.delimiter)


def read_tables(node_table: Path, flow_table: Path, delimiter: str = ",") -> Source:
    """A table of nodes with their places, and one of flows."""
    if len(delimiter) != 1:
        raise Fault("--delimiter wants one character")
    nodes = read_nodes(node_table, delimiter)
    if not nodes.points and not nodes.places:
        raise at(node_table, 1, "the columns 'x' and 'y', or 'longitude' and 'latitude'", "neither")
    if nodes.points and nodes.places:
        raise at(node_table, 1, "'x' and 'y', or 'longitude' and 'latitude'", "both")
    flows = read_flows(flow_table, nodes.names, delimiter)
    places = {"points": nodes.points, "places": nodes.places}
    return Source(nodes.names, flows, **places, fixed=nodes.fixed, existing=nodes.existing)


def with_names(source: Source, path: Path) -> Source:
    """The source with the names of a table and the hubs that exist, and its places where the source has none."""
    table = read_nodes(path)
    if len(table.names) != source.size():
        raise Fault(f"{path}: wanted {source.size()} nodes, found {len(table.names)}")
    source = replace(source, names=table.names, existing=table.existing)
    if source.points or source.places:
        return source
    return replace(source, points=table.points, places=None if table.points else table.places)


def chosen(source: Source, first: int | None, only: str | None) -> list[int]:
    """Which nodes are wanted, from 0."""
    if first is not None:
        if not 1 <= first <= source.size():
            raise Fault(f"--first wants 1 to {source.size()}, found {first}")
        return list(range(first))
    return list(range(source.size())) if only is None else listed(source, "--only", only)


def listed(source: Source, option: str, words: str) -> list[int]:
    """The nodes, from 0, of a list of names or numbers with commas between."""
    number = {str(i + 1): i for i in range(source.size())} | {name: i for i, name in enumerate(source.names)}
    nodes: list[int] = []
    for word in words.split(","):
        if word.strip() not in number or number[word.strip()] in nodes:
            raise Fault(f"{option} wants names or numbers of nodes, each once, found '{word.strip()}'")
        nodes.append(number[word.strip()])
    return nodes


def with_distances(source: Source, unit: str) -> Source:
    """The source with distances, worked out from its places where it has none."""
    if source.distances:
        return source
    made = distances.plane(source.points) if source.points else distances.great_circle(source.places or [], unit)
    return replace(source, distances=made)


def instance_lines(source: Source, layout: str, tail: bool) -> list[list[str]]:
    """The instance in a layout, line by line."""
    size, nodes = source.size(), range(source.size())
    if layout == "ap":
        points = [list(point) for point in source.points or []]
        end = [[source.listed], list(source.factors or ("1", "1", "1"))]
        return [[str(size)], *points, *source.flows, *end, *([source.fixed] if tail and source.fixed else [])]
    lengths = source.distances or []
    if layout == "cab-matrix":
        return [[str(size)], *source.flows, *lengths]
    pairs = [(i, j) for i in nodes for j in nodes if i != j or FLOW.read(source.flows[i][i])]
    return [[str(size)], *([str(i + 1), str(j + 1), source.flows[i][j], lengths[i][j]] for i, j in pairs)]


def name_rows(source: Source) -> list[list[str]]:
    """The table of names, with its header."""
    places = source.points or source.places
    columns = [] if not places else ["x", "y"] if source.points else ["longitude", "latitude"]
    rows = [[str(i + 1), name, *(places[i] if places else ())] for i, name in enumerate(source.names)]
    if source.existing:
        columns = [*columns, "existing"]
        rows = [[*row, "yes" if exists else ""] for row, exists in zip(rows, source.existing)]
    return [["node", "name", *columns], *rows]


def solve_words(source: Source, layout: str, tail: bool, out: str) -> list[str]:
    """The words after the program's name with which it solves the instance."""
    words = ["optimize", layout, f"{out}.txt"]
    if source.fixed:
        words += ["--tail", "fixed"] if tail else ["--costs", f"{out}.costs.txt"]
    if source.factors and layout != "ap":
        for name, factor in zip(("collect", "trunk", "deliver"), source.factors):
            words += [f"--{name}", factor]
    return words


def converted(source: Source, layout: str, tail: bool, out: str) -> dict[Path, str]:
    """The files of a source in a layout: the instance, the names, and the costs where it has them beside. Hubs that
    exist cost 0 there."""
    source = source.spent()
    instance = "".join(" ".join(line) + "\n" for line in instance_lines(source, layout, tail))
    texts = {Path(f"{out}.txt"): instance, Path(f"{out}.names.csv"): table_text(name_rows(source))}
    if source.fixed and not tail:
        texts[Path(f"{out}.costs.txt")] = " ".join(source.fixed) + "\n"
    return texts


def main(words: list[str]) -> int:
    """Reads, converts and writes."""
    args = parser().parse_args(words)
    source = read_source(args)
    if getattr(args, "names", None):
        source = with_names(source, args.names)
    if args.costs:
        source = replace(source, fixed=read_fixed(Tokens(args.costs), source.size()))
    source = source.only(chosen(source, args.first, args.only))
    layout = args.to or ("ap" if source.points and not source.distances else "cab-matrix")
    if layout == "ap" and (not source.points or source.distances):
        raise Fault("the layout ap wants nodes with plane places x and y, and no distances of their own")
    if args.tail and (layout != "ap" or not source.fixed):
        raise Fault("--tail wants the layout ap and fixed costs")
    if layout != "ap":
        source = with_distances(source, getattr(args, "unit", "km"))
    texts = converted(source, layout, args.tail, args.out)
    put_all(texts, [value for value in vars(args).values() if isinstance(value, Path)])
    print("hub " + shlex.join(solve_words(source, layout, args.tail, args.out)))
    return 0
