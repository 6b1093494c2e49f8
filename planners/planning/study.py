"""The script `study`: from two tables to a network that is proved, with its tables, its map and its page."""

from __future__ import annotations

import argparse
import signal
from dataclasses import replace
from pathlib import Path

from . import pythons
from .alternatives import Alternatives
from .asking import Asking, Means, ask_all
from .convert import add_tables, listed, read_tables, with_distances
from .faults import Fault, Parser, called
from .files import put_all
from .options import OF_SEARCH, add_valued, values_of
from .progress import Steps
from .report_files import OF_WHAT_IF, PAGE, RESULTS, all_results
from .solving import CERTIFICATE, Question, answer, answer_in, is_answered, question_of, served
from .sources import Source
from .sweep import stop_as_by_hand
from .what_if import add_asking, status_of, test_asking

ASKED_FURTHER = "what-if"
"""The folder, in that of the study, which keeps what is done of further questions."""
OF_INSTANCE = ["divide", "collect", "trunk", "deliver", "fixed", "hubs", "max-length"]


def parser() -> Parser:
    """The command line."""
    words = Parser(description=__doc__.split(": ")[1], epilog=EPILOG)
    add_tables(words)
    add = words.add_argument
    add("--out", type=Path, required=True, metavar="FOLDER", help="the folder for all that comes out")
    add("--title", default="", help="a line above the cost")
    add("--no-map", action="store_true", help="draw no map.png, for which matplotlib is wanted")
    group = words.add_argument_group("options of hub", "as for hub; --fixed takes the place of the costs in NODES")
    add_valued(group, OF_INSTANCE)
    several = "which nodes may be hubs: names or numbers with commas between"
    group.add_argument("--candidates", metavar="LIST", help=several)
    spent = "hubs that exist, in place of the column in NODES: their costs are spent and count as 0"
    group.add_argument("--existing", metavar="LIST", help=spent)
    group.add_argument("--no-self", action="store_true", help="flows from a node to itself count as 0")
    add_valued(group, OF_SEARCH)
    begin = "begin the search with what this older certificate says, where this hub has the option"
    group.add_argument("--from", dest="older", type=Path, metavar="OLD", help=begin)
    asked = words.add_argument_group("what if", "the network without each hub, and with further places as hubs")
    asked.add_argument("--what-if", action="store_true", help="ask this too, for what-if.csv, what-if.png and the page")
    add_asking(asked)
    group.add_argument("--solve", action="store_true", help="by hub solve, for up to some 25 nodes, not hub optimize")
    return words


def question_for(args: argparse.Namespace, source: Source) -> Question:
    """The question for hub."""
    values = values_of(args, OF_INSTANCE)
    if "fixed" in values:
        source = replace(source, fixed=None)
    if args.existing is not None:
        nodes = listed(source, "--existing", args.existing)
        source = replace(source, existing=[node in nodes for node in range(source.size())])
    if args.candidates is not None:
        nodes = sorted(listed(source, "--candidates", args.candidates))
        idle = [source.names[i] for i, exists in enumerate(source.existing or []) if exists and i not in nodes]
        if idle:
            raise Fault(f"{idle[0]} has a hub already, and is not among --candidates")
        values["candidates"] = ",".join(str(node + 1) for node in nodes)
    search = {"verb": "solve" if args.solve else "optimize"} | values_of(args, OF_SEARCH)
    layout, source = ("ap", source) if source.points else ("cab-matrix", with_distances(source, args.unit))
    return replace(question_of(source, layout, values, args.no_self, **search), older=args.older)


def study(args: argparse.Namespace, steps: Steps) -> tuple[list[str], Alternatives | None]:
    """Does all that is not done; the report at the end, and the answers to further questions."""
    steps.begin("reading the tables")
    asked = question_for(args, read_tables(args.node_table, args.flow_table, args.delimiter))
    inputs = [args.node_table, args.flow_table]
    if any(path.resolve().parent == args.out.resolve() for path in inputs):
        raise Fault(f"{args.out}: the tables to read lie in this folder; choose another --out")
    steps.begin("looking for what is there")
    question, note = served(asked)
    if not is_answered(question, args.out):
        if note:
            steps.tell(f"{called()}: {note}")
        steps.begin(f"hub {question.verb}")
        answer(question, args.out, steps.look, stale=[*RESULTS, *OF_WHAT_IF])
    named, options = answer_in(question, args.out), question.options(args.out)
    found = None
    if args.what_if:
        steps.begin("what if")
        asking = Asking(named, options, args.out / CERTIFICATE, question.verb, question.search, args.places)
        means = Means(args.out / ASKED_FURTHER, args.jobs, None, False)
        found = ask_all(asking, means, lambda done, total: steps.change(f"what if: {done} of {total}"))
    steps.begin("tables, map and page")
    results = all_results(named, options, args.out, args.title, not args.no_map, found)
    put_all({args.out / name: content for name, content in results.items()})
    gap = [] if named.verdict.is_optimal() else [f"gap: {named.verdict.short_gap()} of the cost"]
    hubs = f"hubs: {named.names_of(named.network.plan.hubs)}"
    spent = [named.spent()] if named.existing else []
    asked = found.said() if found else []
    return [named.verdict.line(), *gap, hubs, *spent, *asked, str(args.out / PAGE)], found


def main(words: list[str]) -> int:
    """Does a study."""
    args = parser().parse_args(words)
    test_asking(args)
    if not args.what_if and (args.places is not None or args.jobs != 1):
        raise Fault("--places and --jobs are for --what-if")
    if args.no_map:
        pythons.want("numpy")
    else:
        pythons.want("numpy", "matplotlib", without="--no-map does without it")
    signal.signal(signal.SIGTERM, stop_as_by_hand)
    steps = Steps(5 if args.what_if else 4)
    try:
        lines, found = study(args, steps)
    finally:
        steps.end()
    print("\n".join(lines))
    return status_of(found) if found else 0


EPILOG = """FOLDER has then: instance.txt and what belongs to it, certificate.txt, check.txt (what hub check says), the
tables of network, map.png, page.html, and study.json (the words of hub, for its folder). The same words go on where
they were stopped: what is solved is checked, and not solved again. Where hub check does not accept, there is one line
and no result."""
