"""The script `what-if`: what a network costs without each of its hubs, and with each further place as a hub."""

from __future__ import annotations

import argparse
import shlex
import signal
import sys
from pathlib import Path

from . import pythons
from .alternatives import Alternatives
from .asking import ALL_ASKED, MOST_ASKED, Asking, Means, ask_all
from .csv_tables import table_text
from .faults import Fault, Parser, called
from .files import put_all
from .options import OF_SEARCH, add_valued, options_of, test_values, values_of
from .program import serving
from .report_files import WHAT_IF, WHAT_IF_PICTURE, PAGE
from .sweep import Bar, stop_as_by_hand
from .tables import add_accepted, read_named


def parser() -> Parser:
    """The command line."""
    words = Parser(description=__doc__.split(": ")[1], epilog=EPILOG)
    add_accepted(words)
    add = words.add_argument
    add("--out", type=Path, required=True, metavar="FOLDER", help="the folder for what comes out and is done so far")
    add("--title", default="", help="the title of picture and page")
    add("--no-picture", action="store_true", help=f"draw no {WHAT_IF_PICTURE}, for which matplotlib is wanted")
    add_asking(words)
    add("--time-limit", type=float, metavar="S", help="seconds for each process of hub")
    add("--keep", action="store_true", help="keep the certificates, as FOLDER/rows/ROW.cert")
    add("--solve", action="store_true", help="by hub solve, for up to some 25 nodes, not hub optimize")
    add_valued(words.add_argument_group("options of the search", "as for hub"), OF_SEARCH)
    return words


def add_asking(words: argparse.ArgumentParser | argparse._ArgumentGroup) -> None:
    """Writes the question as a command line."""
    places = f"so many further places (default: all up to {ALL_ASKED} nodes, else {MOST_ASKED}), the best by the bound"
    words.add_argument("--places", type=int, metavar="N", help=places)
    words.add_argument("--jobs", type=int, default=1, metavar="N", help="searches side by side (default: 1)")


def test_asking(args: argparse.Namespace) -> None:
    """A fault where these words are none."""
    if args.jobs < 1 or (args.places is not None and args.places < 0):
        raise Fault("--jobs wants a number above 0, and --places one that is not negative")


def status_of(found: Alternatives) -> int:
    """Says which questions have no answer; the status is 0 where all have one."""
    for line in found.missing():
        print(f"{called()}: {line}", file=sys.stderr)
    return 1 if found.missing() else 0


def main(words: list[str]) -> int:
    """Asks what if."""
    args = parser().parse_args(words)
    test_asking(args)
    if args.time_limit is not None and args.time_limit <= 0:
        raise Fault("--time-limit wants a number above 0")
    options, search = options_of(args), values_of(args, OF_SEARCH)
    test_values(options.values | search, options.layout)
    pythons.want("numpy", *([] if args.no_picture else ["matplotlib"]), without="--no-picture does without it")
    signal.signal(signal.SIGTERM, stop_as_by_hand)
    command, note = serving("solve" if args.solve else "optimize", [*options.values, *search])
    if note:
        print(f"{called()}: {note}", file=sys.stderr, flush=True)
    named = read_named(options, args.certificate, args.names)
    asking = Asking(named, options, args.certificate, command, search, args.places)
    bar: list[Bar] = []

    def show(done: int, total: int) -> None:
        bar.extend([] if bar else [Bar(total)])
        bar[0].show(done)

    found = ask_all(asking, Means(args.out, args.jobs, args.time_limit, args.keep), show)
    put_all(results(found, args), [options.file, args.certificate])
    print("\n".join([*found.said(), str(args.out / WHAT_IF)]))
    return status_of(found)


def results(found: Alternatives, args: argparse.Namespace) -> dict[Path, str | bytes]:
    """The table, the picture and the page."""
    from .page import page_text
    from .places import positions

    options = options_of(args)
    places, note = positions(found.named.network.instance, args.names)
    check = shlex.join(["hub", "check", options.layout, str(options.file), str(args.certificate), *options.words()])
    page = page_text(found.named, places, note, args.title, check, found)
    texts: dict[Path, str | bytes] = {args.out / WHAT_IF: table_text(found.table()), args.out / PAGE: page}
    if not args.no_picture:
        from .drawing import picture_bytes
        from .rises import chart

        texts[args.out / WHAT_IF_PICTURE] = picture_bytes(chart(found, args.title), ".png")
    return texts


EPILOG = f"""FOLDER/{WHAT_IF} has a line for each hub (the network without it, its rise in cost, and which hubs take its
place) and for each further place (the network in which it must be a hub); {WHAT_IF_PICTURE} has the rises as bars, and
{PAGE} is the page of the network with them. Costs stand there only where hub check accepted the certificate. What was
stopped goes on with the same words."""
