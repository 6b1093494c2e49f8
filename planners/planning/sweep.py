"""The script `sweep`: many scenarios of one instance, each solved and checked by a process of its own."""

from __future__ import annotations

import argparse
import math
import shlex
import shutil
import signal
import subprocess
import sys
import time
from collections.abc import Callable
from concurrent.futures import ThreadPoolExecutor
from dataclasses import replace
from pathlib import Path
from threading import Event

from .faults import Fault, Parser, called
from .csv_tables import read_nodes
from .options import OF_SEARCH, add_options, add_valued, options_of, test_values, values_of
from .program import TAKES_PLACE, program, require, serving, serving_again
from .results import Result, Sweep
from .scenarios import COLUMNS, Scenario, read_scenarios
from .tokens import Tokens

NUMBER = "%ROW%"
"""What GNU parallel puts the number of a scenario for."""
LENGTH = 30
"""Of the bar."""
NO_FROM = (
    f"this hub has no option --from for optimize; hub resolve {TAKES_PLACE}, where fixed costs or the number of hubs"
    " alone have changed"
)
"""The message where rows are to be solved again by `optimize`."""
PAUSE = 0.1
"""Seconds between two looks at what is done."""
TRIES = 3
"""On so many machines a scenario is tried, for one that cannot be reached does none."""


class Bar:
    """How far a sweep is, on standard error."""

    def __init__(self, total: int) -> None:
        """Starts with nothing shown."""
        self.total = total
        self.shown = -1

    def show(self, done: int) -> None:
        """Shows how many scenarios are done, where that has changed."""
        if done == self.shown:
            return
        self.shown = done
        full = LENGTH * done // self.total
        text = f"[{'#' * full}{'.' * (LENGTH - full)}] {done}/{self.total}"
        if sys.stderr.isatty():
            print(f"\r{text}", end="\n" if done == self.total else "", file=sys.stderr, flush=True)
        else:
            print(text, file=sys.stderr, flush=True)


def parser() -> Parser:
    """The command line."""
    words = Parser(description=__doc__.split(": ")[1], epilog=EPILOG)
    add_options(words)
    words.add_argument(
        "table", type=Path, help="a CSV table: a row for each scenario, a column for each option that it changes"
    )
    words.add_argument(
        "--out", type=Path, required=True, metavar="FOLDER", help="the folder for results.csv and what is done so far"
    )
    solve = "solve by hub solve, for up to some 25 nodes, not hub optimize"
    words.add_argument("--solve", action="store_true", help=solve)
    again = (
        "begin the search of a row with the certificate of the last accepted row before it, by hub optimize --from,"
        " where the row has the candidates of the row before; with --solve, and where this hub has no --from, by hub"
        " resolve, where it differs from the row before in fixed costs or the number of hubs alone; tells the gain"
    )
    words.add_argument("--again", action="store_true", help=again)
    names = "a CSV table of the nodes in order with a column name, for the names of places"
    words.add_argument("--names", type=Path, metavar="FILE", help=names)
    group = words.add_argument_group("options of the search", "as for hub, for rows that do not say otherwise")
    add_valued(group, OF_SEARCH)
    words.add_argument("--jobs", type=int, default=1, metavar="N", help="scenarios side by side (default: 1)")
    words.add_argument("--time-limit", type=float, metavar="S", help="seconds for each process of hub")
    words.add_argument("--keep", action="store_true", help="keep the certificates, as FOLDER/rows/ROW.cert")
    words.add_argument("--plain", action="store_true", help="do without GNU parallel, even where it is there")
    words.add_argument(
        "--sshlogin", metavar="LIST", help="machines for GNU parallel, which see this folder under the same name"
    )
    words.add_argument(
        "--row", type=int, metavar="ROW", help="do this one scenario only, say as a task of a Slurm array"
    )
    return words


class Threads:
    """Scenarios side by side by threads of this process, each of which waits for a process of `hub`."""

    def __init__(self, sweep: Sweep, pending: list[Scenario], jobs: int) -> None:
        """Begins."""
        self.stopped = Event()
        self.pool = ThreadPoolExecutor(jobs)
        chains = [chain for chain in sweep.chains() if any(scenario in pending for scenario in chain)]
        self.tasks = [self.pool.submit(sweep.do_chain, chain, self.stopped) for chain in chains]

    def is_over(self) -> bool:
        """Whether all have ended."""
        return all(task.done() for task in self.tasks)

    def stop(self) -> None:
        """Ends what runs."""
        self.stopped.set()
        self.pool.shutdown(cancel_futures=True)

    def fault(self) -> str:
        """What went wrong."""
        ended = [task for task in self.tasks if task.done() and not task.cancelled()]
        return next((str(task.exception()) for task in ended if task.exception()), "")


class Parallel:
    """Scenarios side by side by GNU parallel, which runs this script with `--row` for each."""

    def __init__(self, sweep: Sweep, pending: list[Scenario], args: argparse.Namespace, words: list[str]) -> None:
        """Begins."""
        script = str(Path(sys.argv[0]).resolve())
        self.front = f"{called()}: "
        python, machines = [sys.executable], []
        if args.sshlogin:
            python = []
            machines = ["--sshlogin", args.sshlogin, "--workdir", str(Path.cwd()), "--retries", str(TRIES)]
        row = shlex.join(["env", f"HUB={program()}", *python, script, *words, "--row", NUMBER])
        numbers = [str(scenario.number) for scenario in pending]
        self.log = sweep.folder / "parallel.log"
        with self.log.open("wb") as log:
            self.process = subprocess.Popen(
                ["parallel", "--jobs", str(args.jobs), *machines, "-I", NUMBER, row, ":::", *numbers],
                stdin=subprocess.DEVNULL,
                stdout=log,
                stderr=log,
                start_new_session=True,
            )

    def is_over(self) -> bool:
        """Whether all have ended."""
        return self.process.poll() is not None

    def stop(self) -> None:
        """Ends what runs: of two signals the first lets it start no more, the second ends what it has started."""
        while not self.is_over():
            self.process.terminate()
            time.sleep(PAUSE)

    def fault(self) -> str:
        """What went wrong."""
        lines = self.log.read_text(errors="replace").strip().split("\n")
        told = [line.removeprefix(self.front) for line in lines if line.startswith(self.front)]
        own = [line for line in told if not line.endswith(TAKES_PLACE)]
        return (own or lines)[-1]


def do_all(
    sweep: Sweep, begin: Callable[[list[Scenario]], Threads | Parallel], show: Callable[[int], None]
) -> None:
    """Does all scenarios that are not done, by the engine that `begin` starts; `show` gets how many are done."""
    left, total = [scenario for scenario in sweep.scenarios if not sweep.result(scenario)], len(sweep.scenarios)
    show(total - len(left))
    if not left:
        return
    engine = begin(left)
    try:
        while left:
            over = engine.is_over()
            left = [scenario for scenario in left if not sweep.result(scenario)]
            show(total - len(left))
            if over:
                break
            time.sleep(PAUSE)
    finally:
        engine.stop()
    if left:
        said = engine.fault()
        raise Fault(f"{len(left)} of {total} scenarios were not done" + (said and f": {said}"))


def tell(sweep: Sweep, results: list[Result]) -> int:
    """Says which scenarios have no accepted certificate; the status is 0 where all have one."""
    missing = [(scenario, result) for scenario, result in zip(sweep.scenarios, results) if result.outcome != "accepted"]
    for scenario, result in missing:
        reason = f"hub check did not accept: {result.verdict}" if result.outcome == "not accepted" else result.outcome
        print(f"{called()}: row {scenario.number}: {reason}", file=sys.stderr)
    return 1 if missing else 0


def named_nodes(path: Path, instance: Path) -> list[str]:
    """The names of a table of the nodes of an instance."""
    names, size = read_nodes(path).names, Tokens(instance, by_line=False).read_size()
    if len(names) != size:
        raise Fault(f"{path}: wanted {size} nodes as in {instance}, found {len(names)}")
    return names


def served(scenarios: list[Scenario]) -> tuple[list[Scenario], dict[str, list[int]]]:
    """The rows, each by the command of this `hub` that has its options; and the message where that is another
    one than was asked for, with the numbers of these rows. A fault where there is none, before any row is run."""
    rows: list[Scenario] = []
    notes: dict[str, list[int]] = {}
    for scenario in scenarios:
        command, note = serving(scenario.command, [*scenario.options.values, *scenario.search])
        rows.append(replace(scenario, command=command))
        if note:
            notes.setdefault(note, []).append(scenario.number)
    return rows, notes


def going_on(scenarios: list[Scenario], jobs: int) -> list[Scenario]:
    """The rows, each with the command that solves it from the certificate of a row before, where one may. By `optimize`
    no more rows go on from each other than are the share of a job, so that all jobs have work. A fault where this `hub`
    has not the command."""
    rows = scenarios[:1]
    share, length = math.ceil(len(scenarios) / jobs), 1
    for before, scenario in zip(scenarios, scenarios[1:]):
        row = replace(scenario, again_by=serving_again(scenario.command))
        if row.goes_on_from(before) and (row.again_by == "resolve" or length < share):
            require(row.again_by, row.options.values)
            rows.append(row)
            length += 1
        else:
            rows.append(scenario)
            length = 1
    return rows


def tell_notes(notes: dict[str, list[int]]) -> None:
    """Says which rows are solved by another command than was asked for."""
    for note, numbers in notes.items():
        print(f"{called()}: row{'s' * (len(numbers) > 1)} {listed(numbers)}: {note}", file=sys.stderr, flush=True)


def listed(numbers: list[int]) -> str:
    """Ascending numbers for a reader's eye: three and more that follow each other by the first and the last."""
    runs: list[list[int]] = []
    for number in numbers:
        if runs and number == runs[-1][-1] + 1:
            runs[-1].append(number)
        else:
            runs.append([number])
    return ", ".join(f"{run[0]} to {run[-1]}" if len(run) > 2 else ", ".join(map(str, run)) for run in runs)


def tell_gain(results: list[Result]) -> None:
    """Says what solving again has gained, on the whole."""
    again = [result for result in results if result.again_from]
    if again:
        took = sum(float(result.seconds) for result in again)
        anew = sum(float(result.anew_seconds) for result in again)
        rows = f"{len(again)} row{'s were' if len(again) > 1 else ' was'} solved again in {took:.1f} s"
        text = f"{rows}; as many like the last one before each that was solved from the start take {anew:.1f} s"
        print(f"{called()}: {text}", file=sys.stderr)


def stop_as_by_hand(*_: object) -> None:
    """Ends the script as Ctrl-C does, so that what it started is ended too."""
    raise KeyboardInterrupt


def main(words: list[str]) -> int:
    """Does a sweep, or one row of it."""
    args = parser().parse_args(words)
    if args.jobs < 1 or (args.time_limit is not None and args.time_limit <= 0):
        raise Fault("--jobs and --time-limit want numbers above 0")
    if args.again and (args.sshlogin or args.row is not None):
        raise Fault("--again takes one row after another on this machine, and no --sshlogin or --row")
    command = "solve" if args.solve else "optimize"
    resolves = args.again and serving_again(command) == "resolve"
    if resolves and args.gap:
        raise Fault("--again and --gap may not stand together, for hub resolve has no --gap")
    base, search = options_of(args), values_of(args, OF_SEARCH)
    test_values(base.values | search, base.layout)
    asked = read_scenarios(args.table, base, search, command)
    names = named_nodes(args.names, base.file) if args.names else None
    if args.row is not None and not 1 <= args.row <= len(asked):
        raise Fault(f"--row wants 1 to {len(asked)}, found {args.row}")
    scenarios, notes = served(asked)
    if args.again:
        scenarios = going_on(scenarios, args.jobs)
    signal.signal(signal.SIGTERM, stop_as_by_hand)
    sweep = Sweep(scenarios, args.out, args.time_limit, args.keep, names)
    (args.out / "rows").mkdir(parents=True, exist_ok=True)
    if args.row is not None:
        tell_notes({note: [args.row] for note, numbers in notes.items() if args.row in numbers})
        sweep.do(scenarios[args.row - 1], Event(), args.keep)
        return 0
    if resolves and not args.solve:
        print(f"{called()}: {NO_FROM}", file=sys.stderr, flush=True)
    tell_notes(notes)
    with_parallel = args.sshlogin or (not args.plain and not args.again and shutil.which("parallel"))

    def begin(left: list[Scenario]) -> Threads | Parallel:
        return Parallel(sweep, left, args, words) if with_parallel else Threads(sweep, left, args.jobs)

    do_all(sweep, begin, Bar(len(scenarios)).show)
    results = sweep.write_results()
    tell_gain(results)
    return tell(sweep, results)


EPILOG = f"""The table may have the columns {", ".join(COLUMNS)}, each as the option of hub of that name (an empty cell
leaves it out), and name. What was stopped goes on with the same words: scenarios that are done are not done again.
FOLDER/results.csv has what was asked and found; costs only where hub check accepted the certificate."""
