"""`what-if` and `study --what-if`: every rise against all sets of hubs, bounds of places, stopped and taken up."""

from __future__ import annotations

import json
import os
import re
import signal
import subprocess
import sys
import time
from itertools import chain, combinations
from pathlib import Path

from .helper import PLANNERS, InFolder, environment, needs
from planning.alternatives import WITH, WITHOUT
from planning.instance import Instance, read_instance
from planning.loads import FIXED_UNITS
from planning.options import Options
from planning.program import program, read_cost
from planning.tree_bounds import least_costs

PLACES = "name,x,y,fixed\nA,0,0,170\nB,30,40,140\nC,60,80,190\nD,5,70,100\nE,90,10,175\n"
FLOWS = "origin,destination,amount\nA,C,2.5\nC,A,1\nB,E,3\nD,A,1.5\nE,D,2\nC,D,1\nD,E,0.5\n"
WORDS = ("ap", "instance.txt", "found.cert", "--costs=instance.costs.txt", "--trunk=0.5")
NUMBER = 5


def sets_of(nodes: list[int]) -> list[tuple[int, ...]]:
    """All sets of nodes but the empty one."""
    return list(chain.from_iterable(combinations(nodes, size) for size in range(1, len(nodes) + 1)))


def cost_of(instance: Instance, hubs: tuple[int, ...]) -> int:
    """What the best routes over these hubs cost with the hubs, in 10^-12."""
    collect, trunk, deliver = instance.factors
    lengths, nodes = instance.distances, range(instance.size())
    ways = [(k, m) for k in hubs for m in hubs]
    routes = sum(
        instance.flows[i][j]
        * min(collect * lengths[i][k] + trunk * lengths[k][m] + deliver * lengths[m][j] for k, m in ways)
        for i in nodes
        for j in nodes
    )
    return routes + sum(instance.fixed[hub] * FIXED_UNITS for hub in hubs)


@needs("numpy")
class FivePlaces(InFolder):
    """Questions about five places, whose sets of hubs can all be worked out."""

    def setUp(self) -> None:
        """Writes the tables, the instance, and the certificate of its best network."""
        super().setUp()
        self.write("nodes.csv", PLACES)
        self.write("flows.csv", FLOWS)
        self.assertEqual(self.script("convert", "csv", "nodes.csv", "flows.csv", "--out", "instance").returncode, 0)
        self.solve("found.cert", WORDS[0], WORDS[1], *WORDS[3:])
        values = {"costs": str(self.folder / "instance.costs.txt"), "trunk": "0.5"}
        self.instance = read_instance(Options("ap", self.folder / "instance.txt", values, False))
        self.costs = {hubs: cost_of(self.instance, hubs) for hubs in sets_of(list(range(NUMBER)))}

    def ask(self, *more: str, hub: str = "") -> subprocess.CompletedProcess[str]:
        """Runs the script into the folder `out`."""
        words = ["--names", "instance.names.csv", "--no-picture", "--out", "out", *more]
        return self.script("what-if", *WORDS, *words, hub=hub)

    def least(self, kind: str, node: int, size: int | None = None) -> int:
        """The least cost of all sets of hubs that answer a question, perhaps of this size alone."""
        return min(
            cost
            for hubs, cost in self.costs.items()
            if (node in hubs) == (kind == WITH) and size in (None, len(hubs))
        )

    def test_every_rise(self) -> None:
        ended = self.ask("--title", "Five", "--jobs", "2")
        self.assertEqual((ended.returncode, ended.stderr.splitlines()[-1]), (0, f"[{30 * '#'}] 5/5"))
        best = min(self.costs.values())
        rows = self.table("out/what-if.csv")
        self.assertEqual(sorted(int(row["node"]) for row in rows), [1, 2, 3, 4, 5])
        for row in rows:
            least = self.least(row["asked"], int(row["node"]) - 1)
            self.assertEqual([read_cost(row[name]) for name in ("cost", "bound")], [least, least])
            self.assertEqual([read_cost(row[name]) for name in ("rise", "least_rise")], [least - best] * 2)
            hubs = tuple(int(hub) - 1 for hub in row["open_hubs"].split())
            self.assertEqual(self.costs[hubs], least)
            self.assertEqual(int(row["node"]) - 1 in hubs, row["asked"] == WITH)
        page = self.read("out/page.html")
        data = json.loads(re.search(r'<script id="data" type="application/json">(.*?)</script>', page, re.DOTALL)[1])
        self.assertEqual([line["node"] + 1 for line in data["whatIf"]], [int(row["node"]) for row in rows])
        self.assertEqual(ended.stdout.splitlines()[-1], "out/what-if.csv")
        self.assertRegex(ended.stdout, r"^without: [A-E] \+[0-9.]+ %(, [A-E] \+[0-9.]+ %)*\nwith: ")

    def test_bounds_of_places(self) -> None:
        for more in ([], ["--format=2"], ["--cuts=core"], ["--nodes=1"]):
            ended = self.hub("solve", WORDS[0], WORDS[1], *WORDS[3:], *more)
            self.assertIn(ended.returncode, (0, 1))
            path = self.write("tree.cert", ended.stdout)
            least = least_costs(path, self.instance.fixed, list(range(NUMBER)))
            bound = int(ended.stdout.split("\n")[3].split()[1])
            for node in range(NUMBER):
                self.assertLessEqual(least[node], self.least(WITH, node))
                self.assertGreaterEqual(least[node], bound - 1)
        ended = self.ask("--places=1")
        self.assertEqual(ended.returncode, 0)
        asked = [row for row in self.table("out/what-if.csv") if row["asked"] == WITH]
        self.assertEqual(len(asked), 1)

    def test_a_search_begins_with_the_certificate(self) -> None:
        ended = self.ask(hub=self.with_from())
        self.assertEqual(ended.returncode, 0)
        further = [row for row in self.table("out/what-if.csv") if row["asked"] == WITH]
        self.assertEqual(self.read("begun"), "found.cert\n" * len(further))
        self.assertNotIn("--from", self.read("out/what-if.csv"))

    def test_a_number_of_hubs(self) -> None:
        self.solve("found.cert", WORDS[0], WORDS[1], *WORDS[3:], "--hubs=2")
        self.assertEqual(self.ask("--hubs=2").returncode, 0)
        rows = self.table("out/what-if.csv")
        self.assertEqual([row["asked"] for row in rows], [WITHOUT, WITHOUT])
        for row in rows:
            self.assertEqual(read_cost(row["cost"]), self.least(WITHOUT, int(row["node"]) - 1, 2))
        self.solve("found.cert", WORDS[0], WORDS[1], *WORDS[3:], "--hubs=2", "--candidates=1,3")
        ended = self.ask("--hubs=2", "--candidates=1,3")
        lines = [f"what-if: without {name}: no network: 1 candidate is left, and 2 wanted" for name in "AC"]
        self.assertEqual((ended.returncode, ended.stderr.splitlines()[-2:]), (1, lines))
        self.assertEqual({row["cost"] for row in self.table("out/what-if.csv")}, {""})

    def test_stopped_and_taken_up_again(self) -> None:
        rows = self.folder / "out/rows"
        are_done = f'[ "$(ls {rows} 2>/dev/null | grep -c json)" -ge 2 ]'
        asked = '[ "$1" = optimize ] && case "$*" in *candidates=*|*rows/*) true;; *) false;; esac'
        hub = self.standin("slow-hub", f'{asked} && {are_done} && exec sleep 60\nexec {program()} "$@"\n')
        words = [*WORDS, "--names", "instance.names.csv", "--no-picture", "--out", "out"]
        with subprocess.Popen(
            [sys.executable, str(PLANNERS / "what-if"), *words],
            cwd=self.folder,
            env=environment(hub),
            stdout=subprocess.PIPE,
            stderr=subprocess.PIPE,
            text=True,
        ) as process:
            until = time.monotonic() + 60
            while len(list(rows.glob("*.json"))) < 2 and time.monotonic() < until:
                time.sleep(0.02)
            process.send_signal(signal.SIGTERM)
            error = process.communicate()[1]
        self.assertEqual((process.returncode, error.splitlines()[-1]), (130, "what-if: stopped"))
        done = {path: path.read_text() for path in rows.glob("*.json")}
        self.assertFalse(os.path.exists(self.folder / "out/what-if.csv"))
        note = f'case "$*" in *"cab-matrix /dev/null") ;; *) echo "$1" >>{self.folder}/asked;; esac'
        noting = self.standin("noting-hub", f'{note}\nexec {program()} "$@"\n')
        self.assertEqual(self.ask(hub=noting).returncode, 0)
        self.assertEqual(self.read("asked").split().count("optimize"), NUMBER - len(done))
        self.assertEqual(done, {path: path.read_text() for path in done})
        self.assertEqual({path.suffix for path in rows.iterdir()}, {".json", ".costs"})

    def test_of_a_study(self) -> None:
        words = ["nodes.csv", "flows.csv", "--trunk=0.5", "--no-map", "--out", "study"]
        ended = self.script("study", *words, "--what-if")
        self.assertEqual((ended.returncode, ended.stderr), (0, ""))
        self.assertEqual(len(self.table("study/what-if.csv")), NUMBER)
        self.assertIn('"whatIf":[{', self.read("study/page.html"))
        self.assertEqual([line.partition(":")[0] for line in ended.stdout.splitlines()[2:4]], [WITHOUT, WITH])
        # Another answer leaves no older lines beside it.
        self.assertEqual(self.script("study", *words, "--collect=2").returncode, 0)
        self.assertFalse((self.folder / "study/what-if.csv").exists())

    @needs("matplotlib")
    def test_the_picture(self) -> None:
        words = [*WORDS, "--names", "instance.names.csv", "--out"]
        for out, more in (("first", []), ("second", ["--gap=3"])):
            self.assertEqual(self.script("what-if", *words, out, *more, hub=self.with_gap()).returncode, 0)
            self.assertTrue(Path(self.folder / out / "what-if.png").read_bytes().startswith(b"\x89PNG"))
        rows = [row for row in self.table("second/what-if.csv") if row["bound"] != row["cost"]]
        self.assertEqual(len(rows), NUMBER)
        self.assertLess(read_cost(rows[0]["bound"]), read_cost(rows[0]["cost"]))

    def test_what_is_refused(self) -> None:
        for more, line in (
            (["--jobs=0"], "--jobs wants a number above 0, and --places one that is not negative"),
            (["--places=-1"], "--jobs wants a number above 0, and --places one that is not negative"),
            (["--time-limit=0"], "--time-limit wants a number above 0"),
            (["--trunk=0.6"], "found.cert: hub check did not accept this certificate: no Cost 30"),
            (["--workers=x"], "--workers: wanted a number of workers, a number from 1 to 64, found 'x'"),
        ):
            self.assert_fault(self.ask(*more), f"what-if: {line}")
        self.assertFalse((self.folder / "out").exists())
