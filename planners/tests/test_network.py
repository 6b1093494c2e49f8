"""`network`: its sums are those of `hub report`, and it takes no certificate that `hub check` does not accept."""

from __future__ import annotations

import json
import os
import random
import shutil
import subprocess
import sys
from unittest import SkipTest

from .helper import PLANNERS, InFolder, needs

LINE = "3\n0 0 10\n0 0 0\n10 0 0\n0 4 8\n4 0 4\n8 4 0\n"
COSTS = "1 1.5 1\n"


def made(seed: int) -> tuple[list[str], str]:
    """The layout with options, and the text, of a small instance."""
    chance = random.Random(seed)
    size = chance.randint(3, 6)
    flows = [[chance.choice([0, 0.5, 3, 17.25]) for _ in range(size)] for _ in range(size)]
    lengths = [[chance.randint(1, 900) / 10 for _ in range(size)] for _ in range(size)]
    points = [(chance.randint(0, 900), chance.randint(0, 900)) for _ in range(size)]
    layout = ["cab-matrix", "cab-rows", "ap"][seed % 3]
    options = [f"--trunk={chance.choice([0.2, 0.55, 1])}", "--collect=1.5", f"--divide={chance.choice([1, 3])}"]
    options += ["--no-self"] * (seed % 2) + ["--candidates=1,3"] * (seed % 4 == 0)
    pairs = [[i + 1, j + 1, flows[i][j], lengths[i][j]] for i in range(size) for j in range(size)]
    rows: list = {
        "cab-matrix": [*flows, *lengths],
        "cab-rows": pairs,
        "ap": [*points, *flows, [2], [3, 0.75, 2], [chance.randint(1, 99) for _ in range(size)]],
    }[layout]
    options.append("--tail=fixed" if layout == "ap" else f"--fixed={chance.randint(1, 99)}.125")
    return [layout, *options], "\n".join(" ".join(map(str, row)) for row in [[size], *rows]) + "\n"


class Sums(InFolder):
    """The tables against `hub report`."""

    def test_ten_made_instances(self) -> None:
        for seed in range(1, 11):
            (layout, *options), text = made(seed)
            self.write("made.txt", text)
            self.solve("made.cert", layout, "made.txt", *options)
            reported = self.hub("report", layout, "made.txt", "made.cert", *options)
            if reported.returncode == 3:
                raise SkipTest("this hub has no report")
            ended = self.script("network", layout, "made.txt", "made.cert", *options, "--out", "tables")
            self.assertEqual((ended.returncode, ended.stderr), (0, ""))
            lines = reported.stdout.splitlines()
            summary = [f"{row['item']} {row['value']}" for row in self.table("tables/summary.csv")]
            self.assertEqual(summary.pop(), "gap_percent 0.0000")
            self.assertEqual(summary, [line for line in lines if line.split()[0] not in ("hub", "hubs", "listed")])
            hubs = [
                f"hub {row['node']} collected {row['collected_flow']} delivered {row['delivered_flow']}"
                for row in self.table("tables/hubs.csv")
            ]
            self.assertEqual(hubs, [line for line in lines if line.startswith("hub ")])


class Tables(InFolder):
    """What stands in the tables, on an instance that can be worked out by hand."""

    def test_a_line_of_three(self) -> None:
        words = ["cab-matrix", "line.txt", "--trunk", "0.2", "--costs", "costs.txt"]
        self.write("line.txt", LINE)
        self.write("costs.txt", COSTS)
        self.write("names.csv", 'name\n"West, old"\nMiddle\nEast\n')
        self.solve("line.cert", *words)
        for more in (["--out", "tables"], ["--format", "json", "--out", "tables.json"]):
            ended = self.script("network", *words[:2], "line.cert", *words[2:], "--names", "names.csv", *more)
            self.assertEqual((ended.returncode, ended.stderr), (0, ""))
        trunk = dict(flow="10.000000", cost="16.000000000000")
        there = {"from": "1", "from_name": "West, old", "to": "3", "to_name": "East", **trunk}
        back = {"from": "3", "from_name": "East", "to": "1", "to_name": "West, old", **trunk}
        self.assertEqual(self.table("tables/trunks.csv"), [there, back])
        self.assertEqual(self.table("tables/collection.csv"), [])
        route = self.table("tables/routes.csv")[2]
        self.assertEqual(
            [route[key] for key in ("origin", "destination_name", "first_hub", "last_hub", "cost")],
            ["1", "East", "1", "3", "16.000000000000"],
        )
        tables = json.loads(self.read("tables.json"))
        self.assertEqual(tables["trunks"], [there, back])
        self.assertEqual(tables["summary"]["total"], "34.000000000000")


class NotBuilt(InFolder):
    """No script begins to build the program of the repository."""

    def test_what_is_told(self) -> None:
        shutil.copytree(PLANNERS / "planning", self.folder / "planners/planning")
        shutil.copy(PLANNERS / "network", self.folder / "planners")
        self.standin("hub", "touch begun\n")
        environment = {name: text for name, text in os.environ.items() if name != "HUB"}
        words = ["planners/network", "ap", "file", "certificate", "--out", "tables"]
        ended = subprocess.run(
            [sys.executable, *words], cwd=self.folder, env=environment, capture_output=True, text=True
        )
        own = self.folder.resolve() / "hub"
        line = (
            f"network: {own}: this program is not built yet; begin with `{own} demo 7 5`, which proves and builds it, or"
            " name another by HUB in the environment"
        )
        self.assert_fault(ended, line)
        self.assertFalse((self.folder / "begun").exists())


class Refusals(InFolder):
    """No table, and no picture, without a certificate that `hub check` accepts."""

    def test_what_check_does_not_accept(self) -> None:
        self.refuses("network", "tables")

    @needs("numpy", "matplotlib")
    def test_what_check_does_not_accept_is_not_drawn(self) -> None:
        self.refuses("map", "map.svg")

    def refuses(self, script: str, out: str) -> None:
        """The script takes no certificate that `hub check` does not accept, and leaves nothing behind."""
        words = ["cab-matrix", "line.txt", "line.cert", "--trunk", "0.2"]
        self.write("line.txt", LINE)
        self.solve("line.cert", *words[:2], *words[3:], "--fixed", "1")
        self.write("cut.cert", self.read("line.cert")[:-4])
        files = sorted(self.folder.iterdir())
        ended = self.script(script, *words, "--fixed", "2", "--out", out)
        self.assert_fault(ended, f"{script}: line.cert: hub check did not accept this certificate: no Cost 14")
        ended = self.script(script, *words[:2], "nowhere", "--out", out)
        self.assert_fault(ended, f"{script}: nowhere: hub check did not accept this certificate: hub: read failed")
        ended = self.script(script, *words, "--out", out, hub="/nowhere/hub")
        self.assert_fault(ended, f"{script}: /nowhere/hub: no such program; HUB in the environment may name another")
        self.assertEqual(sorted(self.folder.iterdir()), files)
