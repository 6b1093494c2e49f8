"""`sweep` and `plot-sweep`: twenty scenarios stopped in the middle and taken up again, limits, and what is refused."""

from __future__ import annotations

import json
import os
import shutil
import signal
import subprocess
import sys
import time
import unittest
from pathlib import Path

from .helper import INSTANCES, PLANNERS, InFolder, environment, needs
from planning.program import program
from planning.results import Result

MEASURED = ("seconds", "check_seconds", "peak_mib")
TABLE = "name,trunk,fixed,candidates\n" + "".join(
    f"row {trunk} {fixed},{trunk},{fixed},{'1 2 4 5 8' if fixed == 90_000_000 else ''}\n"
    for trunk in ("0.2", "0.4", "0.6", "0.8", "1")
    for fixed in (20_000_000, 40_000_000, 60_000_000, 90_000_000)
)


class Sweeps(InFolder):
    """Sweeps over eight towns."""

    def setUp(self) -> None:
        """Writes the instance and a table of twenty scenarios."""
        super().setUp()
        ended = self.script(
            "convert",
            "csv",
            str(INSTANCES / "towns-nodes.csv"),
            str(INSTANCES / "towns-flows.csv"),
            "--first",
            "8",
            "--out",
            "towns",
        )
        self.assertEqual(ended.returncode, 0)
        self.write("table.csv", TABLE)

    def program(self, before: str) -> str:
        """A program that does something before it is `hub`."""
        return self.standin("slow-hub", f'{before}\nexec {program()} "$@"\n')

    def words(self, out: str, *more: str) -> list[str]:
        """The words of a sweep into a folder."""
        return ["cab-matrix", "towns.txt", "table.csv", "--out", out, *more]

    def unmeasured(self, out: str) -> list[dict[str, str]]:
        """The results in a folder without what differs from run to run."""
        return [
            {key: cell for key, cell in row.items() if key not in MEASURED} for row in self.table(f"{out}/results.csv")
        ]

    def stop(self, words: list[str], hub: str) -> None:
        """Begins a sweep, and stops it as Ctrl-C does once four scenarios are done: with all that it has started."""
        rows = self.folder / words[words.index("--out") + 1] / "rows"
        command = [sys.executable, str(PLANNERS / "sweep"), *words]
        with subprocess.Popen(
            command,
            cwd=self.folder,
            env=environment(hub),
            stderr=subprocess.PIPE,
            text=True,
            start_new_session=True,
            # What a shell starts in the background ignores Ctrl-C, and so would the sweep.
            preexec_fn=lambda: signal.signal(signal.SIGINT, signal.SIG_DFL),
        ) as process:
            until = time.monotonic() + 30
            while len(list(rows.glob("*.json"))) < 4 and time.monotonic() < until:
                time.sleep(0.02)
            os.killpg(process.pid, signal.SIGINT)
            error = process.communicate()[1]
        self.assertEqual((process.returncode, error.splitlines()[-1]), (130, "sweep: stopped"))
        self.assertLess(len(list(rows.glob("*.json"))), len(self.read("table.csv").splitlines()) - 1)

    def stopped_and_resumed(self, *more: str) -> None:
        """A sweep that was stopped gives the table of one that was not, and does again nothing that was done."""
        total = len(self.read("table.csv").splitlines()) - 1
        rows = self.folder / "broken/rows"
        # Once four are done no other ends, however long the stop takes to come.
        are_done = f'[ "$(ls {rows} 2>/dev/null | grep -c json)" -ge 4 ]'
        hub = self.program(f'[ "$1" = optimize ] && {are_done} && exec sleep 60')
        self.stop(self.words("broken", *more), hub)
        done = {path: path.read_text() for path in rows.glob("*.json")}
        for out in ("broken", "whole"):
            ended = self.script("sweep", *self.words(out, *more), "--jobs", "4")
            self.assertEqual((ended.returncode, ended.stdout), (0, ""))
            self.assertTrue(ended.stderr.endswith(f"{total}/{total}\n"))
        self.assertEqual(self.unmeasured("broken"), self.unmeasured("whole"))
        self.assertEqual({row["outcome"] for row in self.table("whole/results.csv")}, {"accepted"})
        self.assertEqual(done, {path: path.read_text() for path in done})
        self.assertEqual({path.suffix for path in rows.iterdir()}, {".json"})

    def test_stopped_and_resumed_by_threads(self) -> None:
        self.stopped_and_resumed("--plain")

    @unittest.skipUnless(shutil.which("parallel"), "GNU parallel is not there")
    def test_stopped_and_resumed_by_parallel(self) -> None:
        self.write("table.csv", "\n".join(TABLE.splitlines()[:9]) + "\n")
        self.stopped_and_resumed("--jobs", "2")

    def test_optimize_comes_to_the_same_costs(self) -> None:
        self.write("table.csv", "trunk,fixed\n0.5,40000000\n0.25,40000000\n")
        for out, more in (("solved", ["--solve"]), ("optimized", [])):
            ended = self.script("sweep", *self.words(out, *more))
            self.assertEqual((ended.returncode, ended.stdout), (0, ""))
        costs = [[row["cost"] for row in self.table(f"{out}/results.csv")] for out in ("solved", "optimized")]
        self.assertEqual(costs[0], costs[1])
        self.assertEqual(len(costs[0]), 2)

    def test_a_certificate_too_long_to_be_checked(self) -> None:
        self.write("table.csv", "trunk,fixed\n0.5,40000000\n")
        ended = self.script("sweep", *self.words("out"), hub=self.too_long())
        self.assertEqual((ended.returncode, ended.stdout), (1, ""))
        line = ended.stderr.splitlines()[-1]
        self.assertRegex(line, "^sweep: row 1: the best network found costs [0-9,.…]+, with the hubs [0-9, ]+; it is not")
        self.assertTrue(line.endswith(" is too long for hub check: try --gap, --format 2 or fewer candidates"))
        row = self.table("out/results.csv")[0]
        self.assertEqual((row["outcome"], row["cost"]), (line.removeprefix("sweep: row 1: "), ""))

    def test_rows_one_by_one(self) -> None:
        self.write("table.csv", "trunk,fixed\n0.5,40000000\n0.25,40000000\n")
        for row in ("1", "2"):
            ended = self.script("sweep", *self.words("out"), "--keep", "--row", row)
            self.assertEqual((ended.returncode, ended.stdout, ended.stderr), (0, "", ""))
        ended = self.script("sweep", *self.words("out"))
        self.assertEqual((ended.returncode, ended.stderr), (0, f"[{30 * '#'}] 2/2\n"))
        for row in self.table("out/results.csv"):
            words = [
                "cab-matrix",
                "towns.txt",
                f"out/rows/{row['row']}.cert",
                f"--trunk={row['trunk']}",
                f"--fixed={row['fixed']}",
            ]
            self.assertEqual(self.hub("check", *words).stdout, f"optimal {row['cost']}\n")
            text = self.read(words[2])
            self.assertIn(f"\nhubs {row['open_hubs']}\n", text)
            self.assertIn(f"\nnodes {row['tree_nodes']}\n", text)
            self.assertEqual((row["bound"], row["gap_percent"], row["verdict"]), (row["cost"], "0.0000", "optimal"))

    @needs("numpy", "matplotlib")
    def test_plots(self) -> None:
        columns = "row,trunk,fixed,hubs,max_length,outcome,cost,bound,number_of_hubs\n"
        rows = "".join(f"{i},0.{i},{i % 2},{i},{100 * i},accepted,{50 - i}.5,{49 - i}.5,{i}\n" for i in range(1, 6))
        self.write("results.csv", columns + rows + "6,0.7,0,6,1,no network keeps to it,,,\n7,0.8,0,7,9,time limit,,,\n")
        for against, by in (("trunk", "fixed"), ("hubs", ""), ("max_length", "")):
            for out in ("plot.svg", "again.svg"):
                words = ["results.csv", "--against", against, "--by", by, "--out", out]
                ended = self.script("plot-sweep", *words)
                self.assertEqual((ended.returncode, ended.stderr), (0, ""))
            self.assertEqual(self.read("plot.svg"), self.read("again.svg"))
            self.assertIn("1 scenario for which there is no network left out", self.read("plot.svg"))
            self.assertIn("1 scenario without an accepted certificate left out", self.read("plot.svg"))
            self.assertEqual(self.read("plot.svg").count('id="axes_'), 1 if against == "hubs" else 2)
        ended = self.script("plot-sweep", "results.csv", "--against", "fixed", "--out", "plot.png")
        self.assert_fault(
            ended, "plot-sweep: results.csv: two scenarios have the same fixed; name what differs with --by"
        )

    def resolving(self, hub: str) -> str:
        """A program that is this one, and writes down the older certificates that its `resolve` is given."""
        note = f'[ "$1" = resolve ] && for word do :; done && echo "$word" >>{self.folder}/olds'
        return self.standin("resolving-hub", f'{note}\nexec {hub} "$@"\n')

    def test_again_by_resolve(self) -> None:
        self.write("table.csv", "trunk,fixed\n0.5,20000000\n0.5,30000000\n0.5,40000000\n0.6,40000000\n0.6,20000000\n")
        hub = self.resolving(self.without("from"))
        ended = self.script("sweep", *self.words("out", "--again", "--jobs", "2"), hub=hub)
        self.assertEqual((ended.returncode, ended.stdout), (0, ""))
        line = (
            "sweep: this hub has no option --from for optimize; hub resolve takes its place, which serves up to some 25"
            " nodes, where fixed costs or the number of hubs alone have changed"
        )
        self.assertEqual(ended.stderr.splitlines()[0], line)
        self.assertRegex(ended.stderr.splitlines()[-1], r"^sweep: 3 rows were solved again in [0-9.]+ s; as many like")
        rows = self.table("out/results.csv")
        # From the last row that was solved from the start: what was solved again has all cuts of that, and more.
        self.assertEqual([row["again_from"] for row in rows], ["", "1", "1", "", "4"])
        self.assertEqual([bool(row["gain"]) for row in rows], [False, True, True, False, True])
        olds = {Path(line).name for line in self.read("olds").split()}
        self.assertEqual(olds, {"null", "1.cert", "4.cert"})
        self.assertEqual({path.suffix for path in (self.folder / "out/rows").iterdir()}, {".json"})
        ended = self.script("sweep", *self.words("anew"))
        self.assertEqual([row["cost"] for row in rows], [row["cost"] for row in self.table("anew/results.csv")])
        self.assertNotIn("gain", self.table("anew/results.csv")[0])
        # A row is solved from the start where the certificate to go on from is gone.
        (self.folder / "out/rows/5.json").unlink()
        ended = self.script("sweep", *self.words("out", "--again"), hub=hub)
        self.assertEqual(self.table("out/results.csv")[4]["again_from"], "")
        words = self.words("out", "--again", "--row", "2")
        line = "sweep: --again takes one row after another on this machine, and no --sshlogin or --row"
        self.assert_fault(self.script("sweep", *words, hub=hub), line)

    def test_again_with_solve_is_by_resolve(self) -> None:
        self.write("table.csv", "trunk,fixed\n0.5,20000000\n0.5,30000000\n0.6,30000000\n")
        hub = self.resolving(self.with_from())
        ended = self.script("sweep", *self.words("out", "--solve", "--again"), hub=hub)
        self.assertEqual((ended.returncode, ended.stderr.splitlines()[0]), (0, f"[{30 * '.'}] 0/3"))
        self.assertEqual([row["again_from"] for row in self.table("out/results.csv")], ["", "1", ""])
        self.assertEqual({Path(line).name for line in self.read("olds").split()}, {"null", "1.cert"})
        self.assertFalse((self.folder / "begun").exists())
        line = "sweep: --again and --gap may not stand together, for hub resolve has no --gap"
        ended = self.script("sweep", *self.words("out", "--solve", "--again", "--gap", "2"), hub=hub)
        self.assert_fault(ended, line)

    def test_again_from_the_last_accepted_row(self) -> None:
        table = "trunk,fixed,hubs,max_length,gap,candidates\n" + "".join(
            f"{row}\n"
            for row in (
                "0.5,20000000,,,,",
                "0.6,20000000,,,,",
                "0.6,30000000,,,4,",
                "0.6,30000000,3,,,",
                "0.6,30000000,,9000,,",
                "0.6,30000000,,,,1 2 4 5 8",
                "0.7,40000000,,,,1 2 4 5 8",
                "0.7,40000000,,,,",
            )
        )
        self.write("table.csv", table)
        ended = self.script("sweep", *self.words("out", "--again"), hub=self.with_from())
        self.assertEqual((ended.returncode, ended.stdout), (0, ""))
        self.assertRegex(ended.stderr.splitlines()[-1], r"^sweep: 5 rows were solved again in [0-9.]+ s; as many like")
        rows = self.table("out/results.csv")
        # One with other candidates, or with all of them again, is solved from the start.
        self.assertEqual([row["again_from"] for row in rows], ["", "1", "2", "3", "4", "", "6", ""])
        self.assertEqual([bool(row["gain"]) for row in rows], [bool(row["again_from"]) for row in rows])
        begun = [Path(line).name for line in self.read("begun").split()]
        self.assertEqual(begun, ["1.cert", "2.cert", "3.cert", "4.cert", "6.cert"])
        self.assertEqual({path.suffix for path in (self.folder / "out/rows").iterdir()}, {".json"})
        # The gain is measured against the last row that was solved from the start.
        known = [Result(**json.loads(self.read(f"out/rows/{number}.json"))) for number in range(1, 9)]
        anew = [0, 0, 0, 0, 0, 5, 5, 7]
        self.assertEqual([result.anew_seconds for result in known], [known[place].seconds for place in anew])
        self.assertEqual(self.script("sweep", *self.words("anew")).returncode, 0)
        self.assertEqual([row["cost"] for row in rows], [row["cost"] for row in self.table("anew/results.csv")])

    def test_again_with_a_gap_by_several_jobs(self) -> None:
        self.write("table.csv", "trunk\n0.5\n0.6\n0.7\n0.8\n0.9\n")
        words = self.words("out", "--again", "--gap", "2", "--jobs", "2", "--keep", "--fixed", "40000000")
        ended = self.script("sweep", *words, hub=self.with_from())
        self.assertEqual((ended.returncode, ended.stdout), (0, ""))
        rows = self.table("out/results.csv")
        # Of five rows three are the share of a job.
        self.assertEqual([row["again_from"] for row in rows], ["", "1", "2", "", "4"])
        self.assertLessEqual(max(float(row["gap_percent"]) for row in rows), 2)
        kept = [path.name for path in (self.folder / "out/rows").glob("*.cert")]
        self.assertEqual(sorted(kept), [f"{number}.cert" for number in range(1, 6)])

    def test_again_past_a_row_without_an_accepted_certificate(self) -> None:
        self.write("table.csv", "trunk\n0.5\n0.6\n0.7\n0.8\n")
        false = 'case "$*" in "optimize "*trunk=0.6*) echo HUBCERT 1; exit 0;; esac'
        refused = 'case "$*" in "optimize "*trunk=0.8*) echo no Size 2; exit 2;; esac'
        hub = self.standin("false-hub", f'{false}\n{refused}\nexec {self.with_from()} "$@"\n')
        ended = self.script("sweep", *self.words("out", "--again", "--fixed", "40000000"), hub=hub)
        told = [line for line in ended.stderr.splitlines() if "row " in line]
        wanted = [
            "sweep: row 2: hub check did not accept: no Ended 2",
            "sweep: row 4: the certificate of row 3 does not serve: no Size 2",
        ]
        self.assertEqual((ended.returncode, told), (1, wanted))
        rows = self.table("out/results.csv")
        self.assertEqual([row["again_from"] for row in rows], ["", "1", "1", "3"])

    def again_is_stopped_and_taken_up_again(self, whole: str, goes_on: str, kept: str) -> list[str]:
        """From which rows are solved again that are stopped once four are done, and then taken up by a whole hub; it
        goes on from an older certificate where this is so in the shell, and then this one is kept."""
        self.write("table.csv", "fixed,hubs\n" + "".join(f"{cost}0000000,\n" for cost in (2, 3, 4, 5, 6, 7)) + "0,2\n")
        rows = self.folder / "out/rows"
        are_done = f'[ "$(ls {rows} 2>/dev/null | grep -c json)" -ge 4 ]'
        slow = self.standin("slow-hub", f'{goes_on} && {are_done} && exec sleep 60\nexec {whole} "$@"\n')
        words = self.words("out", "--again", "--trunk", "0.5")
        self.stop(words, slow)
        # What the others go on from stays until they are done.
        self.assertEqual([path.name for path in rows.glob("*.cert")], [kept])
        self.assertEqual(self.script("sweep", *words, hub=whole).returncode, 0)
        self.assertEqual({path.suffix for path in rows.iterdir()}, {".json"})
        return [row["again_from"] for row in self.table("out/results.csv")]

    def test_again_by_resolve_is_stopped_and_taken_up_again(self) -> None:
        whole = self.resolving(self.without("from"))
        again = self.again_is_stopped_and_taken_up_again(whole, '[ "$1" = resolve ]', "1.cert")
        self.assertEqual(again, ["", *6 * ["1"]])

    def test_again_is_stopped_and_taken_up_again(self) -> None:
        begins = 'case "$*" in *--from=out/*) :;; *) false;; esac'
        again = self.again_is_stopped_and_taken_up_again(self.with_from(), begins, "4.cert")
        self.assertEqual(again, ["", "1", "2", "3", "4", "5", "6"])

    def test_rows_by_the_command_that_has_their_options(self) -> None:
        self.write("table.csv", "trunk,hubs,max_length\n0.5,,\n0.5,2,\n0.5,3,\n0.5,,9000\n0.5,,10\n")
        self.write("names.csv", "name\n" + "".join(f"Town {letter}\n" for letter in "ABCDEFGH"))
        takes = "hub solve takes its place, which serves up to some 25 nodes"
        for more in (["--plain"], []):
            words = self.words("out" + "".join(more), "--names", "names.csv", "--fixed", "40000000", *more)
            ended = self.script("sweep", *words, hub=self.without("hubs", "max-length"))
            told = [line for line in ended.stderr.splitlines() if not line.startswith("[")]
            no_route = (
                "no network keeps to --max-length 10: from Town A to Town B no route is that short, even with all"
                " candidates as hubs (hub: no network for 1 2)"
            )
            self.assertEqual(
                told,
                [
                    f"sweep: rows 2, 3: this hub has no option --hubs for optimize; {takes}",
                    f"sweep: rows 4, 5: this hub has no option --max-length for optimize; {takes}",
                    f"sweep: row 5: {no_route}",
                ],
            )
            rows = self.table(words[4] + "/results.csv")
            self.assertEqual([row["number_of_hubs"] for row in rows[1:3]], ["2", "3"])
            self.assertEqual([row["outcome"] for row in rows], 4 * ["accepted"] + [no_route])
            for row in rows:
                named = [f"Town {'ABCDEFGH'[int(hub) - 1]}" for hub in row["open_hubs"].split()]
                self.assertEqual(row["hub_names"], ", ".join(named))
            # So long a route binds nothing.
            self.assertEqual(rows[0]["cost"], rows[3]["cost"])
        self.write("names.csv", "name\nTown A\n")
        ended = self.script("sweep", *words, hub=self.without("hubs"))
        self.assert_fault(ended, "sweep: names.csv: wanted 8 nodes as in towns.txt, found 1")

    def test_gaps(self) -> None:
        self.write("table.csv", "trunk,gap\n0.5,\n0.5,10\n0.5,4\n")
        ended = self.script("sweep", *self.words("out", "--gap", "2", "--fixed", "40000000"), hub=self.with_gap())
        self.assertEqual((ended.returncode, ended.stdout), (0, ""))
        rows = self.table("out/results.csv")
        self.assertEqual([row["gap"] for row in rows], ["", "10", "4"])
        self.assertEqual([row["gap_percent"] for row in rows], ["2.0000", "10.0000", "4.0000"])
        self.assertEqual({row["verdict"] for row in rows}, {"bounds"})
        line = "sweep: --again and --gap may not stand together, for hub resolve has no --gap"
        hub = self.with_gap(self.without("from"))
        self.assert_fault(self.script("sweep", *self.words("out", "--gap", "2", "--again"), hub=hub), line)

    def test_what_this_hub_has_not(self) -> None:
        refused = 'case "$*" in *--hubs*|*--max-length*|*--format*|*--from*|resolve*) exit 3;; esac'
        hub = self.program(refused)
        for table, more, what in (
            ("hubs\n2\n", [], "option --hubs for optimize"),
            ("max_length\n200\n", [], "option --max-length for optimize"),
            ("format\n2\n", ["--solve"], "option --format for solve"),
            ("fixed\n1\n2\n", ["--again"], "command resolve"),
        ):
            self.write("table.csv", table)
            ended = self.script("sweep", *self.words("out", *more), hub=hub)
            self.assert_fault(ended, f"sweep: {hub}: this hub has no {what}")
        self.assertFalse((self.folder / "out").exists())

    def test_no_network_keeps_to_the_longest_route(self) -> None:
        self.write("table.csv", "max_length\n10\n2000\n")
        text = (
            'short=; for word do shift; case "$word" in --max-length=10) short=1;; --max-length=*) ;;'
            ' *) set -- "$@" "$word";; esac; done\n[ -z "$short" ] || { echo "hub: no network for 1 2" >&2; exit 8; }\n'
        )
        ended = self.script("sweep", *self.words("out", "--plain"), hub=self.program(text))
        line = (
            "no network keeps to --max-length 10: from 1 to 2 no route is that short, even with all candidates as hubs"
            " (hub: no network for 1 2)"
        )
        self.assertEqual((ended.returncode, ended.stderr.splitlines()[-1]), (1, "sweep: row 1: " + line))
        self.assertEqual([row["outcome"] for row in self.table("out/results.csv")], [line, "accepted"])

    def test_a_process_stopped_from_outside_tells_nothing(self) -> None:
        self.write("table.csv", "trunk\n0.5\n0.6\n")
        hub = self.program('case "$*" in "optimize "*trunk=0.6*) kill -TERM $$;; esac')
        for more in (["--plain"], ["--row", "2"]):
            ended = self.script("sweep", *self.words("out", *more), hub=hub)
            self.assertEqual(ended.returncode, 2)
            self.assertTrue(ended.stderr.endswith(": a process of hub was stopped\n"), ended.stderr)
        # What a killed sweep has left is no result, and is removed at the end.
        (self.folder / "out/rows/2.at-work-left").mkdir()
        ended = self.script("sweep", *self.words("out", "--plain"))
        self.assertEqual((ended.returncode, ended.stderr.splitlines()[-1][-4:]), (0, " 2/2"))
        self.assertEqual(sorted(path.name for path in (self.folder / "out/rows").iterdir()), ["1.json", "2.json"])

    def test_what_has_no_accepted_certificate(self) -> None:
        self.write("table.csv", "name,trunk,candidates\nslow,0.5,\nfalse,0.6,\nfaulty,0.7,9\ngood,0.8,\n")
        hub = self.program(
            'case "$*" in *trunk=0.5*) exec sleep 60;; "optimize "*trunk=0.6*) echo HUBCERT 1; exit 0;; esac'
        )
        ended = self.script(
            "sweep", *self.words("out", "--time-limit", "10", "--plain", "--jobs", "4"), "--fixed", "5", hub=hub
        )
        wanted = [
            "sweep: row 1: time limit",
            "sweep: row 2: hub check did not accept: no Ended 2",
            "sweep: row 3: failed with status 4: hub: instance fault 10 NoCandidate 9",
        ]
        self.assertEqual((ended.returncode, ended.stderr.splitlines()[-3:]), (1, wanted))
        rows = self.table("out/results.csv")
        self.assertEqual([bool(row["cost"]) for row in rows], [False, False, False, True])
        self.assertEqual(rows[1]["outcome"], "not accepted")
        # Only what a longer time can change is done again.
        ended = self.script("sweep", *self.words("out", "--time-limit", "60", "--plain"), "--fixed", "5")
        self.assertEqual((ended.returncode, ended.stderr.splitlines()[-2:]), (1, wanted[1:]))

    def test_faults_of_the_table(self) -> None:
        for text, line in (
            ("trunk\nx\n", "table.csv:2: wanted in the column 'trunk' a factor, a number from 0 to 1000, found 'x'"),
            (
                "workers\n0\n",
                "table.csv:2: wanted in the column 'workers' a number of workers, a number from 1 to 64, found '0'",
            ),
            (
                "candidates\n3 1\n",
                "table.csv:2: wanted in the column 'candidates' ascending numbers of nodes with spaces or commas"
                " between, found '3 1'",
            ),
            ("costs\nnowhere\n", "table.csv:2: wanted in the column 'costs' a file, found 'nowhere'"),
            (
                "fixed,costs\n1,towns.txt\n",
                "table.csv:2: wanted in the column 'costs' no file beside a number in the column 'fixed',"
                " found 'towns.txt'",
            ),
            (
                "trunks\n1\n",
                "table.csv:1: wanted the columns name, collect, trunk, deliver, fixed, hubs, max_length, nodes,"
                " workers, format, gap, costs, candidates, found 'trunks'",
            ),
            ("trunk\n", "table.csv: wanted at least one row"),
            (
                "hubs,max_length\n2,\n2,900\n",
                "table.csv:3: --hubs and --max-length may not stand together; hub has no search for both",
            ),
            ("hubs\nfile\n", "table.csv:2: --hubs file wants the layout ap, whose files list a number of hubs"),
            (
                "gap\n1.2345\n",
                "table.csv:2: wanted in the column 'gap' a gap in per cent of the cost, a number from 0 to 100 with at"
                " most 3 decimals, found '1.2345'",
            ),
        ):
            self.write("table.csv", text)
            self.assert_fault(self.script("sweep", *self.words("out")), "sweep: " + line)
        self.assertFalse(Path(self.folder / "out").exists())
