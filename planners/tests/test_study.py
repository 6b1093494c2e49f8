"""`study`: two tables become a folder of results; taken up again, refused, and with nothing half written."""

from __future__ import annotations

import os
import pty
import subprocess
import sys
import time

from .helper import INSTANCES, PLANNERS, InFolder, environment, needs
from planning.program import program
from planning.report_files import RESULTS

NODES = "name,x,y,fixed\nWest,0,0,70\nMiddle,30,40,80\nEast,60,80,90\n"
FLOWS = "origin,destination,amount\nWest,East,2.5\nEast,West,1\nMiddle,East,3\n"
TOO_MANY = "--hubs 4: there are not so many candidates (hub: instance fault 12 Hubs 4)"
WORDS = ("nodes.csv", "flows.csv", "--trunk", "0.5")
OF_INSTANCE = ["instance.txt", "instance.costs.txt", "instance.names.csv", "certificate.txt", "study.json"]


@needs("numpy")
class Studies(InFolder):
    """Studies of three places on a line."""

    def setUp(self) -> None:
        """Writes the tables."""
        super().setUp()
        self.write("nodes.csv", NODES)
        self.write("flows.csv", FLOWS)

    def names(self, folder: str) -> list[str]:
        """What lies in a folder."""
        return sorted(path.name for path in (self.folder / folder).iterdir())

    def searched(self) -> str:
        """A program that is hub, and writes down each command that it is given."""
        return self.standin("noting-hub", f'echo "$1" >>{self.folder}/asked\nexec {program()} "$@"\n')

    @needs("matplotlib")
    def test_all_that_comes_out(self) -> None:
        ended = self.script("study", *WORDS, "--out", "out")
        self.assertEqual((ended.returncode, ended.stderr), (0, ""))
        verdict, hubs, page = ended.stdout.splitlines()
        self.assertEqual((verdict + "\n", page), (self.read("out/check.txt"), "out/page.html"))
        self.assertEqual(self.names("out"), sorted([*RESULTS, *OF_INSTANCE]))
        self.assertEqual(hubs, "hubs: " + ", ".join(row["name"] for row in self.table("out/hubs.csv")))
        words = ["ap", "out/instance.txt", "out/certificate.txt", "--costs=out/instance.costs.txt", "--trunk=0.5"]
        self.assertEqual(self.hub("check", *words).stdout, self.read("out/check.txt"))
        # The tables are those of `network`, and the words for hub are those of the folder.
        ended = self.script("network", *words, "--names", "out/instance.names.csv", "--out", "tables")
        self.assertEqual(ended.returncode, 0)
        for name in self.names("tables"):
            self.assertEqual(self.read(f"tables/{name}"), self.read(f"out/{name}"))
        self.assertIn('"check": "hub check ap instance.txt --costs=instance.costs.txt', self.read("out/study.json"))

    def test_taken_up_again(self) -> None:
        hub = self.searched()
        words = [*WORDS, "--no-map", "--out", "out"]
        for folder in ("out", "out"):
            ended = self.script("study", *words, hub=hub)
            self.assertEqual((ended.returncode, ended.stderr), (0, ""))
            (self.folder / folder / "page.html").unlink()
        self.assertEqual(self.read("asked").split().count("optimize"), 3)  # each time asked for its words, once solved
        # A certificate that was changed, or another question, is solved from the start.
        self.write("out/certificate.txt", "HUBCERT 1\n")
        self.assertEqual(self.script("study", *words, hub=hub).returncode, 0)
        self.assertEqual(self.script("study", *words, "--collect=2", hub=hub).returncode, 0)
        self.assertEqual(self.read("asked").split().count("optimize"), 7)
        self.assertEqual(self.script("study", *words, "--solve", "--fixed=5", hub=hub).returncode, 0)
        self.assertEqual(self.read("asked").split().count("solve"), 2)
        self.assertNotIn("instance.costs.txt", self.names("out"))

    def test_stopped_and_taken_up_again(self) -> None:
        asked = '[ "$4" = /dev/null ] || [ "$1" = check ] || exec sleep 60'
        hub = self.standin("slow-hub", f'{asked}\nexec {program()} "$@"\n')
        command = [sys.executable, str(PLANNERS / "study"), *WORDS, "--no-map", "--out", "out"]
        with subprocess.Popen(
            command, cwd=self.folder, env=environment(hub), stdout=subprocess.PIPE, stderr=subprocess.PIPE, text=True
        ) as process:
            until = time.monotonic() + 60
            while not list(self.folder.glob("out/.at-work-*/certificate.txt")) and time.monotonic() < until:
                time.sleep(0.05)
            process.terminate()
            told = process.communicate()
        self.assertEqual((process.returncode, *told), (130, "", "study: stopped\n"))
        self.assertEqual(self.names("out"), [])
        self.assertEqual(self.script("study", *command[2:]).returncode, 0)
        self.assertIn("certificate.txt", self.names("out"))

    def test_a_bound_is_an_answer(self) -> None:
        text = (INSTANCES / "towns-nodes.csv").read_text()
        flows = (INSTANCES / "towns-flows.csv").read_text()
        self.write("nodes.csv", text)
        self.write("flows.csv", flows)
        words = ["nodes.csv", "flows.csv", "--trunk=0.4", "--solve", "--nodes=3", "--no-map", "--out", "out"]
        ended = self.script("study", *words, "--candidates", "Violet,Juniper,Alderby,9,17")
        self.assertEqual((ended.returncode, ended.stderr), (0, ""))
        self.assertRegex(ended.stdout, r"^(bounds [0-9.]+ [0-9.]+\ngap: [0-9.]+ % of the cost|optimal [0-9.]+)\nhubs: ")
        self.assertIn("--candidates=1,9,10,17,22", self.read("out/study.json"))

    def test_progress_is_for_a_terminal(self) -> None:
        reader, writer = pty.openpty()
        command = [sys.executable, str(PLANNERS / "study"), *WORDS, "--no-map", "--out", "out"]
        ended = subprocess.run(
            command, cwd=self.folder, env=environment(), stdout=subprocess.PIPE, stderr=writer, check=False
        )
        os.close(writer)
        shown = os.read(reader, 10_000).decode()
        os.close(reader)
        self.assertEqual(ended.returncode, 0)
        self.assertIn("[3/4] hub optimize", shown)
        self.assertEqual(shown.split("\r")[-2].strip(), "")

    def test_what_is_refused(self) -> None:
        self.write("wrong.csv", FLOWS.replace("2.5", "x"))
        words = ["nodes.csv", "flows.csv", "--no-map", "--out", "out"]
        column = "wrong.csv:2: wanted in the column 'amount' a flow, a number from 0 to 10000000, found 'x'"
        for more, line in (
            (["nodes.csv", "wrong.csv", *words[2:]], column),
            ([*words, "--trunk", "4x"], "--trunk: wanted a factor, a number from 0 to 1000, found '4x'"),
            ([*words, "--candidates", "No"], "--candidates wants names or numbers of nodes, each once, found 'No'"),
            ([*words, "--workers", "0"], "--workers: wanted a number of workers, a number from 1 to 64, found '0'"),
            ([*words, "--places", "3"], "--places and --jobs are for --what-if"),
            ([*words[:-1], "."], ".: the tables to read lie in this folder; choose another --out"),
            (
                [*words, "--hubs=2", "--max-length=9"],
                "--hubs and --max-length may not stand together; hub has no search for both",
            ),
            (
                [*words, "--hubs=x"],
                "--hubs: wanted a number of hubs, a number from 1 to 200, or 'file', found 'x'",
            ),
            (
                [*words, "--hubs=file"],
                "--hubs file wants an ap file that lists a number of hubs; say the number itself",
            ),
            (
                [*words, "--hubs=2", "--format=1"],
                "--format 1 has no lines for --hubs and --max-length; leave it out, or say --format 2",
            ),
            (
                [*words, "--gap=0.1234"],
                "--gap: wanted a gap in per cent of the cost, a number from 0 to 100 with at most 3 decimals,"
                " found '0.1234'",
            ),
        ):
            self.assert_fault(self.script("study", *more), "study: " + line)
        self.assertFalse((self.folder / "out").exists())

    def test_no_result_without_a_verdict(self) -> None:
        words = [*WORDS, "--no-map", "--out", "out"]
        ended = self.script("study", *words)
        before = {name: self.read(f"out/{name}") for name in self.names("out")}
        for body, line in (
            ("echo HUBCERT 1; exit 0", "hub check did not accept what hub optimize wrote: no Ended 2"),
            ("echo 'hub: out of memory' >&2; exit 5", "hub optimize found no network: hub: out of memory"),
            ("echo 'hub: instance fault 12 Hubs 4' >&2; exit 4", TOO_MANY),
            ("exit 3", "hub optimize does not take these words: ap --costs=instance.costs.txt --collect=2 --trunk=0.5"),
            ("kill -KILL $$", "hub optimize found no network: status -9"),
        ):
            begin = '[ "$1" = optimize ] && [ "$4" != /dev/null ] && [ "$5" != /dev/null ] &&'
            hub = self.standin("bad-hub", f'{begin} {{ {body}; }}\nexec {program()} "$@"\n')
            ended = self.script("study", *words, "--collect=2", hub=hub)
            self.assert_fault(ended, "study: " + line)
        self.assertEqual(before, {name: self.read(f"out/{name}") for name in self.names("out")})
        ended = self.script("study", *words, "--hubs=2", hub=self.older())
        self.assert_fault(ended, f"study: {self.folder}/older-hub: this hub has no option --hubs for optimize")

    def test_a_certificate_too_long_to_be_checked(self) -> None:
        words = [*WORDS, "--no-map", "--out", "out"]
        found = "the best network found costs 485, with the hubs West, East; it is not proved"
        for more, helps in (
            ([], "--gap, --format 2 or fewer candidates"),
            (["--format=2", "--gap=1"], "a greater --gap or fewer candidates"),
            (["--solve"], "--format 2 or fewer candidates"),
        ):
            ended = self.script("study", *words, *more, hub=self.too_long())
            line = f"study: {found}, for its certificate is too long for hub check: try {helps}"
            self.assert_fault(ended, line)
        self.assertEqual(list((self.folder / "out").iterdir()), [])
        self.solve("long.cert", "ap", str(INSTANCES / "districts.txt"))
        os.truncate(self.folder / "long.cert", 2**30 + 1)
        words = ["ap", str(INSTANCES / "districts.txt"), "long.cert", "--out", "tables"]
        line = "long.cert: this certificate is too long for hub check, so that nothing of it is proved"
        self.assert_fault(self.script("network", *words, hub=self.too_long()), f"network: {line}")

    def test_hubs_that_exist(self) -> None:
        words = ["flows.csv", "--trunk=0.5", "--no-map", "--out", "out"]
        said = "existing hubs, whose costs are spent and count as 0: West, East"
        marked = NODES.replace("fixed\n", "fixed,existing\n").replace("70\n", "70,yes\n").replace("90\n", "90,1\n")
        self.write("marked.csv", marked.replace("80\n", "80,\n"))
        for more, costs in (
            (["marked.csv", *words], "0 80 0"),
            (["nodes.csv", *words, "--existing", "East,1", "--fixed=50"], "0 50 0"),
        ):
            ended = self.script("study", *more)
            self.assertEqual((ended.returncode, ended.stderr), (0, ""))
            self.assertEqual(self.read("out/instance.costs.txt"), costs + "\n")
            self.assertIn(f"\n{said}\n", ended.stdout)
            self.assertEqual([row["name"] for row in self.table("out/hubs.csv") if row["existing"]], ["West", "East"])
            page = self.read("out/page.html")
            self.assertIn('"existing":[0,2]', page)
            self.assertIn(f"<p>E{said[1:]}.</p>", page)
        # The option takes the place of the column.
        ended = self.script("study", "marked.csv", *words, "--existing", "Middle")
        self.assertIn("count as 0: Middle", ended.stdout)
        self.assertEqual(self.read("out/instance.costs.txt"), "70 0 90\n")
        self.assertNotIn("existing", self.script("study", "nodes.csv", *words).stdout)
        for more, line in (
            (["--existing", "No"], "--existing wants names or numbers of nodes, each once, found 'No'"),
            (["--existing=West", "--candidates=East"], "West has a hub already, and is not among --candidates"),
        ):
            self.assert_fault(self.script("study", "nodes.csv", *words, *more), f"study: {line}")
        self.write("wrong.csv", marked.replace("80\n", "80,x\n"))
        line = "wrong.csv:3: wanted in the column 'existing' yes or no, found 'x'"
        self.assert_fault(self.script("study", "wrong.csv", *words), f"study: {line}")

    def older(self) -> str:
        """A program that knows none of the options that came later."""
        refused = 'case "$*" in *--hubs*|*--max-length*|*--format*|resolve*) echo "usage: hub" >&2; exit 3;; esac'
        return self.standin("older-hub", f'{refused}\nexec {program()} "$@"\n')


@needs("numpy")
class LaterOptions(InFolder):
    """Options that not each hub has, with a program that stands for one that has them, and one that has not."""

    def setUp(self) -> None:
        """Writes the tables."""
        super().setUp()
        self.write("nodes.csv", NODES)
        self.write("flows.csv", FLOWS)

    def test_solve_takes_the_place_of_optimize(self) -> None:
        hub = self.without("hubs", "max-length")
        words = [*WORDS, "--no-map", "--out", "out"]
        for option in ("--max-length=200", "--hubs=1"):
            name = option[2:].partition("=")[0]
            note = (
                f"study: this hub has no option --{name} for optimize; hub solve takes its place,"
                " which serves up to some 25 nodes\n"
            )
            ended = self.script("study", *words, option, hub=hub)
            self.assertEqual((ended.returncode, ended.stderr), (0, note))
            solved = f"hub solve ap instance.txt --costs=instance.costs.txt --trunk=0.5 {option}"
            self.assertIn(solved, self.read("out/study.json"))
            check = ["ap", "out/instance.txt", "out/certificate.txt", "--costs=out/instance.costs.txt", "--trunk=0.5"]
            self.assertEqual(self.hub("check", *check, option).stdout, self.read("out/check.txt"))
        self.assertEqual(len(self.table("out/hubs.csv")), 1)
        self.assertEqual(self.script("study", *words, "--hubs=2", hub=hub).returncode, 0)
        self.assertEqual(len(self.table("out/hubs.csv")), 2)
        ended = self.script("study", *words, "--hubs=4", hub=hub)
        self.assertEqual((ended.returncode, ended.stdout), (2, ""))
        self.assertEqual(ended.stderr.splitlines()[1], "study: " + TOO_MANY)

    def test_places_without_a_short_route_are_named(self) -> None:
        words = [*WORDS, "--no-map", "--out", "out", "--max-length=40"]
        ended = self.script("study", *words, hub=self.without("max-length"))
        self.assertEqual((ended.returncode, ended.stdout), (2, ""))
        line = (
            "study: no network keeps to --max-length 40: from West to East no route is that short, even with all"
            " candidates as hubs (hub: no network for 1 3)"
        )
        self.assertEqual(ended.stderr.splitlines()[1:], [line])
        self.assertEqual(list((self.folder / "out").iterdir()), [])

    def test_a_gap_is_told(self) -> None:
        words = [*WORDS, "--no-map", "--out", "out"]
        ended = self.script("study", *words, "--gap=5", hub=self.with_gap())
        self.assertEqual((ended.returncode, ended.stderr), (0, ""))
        told = ended.stdout.splitlines()
        self.assertRegex(told[0], "^bounds ")
        self.assertEqual(told[1], "gap: 5 % of the cost")
        self.assertIn("; the gap is 5 % of the cost.", self.read("out/page.html"))
        self.assertEqual(self.table("out/summary.csv")[-1], {"item": "gap_percent", "value": "5.0000"})
        self.assertIn("--gap=5", self.read("out/study.json"))
        line = f"study: {self.folder}/gap-hub: this hub has no option --gap for solve"
        self.assert_fault(self.script("study", *words, "--gap=5", "--solve", hub=self.with_gap()), line)
        both = (
            f"study: {self.folder}/older-hub: this hub has no option --hubs for optimize, and no --gap for solve, which"
            " could take its place"
        )
        hub = self.standin(
            "older-hub",
            f'case "$*" in "optimize "*--hubs*|"solve "*--gap*) exit 3;; "optimize "*/dev/null) exit 4;; esac\n'
            f'exec {program()} "$@"\n',
        )
        self.assert_fault(self.script("study", *words, "--gap=5", "--hubs=2", hub=hub), both)

    def test_a_search_begins_with_an_older_certificate(self) -> None:
        words = [*WORDS[:2], "--no-map"]
        self.assertEqual(self.script("study", *words, "--trunk=0.5", "--out", "first").returncode, 0)
        # Its place may be the folder of what is to come.
        for out in ("second", "first"):
            again = [*words, "--trunk=0.6", "--out", out]
            ended = self.script("study", *again, "--from", "first/certificate.txt", hub=self.with_from())
            self.assertEqual((ended.returncode, ended.stderr), (0, ""))
        self.assertEqual(self.read("begun"), "first/certificate.txt\n" * 2)
        self.assertEqual(self.read("first/certificate.txt"), self.read("second/certificate.txt"))
        # It is no part of what was asked, so what is solved is not solved again.
        self.assertNotIn("--from", self.read("second/study.json"))
        self.assertEqual(self.script("study", *again, "--from", "nowhere", hub=self.with_from()).returncode, 0)
        self.assertEqual(self.script("study", *again).returncode, 0)
        self.assertEqual(self.read("begun"), "first/certificate.txt\n" * 2)

    def test_what_no_search_begins_with(self) -> None:
        self.write("two.csv", "\n".join(NODES.splitlines()[:3]) + "\n")
        self.write("flows-of-two.csv", "origin,destination,amount\nWest,Middle,2.5\n")
        ended = self.script("study", "two.csv", "flows-of-two.csv", "--no-map", "--out", "of-two")
        self.assertEqual(ended.returncode, 0)
        words = [*WORDS, "--no-map", "--out", "out"]
        cannot = "hub optimize cannot begin with this certificate"
        for old, line in (
            ("nowhere", "nowhere: no such file"),
            ("nodes.csv", f"nodes.csv: {cannot}: no BadLine 1"),
            ("of-two/certificate.txt", f"of-two/certificate.txt: {cannot}: no Size 2"),
        ):
            ended = self.script("study", *words, "--from", old, hub=self.with_from())
            self.assert_fault(ended, f"study: {line}")
        self.assertFalse(list(self.folder.glob("out/*")))
        for hub, more, verb in ((self.without("from"), [], "optimize"), (self.with_from(), ["--solve"], "solve")):
            ended = self.script("study", *words, "--from", "of-two/certificate.txt", *more, hub=hub)
            self.assert_fault(ended, f"study: {hub}: this hub has no option --from for {verb}")

    def test_they_are_passed_on(self) -> None:
        # It takes the options, notes them and leaves them out.
        text = (
            'for word do shift; case "$word" in --hubs=*|--max-length=*|--format=*)'
            f' echo "$word" >>{self.folder}/noted;; *) set -- "$@" "$word";; esac; done\nexec {program()} "$@"\n'
        )
        hub = self.standin("later-hub", text)
        for option in ("--hubs=2", "--max-length=120.5"):
            ended = self.script("study", *WORDS, "--no-map", "--out", "out", option, "--format=2", hub=hub)
            self.assertEqual((ended.returncode, ended.stderr), (0, ""))
            self.assertLessEqual({option, "--format=2"}, set(self.read("noted").split()))
            self.assertIn(option, self.read("out/page.html"))
            self.assertIn("--format=2", self.read("out/study.json"))
        for text, line in (
            ("exit 3", "this hub has no command optimize"),
            ("echo no library >&2; exit 127", "this program does not answer as hub does: no library"),
        ):
            broken = self.standin("broken-hub", text + "\n")
            ended = self.script("study", *WORDS, "--no-map", "--out", "other", hub=broken)
            self.assert_fault(ended, f"study: {self.folder}/broken-hub: {line}")
