"""From Python: the page of examples, how numbers become text, what is refused, and the package once it is installed."""

from __future__ import annotations

import doctest
import os
import re
import shutil
import subprocess
import sys
from decimal import Decimal
from unittest import SkipTest, mock

from .helper import PLANNERS, InFolder, environment, lacks, needs

if lacks("numpy"):
    raise SkipTest(lacks("numpy"))

import numpy as np

import planning
from planning.problem import exact_text
from planning.program import program, refuses
from planning.quantities import DISTANCE, FLOW

FLOWS = np.array([[0, 0, 10], [0, 0, 0], [10, 0, 0]])
DISTANCES = np.array([[0, 4, 8], [4, 0, 4], [8, 4, 0]])


class Numbers(InFolder):
    """Numbers as text."""

    def test_exact_text(self) -> None:
        for value, text in (
            (0.1, "0.1"),
            (np.float32(0.1), "0.1"),
            (1e7, "10000000"),
            (np.int64(3), "3"),
            (Decimal("2.50"), "2.50"),
            ("1e-3", "0.001"),
            (2**53 / 2**30, "8388608"),
        ):
            self.assertEqual(exact_text(value, FLOW, "flows[0, 0]", False), text)
        self.assertEqual(exact_text(0.12345, DISTANCE, "x", True), "0.123")
        self.assertEqual(exact_text(0.9996, DISTANCE, "x", True), "1.000")

    def test_what_is_refused(self) -> None:
        for value, line in (
            (float("nan"), "x: wanted a distance, a number from 0 to 10000000, found nan"),
            (float("inf"), "x: wanted a distance, a number from 0 to 10000000, found inf"),
            (-1, "x: wanted a distance, a number from 0 to 10000000, found -1"),
            (1e300, "x: wanted a distance, a number from 0 to 10000000, found 1e+300"),
            ("near", "x: wanted a distance, a number from 0 to 10000000, found near"),
            (1e-300, "x: hub keeps 3 decimals, and 0." + 299 * "0" + "1 has more; round it, or say rounded=True"),
            (1 / 3, "x: hub keeps 3 decimals, and 0.3333333333333333 has more; round it, or say rounded=True"),
        ):
            with self.assertRaises(planning.Fault) as caught:
                exact_text(value, DISTANCE, "x", False)
            self.assertEqual(str(caught.exception), line)
        for words, line in (
            ({"fixed": [1, 2]}, "fixed: wanted one number or 3 of them, found the shape (2,)"),
            ({"candidates": [0, 3]}, "candidates: wanted nodes from 0 to 2, each once, found [0, 3]"),
            ({"names": ["a", "b", "a"]}, "names: wanted 3 names, each once, found 2"),
            ({"trunk": 0.0001}, "trunk: hub keeps 3 decimals, and 0.0001 has more; round it, or say rounded=True"),
            ({"workers": 0}, "workers: wanted a number of workers, a number from 1 to 64, found 0"),
        ):
            with self.assertRaises(planning.Fault) as caught:
                planning.solve(FLOWS, DISTANCES, **words)
            self.assertEqual(str(caught.exception), line)
        with self.assertRaises(AttributeError):
            planning.nothing

    def test_numbers_of_the_search(self) -> None:
        for words, line in (
            (
                {"hubs": 2, "max_length": 9},
                "--hubs and --max-length may not stand together; hub has no search for both",
            ),
            ({"hubs": 1.5}, "hubs: hub keeps 0 decimals, and 1.5 has more; round it, or say rounded=True"),
            ({"hubs": 0}, "hubs: wanted a number of hubs, a number from 1 to 200, found 0"),
            ({"hubs": "file"}, "--hubs file wants the layout ap, whose files list a number of hubs"),
            ({"gap": 0.0005}, "gap: hub keeps 3 decimals, and 0.0005 has more; round it, or say rounded=True"),
            ({"gap": 101}, "gap: wanted a gap in per cent of the cost, a number from 0 to 100, found 101"),
            ({"by": "guess"}, "by: wanted 'optimize' or 'solve', found 'guess'"),
        ):
            with self.assertRaises(planning.Fault) as caught:
                planning.solve(FLOWS, DISTANCES, **words)
            self.assertEqual(str(caught.exception), line)


class OptionsOfSearch(InFolder):
    """Options that not each `hub` has for `optimize`."""

    def by(self, hub: str) -> None:
        """Solves by this program until the test is over."""
        change = mock.patch.dict(os.environ, {"HUB": hub})
        change.start()
        self.addCleanup(change.stop)

    def test_solve_takes_the_place_of_optimize(self) -> None:
        self.by(self.without("hubs", "max-length"))
        note = "^this hub has no option --hubs for optimize; hub solve takes its place"
        for words, hubs in (({"hubs": 1}, 1), ({"hubs": 2}, 2), ({"hubs": np.int64(3)}, 3)):
            with self.assertWarnsRegex(UserWarning, note) as told:
                result = planning.solve(FLOWS, DISTANCES, fixed=1, **words)
            self.assertEqual(told.filename, __file__)
            self.assertEqual((len(result.hubs), result.solved_by, result.is_optimal), (hubs, "solve", True))
        with self.assertWarns(UserWarning), self.assertRaises(planning.NoNetwork) as caught:
            planning.solve(FLOWS, DISTANCES, max_length=7.5, names=["Ayr", "Bute", "Crail"])
        line = (
            "no network keeps to --max-length 7.5: from Ayr to Crail no route is that short, even with all candidates"
            " as hubs (hub: no network for 1 3)"
        )
        self.assertEqual(str(caught.exception), line)
        self.assertEqual((caught.exception.origin, caught.exception.destination), (0, 2))
        with self.assertWarns(UserWarning):
            self.assertEqual(planning.solve(FLOWS, DISTANCES, max_length=8, rounded=True).cost, 160)

    def test_as_many_hubs_as_the_file_lists(self) -> None:
        self.by(self.without("hubs"))
        self.write("ap", "2\n0 0\n3 4\n0 1\n1 0\n1\n3 0.75 2\n")
        with self.assertWarns(UserWarning):
            self.assertEqual(len(planning.Problem.from_ap(self.folder / "ap").solve(hubs="file").hubs), 1)

    def test_a_gap(self) -> None:
        self.by(self.with_gap())
        result = planning.solve(FLOWS, DISTANCES, fixed=1, gap=Decimal("10.00"))
        self.assertEqual((result.is_optimal, result.gap, result.bound), (False, Decimal(10), result.cost * 9 / 10))
        told = f"Result(hubs={list(result.hubs)}, cost={result.cost}, bound={result.bound}, gap=10 %)"
        self.assertEqual(repr(result), told)
        self.assertEqual(planning.solve(FLOWS, DISTANCES, fixed=1).gap, 0)

    def test_a_certificate_too_long_to_be_checked(self) -> None:
        self.by(self.too_long())
        with self.assertRaises(planning.Fault) as caught:
            planning.solve(FLOWS, DISTANCES, fixed=[1, 1.5, 1], trunk=0.2, names=["Ayr", "Bute", "Crail"])
        line = (
            "the best network found costs 34, with the hubs Ayr, Crail; it is not proved, for its certificate is too"
            " long for hub check: try --gap, --format 2 or fewer candidates"
        )
        self.assertEqual(str(caught.exception), line)

    def test_a_gap_as_hub_leaves_it(self) -> None:
        least = planning.solve(FLOWS, DISTANCES, fixed=1).cost
        result = planning.solve(FLOWS, DISTANCES, fixed=1, gap=20)
        self.assertLessEqual(result.gap, 20)
        self.assertTrue(result.bound <= least <= result.cost)


    def test_a_search_begins_with_an_older_result(self) -> None:
        self.by(self.with_from())
        first = planning.solve(FLOWS, DISTANCES, fixed=1)
        first.save(self.folder / "saved", with_map=False)
        kept = self.folder / "saved/certificate.txt"
        for again, old in ((first, first.certificate), (kept, kept), (str(kept), kept)):
            result = planning.solve(FLOWS, DISTANCES, fixed=2, trunk=0.5, again=again)
            self.assertEqual((result.is_optimal, result.solved_by), (True, "optimize"))
            self.assertEqual(self.read("begun").splitlines()[-1], str(old))
        for words, line in (
            ({"again": "nowhere"}, "nowhere: no such file"),
            ({"again": first, "by": "solve"}, f"{program()}: this hub has no option --from for solve"),
            ({"again": __file__}, f"{__file__}: hub optimize cannot begin with this certificate: no BadLine 1"),
        ):
            with self.assertRaises(planning.Fault) as caught:
                planning.solve(FLOWS, DISTANCES, **words)
            self.assertEqual(str(caught.exception), line)

    def test_an_older_result_as_hub_takes_it(self) -> None:
        if refuses(program(), "optimize", "--from=/dev/null"):
            self.skipTest("this hub has no option --from for optimize")
        first = planning.solve(FLOWS, DISTANCES, fixed=1)
        for words in ({"trunk": 0.5}, {"fixed": 3, "hubs": 2}, {"max_length": 8}, {"gap": 5}):
            again, anew = (planning.solve(FLOWS, DISTANCES, **words, again=older) for older in (first, None))
            self.assertTrue(again.bound <= anew.cost and anew.bound <= again.cost)
            self.assertTrue("gap" in words or again.is_optimal)
        with self.assertRaisesRegex(planning.Fault, "cannot begin with this certificate: no Size 2$"):
            planning.solve(FLOWS[:2, :2], DISTANCES[:2, :2], again=first)
        with self.assertRaisesRegex(planning.Fault, "cannot begin with this certificate: no BadLine 1$"):
            planning.solve(FLOWS, DISTANCES, again=__file__)


class Examples(InFolder):
    """The page of examples."""

    def test_the_page(self) -> None:
        text = (PLANNERS / "EXAMPLES.md").read_text(encoding="utf-8")
        blocks = re.findall(r"^```python\n(.*?)^```$", text, re.DOTALL | re.MULTILINE)
        for word, option in (("gap=", "--gap=1"), ("again=", "--from=/dev/null")):
            if refuses(program(), "optimize", option):
                blocks = [block for block in blocks if word not in block]
        self.assertGreater(len(blocks), 4)
        (self.folder / "planners").symlink_to(PLANNERS)
        examples = doctest.DocTestParser().get_doctest("\n".join(blocks), {}, "EXAMPLES.md", "EXAMPLES.md", 0)
        told: list[str] = []
        before, named = os.getcwd(), os.environ.get("HUB")
        os.environ["HUB"] = program()
        os.chdir(self.folder)
        try:
            doctest.DocTestRunner(verbose=False).run(examples, out=told.append)
        finally:
            os.chdir(before)
            os.environ.pop("HUB") if named is None else os.environ.update(HUB=named)
        if told:
            self.fail("".join(told))


@needs("pip", "setuptools", "wheel")
class Installed(InFolder):
    """The package as pip puts it in place, without a network."""

    def test_it_solves_and_saves(self) -> None:
        left_out = shutil.ignore_patterns("tests", "build", "*.egg-info")
        shutil.copytree(PLANNERS, self.folder / "planners", ignore=left_out)
        words = ["--no-index", "--no-deps", "--no-build-isolation", "--quiet", "--target", "site", "./planners"]
        ended = subprocess.run(
            [sys.executable, "-m", "pip", "install", *words], cwd=self.folder, capture_output=True, text=True
        )
        self.assertEqual(ended.returncode, 0, ended.stderr)
        shutil.rmtree(self.folder / "planners")
        text = (
            "import planning, numpy as np\n"
            "result = planning.solve(np.array([[0, 1], [1, 0]]), np.array([[0, 10], [10, 0]]), fixed=5)\n"
            "result.save('saved', with_map=False)\n"
            "print(planning.__file__, result.hubs, result.cost)\n"
        )
        ended = subprocess.run(
            [sys.executable, "-c", text],
            cwd=self.folder,
            env=environment() | {"PYTHONPATH": str(self.folder / "site")},
            capture_output=True,
            text=True,
        )
        self.assertEqual(ended.stderr, "")
        self.assertEqual(ended.stdout.split()[0], str(self.folder / "site/planning/__init__.py"))
        self.assertIn("optimal ", self.read("saved/check.txt"))
        self.assertIn("</html>", self.read("saved/page.html"))
