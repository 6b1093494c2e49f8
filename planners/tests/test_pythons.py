"""What a script does where its Python lacks a package."""

from __future__ import annotations

import os
import subprocess
import sys
from pathlib import Path

from .helper import PLANNERS, InFolder, environment
from planning.pythons import can_take_over, has, lacking

HIDDEN = ("numpy", "matplotlib")


class Packages(InFolder):
    """Scripts run by a Python from which packages are hidden."""

    def hiding(
        self, script: str, *words: str, system: str = "/nowhere/python3", hidden: tuple[str, ...] = HIDDEN
    ) -> subprocess.CompletedProcess[str]:
        """Runs a script by a Python without the packages, beside another one that stands for the system's."""
        text = (
            "import sys, importlib.util as u\n"
            f"sys.path.insert(0, {str(PLANNERS)!r})\n"
            "from planning import faults, pythons\n"
            f"pythons.has = lambda package: package not in {hidden}\n"
            f"pythons.SYSTEM = {system!r}\n"
            f"sys.modules.update(dict.fromkeys({hidden}))\n"
            f"text = open({str(PLANNERS / script)!r}).read()\n"
            f"sys.argv = [{script!r}, *sys.argv[1:]]\n"
            "exec(text)\n"
        )
        command = [sys.executable, "-c", text, *words]
        return subprocess.run(command, cwd=self.folder, env=environment(), capture_output=True, text=True)

    def test_help_wants_no_package(self) -> None:
        for script in sorted(path.name for path in PLANNERS.iterdir() if path.is_file() and os.access(path, os.X_OK)):
            ended = self.hiding(script, "--help")
            self.assertEqual((ended.returncode, ended.stderr), (0, ""), script)
            self.assertIn("usage: " + script, ended.stdout)

    def test_both_paths_are_told(self) -> None:
        self.write("results.csv", "outcome,cost,bound,number_of_hubs,trunk\n")
        words = ["results.csv", "--against", "trunk", "--out", "plot.png"]
        ended = self.hiding("plot-sweep", *words)
        told = lacking(list(HIDDEN), sys.executable, "/nowhere/python3")
        self.assert_fault(ended, f"plot-sweep: {told}")
        self.assertIn(f"which neither {sys.executable} nor /nowhere/python3 has", told)
        self.assertIn("(Debian: apt install python3-numpy python3-matplotlib)", told)
        packages = HIDDEN[1:] if has("numpy") else HIDDEN
        self.write("nodes.csv", "name,x,y\n")
        ended = self.hiding("study", "nodes.csv", "nodes.csv", "--out", "out", hidden=packages)
        told = lacking(list(packages), sys.executable, "/nowhere/python3")
        more = "; --no-map does without it" if packages == ("matplotlib",) else ""
        self.assert_fault(ended, f"study: {told}{more}")
        self.assertIn("which /usr/bin/python3 lacks", lacking(["numpy"], "/usr/bin/python3", "/usr/bin/python3"))

    def test_the_system_s_python_takes_over(self) -> None:
        system = self.standin("python3", '[ "$1" = -c ] && exit 0\necho "$@"\n')
        words = ["results.csv", "--against", "trunk", "--out", "plot.png"]
        ended = self.hiding("plot-sweep", *words, system=system)
        self.assertEqual((ended.returncode, ended.stderr), (0, ""))
        self.assertEqual(ended.stdout.split(), ["plot-sweep", *words])
        self.assertTrue(can_take_over(sys.executable, ("json",)))
        self.assertFalse(can_take_over(sys.executable, ("no_such_package",)))
        self.assertFalse(can_take_over("/nowhere/python3", ("json",)))


class TestsWithoutPython(InFolder):
    """The tests do not pass where there is no Python for them."""

    def test_they_say_so_and_fail(self) -> None:
        for run in (PLANNERS / "tests/run", PLANNERS.parent / "tests/run"):
            text = run.read_text().replace("/usr/bin/python3", "/nowhere/python3")
            for more, status in ((os.environ, 1), (os.environ | {"WITHOUT_PYTHON": "1"}, 0)):
                folder = Path(self.folder) / "planners/tests"
                folder.mkdir(parents=True, exist_ok=True)
                (folder / "run").write_text(text)
                ended = subprocess.run(
                    ["/bin/sh", str(folder / "run")],
                    env={"HUB": "hub"} | dict(more) | {"PYTHON": "/nowhere/python3"},
                    capture_output=True,
                    text=True,
                )
                self.assertEqual((ended.returncode, ended.stdout), (status, ""))
                self.assertRegex(ended.stderr, r"there is no Python 3\.[0-9]+ or later")
