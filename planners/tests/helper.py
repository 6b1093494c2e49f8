"""What the tests share: a folder of their own, and runs of the scripts and of `hub`."""

from __future__ import annotations

import csv
import os
import stat
import subprocess
import sys
import tempfile
import unittest
from collections.abc import Callable
from importlib.util import find_spec
from pathlib import Path

PLANNERS = Path(__file__).resolve().parents[1]
INSTANCES = PLANNERS / "instances"
sys.path.insert(0, str(PLANNERS))

from planning.program import program  # noqa: E402


def lacks(*packages: str) -> str:
    """What a skipped test says of the packages that are not there; empty where all are."""
    missing = [package for package in packages if find_spec(package) is None]
    return f"no Python package {' and '.join(missing)} for {sys.executable}" if missing else ""


def needs(*packages: str) -> Callable:
    """Skips a test where one of these packages is not there."""
    return unittest.skipIf(lacks(*packages), lacks(*packages))


class InFolder(unittest.TestCase):
    """A test with an empty folder, in which files are written and scripts run."""

    def setUp(self) -> None:
        """Makes the folder."""
        held = tempfile.TemporaryDirectory()
        self.addCleanup(held.cleanup)
        self.folder = Path(held.name)

    def write(self, name: str, text: str) -> Path:
        """Writes a file into the folder."""
        path = self.folder / name
        path.write_text(text, encoding="utf-8")
        return path

    def read(self, name: str) -> str:
        """A file of the folder."""
        return (self.folder / name).read_text(encoding="utf-8")

    def table(self, name: str) -> list[dict[str, str]]:
        """The rows of a table in the folder."""
        with (self.folder / name).open(encoding="utf-8", newline="") as file:
            return list(csv.DictReader(file))

    def standin(self, name: str, text: str) -> str:
        """Writes a program into the folder, a shell script, and tells its path."""
        path = self.write(name, "#!/bin/sh\n" + text)
        path.chmod(path.stat().st_mode | stat.S_IXUSR)
        return str(path)

    def without(self, *options: str) -> str:
        """A program that is hub, and whose `optimize` has not these options."""
        words = "|".join(f"*--{option}*" for option in options)
        return self.standin(
            "older-hub", f'[ "$1" = optimize ] && case "$*" in {words}) exit 3;; esac\nexec {program()} "$@"\n'
        )

    def with_from(self, hub: str = "") -> str:
        """A program that stands for a hub whose `optimize` has --from: it solves without the older certificate, whose
        first two lines it tests, and writes down its name in the file `begun`."""
        hub, found = hub or program(), f"{self.folder}/found.$$"
        return self.standin(
            "beginning-hub",
            'old=; for word do shift; case "$word" in --from=*) old=${word#--from=};; *) set -- "$@" "$word";; esac\n'
            f'done\n[ -n "$old" ] || exec {hub} "$@"\n[ "$1" = optimize ] || exit 3\n'
            f'{hub} "$@" >{found}; status=$?\n[ $status -le 1 ] || exit $status\n'
            '[ -f "$old" ] || { echo "hub: read failed" >&2; exit 6; }\n'
            'case "$(head -n 1 "$old")" in "HUBCERT "*) ;; *) echo "no BadLine 1"; exit 2;; esac\n'
            f'[ "$(head -n 2 "$old" | tail -n 1)" = "$(head -n 2 {found} | tail -n 1)" ] ||'
            ' { echo "no Size 2"; exit 2; }\n'
            f'echo "$old" >>{self.folder}/begun\ncat {found}\nexit $status\n',
        )

    def with_gap(self, hub: str = "") -> str:
        """A program that stands for a hub whose `optimize` has --gap: it solves to the end, and then names a bound that
        is just so much lower."""
        hub = hub or program()
        return self.standin(
            "gap-hub",
            'gap=; for word do shift; case "$word" in --gap=*) gap=${word#--gap=};; *) set -- "$@" "$word";; esac\n'
            "done\n"
            f'[ -z "$gap" ] || [ "$1" = optimize ] || exit 3\n[ -n "$gap" ] || exec {hub} "$@"\n'
            f'{hub} "$@" >{self.folder}/whole || exit\nexec {sys.executable} -c \'import sys\n'
            f'lines = open("{self.folder}/whole").read().split("\\n", 4)\ncost = int(lines[2].split()[1])\n'
            'lines[3] = f"bound {cost - cost * int(sys.argv[1]) // 100}"\n'
            "print(*lines, sep=\"\\n\", end=\"\")\nsys.exit(1)\n' \"$gap\"\n",
        )

    def too_long(self) -> str:
        """A program that is hub, whose searches write a certificate of more bytes than hub check takes: a file with a
        hole at its end."""
        size = '[ "$(wc -c <"$file")" -le 1073741824 ] || { echo "no TooLong"; exit 2; }'
        return self.standin(
            "long-hub",
            f'case "$1" in\ncheck) for file do [ ! -f "$file" ] || {{ {size}; }}; done;;\n'
            f'optimize|solve) {program()} "$@"; status=$?\n'
            f'[ $status -gt 1 ] || truncate -s 1073741825 /proc/self/fd/1\nexit $status;;\n'
            f'esac\nexec {program()} "$@"\n',
        )

    def script(self, name: str, *words: str, hub: str = "") -> subprocess.CompletedProcess[str]:
        """Runs a script in the folder."""
        return subprocess.run(
            [sys.executable, str(PLANNERS / name), *words],
            cwd=self.folder,
            env=environment(hub),
            capture_output=True,
            text=True,
        )

    def hub(self, *words: str) -> subprocess.CompletedProcess[str]:
        """Runs `hub` in the folder."""
        return subprocess.run([program(), *words], cwd=self.folder, capture_output=True, text=True)

    def solve(self, name: str, *words: str) -> None:
        """Solves an instance into a certificate of this name; the words are layout, file and options."""
        ended = self.hub("solve", *words)
        self.assertEqual((ended.returncode, ended.stderr), (0, ""))
        self.write(name, ended.stdout)

    def assert_fault(self, ended: subprocess.CompletedProcess[str], line: str) -> None:
        """The script ended with just this line, and told nothing else."""
        self.assertEqual((ended.returncode, ended.stdout, ended.stderr), (2, "", line + "\n"))


def environment(hub: str = "") -> dict[str, str]:
    """The environment of a script, with another program in place of `hub` where one is named."""
    return os.environ | {"HUB": hub or program()}
