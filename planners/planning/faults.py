"""How a script ends on bad input: one line on standard error and a status other than 0."""

from __future__ import annotations

import argparse
import os
import sys
from importlib import import_module
from pathlib import Path
from typing import NoReturn


class Fault(Exception):
    """What was wrong, in one line for the user."""


class NoNetwork(Fault):
    """No network keeps to the longest route: all candidates as hubs together lack a route from `origin` to
    `destination`, which count from 0, that is short enough; both are None where `hub` does not tell them."""

    def __init__(self, line: str, origin: int | None, destination: int | None) -> None:
        """The line for the user, and the two nodes."""
        super().__init__(line)
        self.origin = origin
        self.destination = destination


def called() -> str:
    """The name of the running script: `study`, or `hub-study` where the package is installed."""
    return Path(sys.argv[0]).name


class Parser(argparse.ArgumentParser):
    """A command line whose faults are one line too."""

    def error(self, message: str) -> NoReturn:
        """Tells what is wrong with the words."""
        raise Fault(f"{message}; see {self.prog} --help")


def at(path: Path | str, line: int, wanted: str, found: str | None) -> Fault:
    """The fault of a line of a file: what was wanted there, and what was found, or None where the file ends."""
    seen = "the file ends" if found is None else f"found {found}"
    return Fault(f"{path}:{line}: wanted {wanted}, {seen}")


def end(module: str) -> None:
    """Runs the `main` of a module of this package and ends the process with its status."""
    name = called()
    try:
        status = import_module(f".{module}", __package__).main(sys.argv[1:])
        sys.stdout.flush()
    except ModuleNotFoundError as missing:
        print(f"{name}: wants the Python package {missing.name} (Debian: python3-{missing.name})", file=sys.stderr)
        status = 2
    except Fault as fault:
        print(f"{name}: {fault}", file=sys.stderr)
        status = 2
    except BrokenPipeError:
        # Who reads the output has seen enough; what is left in the buffer has nowhere to go.
        os.dup2(os.open(os.devnull, os.O_WRONLY), sys.stdout.fileno())
        status = 1
    except OSError as error:
        where = f"{error.filename}: " if error.filename else ""
        print(f"{name}: {where}{error.strerror or error}", file=sys.stderr)
        status = 2
    except KeyboardInterrupt:
        print(f"{name}: stopped", file=sys.stderr)
        status = 130
    sys.exit(status)
