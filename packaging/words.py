"""The words that `hub` takes: its commands with their words, options and values, read from crates/hub_words."""

from __future__ import annotations

import re
import sys
from dataclasses import dataclass, field
from functools import cache
from pathlib import Path

ROOT = Path(__file__).resolve().parents[1]
SOURCES = ROOT / "crates/hub_words/src"
sys.path.insert(0, str(ROOT / "planners"))

from planning.options import TOLD  # noqa: E402

FUNCTION = re.compile(r"^(?:pub\(crate\) )?fn (\w+).*?^\{$(.*?)^\}$", re.MULTILINE | re.DOTALL)
NAMES = re.compile(r"static (\w+): \[&str; [0-9]+\] = \[(.*?)\];", re.DOTALL)
CALL = re.compile(r'\b(\w+)\((?:alloc|command|self)\b(?:, "([a-z-]+)"|[^"();]*?\b([A-Z_]+)\.as_slice)?')
TEXT = re.compile(r'"([a-z0-9-]+)"')
VALUES = {
    "layout": "layout_named",
    "order": "order_named",
    "tail": "tail_named",
    "rule": "rule_named",
    "cuts": "cuts_named",
    "format": "version_named",
    "hubs": "hub_number_named",
}
"""The functions that know the values that are words, by the word or option that has them."""
FILES = ("file", "older", "certificate", "costs", "from")
"""The words and options that name files."""
COMMANDS = {
    "optimize": "search for the network of least cost",
    "solve": "search by a fixed rule, up to some 25 nodes",
    "resolve": "solve again from an older certificate",
    "check": "say what a certificate proves",
    "report": "say what a network costs, part by part",
    "make": "write an invented instance",
    "demo": "make an instance and solve it",
}
"""What is said of each command."""
OPTIONS = {name: (letter, text) for name, (letter, text) in TOLD.items()} | {
    "from": ("OLD", "begin the search with what this older certificate says"),
    "rule": ("RULE", "1 node by node, 2 by rounds of nodes side by side"),
    "cuts": ("KIND", "minimal, or core for cuts that no other dominates"),
    "no-self": ("", "flows from a node to itself count as 0"),
}
"""The letter of each option's value, and what is said of it."""


@dataclass
class Command:
    """A command of hub."""

    name: str = ""
    words: list[str] = field(default_factory=list)
    options: list[str] = field(default_factory=list)
    """Those with a value."""
    flags: list[str] = field(default_factory=list)

    def all_options(self) -> list[str]:
        """All options and flags, with their dashes."""
        return [f"--{name}" for name in (*self.options, *self.flags)]


@cache
def source(name: str) -> str:
    """A file of the sources without its comments."""
    lines = (SOURCES / name).read_text(encoding="utf-8").splitlines()
    return "\n".join(line for line in lines if not line.lstrip().startswith("//"))


@cache
def bodies(name: str) -> dict[str, str]:
    """The functions of a file by name."""
    return dict(FUNCTION.findall(source(name)))


def build(command: Command, function: str) -> None:
    """Does to a command what a function of the sources does: in the order of its calls."""
    kinds = {"word": command.words, "option": command.options, "flag": command.flags}
    names = {name: TEXT.findall(items) for name, items in NAMES.findall(source("parsing.rt"))}
    for called, text, listed in CALL.findall(bodies("parsing.rt")[function]):
        if called == "plain":
            command.name = text or command.name
        elif called == "with_options" and listed:
            command.options += names[listed]
        elif called in kinds and text:
            kinds[called].append(text)
        elif called in bodies("parsing.rt") and called not in kinds:
            build(command, called)


@cache
def commands() -> list[Command]:
    """All commands, in the order of the sources. A fault where a name of the sources is in none."""
    found = []
    for function, text, _ in CALL.findall(bodies("parsing.rt")["hub_command"]):
        if function in bodies("parsing.rt") and function != "bare_command":
            found.append(Command(text))
            build(found[-1], function)
    seen = {"hub", *(name for one in found for name in (one.name, *one.words, *one.options, *one.flags))}
    missed = set(TEXT.findall(source("parsing.rt"))) - seen
    if missed or len(found) < 2 or not all(one.name for one in found):
        raise SystemExit(f"words: crates/hub_words has names that were not understood: {', '.join(sorted(missed))}")
    return found


def values(name: str) -> list[str]:
    """The values of a word or an option that are words; none where it takes others."""
    function = VALUES.get(name)
    return re.findall(r'word == "([^"]+)"', bodies("values.rt")[function]) if function else []
