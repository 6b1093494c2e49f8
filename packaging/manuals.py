"""Manuals of the planners' scripts, in mdoc, made from the command lines that the scripts themselves read."""

from __future__ import annotations

import argparse
import re
import sys
import textwrap
from datetime import date
from importlib import import_module
from pathlib import Path

sys.path.insert(0, str(Path(__file__).resolve().parents[1] / "planners"))

from planning.version import DATE  # noqa: E402

UNTITLED = ("positional arguments", "options", "optional arguments")
"""What argparse calls the groups that a script has not named."""
STATUSES = """.Sh EXIT STATUS
0 where all was done, 1 where a part has no accepted certificate, 2 with one
line on standard error where something is wrong, 130 where it was stopped.
.Sh SEE ALSO
.Xr hub 1
.Pp
.Pa /usr/share/doc/hub-location/docs/PLANNING.md
has a study from tables to a map, with all scripts.
"""


def plain(text: str) -> list[str]:
    """A text as lines of a manual, a sentence on lines of its own, and none of them taken for a macro."""
    sentences = re.split(r"(?<=[.!?]) +(?=[A-Z(])", " ".join(text.split()))
    wrapped = (textwrap.wrap(one, 76, break_on_hyphens=False, break_long_words=False) for one in sentences)
    lines = [line for lines in wrapped for line in lines]
    return [("\\&" if line[0] in ".'" else "") + line.replace("\\", "\\e") for line in lines]


def value(action: argparse.Action) -> str:
    """What stands for the value of an option or a word."""
    if action.nargs == 0:
        return ""
    if action.choices and not isinstance(action.choices, dict):
        return "|".join(map(str, action.choices))
    return str(action.metavar or action.dest)


def item(action: argparse.Action) -> list[str]:
    """An option or a word with what is said of it."""
    if action.option_strings:
        names = " , ".join(f"Fl {name[1:]}" for name in action.option_strings)
        head = f".It {names}" + (f" Ar {value(action)}" if value(action) else "")
    else:
        head = f".It Ar {value(action)}"
    return [head, *plain((action.help or "").replace("%(default)s", str(action.default)))]


def items(parser: argparse.ArgumentParser) -> list[str]:
    """All words and options of a command line by their groups."""
    lines: list[str] = []
    for group in parser._action_groups:
        actions = [one for one in group._group_actions if not isinstance(one, argparse._SubParsersAction)]
        if actions:
            title = [] if group.title in UNTITLED else [f".Ss {group.title}"]
            said = [*plain(group.description), ".Pp"] if title and group.description else []
            lines += [*title, *said[:-1], ".Bl -tag -width Ds", *(line for one in actions for line in item(one)), ".El"]
    return lines


def kinds(parser: argparse.ArgumentParser) -> dict[str, argparse.ArgumentParser]:
    """The kinds of a script that has some, by name."""
    found = [one for one in parser._actions if isinstance(one, argparse._SubParsersAction)]
    return dict(found[0].choices) if found else {}


def usage(name: str, parser: argparse.ArgumentParser, kind: str = "") -> list[str]:
    """A line of the synopsis: the words that must be given."""
    wanted = [one for one in parser._actions if one.required and not isinstance(one, argparse._SubParsersAction)]
    lines = [".Nm", *([f".Cm {kind}"] if kind else []), ".Op Ar option ..."]
    for one in wanted:
        lines.append(f".{f'Fl {one.option_strings[-1][1:]} ' if one.option_strings else ''}Ar {value(one)}")
    return lines


def manual(name: str, module: str) -> str:
    """The manual of a script under the name by which it is installed."""
    parser = import_module(f"planning.{module}").parser()
    day = date.fromisoformat(DATE)
    lines = [f".Dd {day:%B} {day.day}, {day.year}", f".Dt {name.upper()} 1", ".Os", ".Sh NAME", f".Nm {name}"]
    lines += [f".Nd {' '.join((parser.description or name).split()).rstrip('.')}", ".Sh SYNOPSIS"]
    subs = kinds(parser)
    for kind, sub in subs.items():
        lines += usage(name, sub, kind)
    lines += [] if subs else usage(name, parser)
    lines += [".Sh DESCRIPTION", *plain(parser.epilog or parser.description or name)]
    for kind, sub in subs.items():
        lines += [f".Ss {kind}", *items(sub)]
    lines += [] if subs else items(parser)
    return "\n".join(lines) + "\n" + STATUSES
