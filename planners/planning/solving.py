"""A question to `hub`, and the folder that keeps its files and the certificate that answers it."""

from __future__ import annotations

import csv
import hashlib
import json
import re
import shlex
from collections.abc import Callable, Iterable
from dataclasses import dataclass, replace
from pathlib import Path
from tempfile import TemporaryDirectory
from threading import Event

from .convert import converted
from .faults import Fault
from .files import put_all
from .measure import Ended, run
from .options import LISTED, Options, test_values
from .program import NO_NETWORK, NOT_TAKEN, TOO_LONG, USAGE, command, judge, no_network, serving
from .quantities import LISTED_HUBS
from .sources import Source
from .tables import Named, read_named
from .too_long import best_found

INSTANCE, COSTS, NAMES = "instance.txt", "instance.costs.txt", "instance.names.csv"
CERTIFICATE = "certificate.txt"
ASKED = "study.json"
"""What was asked, by which a certificate is known as the answer to the same words again."""
TOO_MANY = re.compile(r"hub: instance fault 12 Hubs ([0-9]+)")
"""What `hub` says where fewer candidates are there than hubs are wanted."""


@dataclass(frozen=True)
class Question:
    """The texts of the files that `hub` reads, by name, and its words."""

    texts: dict[str, str]
    layout: str
    values: dict[str, str]
    """The options of the instance."""
    no_self: bool
    verb: str
    """`optimize` or `solve`."""
    search: dict[str, str]
    """The options of the search."""
    older: Path | None = None
    """A certificate with which the search begins. It is no part of the question, for the answer rests on nothing in
    it."""

    def options(self, folder: Path) -> Options:
        """The instance where its files lie in this folder."""
        costs = {"costs": str(folder / COSTS)} if COSTS in self.texts else {}
        return Options(self.layout, folder / INSTANCE, costs | self.values, self.no_self)

    def names(self) -> list[str]:
        """The names of the nodes."""
        return [row["name"] for row in csv.DictReader(self.texts[NAMES].splitlines())]

    def search_words(self) -> list[str]:
        """The options of the search as words for `hub`."""
        return [f"--{name}={value}" for name, value in self.search.items()]

    def begin_words(self) -> list[str]:
        """The older certificate, if there is one, as words for `hub`."""
        return [f"--from={self.older}"] if self.older else []

    def asked(self) -> str:
        """What was asked, as a text: digests of the files, and the words for a reader in the folder."""
        digests = {name: hashlib.sha256(text.encode()).hexdigest() for name, text in self.texts.items()}
        options = self.options(Path())
        first = [self.layout, INSTANCE, *options.words()]
        words = {"solved": [self.verb, *first, *self.search_words()], "check": ["check", *first, CERTIFICATE]}
        lines = {name: shlex.join(["hub", *rest]) for name, rest in words.items()}
        return json.dumps({"files": digests, **lines}, indent=1) + "\n"


def question_of(source: Source, layout: str, values: dict[str, str], no_self: bool, **search: str) -> Question:
    """The question of a source; `search` has the command as `verb`, and its options."""
    verb = search.pop("verb", "optimize")
    test_values(values | search, layout)
    source, values = with_own_costs(source, values)
    texts = {path.name: text for path, text in converted(source, layout, False, "instance").items()}
    if values.get("hubs") == LISTED and not LISTED_HUBS.read(source.listed):
        raise Fault(f"--hubs {LISTED} wants an ap file that lists a number of hubs; say the number itself")
    return Question(texts, layout, values, no_self, verb, search)


def with_own_costs(source: Source, values: dict[str, str]) -> tuple[Source, dict[str, str]]:
    """Source and options in which each node has its own fixed cost, where some hubs exist and cost nothing."""
    if not any(source.existing or []) or "fixed" not in values:
        return source, values
    rest = {name: value for name, value in values.items() if name != "fixed"}
    return replace(source, fixed=[values["fixed"]] * source.size()), rest


def served(question: Question) -> tuple[Question, str]:
    """The question by the command of this `hub` that has its options, and the message where that is another
    one than was asked for."""
    begin = ["from"] if question.older else []
    verb, note = serving(question.verb, [*question.values, *question.search, *begin])
    return replace(question, verb=verb), note


def is_answered(question: Question, folder: Path) -> bool:
    """Whether the folder has the answer to this question already, and `hub check` accepts it."""
    asked, certificate = folder / ASKED, folder / CERTIFICATE
    if not asked.is_file() or not certificate.is_file() or asked.read_text(encoding="utf-8") != question.asked():
        return False
    for name, text in question.texts.items():
        if not (folder / name).is_file() or (folder / name).read_text(encoding="utf-8") != text:
            return False
    return judge(question.options(folder), certificate)[0] is not None


def answer(question: Question, folder: Path, look: Callable[[], None] | None = None, stale: Iterable[str] = ()) -> None:
    """Solves a question that is served, checks, and puts files and certificate into the folder; files of the stale
    names are removed then."""
    if question.older and not question.older.is_file():
        raise Fault(f"{question.older}: no such file")
    folder.mkdir(parents=True, exist_ok=True)
    with TemporaryDirectory(prefix=".at-work-", dir=folder) as held:
        work = Path(held)
        put_all({work / name: text for name, text in question.texts.items()})
        search = [*question.search_words(), *question.begin_words()]
        words = command(question.verb, question.options(work), extra=search)
        ended = run(words, work / CERTIFICATE, None, Event(), look)
        if ended.status not in (0, 1):
            raise failure(question, ended, work / CERTIFICATE)
        verdict, said = judge(question.options(work), work / CERTIFICATE)
        if verdict is None and said == TOO_LONG:
            options, certificate = question.options(work), work / CERTIFICATE
            raise Fault(best_found(options, certificate, question.names(), question.verb, question.search))
        if verdict is None:
            raise Fault(f"hub check did not accept what hub {question.verb} wrote: {said}")
        for name in [ASKED, COSTS, *stale]:
            (folder / name).unlink(missing_ok=True)
        for name in [*question.texts, CERTIFICATE]:
            (work / name).replace(folder / name)
        put_all({folder / ASKED: question.asked()})


def failure(question: Question, ended: Ended, out: Path) -> Fault:
    """Why there is no certificate; `out` has what was written to standard output."""
    said = ended.error or f"status {ended.status}"
    if ended.status == NO_NETWORK:
        return no_network(said, question.names(), question.values.get("max-length", ""))
    if question.older and ended.status == NOT_TAKEN:
        line = out.read_text(errors="replace").strip()
        return Fault(f"{question.older}: hub {question.verb} cannot begin with this certificate: {line}")
    if ended.status == USAGE:
        search = [*question.search_words(), *question.begin_words()]
        words = shlex.join([question.layout, *question.options(Path()).words(), *search])
        return Fault(f"hub {question.verb} does not take these words: {words}")
    too_many = TOO_MANY.fullmatch(said)
    if too_many:
        return Fault(f"--hubs {too_many[1]}: there are not so many candidates ({said})")
    return Fault(f"hub {question.verb} found no network: {said}")


def answer_in(question: Question, folder: Path) -> Named:
    """The network that the folder's certificate names, checked once more."""
    return read_named(question.options(folder), folder / CERTIFICATE, folder / NAMES)
