"""What a planner gets to see of an accepted network, as files: the verdict, the tables, the map and the page."""

from __future__ import annotations

import shlex
from pathlib import Path

from .alternatives import Alternatives
from .csv_tables import table_text
from .options import Options
from .solving import CERTIFICATE, INSTANCE, NAMES
from .tables import Named, all_tables, as_csv

CHECK, MAP, PAGE = "check.txt", "map.png", "page.html"
WHAT_IF, WHAT_IF_PICTURE = "what-if.csv", "what-if.png"
TABLES = ["summary", "hubs", "routes", "trunks", "collection", "delivery"]
RESULTS = [CHECK, MAP, PAGE, *(f"{name}.csv" for name in TABLES)]
"""All that `all_results` gives of a network alone."""
OF_WHAT_IF = [WHAT_IF, WHAT_IF_PICTURE]
"""What it gives besides, where that was asked."""


def all_results(
    named: Named, options: Options, folder: Path, title: str, with_map: bool, found: Alternatives | None = None
) -> dict[str, str | bytes]:
    """All files of a network whose instance, certificate and names lie in a folder, and of what was asked of it."""
    from .page import page_text
    from .places import positions

    places, note = positions(named.network.instance, folder / NAMES)
    results: dict[str, str | bytes] = {CHECK: named.verdict.line() + "\n"}
    results |= as_csv(all_tables(named))
    if with_map:
        from .drawing import picture, picture_bytes

        results[MAP] = picture_bytes(picture(named, places, title, note), ".png")
    if found:
        results[WHAT_IF] = table_text(found.table())
    if found and with_map:
        from .rises import chart

        results[WHAT_IF_PICTURE] = picture_bytes(chart(found, title), ".png")
    inside = [word.replace(f"{folder}/", "") for word in options.words()]
    words = shlex.join(["hub", "check", options.layout, INSTANCE, CERTIFICATE, *inside])
    results[PAGE] = page_text(named, places, note, title, words, found)
    return results
