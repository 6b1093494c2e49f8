"""What the package hub-location holds: each file by its place, with its bytes and its mode."""

from __future__ import annotations

import re
import struct
import subprocess
import sys
import zlib
from datetime import datetime, timezone
from email.utils import format_datetime

import manuals
from words import ROOT

sys.path.insert(0, str(ROOT / "planners"))

from planning.version import DATE, VERSION  # noqa: E402

NAME = "hub-location"
DOCUMENTS = f"usr/share/doc/{NAME}"
LIBRARY = "usr/lib/python3/dist-packages/planning"
OF_SOURCES = ("DECISIONS.md", "MAP.md", "TESTING.md")
"""Documents for those who change the sources, which are not packed."""
GZIP_HEAD = bytes([0x1F, 0x8B, 8, 0, 0, 0, 0, 0, 2, 3])
"""The method, no date, the best compression, a file of Unix."""
STARTS = re.compile(r'faults\.end\("(\w+)"\)')
COPYRIGHT = """Copyright, as of {date}: the repository from which this package was made names no holder.
It has no licence. Nothing here grants a right to use, copy or change the files: ask those from whom you have them.

/usr/bin/hub holds parts of the Rattle kit, which compiled it: its library and its ported crates. Their terms are
those of the kit.
"""
CHANGELOG = """{name} ({version}) unstable; urgency=medium

  * CHANGELOG.md beside this file has what is new.

 -- {maintainer}  {date}
"""

Files = dict[str, tuple[bytes, int]]
"""Bytes and modes by place, without a slash at its front."""


def scripts() -> dict[str, str]:
    """The planners' scripts, each with the module that it starts."""
    found = {}
    for path in sorted((ROOT / "planners").iterdir()):
        match = STARTS.search(path.read_text(encoding="utf-8")) if path.is_file() and not path.suffix else None
        if match:
            found[path.name] = match[1]
    return found


def packed(data: bytes) -> bytes:
    """The same in the form of gzip, without a date; its head is written here, since versions of Python differ in it."""
    deflate = zlib.compressobj(9, zlib.DEFLATED, -zlib.MAX_WBITS)
    return GZIP_HEAD + deflate.compress(data) + deflate.flush() + struct.pack("<II", zlib.crc32(data), len(data))


def as_installed(text: str) -> str:
    """A document with the names that scripts, program and examples have in the package."""
    for name in sorted(scripts(), key=len, reverse=True):
        text = re.sub(rf"planners/{name}\b(?!/)", f"hub-{name}", text)
    text = text.replace("planners/instances/", f"/{DOCUMENTS}/examples/").replace("planners/EXAMPLES.md", "EXAMPLES.md")
    return text.replace("./hub ", "hub ")


def documents() -> Files:
    """README, the changes, the documents with their pictures, and the examples."""
    files: Files = {}
    for name in ("README.md", "CHANGELOG.md"):
        files[f"{DOCUMENTS}/{name}"] = ((ROOT / name).read_bytes(), 0o644)
    for path in sorted((ROOT / "docs").iterdir()):
        if path.suffix == ".png":
            files[f"{DOCUMENTS}/docs/{path.name}"] = (path.read_bytes(), 0o644)
        elif path.suffix == ".md" and path.name not in OF_SOURCES:
            text = as_installed(path.read_text(encoding="utf-8"))
            files[f"{DOCUMENTS}/docs/{path.name}"] = (text.encode(), 0o644)
    text = as_installed((ROOT / "planners/EXAMPLES.md").read_text(encoding="utf-8"))
    files[f"{DOCUMENTS}/docs/EXAMPLES.md"] = (text.encode(), 0o644)
    for folder in (ROOT / "examples", ROOT / "planners/instances"):
        for path in sorted(folder.iterdir()):
            if path.suffix:
                files[f"{DOCUMENTS}/examples/{path.name}"] = (path.read_bytes(), 0o644)
    return files


def library() -> Files:
    """The Python package, and the scripts that start it."""
    files: Files = {}
    for path in sorted((ROOT / "planners/planning").rglob("*")):
        if path.is_file() and "__pycache__" not in path.parts:
            files[f"{LIBRARY}/{path.relative_to(ROOT / 'planners/planning')}"] = (path.read_bytes(), 0o644)
    for name in scripts():
        text = (ROOT / "planners" / name).read_text(encoding="utf-8").partition("\n")[2]
        files[f"usr/bin/hub-{name}"] = (f"#!/usr/bin/python3\n{text}".encode(), 0o755)
    return files


def manual_pages() -> Files:
    """The manual of the program, and those of the scripts."""
    texts = {"hub": (ROOT / "docs/hub.1").read_text(encoding="utf-8")}
    texts |= {f"hub-{name}": manuals.manual(f"hub-{name}", module) for name, module in scripts().items()}
    return {f"usr/share/man/man1/{name}.1.gz": (packed(text.encode()), 0o644) for name, text in texts.items()}


def completions() -> Files:
    """The completions for both shells."""
    places = {"bash": "usr/share/bash-completion/completions/hub", "zsh": "usr/share/zsh/vendor-completions/_hub"}
    script = str(ROOT / "packaging/completions")
    made = {
        shell: subprocess.run([sys.executable, "-B", script, shell], capture_output=True, check=True).stdout
        for shell in places
    }
    return {places[shell]: (made[shell], 0o644) for shell in places}


def all_files(program: bytes, maintainer: str) -> Files:
    """All files of the package."""
    date = format_datetime(datetime.fromisoformat(DATE).replace(tzinfo=timezone.utc))
    changelog = CHANGELOG.format(name=NAME, version=VERSION, maintainer=maintainer, date=date)
    files = {"usr/bin/hub": (program, 0o755)} | library() | manual_pages() | completions() | documents()
    files[f"{DOCUMENTS}/copyright"] = (COPYRIGHT.format(date=DATE).encode(), 0o644)
    files[f"{DOCUMENTS}/changelog.gz"] = (packed(changelog.encode()), 0o644)
    return dict(sorted(files.items()))
