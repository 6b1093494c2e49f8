"""Files that a script writes: all of them, or none; each is put in its place once it is whole."""

from __future__ import annotations

from collections.abc import Iterable, Mapping
from pathlib import Path

from .faults import Fault

PICTURES = (".png", ".svg", ".pdf")


def put_all(contents: Mapping[Path, str | bytes], inputs: Iterable[Path] = ()) -> None:
    """Writes all the files, or none where one of them cannot be written or is one of the inputs."""
    for path in contents:
        if path.exists() and any(path.samefile(source) for source in inputs if source.exists()):
            raise Fault(f"{path}: this is one of the files to read; choose another --out")
        if path.is_dir():
            raise Fault(f"{path}: this is a folder, and a file is to be written there; choose another --out")
    waiting = {path: path.with_name(path.name + ".part") for path in contents}
    try:
        for path, content in contents.items():
            path.parent.mkdir(parents=True, exist_ok=True)
            waiting[path].write_bytes(content.encode() if isinstance(content, str) else content)
        for path, part in waiting.items():
            part.replace(path)
    finally:
        for part in waiting.values():
            part.unlink(missing_ok=True)


def picture_path(text: str) -> Path:
    """A file name that ends as a picture's."""
    path = Path(text)
    if path.suffix not in PICTURES:
        raise Fault(f"--out wants a name that ends in one of {', '.join(PICTURES)}, found '{text}'")
    return path
