"""Files that are written whole or not at all, and messages with their names."""

from __future__ import annotations

import os
import tempfile
from contextlib import contextmanager
from pathlib import Path
from typing import BinaryIO, Iterator

from .errors import WriteFault


def reason(fault: OSError) -> str:
    """Returns the operating system's words for a fault."""
    return fault.strerror or str(fault)


@contextmanager
def written(path: Path) -> Iterator[BinaryIO]:
    """Gives a file that gets its name only after all of it is written; after an exception nothing is left of it.

    Raises WriteFault, with the name of the file, if it can't be written.
    """
    try:
        descriptor, draft = tempfile.mkstemp(prefix=f".{path.name[:40]}.", suffix=".part", dir=path.parent)
    except OSError as fault:
        raise WriteFault(f"{path}: {reason(fault)}") from fault
    try:
        with os.fdopen(descriptor, "wb") as file:
            yield file
        os.chmod(draft, 0o666 & ~current_umask())
        os.replace(draft, path)
    except BaseException as fault:
        Path(draft).unlink(missing_ok=True)
        if isinstance(fault, OSError) and not isinstance(fault, WriteFault):
            raise WriteFault(f"{path}: {reason(fault)}") from fault
        raise


def store(path: Path, octets: bytes) -> None:
    """Writes a file of these octets."""
    with written(path) as file:
        file.write(octets)


def make_folder(path: Path) -> None:
    """Makes a folder, with those above it, if it isn't there. Raises WriteFault."""
    try:
        path.mkdir(parents=True, exist_ok=True)
    except OSError as fault:
        raise WriteFault(f"{path}: {reason(fault)}") from fault


def current_umask() -> int:
    """Returns the mask of permissions for new files."""
    mask = os.umask(0)
    os.umask(mask)
    return mask
