"""The program `strip122` and the shared library: which ones they are, and runs of the program."""

from __future__ import annotations

import os
import re
import shutil
import subprocess
from functools import lru_cache
from pathlib import Path
from typing import List, NamedTuple, Optional, Sequence

from .errors import MissingPackage, Status, fault_of
from .library import Library
from .source import Octets

REPOSITORY = Path(__file__).resolve().parent.parent.parent
BUILT = REPOSITORY / "crates/strip122/out/strip122"


def program() -> str:
    """Returns the program: the one that STRIP122 names, else that of this repository, else `strip122` on the path.

    Raises MissingPackage if there is none.
    """
    named = os.environ.get("STRIP122")
    if named:
        return named
    if BUILT.exists():
        return str(BUILT)
    found = shutil.which("strip122")
    if found:
        return found
    raise MissingPackage("the program strip122 is missing: STRIP122 names it, or it is on the path")


def shared_library() -> Optional[Library]:
    """Returns the shared library: the one that STRIP122_LIBRARY names (none if this is empty), else one that is installed
    with the program. Returns None if there is none. Raises MissingPackage if the one that is named isn't one of this version.
    """
    named = os.environ.get("STRIP122_LIBRARY")
    path = named if named is not None else installed_library()
    try:
        return loaded(path) if path else None
    except OSError as fault:
        if named is None:
            return None
        raise MissingPackage(f"STRIP122_LIBRARY: {fault}") from fault


@lru_cache(maxsize=None)
def loaded(path: str) -> Library:
    return Library(path)


def installed_library() -> Optional[str]:
    """Returns `lib/libstrip122.so` beside the folder of the program on the path, if it is there."""
    found = shutil.which("strip122")
    path = Path(found).resolve().parent.parent / "lib/libstrip122.so" if found else None
    return str(path) if path and path.exists() else None


class Ran(NamedTuple):
    """What a run of the program gave: standard output, status, and the note on standard error without its name."""

    output: bytes
    status: int
    note: str


def call(words: Sequence[str], octets: Octets = b"") -> Ran:
    """Runs the program, whatever it answers. Raises MissingPackage if it can't be run."""
    name = program()
    try:
        ran = subprocess.run([name, *words], input=octets, capture_output=True, check=False)
    except OSError as fault:
        raise MissingPackage(f"cannot run {name}: {fault.strerror}; STRIP122 names the program") from fault
    lines = ran.stderr.decode(errors="replace").splitlines() or [""]
    return Ran(ran.stdout, ran.returncode, lines[-1].removeprefix("strip122: "))


def run(words: Sequence[str], octets: Octets = b"", name: str = "") -> Ran:
    """Runs the program. Raises the exception of its status if this is above 1, with its note after a name."""
    ran = call(words, octets)
    if ran.status not in (Status.DONE, Status.PARTLY):
        note = ran.note or f"strip122 ended with status {ran.status}"
        raise fault_of(ran.status, f"{name}: {note}" if name else note)
    return ran


class Note(NamedTuple):
    """What a note of `decode` says."""

    damage: List[range]
    is_height_known: bool
    fault: str


def read_note(note: str) -> Note:
    """Returns the damaged rows of a note, whether it reports the height, and why the packets can't be read on, or nothing."""
    rows, _, rest = note.partition(";")
    damage = [range(int(first), int(last) + 1) for first, last in re.findall(r"(\d+)-(\d+)", rows)]
    reasons = [it.strip() for it in (*rows.split("damaged rows")[1:], *rest.split(";"))]
    fault = next((it for it in reasons if it.startswith(("packet cut", "bad version"))), "")
    return Note(damage, "height unknown" not in reasons, fault)


def settings(**keys: Optional[object]) -> List[str]:
    """Returns the arguments for these keys; a key that is None is left out."""
    return [f"{key}={int(value) if isinstance(value, bool) else value}" for key, value in keys.items() if value is not None]
