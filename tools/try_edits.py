"""Tries edits of crates (tools/try_edits.sh): try_edits.py TOP NAME .., where NAME is a crate of the repository TOP.

For each crate `rt check` runs in its folder, so that it and all crates below are proved and what they need is kept in out/ there. Each
edit is then applied in a copy that begins with what was kept, so that only what it changes is checked. It is refused if this check ends
with `logic=not-proved`, and no line says that the prover can't read a text that the edit changes.
"""

import os
import re
import shutil
import subprocess
import sys
import tempfile
from pathlib import Path

from edits import edited, edits

PLACE = re.compile(r"(?:note: )?(?:\./)?(?P<file>[^\s:]+):\d+:\d+: (?P<text>.*)")
UNREAD = re.compile(r"is not in scope|has no field|is no name|operand is missing|expected the end|cannot continue")

# A function that is not proved, except those that only call one.
UNPROVED = re.compile(r"fn (\S+): (?:not proved|no proof: (?!it calls))")


def check(crate: Path) -> list[str]:
    """Returns the lines that `rt check` prints in the crate's folder."""
    how = {"stdin": subprocess.DEVNULL, "stdout": subprocess.PIPE, "stderr": subprocess.STDOUT, "errors": "replace"}
    return subprocess.run(["rt", "check"], cwd=crate, check=False, **how).stdout.splitlines()


def verdict(lines: list[str]) -> str:
    """Returns the verdict among the lines of a check: `proved` or `not-proved`, or nothing if there is none."""
    found = [line.removeprefix("logic=").split()[0] for line in lines if line.startswith("logic=")]
    return found[-1] if found else ""


def link(source: str, target: str) -> None:
    """Makes a second name of a file, or copies it to another file system."""
    try:
        os.link(source, target)
    except OSError:
        shutil.copy2(source, target)


def copy_to(room: Path, top: Path, name: str) -> Path:
    """Copies what a check of the crate reads: the sources of all crates, the libraries as they are built, and what was kept of the crate."""
    for file in ("crates.txt", "HANDLES"):
        shutil.copy2(top / file, room / file)
    shutil.copytree(top / "crates", room / "crates", ignore=shutil.ignore_patterns("out", "must-fail"))
    for built in top.glob("crates/*/out/rlib"):
        shutil.copytree(built, room / built.relative_to(top), copy_function=link)
    crate = room / "crates" / name
    kept = Path("out", "incremental")
    if (top / "crates" / name / kept).is_dir():
        shutil.copytree(top / "crates" / name / kept, crate / kept)
    return crate


def unread(lines: list[str], changed: set[str]) -> str | None:
    """Returns a line that says that the prover can't read an edited text, where no contract was tried, or None."""
    for line in lines:
        match = PLACE.match(line)
        if not match or not match["text"].startswith("error: "):
            continue
        text = match["text"].removeprefix("error: ")
        is_goal = re.match(r"`[^`]*`: ", text)
        if (match["file"] in changed or match["file"].startswith(("src/", "specs/"))) and (not is_goal or UNREAD.search(text)):
            return line
    return None


def answer(edit: Path, crate: Path) -> tuple[bool, str]:
    """Returns whether an edit is refused, and what to print. The crate's files are as they were afterwards."""
    texts, fault = edited(edit, crate)
    if fault:
        return False, f"BAD EDIT: {fault}"
    saved = {file: (file.read_bytes(), file.stat()) for file in texts}
    for file, text in texts.items():
        file.write_text(text, encoding="utf-8")
    lines = check(crate)
    for file, (octets, state) in saved.items():
        file.write_bytes(octets)
        os.utime(file, ns=(state.st_atime_ns, state.st_mtime_ns))
    if bad := unread(lines, {str(file.relative_to(crate)) for file in texts}):
        return False, f"BAD EDIT: {bad}"
    if verdict(lines) == "proved":
        return False, "NOT REFUSED: the crate is still proved"
    if verdict(lines) != "not-proved":
        return False, "NOT TRIED: " + "; ".join(lines[-3:])
    return True, "refused: " + next((match[1] for line in lines if (match := UNPROVED.match(line))), "no function is named")


def main(top: Path, names: list[str]) -> int:
    refused = others = 0
    for name in names:
        own = [path for crate, path in edits(top) if crate == name]
        if not own:
            continue
        lines = check(top / "crates" / name)
        if verdict(lines) != "proved":
            print("\n".join(lines[-20:]))
            print(f"{name}: NOT PROVED, so its edits ({len(own)}) are not tried", flush=True)
            others += len(own)
            continue
        with tempfile.TemporaryDirectory(prefix="edits-") as room:
            crate = copy_to(Path(room), top, name)
            for edit in own:
                is_refused, text = answer(edit, crate)
                print(f"{name}/{edit.name}: {text[:200]}", flush=True)
                refused, others = refused + is_refused, others + (not is_refused)
    print(f"{refused} edits refused, {others} not")
    return 1 if others else 0


if __name__ == "__main__":
    sys.exit(main(Path(sys.argv[1]), sys.argv[2:]))
