#!/usr/bin/env python3
"""Runs the commands of documents, and compares what they print with what the documents say.

Usage: tools/checks/try_docs.sh [DOCUMENT ..], the README, the tour, the recipes, docs/ground.md and python/README.md if none is named. A document is
one session of bash, in a folder with the program and the tools. A block of `sh` is a part of it; a block without a language after it is what
this part prints, on standard output and standard error, in any order. Memory, speeds and seconds of the clock are not compared.
"""

import difflib
import re
import subprocess
import sys
import tempfile
from dataclasses import dataclass
from pathlib import Path

TOP = Path(__file__).resolve().parents[2]
DOCUMENTS = ["README.md", "docs/tour.md", "docs/recipes.md", "docs/ground.md", "python/README.md"]
# These lines install packages or prove the program.
LEFT_OUT = ("apt-get ", "rt ci", "sh tools/")


@dataclass
class Part:
    """A block of commands, the line at which it begins, and what it prints, if the document says so."""

    line: int
    commands: list[str]
    printed: list[str] | None = None


def parts_of(document: Path) -> list[Part]:
    parts: list[Part] = []
    block: list[str] | None = None
    language = ""
    for number, line in enumerate(document.read_text(encoding="utf-8").splitlines(), 1):
        if block is None:
            if line.startswith("```"):
                block, language = [], line[3:]
        elif line != "```":
            block.append(line)
        else:
            if language == "sh":
                parts.append(Part(number - len(block), [it for it in block if not it.startswith(LEFT_OUT)]))
            elif not language and parts and parts[-1].printed is None:
                parts[-1].printed = block
            block = None
    return parts


def run(document: Path, program: str) -> list[list[str]]:
    """Returns the lines that each part of a document prints."""
    with tempfile.TemporaryDirectory(prefix="strip122-docs-") as folder, tempfile.TemporaryDirectory() as printed:
        (Path(folder) / "strip122").symlink_to(program)
        for name in ("tools", "python"):
            (Path(folder) / name).symlink_to(TOP / name)
        session = []
        for at, part in enumerate(parts_of(document)):
            (Path(printed) / f"{at}.sh").write_text("\n".join(part.commands) + "\n", encoding="utf-8")
            session.append(f". {printed}/{at}.sh > {printed}/{at} 2>&1")
        subprocess.run(["bash", "-c", "\n".join(session)], cwd=folder, stdin=subprocess.DEVNULL, check=False)
        return [(Path(printed) / f"{at}").read_text(encoding="utf-8").splitlines() for at in range(len(session))]


def comparable(lines: list[str]) -> list[str]:
    without_speed = [it.rstrip() for it in lines if "iB/s]" not in it]
    return sorted(re.sub(r"^\d\d (?=\d+ kept)", "SECOND ", re.sub(r"\d+ kB", "SIZE kB", it)) for it in without_speed)


def try_document(name: str, program: str) -> bool:
    parts = parts_of(TOP / name)
    good = True
    for part, got in zip(parts, run(TOP / name, program)):
        if part.printed is None:
            continue
        wanted, found = comparable(part.printed), comparable(got)
        if wanted != found:
            good = False
            print(f"{name}:{part.line}: prints something else")
            print("\n".join(difflib.unified_diff(wanted, found, "the document", "the run", lineterm="")))
    compared = sum(part.printed is not None for part in parts)
    print(f"{name}: {len(parts)} parts were run, and the output of {compared} was compared: {'all the same' if good else 'WRONG'}")
    return good


def main() -> None:
    program, *names = sys.argv[1:]
    results = [try_document(name, str(Path(program).resolve())) for name in names or DOCUMENTS]
    sys.exit(0 if all(results) else 1)


if __name__ == "__main__":
    main()
