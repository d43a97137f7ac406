#!/usr/bin/env python3
"""Checks that sources, definitions and proofs are easy to read: no line has more than 160 characters, and no file 800 lines or more.

Usage: tools/checks/lines.py [TOP], where TOP is the top of a repository, by default this one. Prints each fault, and then how many files
were read; ends with status 1 if there is a fault.
"""

import sys
from pathlib import Path

MOST_CHARACTERS = 160
MOST_LINES = 799


def faults_of(path: Path) -> list[str]:
    """The lines of a file that are too long, and the file if it has too many."""
    lines = path.read_text(encoding="utf-8").splitlines()
    found = [f"{path}:{place}: {len(line)} characters" for place, line in enumerate(lines, 1) if len(line) > MOST_CHARACTERS]
    return found + ([f"{path}: {len(lines)} lines"] if len(lines) > MOST_LINES else [])


def main() -> None:
    top = Path(sys.argv[1]) if len(sys.argv) > 1 else Path(__file__).resolve().parent.parent.parent
    files = [
        path
        for part in ("src", "specs", "proofs")
        for path in sorted(top.glob(f"crates/*/{part}/**/*"))
        if path.suffix in (".rt", ".antt")
    ]
    faults = [fault for path in files for fault in faults_of(path)]
    for fault in faults:
        print(fault)
    print(f"{len(files)} files, {len(faults)} lines or files that are too long")
    sys.exit(1 if faults else 0)


if __name__ == "__main__":
    main()
