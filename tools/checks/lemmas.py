#!/usr/bin/env python3
"""Finds definitions and lemmas that nothing cites, statements that are written twice, and unfoldings across crates.

Usage: tools/checks/lemmas.py [--list] [CRATE ..]. It reads specs/, proofs/ and src/ of all crates, and prints a count of each kind by
crate; with --list also the places. It reads text and proves nothing: a row is a place to look at.
"""

import re
import sys
from collections import Counter, defaultdict
from pathlib import Path

sys.dont_write_bytecode = True
sys.path.insert(0, str(Path(__file__).resolve().parents[1]))
from blocks import IMPORT, MODULE, TOP, WORD, Block, blocks_of, crate_of

HEADINGS = re.compile(r"^ *(?:module [^\0]*?where$|(?:pub )?ruleset [^\0]*?\)$|unfolding .*$)", re.M)
UNFOLDS = re.compile(r"^\s*unfolding (.+)$")
CRATES = {folder.name for folder in (TOP / "crates").iterdir()}


def sources(suffix: str) -> list[Path]:
    return sorted(file for file in (TOP / "crates").rglob(f"*{suffix}") if "out" not in file.parts)


def is_answer(file: Path) -> bool:
    """A file of answers names goals, which the check asks for."""
    return file.name in {"Answers.antt", "Invariants.antt", "Proof.antt", "Lib.antt"}


def foreign_unfoldings(file: Path) -> list[tuple[int, str]]:
    """The lines at which a file unfolds what it imports from another crate of the repository, each with the name."""
    lines = file.read_text(encoding="utf-8").splitlines()
    home = {name.strip().split(" as ")[-1]: match[1] for match in map(IMPORT.match, lines) if match for name in match[3].split(",")}
    home |= {match[3]: match[1] for match in map(MODULE.match, lines) if match}
    unfolded = [(at, name) for at, line in enumerate(lines, 1) if (match := UNFOLDS.match(line)) for name in match[1].split()]
    return [(at, name) for at, name in unfolded if home.get(name.split(".")[0], crate_of(file)) in CRATES - {crate_of(file)}]


def main() -> None:
    words = [word for word in sys.argv[1:] if not word.startswith("--")]
    shows = "--list" in sys.argv
    files = {file: blocks_of(file) for file in sources(".antt")}
    cited: Counter = Counter()
    for file, blocks in files.items():
        for block in blocks:
            own = block.words()
            own.pop(block.name, None)
            cited.update(own.keys())
        text = file.read_text(encoding="utf-8")
        cited.update(set(WORD.findall(text if not blocks else " ".join(HEADINGS.findall(text)))))
    for file in sources(".rt"):
        cited.update(set(re.findall(r"[\w'-]+", file.read_text(encoding="utf-8"))))
    dead = [b for f, bs in files.items() if not is_answer(f) for b in bs if not cited[b.name]]
    unfolded = [(file, at, name) for file in files for at, name in foreign_unfoldings(file)]
    twins = defaultdict(list)
    for f, bs in files.items():
        for b in bs:
            if not is_answer(f) and "proofs" in f.parts and len(b.statement()) > 40:
                twins[b.statement()].append(b)
    twice = [b for same in twins.values() if len(same) > 1 for b in same[1:]]
    for title, found in (("cited by nothing", dead), ("stated again", twice)):
        by_crate = Counter(crate_of(b.file) for b in found)
        lines = sum(len(b.text) for b in found)
        print(f"{title}: {len(found)} of {lines} lines: " + ", ".join(f"{c} {n}" for c, n in sorted(by_crate.items())))
        for b in found if shows else []:
            if not words or crate_of(b.file) in words:
                print(f"  {b.file.relative_to(TOP)}:{b.line} {b.name} ({len(b.text)})")
    by_crate = Counter(crate_of(file) for file, _, _ in unfolded)
    print(f"unfolded in another crate: {len(unfolded)}: " + ", ".join(f"{c} {n}" for c, n in sorted(by_crate.items())))
    for file, at, name in unfolded if shows else []:
        if not words or crate_of(file) in words:
            print(f"  {file.relative_to(TOP)}:{at} {name}")


if __name__ == "__main__":
    main()
