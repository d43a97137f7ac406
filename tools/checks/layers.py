#!/usr/bin/env python3
"""Checks crates.txt: each library that a crate lists is used in it and has an earlier line, no chain of crates is longer than eight, each
crate has a line that says what enters and what leaves, docs/architecture.md names the crates layer by layer in the same order, and the
documentation of each crate has a paragraph that names its layer, the crates that it uses and those that use it.

Usage: tools/checks/layers.py [--write] [TOP], where TOP is the top of a repository, by default this one. Prints each fault, and then the
number of crates and the longest chain; ends with status 1 if there is a fault. With --write it first writes these paragraphs.
"""

import re
import sys
import textwrap
from dataclasses import dataclass
from pathlib import Path

MOST = 8  # crates of a chain
FEW = 8  # crates that a paragraph names
WIDTH = 140  # characters of a line of documentation


@dataclass
class Crate:
    """A line of crates.txt with the comment before it."""

    name: str
    libraries: list[str]
    says: str
    layer: str


def crates_in(path: Path) -> list[Crate]:
    """The crates of a crates.txt, in its order."""
    found, comment, layer = [], "", ""
    for line in path.read_text(encoding="utf-8").splitlines():
        if line.startswith("# == "):
            layer = line[len("# == ") :].rstrip(".")
        elif line.startswith("#"):
            comment = line.strip("# ")
        elif line:
            name, _, libraries = line.partition(":")
            found.append(Crate(name.split()[0], libraries.split(), comment, layer))
            comment = ""
    return found


def listed(names: list[str]) -> str:
    """The names in words; of many, the first ones and the number of the others."""
    shown = [f"`{name}`" for name in names]
    if len(shown) > FEW:
        shown = shown[: FEW - 1] + [f"{len(shown) - FEW + 1} more"]
    return shown[0] if len(shown) == 1 else ", ".join(shown[:-1]) + " and " + shown[-1]


def paragraph(crate: Crate, crates: list[Crate]) -> str:
    """The layer of a crate, the crates of the repository that it uses, and those that use it, as lines of its documentation."""
    used = [other.name for other in crates if other.name in crate.libraries]
    users = [other.name for other in crates if crate.name in other.libraries]
    words = f"Layer: {crate.layer[:1].lower()}{crate.layer[1:]}."
    words += f" It uses {listed(used)}." if used else ""
    words += f" It is used by {listed(users)}." if users else ""
    return "\n".join(textwrap.wrap(words, WIDTH, initial_indent="//! ", subsequent_indent="//! ", break_on_hyphens=False))


def root_of(crate: Crate, top: Path) -> Path:
    """The file with the documentation of a crate."""
    source = top / "crates" / crate.name / "src"
    return source / ("lib.rt" if (source / "lib.rt").exists() else "main.rt")


def write_paragraph(crate: Crate, crates: list[Crate], top: Path) -> None:
    """Puts the paragraph of a crate after the first one of its documentation, in the place of the one that is there."""
    root = root_of(crate, top)
    lines = root.read_text(encoding="utf-8").split("\n")
    end = next(place for place, line in enumerate(lines) if not line.startswith("//!"))
    parts = "\n".join(lines[:end]).split("\n//!\n")
    kept = [part for part in parts if not part.startswith("//! Layer: ")]
    heading = "\n//!\n".join([kept[0], paragraph(crate, crates), *kept[1:]])
    root.write_text("\n".join([heading, *lines[end:]]), encoding="utf-8")


def text_of(folder: Path) -> str:
    """All sources, definitions and proofs of a crate."""
    files = (file for part in ("src", "specs", "proofs") for file in sorted((folder / part).rglob("*")))
    return "\n".join(file.read_text(encoding="utf-8") for file in files if file.suffix in (".rt", ".antt"))


def unused(crate: Crate, top: Path) -> list[str]:
    """The libraries that neither a source nor a proof of the crate names."""
    text = text_of(top / "crates" / crate.name)
    return [name for name in crate.libraries if not re.search(rf"\b{name}::|\bRattle\.{name}\.", text)]


def chains(crates: list[Crate]) -> dict[str, int]:
    """The number of crates in the longest chain that ends at each crate. A library that isn't listed before counts as the kit's."""
    longest: dict[str, int] = {}
    for crate in crates:
        longest[crate.name] = 1 + max((longest.get(name, 0) for name in crate.libraries), default=0)
    return longest


def named_in(page: Path, names: set[str]) -> list[str]:
    """The crates in the order in which the list of a page names them."""
    section = page.read_text(encoding="utf-8").partition("## The layers")[2].partition("\n## ")[0]
    heads = (line.partition(":")[0] for line in section.splitlines() if line.startswith("- "))
    return [name for head in heads for name in re.findall(r"`(\w+)`", head) if name in names]


def faults_of(crates: list[Crate], top: Path) -> list[str]:
    """What is wrong with crates.txt, a line each."""
    names = [crate.name for crate in crates]
    found = []
    for place, crate in enumerate(crates):
        found += [f"{crate.name}: {name} is not used" for name in unused(crate, top)]
        found += [f"{crate.name}: {name} has a later line" for name in crate.libraries if name in names[place:]]
        if not crate.says:
            found.append(f"{crate.name}: no line says what enters and what leaves")
        if paragraph(crate, crates) not in root_of(crate, top).read_text(encoding="utf-8"):
            found.append(f"{crate.name}: its documentation doesn't say its layer as crates.txt has it (--write)")
    found += [f"{name}: a chain of {length} crates ends here" for name, length in chains(crates).items() if length > MOST]
    if named_in(top / "docs" / "architecture.md", set(names)) != names:
        found.append("docs/architecture.md: the list of crates is not that of crates.txt, in its order")
    return found


def main() -> None:
    words = [word for word in sys.argv[1:] if word != "--write"]
    top = Path(words[0]).resolve() if words else Path(__file__).resolve().parent.parent.parent
    crates = crates_in(top / "crates.txt")
    for crate in crates if "--write" in sys.argv else []:
        write_paragraph(crate, crates, top)
    faults = faults_of(crates, top)
    for fault in faults:
        print(fault)
    print(f"{len(crates)} crates, the longest chain has {max(chains(crates).values())}")
    sys.exit(1 if faults else 0)


if __name__ == "__main__":
    main()
