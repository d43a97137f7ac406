#!/usr/bin/env python3
"""Prints the public clauses of all crates, or compares their checksums with those that tools/clauses.txt has.

Usage: tools/clauses.py [--check | --changed | --update] [--top TOP], where TOP is the top of a repository, by default this one.
Without a word it prints each clause: the `requires` and `ensures` of public functions, of those in a public trait and of those that
implement a trait, and the ghost members of traits, public structs and `impl` blocks. With --check it prints each clause that was
dropped, added or changed since the file was written, and ends with status 1 if there is one; with --changed it prints the crates of
these clauses; with --update it writes the file. The file has a line for each function or type: its crate, its path, and each clause
with its name and six digits of its checksum.
"""

import argparse
import hashlib
import re
import sys
from collections.abc import Iterator
from dataclasses import dataclass, field
from pathlib import Path

ITEM = re.compile(r"(?P<public>pub )?(?:pub\(\w+\) )?(?:const |unsafe |extern \"C\" )*(?P<kind>fn|trait|impl|struct|enum)\b(?P<rest>.*)")
CLAUSE = re.compile(r"(?P<name>(?:requires|ensures)\*?(?: \w+)?|ghost \w+)(?::| =)? ?\{")


@dataclass
class Item:
    """An item that clauses belong to, with its indentation, and whether its clauses are public."""

    indent: int
    kind: str
    name: str
    is_public: bool


@dataclass
class Owner:
    """The clauses of one function or type, by their names."""

    crate: str
    path: str
    clauses: list[tuple[str, str]] = field(default_factory=list)

    def line(self) -> str:
        """The owner's line of the file of checksums."""
        return f"{self.crate} {self.path}: " + ", ".join(f"{name} {sum_of(text)}" for name, text in self.clauses)


def sum_of(text: str) -> str:
    return hashlib.sha256(text.encode()).hexdigest()[:6]


def name_of(kind: str, rest: str) -> str:
    """Returns an item's name: of an `impl` the type, and the trait before it if there is one."""
    if kind != "impl":
        match = re.match(r"\s*(\w+)", rest)
        return match[1] if match else "?"
    text = re.sub(r"^<.*?>\s+", "", rest.strip()).removesuffix("{").strip()
    return re.sub(r"\s+", " ", text.split(" where ")[0])


def item_of(line: str, parents: list[Item]) -> Item | None:
    """Returns the item that a line begins, if it begins one. Methods of a trait are public if the trait is, those of its `impl` always."""
    text = line.strip()
    if text.startswith("//") or not (match := ITEM.match(text)):
        return None
    kind, parent = match["kind"], parents[-1] if parents else None
    name = name_of(kind, match["rest"])
    is_public = bool(match["public"])
    if kind == "impl":
        is_public = True
    elif kind == "fn" and parent and parent.kind in ("trait", "impl") and not is_public:
        is_public = parent.is_public and (parent.kind == "trait" or " for " in parent.name)
    return Item(len(line) - len(line.lstrip()), kind, name, is_public)


def balance(line: str) -> int:
    return line.count("{") - line.count("}")


def owners(path: Path, crate: str, module: str) -> Iterator[Owner]:
    """Yields the functions and types of a file that have public clauses. The file is as `rt fmt` writes it."""
    items: list[Item] = []
    found: dict[str, Owner] = {}
    name, depth, text = "", 0, ""
    for line in path.read_text(encoding="utf-8").splitlines():
        stripped = line.strip()
        if depth == 0:
            indent = len(line) - len(line.lstrip())
            if stripped in ("}", "};", "},"):
                items = [item for item in items if item.indent < indent]
            if item := item_of(line, [parent for parent in items if parent.indent < indent]):
                items = [parent for parent in items if parent.indent < indent] + [item]
                continue
            clause = CLAUSE.match(stripped)
            if not clause or not items or stripped.startswith("ghost use"):
                continue
            name, text = clause["name"], ""
        text = f"{text} {stripped}".strip()
        depth += balance(line)
        if depth <= 0:
            depth = 0
            if all(item.is_public for item in items[-1:]):
                key = "::".join([module, *(item.name for item in items)] if module else [item.name for item in items])
                found.setdefault(key, Owner(crate, key)).clauses.append((name, text.rstrip(";,")))
    yield from found.values()


def all_owners(top: Path) -> list[Owner]:
    found: list[Owner] = []
    for path in sorted(top.glob("crates/*/src/**/*.rt")):
        inside = path.relative_to(top / "crates")
        module = "::".join(inside.parts[2:]).removesuffix(".rt").removesuffix("::mod")
        found += owners(path, inside.parts[0], "" if module in ("lib", "main") else module)
    return found


def parsed(lines: list[str]) -> dict[str, dict[str, str]]:
    """Returns the checksums of each line, by the name of the clause; clauses of the same name are numbered."""
    found: dict[str, dict[str, str]] = {}
    for line in lines:
        owner, _, rest = line.partition(": ")
        sums: dict[str, str] = {}
        for entry in rest.split(", "):
            name, _, digits = entry.rpartition(" ")
            while name in sums:
                name += "'"
            sums[name] = digits
        found[owner] = sums
    return found


def differences(kept: dict[str, dict[str, str]], now: dict[str, dict[str, str]]) -> Iterator[tuple[str, str]]:
    """Yields each owner that differs, with a line for each of its clauses that was dropped, added or changed."""
    for owner in sorted(kept.keys() | now.keys()):
        before, after = kept.get(owner, {}), now.get(owner, {})
        for name in dict.fromkeys([*before, *after]):
            if before.get(name) != after.get(name):
                what = "dropped" if name not in after else "added" if name not in before else "changed"
                yield owner, f"{what}: {owner}: {name}"


def main(words: list[str]) -> int:
    parser = argparse.ArgumentParser(description="Prints the public clauses, or compares them with tools/clauses.txt.")
    parser.add_argument("--top", type=Path, default=Path(__file__).resolve().parent.parent)
    way = parser.add_mutually_exclusive_group()
    for flag in ("--check", "--changed", "--update"):
        way.add_argument(flag, action="store_true")
    chosen = parser.parse_args(words)
    file = chosen.top / "tools/clauses.txt"
    found = all_owners(chosen.top)
    count = sum(len(owner.clauses) for owner in found)
    if chosen.update:
        file.write_text("".join(f"{owner.line()}\n" for owner in found), encoding="utf-8")
        print(f"{count} public clauses of {len(found)} functions and types written")
    elif chosen.check or chosen.changed:
        try:
            kept = parsed(file.read_text(encoding="utf-8").splitlines())
        except OSError as error:
            print(f"clauses.py: {file}: {error.strerror}", file=sys.stderr)
            return 2
        changes = list(differences(kept, parsed([owner.line() for owner in found])))
        if chosen.changed:
            print(*sorted({owner.split()[0] for owner, _ in changes}), sep="\n", end="\n" if changes else "")
            return 0
        texts = {f"{owner.crate} {owner.path}": owner for owner in found}
        for path, line in changes:
            print(line)
            for name, text in texts[path].clauses if path in texts else []:
                if line.endswith(f": {name}"):
                    print(f"    {text}")
        how = f", except {len(changes)} that were dropped, added or changed: docs/developing.md, \"Adding\"" if changes else ""
        print(f"{count} public clauses, as tools/clauses.txt has them{how}")
        return 1 if changes else 0
    else:
        for owner in found:
            print(*(f"{owner.crate} {owner.path}: {text}" for _, text in owner.clauses), sep="\n")
    return 0


if __name__ == "__main__":
    sys.exit(main(sys.argv[1:]))
