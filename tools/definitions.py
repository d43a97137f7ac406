#!/usr/bin/env python3
"""Counts the definitions that the clauses of `run` rest on, by crate: files and lines of specs/, without imports and comments.

Usage: tools/definitions.py [--list] [FILE ..], where the files are sources whose clauses are followed; by default that of `run`.

A definition counts if a clause names it, or a definition that counts does. Beside these lines are those of the whole files that they are
in and that these import. With --list each definition is printed with its lines. Types that the code declares are not counted.
"""

import re
import sys
from dataclasses import dataclass, field
from pathlib import Path

sys.dont_write_bytecode = True
from blocks import IMPORT, MODULE, TOP, WORD, Block, blocks_of, crate_of

DATA = re.compile(r"^\s*(?:pub )?data ")
VARIANT = re.compile(r"^\s+(\S+) : ")
CLAUSE = re.compile(r"^\s*(?:ensures|requires|invariant)\b")


def spec_file(crate: str, module: str) -> Path:
    return TOP / "crates" / crate / Path(*module.split(".")).with_suffix(".antt")


@dataclass
class Source:
    """A file of definitions or code: its declarations by name, and what each name that it imports is."""

    blocks: dict[str, list[Block]]
    imported: dict[str, tuple[Path, str]] = field(default_factory=dict)
    modules: dict[str, Path] = field(default_factory=dict)

    @staticmethod
    def read(path: Path) -> "Source":
        """Reads a file; the code's own declarations don't count."""
        blocks: dict[str, list[Block]] = {}
        for block in blocks_of(path) if path.suffix == ".antt" else []:
            names = [block.name]
            if DATA.match(block.text[0]):
                names += [match[1] for line in block.text[1:] if (match := VARIANT.match(line))]
            for name in names:
                blocks.setdefault(name, []).append(block)
        source = Source(blocks)
        for line in path.read_text(encoding="utf-8").splitlines():
            if match := IMPORT.match(line):
                for part in match[3].split(","):
                    name, _, other = part.strip().partition(" as ")
                    source.imported[other or name] = spec_file(match[1], match[2]), name
            elif match := MODULE.match(line):
                source.modules[match[3]] = spec_file(match[1], match[2])
        return source

    def named(self, path: Path, words: set[str]) -> set[tuple[Path, str]]:
        """The definitions that some words of this file name."""
        found = {(path, word) for word in words if word in self.blocks}
        return found | {self.imported[word] for word in words if word in self.imported and self.imported[word][0].is_file()}

    def qualified(self, text: str) -> set[tuple[Path, str]]:
        return {(file, name) for module, file in self.modules.items() if file.is_file() for name in re.findall(rf"\b{module}\.([^\s(){{}},;.]+)", text)}


def clause_text(path: Path) -> str:
    """The clauses of a source, each with the lines on which it goes on."""
    kept, open_braces = [], 0
    for line in path.read_text(encoding="utf-8").splitlines():
        if open_braces or CLAUSE.match(line):
            kept.append(line)
            open_braces += line.count("{") - line.count("}")
    return "\n".join(kept)


def reached(paths: list[Path]) -> dict[tuple[Path, str], list[Block]]:
    """The definitions that the clauses of these sources rest on."""
    read: dict[Path, Source] = {}

    def source_of(path: Path) -> Source:
        if path not in read:
            read[path] = Source.read(path)
        return read[path]

    waiting: set[tuple[Path, str]] = set()
    for path in paths:
        text = clause_text(path)
        waiting |= source_of(path).named(path, set(WORD.findall(text))) | source_of(path).qualified(text)
    seen: dict[tuple[Path, str], list[Block]] = {}
    while waiting:
        path, name = waiting.pop()
        if (path, name) in seen:
            continue
        source = source_of(path)
        seen[path, name] = source.blocks.get(name, [])
        for block in seen[path, name]:
            text = "\n".join(block.text)
            waiting |= {(path, block.name)} - seen.keys()
            waiting |= (source.named(path, set(block.words())) | source.qualified(text)) - seen.keys()
    return seen


def imported_files(paths: list[Path]) -> set[Path]:
    """The files of definitions that the sources import, directly or not."""
    seen: set[Path] = set()
    waiting = list(paths)
    while waiting:
        source = Source.read(waiting.pop())
        for file in {file for file, _ in source.imported.values()} | set(source.modules.values()):
            if file.is_file() and file not in seen and "specs" in file.parts:
                seen.add(file)
                waiting.append(file)
    return seen


def lines_of(path: Path) -> int:
    """The lines of a file that are neither empty, nor an import, nor a comment."""
    lines = (line.strip() for line in path.read_text(encoding="utf-8").splitlines())
    return sum(1 for line in lines if line and not line.startswith(("use ", "--")))


def main() -> None:
    paths = [Path(word).resolve() for word in sys.argv[1:] if not word.startswith("--")] or [TOP / "crates/strip122/src/top.rt"]
    found = reached(paths)
    whole = imported_files(paths)
    # a variant of a type is not counted again beside the type
    size = {(path, name): sum(len(block.text) for block in blocks if block.name == name) for (path, name), blocks in found.items()}
    for crate in sorted({crate_of(path) for path, _ in found}):
        own = [key for key in found if crate_of(key[0]) == crate]
        files = {path for path, _ in own}
        print(f"{crate:16} {len(files):4} files {sum(size[key] for key in own):6} lines, {sum(map(lines_of, files)):6} in the whole files")
        for path, name in sorted(key for key in own if size[key]) if "--list" in sys.argv else []:
            print(f"    {path.relative_to(TOP / 'crates')} {name} ({size[path, name]})")
    files = {path for path, _ in found}
    print(f"{'all':16} {len(files):4} files {sum(size.values()):6} lines, {sum(map(lines_of, whole)):6} in the {len(whole)} files that are imported")


if __name__ == "__main__":
    main()
