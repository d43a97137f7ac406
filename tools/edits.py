#!/usr/bin/env python3
"""Checks by text that each edit can be applied: those of crates/NAME/must-fail, and those of edits/NAME.

Usage: tools/edits.py [TOP], where TOP is the top of a repository, by default this one. An edit names a file of its crate by a line
'file: PATH', and has pairs of lines 'old: TEXT' and 'new: TEXT'. Each old text has to be in that file exactly once, after the pairs
before it. Prints each edit that can't be applied, and then how many there are; ends with status 1 if there is such an edit.
"""

import sys
from collections.abc import Iterator
from pathlib import Path

TOP = Path(__file__).resolve().parent.parent


def edits(top: Path) -> Iterator[tuple[str, Path]]:
    """Yields all edits, each with the name of its crate."""
    for path in sorted(top.glob("crates/*/must-fail/*")):
        yield path.parent.parent.name, path
    for path in sorted(top.glob("edits/*/*")):
        yield path.parent.name, path


def edited(edit: Path, crate: Path) -> tuple[dict[Path, str], str | None]:
    """Returns the texts of the files that an edit of the crate in that folder changes, and why it can't be applied, or None if it can."""
    file, old, pairs = None, None, 0
    texts: dict[Path, str] = {}
    if edit.suffix != ".edit":
        return texts, "the name of an edit ends in .edit"
    for line in edit.read_text(encoding="utf-8").splitlines():
        word, _, text = line.partition(":")
        text = text.removeprefix(" ")
        match word:
            case "file":
                file = crate / text
                if not file.is_file():
                    return texts, f"{crate.name} has no file {text}"
                texts.setdefault(file, file.read_text(encoding="utf-8"))
            case "old" if file:
                if (count := texts[file].count(text)) != 1:
                    return texts, f"'{text.strip()}' is in {file.relative_to(crate)} {count} times, and not once"
                old = text
            case "new" if file and old:
                if text == old:
                    return texts, f"'{text.strip()}' stays as it is"
                texts[file] = texts[file].replace(old, text)
                old, pairs = None, pairs + 1
            case _:
                return texts, f"a line that is out of place: {line}"
    return texts, None if pairs and old is None else "an 'old:' line without its 'new:' line, or no pair at all"


def main(words: list[str]) -> int:
    top = Path(words[0]) if words else TOP
    found = list(edits(top))
    faults = [(path, fault) for crate, path in found if (fault := edited(path, top / "crates" / crate)[1])]
    for path, fault in faults:
        print(f"edits.py: {path.relative_to(top)}: {fault}", file=sys.stderr)
    print(f"{len(found)} edits, of which {len(found) - len(faults)} can be applied")
    return 1 if faults else 0


if __name__ == "__main__":
    sys.exit(main(sys.argv[1:]))
