#!/usr/bin/env python3
"""Checks that no function has more than five parameters, `self` among them: what belongs together is a struct. Calls for C are excepted.

Usage: tools/checks/parameters.py [TOP], where TOP is the top of a repository, by default this one. It reads crates/*/src, prints each
fault, and then how many functions were read; ends with status 1 if there is a fault.
"""

import re
import sys
from collections.abc import Iterator
from pathlib import Path

MOST_PARAMETERS = 5

# A public call that keeps its signature.
KEPT = {"gaggle_codes::put_values"}

# Functions that are still to be changed.
LEFT: set[str] = {
    "plane_coder::put_again",
    "plane_coder::put_gaggle",
    "plane_reader::take_types",
    "segment_code::decode_items",
    "strip122::compare",
    "strip122::ended",
    "strip122::fail_at",
}

COMMENT = re.compile(r"//[^\n]*")
HEAD = re.compile(r"\b(?P<abi>extern \"C\" )?fn (?P<name>\w+)")
OPEN, CLOSE = "([{<", ")]}>"


def bracketed(text: str, start: int) -> str:
    """What is between the bracket at this place and the one that closes it. The `>` of an arrow closes none."""
    depth = 0
    for at in range(start, len(text)):
        if text[at] in OPEN:
            depth += 1
        elif text[at] in CLOSE and text[at - 1 : at + 1] not in ("->", "=>"):
            depth -= 1
            if depth == 0:
                return text[start + 1 : at]
    return ""


def parts_of(text: str) -> list[str]:
    """The parts between the commas that no bracket encloses."""
    parts, depth = [""], 0
    for at, letter in enumerate(text):
        if letter in OPEN:
            depth += 1
        elif letter in CLOSE and text[at - 1 : at + 1] not in ("->", "=>"):
            depth -= 1
        if letter == "," and depth == 0:
            parts.append("")
        else:
            parts[-1] += letter
    return [part for part in parts if part.strip()]


def functions_of(text: str) -> Iterator[tuple[int, str, bool, int]]:
    """The functions of a source: the line, the name, whether it is for C, and the number of parameters."""
    text = COMMENT.sub("", text)
    for head in HEAD.finditer(text):
        at = head.end()
        if text[at : at + 1] == "<":
            at += len(bracketed(text, at)) + 2
        if text[at : at + 1] == "(":
            yield text.count("\n", 0, head.start()) + 1, head["name"], bool(head["abi"]), len(parts_of(bracketed(text, at)))


def main() -> None:
    top = Path(sys.argv[1]) if len(sys.argv) > 1 else Path(__file__).resolve().parents[2]
    count, faults = 0, 0
    for path in sorted(top.glob("crates/*/src/**/*.rt")):
        crate = path.relative_to(top).parts[1]
        for line, name, for_c, parameters in functions_of(path.read_text(encoding="utf-8")):
            count += 1
            called = f"{crate}::{name}"
            if parameters <= MOST_PARAMETERS or called in LEFT | KEPT or for_c:
                continue
            print(f"{path}:{line}: {name} has {parameters} parameters")
            faults += 1
    print(f"{count} functions, {faults} with more than {MOST_PARAMETERS} parameters")
    sys.exit(1 if faults else 0)


if __name__ == "__main__":
    main()
