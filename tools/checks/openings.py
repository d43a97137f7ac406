#!/usr/bin/env python3
"""Checks that the examples at the head of crates are lines of crates/crate_examples, which are proved and tested.

An example is a block of `//! ```rust` in a crate's src/lib.rt. Its lines, without indentation, are consecutive lines of one file of
crates/crate_examples/src. Ends with status 1 if an example isn't found, or if a crate of the list has none.
"""
import sys
from pathlib import Path

ROOT = Path(__file__).resolve().parents[2]
CRATES = ["base_122", "bit_pipe", "packet_assembly", "segment_code", "strip_coder", "strip_decoder"]


def examples(path):
    """Returns the blocks of code in the first comment of a file, each as a list of lines without indentation."""
    blocks, block = [], None
    for line in path.read_text().splitlines():
        if not line.startswith("//!"):
            break
        text = line[3:].strip()
        if text == "```rust":
            block = []
        elif text == "```" and block is not None:
            blocks.append(block)
            block = None
        elif block is not None:
            block.append(text)
    return blocks


def main():
    sources = [[line.strip() for line in path.read_text().splitlines()] for path in (ROOT / "crates/crate_examples/src").glob("*.rt")]
    failed = 0
    for crate in CRATES:
        blocks = examples(ROOT / "crates" / crate / "src/lib.rt")
        if not blocks:
            print(f"openings.py: {crate} has no example")
            failed = 1
        for block in blocks:
            if not any(source[i:i + len(block)] == block for source in sources for i in range(len(source))):
                print(f"openings.py: the example of {crate} is not in crate_examples: {block[0]}")
                failed = 1
    print(f"{len(CRATES)} openings are lines of crate_examples" if not failed else "openings.py: failed")
    sys.exit(failed)


if __name__ == "__main__":
    main()
