#!/usr/bin/env python3
"""Counts the words of the documents, and their sentences.

Usage: tools/checks/words.py [--long N] [FILE ..], by default README.md, docs/*.md, crates/README.md and python/README.md. For each document it
prints the words, which have a letter or a digit, and the mean and the greatest number of words of its sentences; last a line for all. Blocks
of code and rows of tables count as words and not as sentences. With `--long N`, each sentence of more than N words is printed too.
"""
import argparse
import re
from pathlib import Path

TOP = Path(__file__).resolve().parents[2]
END_OF_SENTENCE = re.compile(r"(?<=[.:?!])[)\"”]*\s+(?=[A-Z0-9`*\[(\"])")
BEGINS_ITEM = re.compile(r"\s*([-*]|\d+\.)\s")


def paragraphs(text: str) -> list[str]:
    """Returns the paragraphs and list items of a document, without blocks of code, tables and headings."""
    found: list[str] = []
    in_code = is_open = False
    for line in text.splitlines():
        if line.lstrip().startswith("```"):
            in_code, is_open = not in_code, False
        elif in_code or not line.strip() or line.startswith(("#", "|", "![")):
            is_open = False
        elif is_open and not BEGINS_ITEM.match(line):
            found[-1] += " " + line.strip()
        else:
            found.append(line.strip())
            is_open = True
    return found


def sentences(text: str) -> list[str]:
    """Returns the sentences of a document; what follows a colon and begins with a capital letter is a sentence of its own."""
    return [sentence for paragraph in paragraphs(text) for sentence in END_OF_SENTENCE.split(paragraph) if sentence]


def words_in(text: str) -> int:
    """Returns the number of words: the bars and dashes of a table are none."""
    return sum(any(map(str.isalnum, word)) for word in text.split())


def main() -> None:
    parser = argparse.ArgumentParser(description="Counts the words of the documents, and their sentences.")
    parser.add_argument("--long", type=int, metavar="N", help="print each sentence of more than N words")
    parser.add_argument("files", nargs="*", type=Path)
    chosen = parser.parse_args()
    beside = [TOP / "crates/README.md", TOP / "python/README.md"]
    files = chosen.files or [TOP / "README.md", *sorted((TOP / "docs").glob("*.md")), *beside]
    print(f"{'document':24} {'words':>6} {'mean':>5} {'longest':>8}")
    words_of_all, lengths_of_all = 0, [0]
    for file in files:
        text = file.read_text(encoding="utf-8")
        lengths = [words_in(sentence) for sentence in sentences(text)] or [0]
        words = words_in(text)
        name = file.relative_to(TOP) if file.is_relative_to(TOP) else file
        print(f"{name!s:24} {words:6} {sum(lengths) / len(lengths):5.1f} {max(lengths):8}")
        if chosen.long is not None:
            for sentence in sentences(text):
                if words_in(sentence) > chosen.long:
                    print(f"    {words_in(sentence)}: {sentence}")
        words_of_all += words
        lengths_of_all += lengths
    print(f"{'all':24} {words_of_all:6} {sum(lengths_of_all) / len(lengths_of_all):5.1f} {max(lengths_of_all):8}")


if __name__ == "__main__":
    main()
