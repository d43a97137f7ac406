"""The declarations of proof files, as text: tools/definitions.py and tools/checks/lemmas.py read them."""

import re
from collections import Counter
from dataclasses import dataclass, field
from pathlib import Path

TOP = Path(__file__).resolve().parent.parent
NAME = r"[^\s(){}\[\],;:.]+"
DECLARED = re.compile(rf"^(?:(?:abbrev|unfoldable|pub) )*(?:(?:record|data) ({NAME}) (?:[({{]|: Type)|({NAME}) : )")
WORD = re.compile(r"[^\s(){}\[\],;.]+")
IMPORT = re.compile(r"^\s*(?:pub )?(?:ghost )?use Rattle\.(\w+)\.((?:specs|proofs)\.[\w.]+?)\.\{(.*)\};?$")
MODULE = re.compile(r"^\s*(?:pub )?(?:ghost )?use Rattle\.(\w+)\.([\w.]+) as (\w+);?$")


@dataclass
class Block:
    """A declaration with its equations, and the words in them."""

    name: str
    file: Path
    line: int
    text: list[str] = field(default_factory=list)

    def words(self) -> Counter:
        return Counter(word for line in self.text for word in WORD.findall(line))

    def statement(self) -> str:
        """The type, without names of variables' order or spaces: what two copies share."""
        joined = " ".join(line.strip() for line in self.text)
        return re.sub(r"\s+", " ", joined.split(" : ", 1)[-1].split(f" {self.name} ")[0]) if " : " in joined else ""


def crate_of(file: Path) -> str:
    return file.relative_to(TOP / "crates").parts[0]


def indent_of(line: str) -> int:
    return len(line) - len(line.lstrip())


def blocks_of(file: Path) -> list[Block]:
    """The declarations of a file, those of its modules and `where` parts too; fields of records belong to the record."""
    blocks: list[Block] = []
    record = None
    heading = False  # whether the line belongs to the heading of a module, or to a set of rules
    for number, line in enumerate(file.read_text(encoding="utf-8").splitlines(), 1):
        text = line.strip()
        if record is not None and text and indent_of(line) <= record:
            record = None
        heading = heading or text.startswith(("module ", "ruleset ", "pub ruleset "))
        if heading:
            heading = not text.endswith(("where", ")"))
            continue
        if not text or text == "where" or text.startswith(("--", "use ", "pub mod ", "mod ", "where ", "unfolding ")):
            continue
        match = DECLARED.match(text) if record is None else None
        if match and (not blocks or (match[1] or match[2]) != blocks[-1].name):
            if re.match(r"(pub )?(record|data) ", text):
                record = indent_of(line)
            blocks.append(Block(match[1] or match[2], file, number))
        if blocks:
            blocks[-1].text.append(line)
    return blocks
