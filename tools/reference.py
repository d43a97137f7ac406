"""Writes docs/reference.md, share/strip122.1 and share/strip122.bash from what `strip122 help` prints, and from share/advice.md."""
import argparse
import pathlib
import re
import subprocess
import sys
from dataclasses import dataclass

TOP = pathlib.Path(__file__).resolve().parent.parent
ADVICE = TOP / "share" / "advice.md"
KEY_LINE = re.compile(r"  (?P<name>[a-z]+)=(?P<values>.*) \((?P<default>[^()]*)\)$")


@dataclass(frozen=True)
class Key:
    """A key as the help of a command has it."""

    name: str
    values: str
    default: str
    meaning: str


@dataclass(frozen=True)
class Command:
    """A command as its help has it."""

    name: str
    meaning: str
    keys: tuple[Key, ...]
    example: str


class Wrong(Exception):
    """What is read isn't as it should be."""


def help_text(program: str, *words: str) -> str:
    """Returns what the program prints for `help` and these words."""
    done = subprocess.run([program, "help", *words], capture_output=True, text=True, check=False)
    if done.returncode != 0:
        raise Wrong(f"{program} help {' '.join(words)}: status {done.returncode}: {done.stderr.strip()}")
    return done.stdout


def read_command(program: str, name: str) -> Command:
    """Returns a command from its help."""
    lines = help_text(program, name).splitlines()
    if not lines or not lines[0].startswith(name + " "):
        raise Wrong(f"the help on {name} doesn't begin with its name")
    keys = []
    for line, meaning in zip(lines, lines[1:]):
        found = KEY_LINE.match(line)
        if found:
            keys.append(Key(found["name"], found["values"], found["default"], meaning.strip()))
    return Command(name, lines[0][len(name) :].strip(), tuple(keys), lines[-1].removeprefix("example: "))


def read_commands(program: str) -> list[Command]:
    """Returns all commands of the page, in its order."""
    page = help_text(program)
    table = page.split("\n\n")[1].splitlines()
    return [read_command(program, line.split()[0]) for line in table]


def key_order(program: str) -> list[str]:
    """Returns the keys in the order of the page."""
    return [found["name"] for line in help_text(program).splitlines() if (found := re.match(r"  (?P<name>[a-z]+)=", line))]


def read_advice(keys: list[str]) -> dict[str, str]:
    """Returns the advice on each key, which has to be there for exactly these keys."""
    parts = re.split(r"^## (.*)$", ADVICE.read_text(encoding="utf-8"), flags=re.M)
    advice = {name: text.strip() for name, text in zip(parts[1::2], parts[2::2])}
    if sorted(advice) != sorted(keys):
        raise Wrong(f"{ADVICE}: it has advice on {sorted(advice)}, and the keys are {sorted(keys)}")
    return advice


def find_key(commands: list[Command], name: str) -> Key:
    """Returns a key as the first command has it that has a default for it."""
    found = [key for command in commands for key in command.keys if key.name == name]
    return next((key for key in found if key.default != "all"), found[0])


def shown_default(key: Key) -> str:
    return "required" if key.default == "required" else f"`{key.default}`"


def reference(commands: list[Command], keys: list[str], advice: dict[str, str]) -> str:
    """Returns docs/reference.md."""
    lines = [
        "# Commands and keys",
        "",
        "This document has all commands and all keys of `strip122`, with the effect of each key and when to change it. `tools/reference.sh` makes it "
        "from what `strip122 help` prints and from `share/advice.md`. `strip122 help encode` has the keys of a command and an example. "
        "[statuses.md](statuses.md) has the statuses and the notes.",
        "",
        "## Commands",
        "",
        "| command | what it does |",
        "|---|---|",
        *[f"| `{command.name}` | {command.meaning} |" for command in commands],
        "",
        "After the command each argument is `key=value`, in any order, each key at most once. Numbers are decimal, without a sign and without "
        "leading zeros.",
        "",
        "## Keys",
    ]
    for name in keys:
        key = find_key(commands, name)
        having = [f"`{command.name}`" for command in commands if name in [own.name for own in command.keys]]
        lines += ["", f"### {name}", "", f"`{name}={key.values}`, {shown_default(key)}: {key.meaning}. For {', '.join(having)}.", "", advice[name]]
    return "\n".join(lines) + "\n"


def roff(text: str) -> str:
    """Returns a text for a manual page."""
    return text.replace("\\", "\\e").replace("-", "\\-").replace("'", "\\(aq")


def manual(commands: list[Command], keys: list[str], version: str) -> str:
    """Returns share/strip122.1."""
    lines = [
        f'.TH STRIP122 1 "" "strip122 {version}" "User Commands"',
        ".SH NAME",
        "strip122 \\- image coder after CCSDS 122.0\\-B\\-2, with packets of its own",
        ".SH SYNOPSIS",
        ".B strip122",
        ".I COMMAND",
        ".RI [ KEY = VALUE ]...",
        ".br",
        ".B strip122 help",
        ".RI [ COMMAND \" | \" KEY ]",
        ".br",
        ".B strip122 version",
        ".SH DESCRIPTION",
        "Encodes a raster into space packets while its rows arrive, and decodes the packets that are received. Commands read standard input and write "
        "standard output; each status except 0 has a note on standard error.",
        ".SH COMMANDS",
    ]
    for command in commands:
        own = ", ".join(key.name for key in command.keys)
        lines += [".TP", f".B {roff(command.name)}", roff(f"{command.meaning}."), ".br", roff(f"Keys: {own}."), ".br", roff(command.example)]
    lines.append(".SH KEYS")
    for name in keys:
        key = find_key(commands, name)
        lines += [".TP", f".BI {name}= {roff(key.values).replace(' ', chr(92) + ' ')}", roff(f"{key.meaning} ({key.default}).")]
    lines += [
        ".SH EXIT STATUS",
        "0 done; 1 rows are damaged, the height is unknown or the packets can\\(aqt be read on; 2 bad words; 3 bad input; 4 read fault; 5 write fault; 6 no memory.",
    ]
    return "\n".join(lines) + "\n"


def completion(commands: list[Command], keys: list[str]) -> str:
    """Returns share/strip122.bash."""
    names = " ".join(command.name for command in commands)
    lines = [
        "# Completion of strip122 for bash. tools/reference.sh makes it from what `strip122 help` prints.",
        "_strip122() {",
        "    local word=${COMP_WORDS[COMP_CWORD]} keys= key given",
        "    COMPREPLY=()",
        "    if [ \"$COMP_CWORD\" = 1 ]; then",
        f'        COMPREPLY=($(compgen -W "{names} help version" -- "$word"))',
        "        return",
        "    fi",
        "    case ${COMP_WORDS[1]} in",
    ]
    for command in commands:
        lines.append(f'        {command.name}) keys="{" ".join(key.name for key in command.keys)}" ;;')
    lines += [
        "        help)",
        f'            [ "$COMP_CWORD" = 2 ] && COMPREPLY=($(compgen -W "{names} {" ".join(keys)}" -- "$word"))',
        "            return",
        "            ;;",
        "    esac",
        "    for key in $keys; do",
        "        for given in \"${COMP_WORDS[@]:2}\"; do",
        "            [ \"$given\" = \"$key\" ] && [ \"$given\" != \"$word\" ] && continue 2",
        "        done",
        "        [[ $key= == \"$word\"* ]] && COMPREPLY+=(\"$key=\")",
        "    done",
        "    compopt -o nospace 2>/dev/null",
        "}",
        "complete -F _strip122 strip122",
    ]
    return "\n".join(lines) + "\n"


def main() -> int:
    parser = argparse.ArgumentParser(description=__doc__)
    parser.add_argument("program", help="the program, whose help is read")
    parser.add_argument("--check", action="store_true", help="compare the files with what they should be, and write nothing")
    given = parser.parse_args()
    try:
        commands = read_commands(given.program)
        keys = key_order(given.program)
        version = (TOP / "VERSION").read_text(encoding="utf-8").strip()
        made = {
            TOP / "docs" / "reference.md": reference(commands, keys, read_advice(keys)),
            TOP / "share" / "strip122.1": manual(commands, keys, version),
            TOP / "share" / "strip122.bash": completion(commands, keys),
        }
    except (Wrong, OSError) as wrong:
        print(f"tools/reference.py: {wrong}", file=sys.stderr)
        return 1
    differ = [path for path, text in made.items() if not path.is_file() or path.read_text(encoding="utf-8") != text]
    for path in differ:
        if given.check:
            print(f"{path.relative_to(TOP)} isn't what tools/reference.sh makes", file=sys.stderr)
        else:
            path.write_text(made[path], encoding="utf-8")
            print(f"wrote {path.relative_to(TOP)}")
    return 1 if given.check and differ else 0


if __name__ == "__main__":
    sys.exit(main())
