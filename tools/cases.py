#!/usr/bin/env python3
"""Runs the cases of a folder on a program: tools/cases.py [--small] PROGRAM FOLDER [NAME ..]. The head of tools/test.sh describes a case.

Each case that isn't passed has a line that says what differs. The last line is `N passed, M failed`; the status is 0 if none failed.
"""

from __future__ import annotations

import json
import os
import re
import subprocess
import sys
import tempfile
from collections.abc import Iterator
from concurrent.futures import ProcessPoolExecutor
from dataclasses import dataclass, replace
from functools import partial
from pathlib import Path

import runs
from runs import BIG, SECONDS, Call, Counter, Left

PIECES = (1, 7, BIG)  # input of more octets than the greatest has is given in that alone
COUNTS = {"asked", "calls", "faults"}  # files of further runs, of which each call is counted
FILES = COUNTS | {"args", "big", "endless", "runs", "stdin", "stdin.hex", "stdout", "stdout.hex", "stderr", "status", "streams", "taken", "why"}
STREAMS = {
    ("stdin", "folder"),
    ("stdout", "full"),
    ("stdout", "broken"),
    ("stderr", "full"),
    ("stderr", "broken"),
}


class BadCase(Exception):
    """A case that can't be run: what is wrong in which file."""


# The text form of octets.

TOKEN = re.compile(
    r"""(?:\s|\#[^\n]*)+
    | @(?P<name>[a-z0-9-]+)
    | (?P<text>"(?:[^"\\]|\\.)*")
    | \*(?P<times>\d+)
    | \[(?P<first>\d*):(?P<end>\d*)\]
    | \{(?P<changes>(?:\s*(?:\d+=)?[0-9A-Fa-f]{2}(?![\w=]))+\s*)\}
    | made\((?P<made>\d+(?:\ \d+){4})\)
    | (?P<octet>[0-9A-Fa-f]{2})(?!\w)
    | (?P<paren>[()])""",
    re.VERBOSE,
)


def made_image(width: int, rows: int, depth: int, signed: int, seed: int) -> bytes:
    """The raster of the made image (docs/formats.md, "Raster and made image")."""
    raster = bytearray()
    least = 1 << (depth - 1) if signed else 0
    size = 1 if depth <= 8 else 2
    for i in range(rows):
        for j in range(width):
            t = (3 * i + 5 * j + seed) % 512
            s = t if t < 256 else 511 - t
            n = (1664525 * i + 22695477 * j + 1013904223 * seed) % 2**32 // 2**24
            value = (15 * s + n) * 2**depth // 4096 - least
            raster += (value % 256**size).to_bytes(size, "big")
    return bytes(raster)


def changed(octets: bytes, changes: str) -> bytes:
    """The octets with others in some places: PLACE=OCTET, and an octet without a place follows the one before it."""
    result = bytearray(octets)
    place = -1
    for word in changes.split():
        at, _, octet = word.rpartition("=")
        place = int(at) if at else place + 1
        if not 0 <= place < len(result):
            raise BadCase(f"no octet has the place of {word}")
        result[place] = int(octet, 16)
    return bytes(result)


class Octets:
    """Reads the text form. Named octets are those of the files NAME.hex of a folder."""

    def __init__(self, folder: Path) -> None:
        self.folder = folder
        self.named: dict[str, bytes] = {}

    def of_file(self, file: Path) -> bytes:
        try:
            return self.of_text(file.read_text(encoding="ascii"))
        except (BadCase, UnicodeDecodeError) as error:
            raise BadCase(f"{file}: {error}") from None

    def of_name(self, name: str) -> bytes:
        if name not in self.named:
            file = self.folder / f"{name}.hex"
            if not file.is_file():
                raise BadCase(f"there is no file {file}")
            self.named[name] = self.of_file(file)
        return self.named[name]

    def of_text(self, text: str) -> bytes:
        """The items of a text, one after another. A suffix changes the item before it, and a group is an item."""
        groups: list[list[bytes]] = [[]]
        at = 0
        while at < len(text):
            token = TOKEN.match(text, at)
            if not token:
                raise BadCase(f"can't be read from {text[at : at + 20]!r} on")
            at = token.end()
            kind = token.lastgroup
            if token["paren"] == "(":
                groups.append([])
            elif token["paren"] == ")":
                if len(groups) == 1:
                    raise BadCase("a parenthesis closes no group")
                group = b"".join(groups.pop())
                groups[-1].append(group)
            elif kind in ("times", "end", "changes"):
                if not groups[-1]:
                    raise BadCase(f"{token[0]} follows no item")
                groups[-1].append(self.suffixed(groups[-1].pop(), token))
            elif kind:
                groups[-1].append(self.item(token))
        if len(groups) > 1:
            raise BadCase("a group isn't closed")
        return b"".join(groups[0])

    def suffixed(self, octets: bytes, token: re.Match[str]) -> bytes:
        if token["times"]:
            return octets * int(token["times"])
        if token["changes"]:
            return changed(octets, token["changes"])
        first, end = int(token["first"] or 0), int(token["end"] or len(octets))
        if not first <= end <= len(octets):
            raise BadCase(f"{token[0]} isn't within {len(octets)} octets")
        return octets[first:end]

    def item(self, token: re.Match[str]) -> bytes:
        if token["name"]:
            return self.of_name(token["name"])
        if token["text"]:
            return str(json.loads(token["text"])).encode()
        if token["made"]:
            width, rows, depth, signed, seed = map(int, token["made"].split())
            return made_image(width, rows, depth, signed, seed)
        return bytes.fromhex(token["octet"])


# Cases.


@dataclass(frozen=True)
class Run:
    """The arguments of a run. It reads these places of the input, or of what the run before it wrote; without places, all of it."""

    args: tuple[bytes, ...]
    places: tuple[slice, ...] = ()

    def part(self, octets: bytes) -> bytes:
        return b"".join(octets[it] for it in self.places) if self.places else octets


@dataclass(frozen=True)
class Counted:
    """How the calls of a run are counted: in pieces of one size, and the call of a number fails or, in turn, each.

    `asked` has what is given as a read call begins: from TAKEN octets taken on, GIVEN octets.
    """

    piece: int
    failing: int = -1
    in_turn: bool = False
    asked: tuple[tuple[int, int], ...] = ()


@dataclass(frozen=True)
class Case:
    """What is run on which input, and all that the last run must leave. The runs before it must end with status 0 and no note."""

    name: str
    runs: tuple[Run, ...]
    stdin: bytes
    stdout: bytes
    stderr: bytes
    status: int
    taken: int | None = None
    streams: tuple[tuple[str, str], ...] = ()
    endless: bool = False
    counted: Counted | None = None

    def is_long(self) -> bool:
        """Whether it takes hundreds of runs."""
        return self.counted is not None and self.counted.in_turn and self.counted.piece == PIECES[0]


def lines_of(file: Path) -> list[bytes]:
    """The lines of a file. Each has an end."""
    octets = file.read_bytes()
    if octets and not octets.endswith(b"\n"):
        raise BadCase(f"{file}: the last line has no end")
    return octets.split(b"\n")[:-1]


def number_of(file: Path) -> int:
    lines = lines_of(file)
    if len(lines) != 1 or not lines[0].isdigit():
        raise BadCase(f"{file}: not one number")
    return int(lines[0])


def octets_of(folder: Path, name: str, octets: Octets) -> bytes:
    """The octets of a stream: those of the file of this name, those that NAME.hex describes, or none."""
    raw, text = folder / name, folder / f"{name}.hex"
    if raw.is_file() and text.is_file():
        raise BadCase(f"{folder}: both {name} and {name}.hex")
    if raw.is_file():
        return raw.read_bytes()
    return octets.of_file(text) if text.is_file() else b""


def streams_of(file: Path) -> tuple[tuple[str, str], ...]:
    streams = []
    for line in lines_of(file):
        name, _, kind = line.decode("ascii", "replace").partition(" ")
        if (name, kind) not in STREAMS:
            raise BadCase(f"{file}: no such stream: {name} {kind}")
        streams.append((name, kind))
    return tuple(streams)


def runs_of(file: Path) -> tuple[Run, ...]:
    """The runs in the lines of a file: an argument is a line, and a line `|`, with the places that go on, begins another run."""
    found = [Run(())]
    for line in lines_of(file):
        last = found[-1]
        if not re.fullmatch(rb"\|( \d*:\d*)*", line):
            found[-1] = replace(last, args=(*last.args, line))
            continue
        ends = [[int(it) if it else None for it in word.split(b":")] for word in line.split()[1:]]
        found.append(Run((), tuple(slice(*it) for it in ends)))
    return tuple(found)


RUN = re.compile(rb"(?P<args>.*?) *-> (?P<status>\d)(?: (?P<note>.+))?")


def rows_of(file: Path, form: re.Pattern[bytes], name: str) -> Iterator[tuple[int, re.Match[bytes]]]:
    """The lines of a table, each with its number. Empty ones and comments are omitted."""
    for number, line in enumerate(lines_of(file), 1):
        if not line.strip() or line.startswith(b"#"):
            continue
        found = form.fullmatch(line)
        if not found:
            raise BadCase(f"{file}, line {number}: not {name}")
        yield number, found


def table_of(file: Path, base: Case) -> Iterator[Case]:
    """The runs of a table on one input: ARGUMENTS -> STATUS NOTE. One whose status isn't 0 gives nothing."""
    for number, found in rows_of(file, RUN, "ARGUMENTS -> STATUS NOTE"):
        status = int(found["status"])
        words = tuple(found["args"].split(b" ")) if found["args"] else ()
        yield replace(
            base,
            name=f"{base.name}, line {number}",
            runs=(Run(words),),
            status=status,
            stdout=b"" if status else base.stdout,
            stderr=found["note"] + b"\n" if found["note"] else b"",
            taken=0 if status == 2 else base.taken,
        )


CALL = re.compile(rb"(?P<number>\d+)(?: (?P<piece>\d+))? *-> (?P<status>\d) (?P<count>\d+)(?: (?P<note>.+))?")
ASKED = re.compile(rb"(?P<taken>\d+) *-> (?P<given>\d+)")


def note_of(text: bytes | None) -> bytes | None:
    """A note in a table: a line, or in quotes without the end of the line; none if the quotes aren't closed."""
    if not text or not text.startswith(b'"'):
        return text + b"\n" if text else b""
    try:
        return str(json.loads(text)).encode()
    except json.JSONDecodeError:
        return None


def calls_of(file: Path, base: Case) -> Iterator[Case]:
    """The runs of a case in which one call fails: NUMBER PIECE -> STATUS OCTETS NOTE."""
    for number, found in rows_of(file, CALL, "NUMBER PIECE -> STATUS OCTETS NOTE"):
        piece, count, note = int(found["piece"] or BIG), int(found["count"]), note_of(found["note"])
        if not piece:
            raise BadCase(f"{file}, line {number}: a piece of no octets")
        if count > len(base.stdout):
            raise BadCase(f"{file}, line {number}: more octets than the run gives")
        if note is None:
            raise BadCase(f"{file}, line {number}: no note is {found['note'].decode(errors='replace')}")
        yield replace(
            base,
            name=f"{base.name}, calls, line {number}",
            status=int(found["status"]),
            stdout=base.stdout[:count],
            stderr=note,
            counted=Counted(piece, failing=int(found["number"])),
        )


def asked_of(file: Path) -> tuple[tuple[int, int], ...]:
    """The lines TAKEN -> GIVEN of a file. Each has more octets taken than the one before it."""
    steps = [(int(it["taken"]), int(it["given"])) for _, it in rows_of(file, ASKED, "TAKEN -> GIVEN")]
    if not steps or any(first[0] >= next[0] for first, next in zip(steps, steps[1:])):
        raise BadCase(f"{file}: no lines, or not in order")
    return tuple(steps)


def counted_of(folder: Path, files: set[str], case: Case) -> Iterator[Case]:
    """The further runs of a case, of which each call is counted."""
    base = replace(case, taken=None)
    if "calls" in files:
        yield from calls_of(folder / "calls", base)
    for piece in PIECES:
        if "asked" in files:
            counted = Counted(piece, asked=asked_of(folder / "asked"))
            yield replace(base, name=f"{base.name}, asked, in pieces of {piece}", counted=counted)
        if "faults" in files:
            yield replace(base, name=f"{base.name}, faults, in pieces of {piece}", counted=Counted(piece, in_turn=True))


def cases_of(folder: Path, octets: Octets) -> Iterator[Case]:
    """The cases in a folder: one and those of its calls, or those of its table."""
    files = {file.name for file in folder.iterdir()}
    if files - FILES:
        raise BadCase(f"{folder}: no file of a case is {min(files - FILES)}")
    if "why" not in files or ("args" in files) == ("runs" in files):
        raise BadCase(f"{folder}: needs why, and either args or runs")
    if not (folder / "why").read_text(encoding="utf-8").strip():
        raise BadCase(f"{folder / 'why'}: empty")
    for name in sorted(files & {"big", "endless", "faults"}):
        if (folder / name).read_bytes():
            raise BadCase(f"{folder / name}: not empty")
    status = number_of(folder / "status") if "status" in files else 0
    case = Case(
        name=folder.name,
        runs=(),
        stdin=octets_of(folder, "stdin", octets),
        stdout=octets_of(folder, "stdout", octets),
        stderr=(folder / "stderr").read_bytes() if "stderr" in files else b"",
        status=status,
        taken=number_of(folder / "taken") if "taken" in files else 0 if status == 2 else None,
        streams=streams_of(folder / "streams") if "streams" in files else (),
        endless="endless" in files,
    )
    if len(files & {"endless", "streams"}) > 1 or (files & {"endless", "streams"} and files & (COUNTS | {"taken"})):
        raise BadCase(f"{folder}: with endless or streams there is no other way to run it")
    if "args" in files:
        case = replace(case, runs=runs_of(folder / "args"))
        yield case
        yield from counted_of(folder, files, case)
    elif files & (COUNTS | {"endless", "status", "stderr", "streams"}):
        raise BadCase(f"{folder}: runs has the statuses and the notes, and no other way to run it")
    else:
        yield from table_of(folder / "runs", case)


# What a case shows.


def first_difference(found: bytes, wanted: bytes) -> str:
    count = min(len(found), len(wanted))
    at = next((i for i in range(count) if found[i] != wanted[i]), count)
    parts = (part[at : at + 12].hex(" ") or "the end" for part in (found, wanted))
    return "{} octets in place of {}; at {}: {} in place of {}".format(len(found), len(wanted), at, *parts)


def differences(found: Left, case: Case) -> Iterator[str]:
    if found.status != case.status:
        yield f"status {found.status} in place of {case.status}"
    if found.stderr != case.stderr:
        yield f"standard error {found.stderr!r} in place of {case.stderr!r}"
    if found.stdout != case.stdout:
        yield f"standard output: {first_difference(found.stdout, case.stdout)}"
    if None not in (found.taken, case.taken) and found.taken != case.taken:
        yield f"took {found.taken} octets in place of {case.taken}"


def lefts(program: str, case: Case, octets: bytes) -> Iterator[tuple[str, Left]]:
    """What the last run of a case leaves, in each of the ways in which it is run."""
    args = case.runs[-1].args
    if case.streams:
        yield "with these streams", runs.with_streams(program, args, octets, case.streams)
        return
    for piece in PIECES if len(octets) <= BIG else PIECES[-1:]:
        yield f"in pieces of {piece}", runs.in_pieces(program, args, octets, piece, case.endless)
    if case.taken is not None:
        yield "from a file", runs.from_file(program, args, octets)


def not_asked(calls: list[Call], counted: Counted) -> Iterator[str]:
    """What was given as a read call began that isn't what the lines of `asked` say. In the least pieces each line has such a call."""
    steps = counted.asked
    met = set()
    for call in calls:
        line = max((it for it in steps if it[0] <= call.taken), default=(0, 0))
        if steps and call.kind == "read":
            met.add(line)
            if call.given != line[1]:
                yield f"{call.given} octets in place of {line[1]} were given as {call.taken} octets were taken"
                return
    if counted.piece == PIECES[0]:
        yield from (f"no read call after {it[0]} octets" for it in steps if it not in met)


def not_failed(left: Left, call: Call, case: Case) -> Iterator[str]:
    """What a run left in which this call failed that it shouldn't. A failed note changes neither the status nor the output."""
    status, note = {"read": (4, b"strip122: read fault\n"), "write": (5, b"strip122: write fault\n")}.get(call.kind, (case.status, None))
    if left.status != status:
        yield f"status {left.status} in place of {status}"
    if not case.stdout.startswith(left.stdout) or (note is None and left.stdout != case.stdout):
        yield f"standard output: {first_difference(left.stdout, case.stdout)}"
    if left.stderr != note and (note is not None or not case.stderr.startswith(left.stderr)):
        yield f"standard error {left.stderr!r}"


def counted_faults(program: str, case: Case, counted: Counted, octets: bytes, library: str) -> Iterator[str]:
    """What the last run of a case shows that isn't as it should be, if its calls are counted. If each fails in turn, it ends with the first."""
    counter, args = Counter(library, counted.piece), case.runs[-1].args
    whole, calls = counter.run(program, args, octets, counted.failing)
    yield from differences(whole, case)
    yield from not_asked(calls, counted)
    if not calls:
        yield "the program makes no call of the C library's read and write"
    if not counted.in_turn or list(differences(whole, case)):
        return
    for number, call in enumerate(calls):
        left, made = counter.run(program, args, octets, number)
        found = list(not_failed(left, call, case))
        if made[: number + 1] != calls[: number + 1]:
            found.append("the calls before it are others")
        if found:
            yield f"call {number}, a {call.kind}: {'; '.join(found)}"
            return


def faults(program: str, case: Case, library: str) -> list[str]:
    """What a case shows that isn't as it should be."""
    octets = case.stdin
    for run in case.runs[:-1]:
        left = runs.in_pieces(program, run.args, run.part(octets), BIG)
        if left.status or left.stderr:
            return [f"{b' '.join(run.args).decode(errors='replace')} has status {left.status}, {left.stderr!r}"]
        octets = left.stdout
    octets = case.runs[-1].part(octets)
    if case.counted:
        return list(counted_faults(program, case, case.counted, octets, library))
    return [f"{name}: {it}" for name, left in lefts(program, case, octets) for it in differences(left, case)]


def tried(program: str, library: str, case: Case) -> list[str]:
    try:
        return faults(program, case, library)
    except subprocess.TimeoutExpired:
        return [f"no end within {SECONDS} seconds"]


def report(program: str, cases: list[Case]) -> tuple[int, int]:
    """Runs cases, prints what they show that isn't as it should be, and returns how many passed and failed."""
    passed = failed = 0
    with tempfile.TemporaryDirectory() as folder, ProcessPoolExecutor(os.cpu_count()) as pool:
        library = runs.call_library(folder) if any(it.counted for it in cases) else None
        ready = [it for it in cases if library or not it.counted]
        ready.sort(key=lambda case: not (case.counted and case.counted.in_turn))  # the longest first
        for case, found in zip(ready, pool.map(partial(tried, program, library or ""), ready)):
            for it in found:
                print(f"{case.name}: {it}")
            if found:
                failed += 1
            else:
                passed += 1
    if len(ready) < len(cases):
        print(f"skipped: {len(cases) - len(ready)} runs whose calls are counted, since there is no C compiler")
    return passed, failed


def main() -> int:
    words = sys.argv[1:]
    small = words[:1] == ["--small"]
    if len(words) < 2 + small:
        print(f"usage: {sys.argv[0]} [--small] PROGRAM FOLDER [NAME ..]", file=sys.stderr)
        return 2
    program, folder, *names = words[small:]
    top = Path(folder)
    octets = Octets(top / "octets")
    cases: list[Case] = []
    bad = omitted = 0
    for name in names or sorted(it.name for it in top.iterdir() if it.is_dir() and it.name != "octets"):
        if small and (top / name / "big").is_file():
            omitted += 1
            continue
        try:
            found = list(cases_of(top / name, octets))
            ready = [it for it in found if not (small and it.is_long())]
            omitted += len(found) - len(ready)
            cases += ready
        except (BadCase, OSError) as error:
            print(f"{name}: {error}")
            bad += 1
    passed, failed = report(program, cases)
    if omitted:
        print(f"omitted: {omitted} big cases and runs, which take minutes on an unproved program")
    print(f"{passed} passed, {failed + bad} failed")
    return 1 if failed + bad else 0


if __name__ == "__main__":
    sys.exit(main())
