#!/usr/bin/env python3
"""Runs `rt ci`, and prints the processor seconds that each crate took in it.

Usage: tools/gate.py [--interval SECONDS] [CRATE ..]. With crates, it runs `rt ci` for these and those below them, which is not the gate. The
lines of `rt ci` pass through, and its status is the status. The seconds, user and system, are sampled from /proc: of a process the last
sample counts, so that a short one may be missing. The total is exact.
"""

import argparse
import os
import re
import resource
import subprocess
import sys
import threading
import time
from collections import defaultdict
from dataclasses import dataclass

TICKS = os.sysconf("SC_CLK_TCK")
LEAST = 20  # a crate of fewer seconds has no row of its own
KINDS = ("proof", "tests", "edits")


@dataclass
class Sample:
    """A process: its parent, its command line, and its seconds so far."""

    parent: int
    words: list[str]
    seconds: float


def processes() -> dict[tuple[int, str], Sample]:
    """All processes by their number and the time at which they started."""
    found = {}
    for name in filter(str.isdigit, os.listdir("/proc")):
        try:
            with open(f"/proc/{name}/stat", encoding="utf-8", errors="replace") as it:
                fields = it.read().rpartition(")")[2].split()
            with open(f"/proc/{name}/cmdline", encoding="utf-8", errors="replace") as it:
                words = it.read().split("\0")
        except OSError:
            continue  # it has ended
        if not words[0]:
            continue  # it is ending, and has no command line any more
        found[int(name), fields[19]] = Sample(int(fields[1]), words, (int(fields[11]) + int(fields[12])) / TICKS)
    return found


def below(top: int, found: dict[tuple[int, str], Sample]) -> dict[tuple[int, str], Sample]:
    """Those of the processes that a process has started, directly or not."""
    parents = {key[0]: sample.parent for key, sample in found.items()}

    def descends(number: int) -> bool:
        while number > 1 and number != top:
            number = parents.get(number, 0)
        return number == top

    return {key: sample for key, sample in found.items() if descends(key[0])}


def subject(words: list[str]) -> tuple[str, str]:
    """The crate that a process is for, and what it does for it."""
    line = " ".join(words)
    named = re.search(r"--crate-name (\w+)", line) or re.search(r"/crates/(\w+)/", line)
    kind = "edits" if "rt-edit" in line else "tests" if "--test" in words or "_tests" in words[0] else "proof"
    return named[1] if named else "rt", kind


def watch(run: subprocess.Popen, interval: float, samples: dict) -> None:
    while run.poll() is None:
        samples.update(below(run.pid, processes()))
        time.sleep(interval)


def table(samples: dict, total: float, elapsed: float) -> None:
    spent: dict[str, dict[str, float]] = defaultdict(lambda: defaultdict(float))
    for sample in samples.values():
        crate, kind = subject(sample.words)
        spent[crate][kind] += sample.seconds
    print("\n| crate | proof | tests | edits |\n|---|---|---|---|")
    rest = dict.fromkeys(KINDS, 0.0)
    for crate, row in sorted(spent.items(), key=lambda item: -sum(item[1].values())):
        if sum(row.values()) < LEAST:
            rest = {kind: rest[kind] + row[kind] for kind in KINDS}
            continue
        print(f"| `{crate}` | " + " | ".join(f"{row[kind]:.0f}" if row[kind] else "" for kind in KINDS) + " |")
    print("| others | " + " | ".join(f"{rest[kind]:.0f}" for kind in KINDS) + " |")
    print(f"\n{total / 60:.0f} processor minutes in {elapsed / 60:.0f} minutes")


def main() -> int:
    parser = argparse.ArgumentParser(usage="tools/gate.py [--interval SECONDS] [CRATE ..]")
    parser.add_argument("--interval", type=float, default=0.5)
    parser.add_argument("crates", nargs="*")
    given = parser.parse_args()
    samples: dict = {}
    start = time.monotonic()
    run = subprocess.Popen(["rt", "ci", *given.crates])
    watcher = threading.Thread(target=watch, args=(run, given.interval, samples))
    watcher.start()
    watcher.join()
    used = resource.getrusage(resource.RUSAGE_CHILDREN)
    table(samples, used.ru_utime + used.ru_stime, time.monotonic() - start)
    return run.returncode


if __name__ == "__main__":
    sys.exit(main())
