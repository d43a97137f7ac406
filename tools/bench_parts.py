"""Measures the parts of the program by commands that end after them, and prints a table. tools/bench_parts.sh runs it."""

import argparse
import sys
import tempfile
from pathlib import Path

from bench import Process, machine

# The sizes: of each 4,194,304 pixels.
SIZES = ((512, 8192), (4096, 1024), (65536, 64))


class Parts:
    """The runs for a picture of one size, with their times in nanoseconds a pixel."""

    def __init__(self, program: str, folder: Path, size: tuple[int, int]):
        self.pixels = size[0] * size[1]
        sizes = [f"width={size[0]}", f"rows={size[1]}"]
        raster, packets, packed = (folder / f"{size[0]}.{name}" for name in ("raster", "packets", "packed"))
        Process([program, "make", *sizes], target=raster).run()
        Process([program, "encode", *sizes], raster, packets).run()
        Process([program, "encode", *sizes, "packet=65536"], raster, packed).run()
        self.runs = {
            "`encode stop=dc`: forward transform, blocks, DC part": Process([program, "encode", *sizes, "stop=dc"], raster),
            "`encode stop=dc select=heuristic`": Process([program, "encode", *sizes, "stop=dc", "select=heuristic"], raster),
            "`encode`: and bit planes": Process([program, "encode", *sizes], raster),
            "`list`: packets read": Process([program, "list"], packets),
            "`list` of packets of 65,536 octets": Process([program, "list"], packed),
            "`damage`: and segments read": Process([program, "damage"], packets),
            "`look`: and a value for each block": Process([program, "look"], packets),
            "`decode`: and inverse transform": Process([program, "decode"], packets),
        }
        self.times: dict[str, list[float]] = {name: [] for name in self.runs}

    def measure(self) -> None:
        """Runs each once more."""
        for name, run in self.runs.items():
            self.times[name].append(1e9 * run.run() / self.pixels)

    def span(self, name: str) -> str:
        return f"{min(self.times[name]):.1f} to {max(self.times[name]):.1f}"


def main() -> None:
    words = argparse.ArgumentParser(prog="tools/bench_parts.sh")
    words.add_argument("--rounds", type=int, default=5, help="how often each run is measured, 5 if it isn't given")
    words.add_argument("program", help=argparse.SUPPRESS)
    given = words.parse_args()
    if given.rounds < 1:
        sys.exit("tools/bench_parts.sh: --rounds is 1 or more")
    with tempfile.TemporaryDirectory(prefix="strip122-parts-") as folder:
        every = [Parts(given.program, Path(folder), size) for size in SIZES]
        for _ in range(given.rounds):
            for parts in every:
                parts.measure()
    print(f"Least to greatest of {given.rounds} rounds, user and system nanoseconds a pixel. {machine()}.\n")
    print("| run | " + " | ".join(f"{width} x {rows}" for width, rows in SIZES) + " |")
    print("|---" * (len(SIZES) + 1) + "|")
    for name in every[0].runs:
        print(f"| {name} | " + " | ".join(parts.span(name) for parts in every) + " |")


if __name__ == "__main__":
    main()
