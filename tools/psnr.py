"""Compares decoded pictures with and without restored coefficients at equal octets. tools/psnr.sh runs it."""

from __future__ import annotations

import argparse
import math
import subprocess
import sys
from pathlib import Path
from typing import NamedTuple

import numpy as np

import bench
import pictures

TOP = Path(__file__).resolve().parent.parent
SIDE = 512  # the side of a picture that is drawn
STOPS = ("6.3", "5.3", "4.3", "3.3", "2.3")
RATES = (0.25, 0.5, 1.0, 2.0)  # bits a pixel of a total


class Picture(NamedTuple):
    """A picture of 8 bits of grey."""

    name: str
    size: tuple[int, int]
    raster: bytes


def read(path: Path) -> Picture:
    size, raster = pictures.read_gray(path)
    return Picture(path.stem, size, raster)


def usual() -> list[Picture]:
    """The repository's own pictures, and one of python3-skimage if it is installed."""
    found = [read(TOP / "docs/pictures/picture.png"), Picture("drawn", (SIDE, SIDE), bench.raster(bench.drawn(SIDE), 8))]
    camera = pictures.DATA / "camera.png"
    return found + [read(camera)] if camera.exists() else found


def run(program: str, words: list[str], octets: bytes) -> bytes:
    """Runs the program, and returns its output. Raises OSError if its status isn't 0."""
    done = subprocess.run([program, *words], input=octets, capture_output=True, check=False)
    if done.returncode != 0:
        raise OSError(f"{' '.join(words)}: status {done.returncode}: {done.stderr.decode(errors='replace').strip()}")
    return done.stdout


def psnr(raster: bytes, decoded: bytes) -> float:
    """The peak signal-to-noise ratio of pixels of 8 bits, in dB; infinite if they are the same."""
    error = np.frombuffer(raster, np.uint8).astype(float) - np.frombuffer(decoded, np.uint8)
    mean = float((error**2).mean())
    return 10 * math.log10(255**2 / mean) if mean else math.inf


def settings(picture: Picture) -> list[str]:
    pixels = picture.size[0] * picture.size[1]
    return [f"stop={stop}" for stop in STOPS] + [f"total={round(rate * pixels / 8)}" for rate in RATES]


def row(program: str, picture: Picture, setting: str) -> str:
    """The row of the table for a picture and a setting."""
    width, rows = picture.size
    packets = run(program, ["encode", f"width={width}", f"rows={rows}", "segment=1024", "packet=65536", setting], picture.raster)
    plain, restored = (psnr(picture.raster, run(program, ["decode", *words], packets)) for words in ([], ["restore=1"]))
    bits = 8 * len(packets) / (width * rows)
    return f"| {picture.name} | `{setting}` | {len(packets):,} | {bits:.2f} | {plain:.2f} | {restored:.2f} | {restored - plain:+.2f} |"


def main() -> int:
    parser = argparse.ArgumentParser(prog="tools/psnr.sh")
    parser.add_argument("program", help=argparse.SUPPRESS)
    parser.add_argument("pictures", nargs="*", help="files that Pillow reads; those named above if none is given")
    given = parser.parse_intermixed_args()
    print("| picture | setting | octets | bits a pixel | PSNR | `restore=1` | gain |\n|---|---|---|---|---|---|---|")
    try:
        for picture in [read(Path(name)) for name in given.pictures] or usual():
            for setting in settings(picture):
                print(row(given.program, picture, setting), flush=True)
    except OSError as wrong:
        print(f"tools/psnr.py: {wrong}", file=sys.stderr)
        return 1
    return 0


if __name__ == "__main__":
    sys.exit(main())
