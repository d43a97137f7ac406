"""Flips single bits of coded segments, and counts what `decode` makes of each. tools/flips.sh runs it."""
import argparse
import random
import subprocess
import sys
from collections import Counter

from packets import packets_of

SEGMENT_AT = 30  # octets of a packet before its part of a coded segment: the primary header and the ancillary data
SEED = 1


def run(program: str, words: list[str], octets: bytes) -> tuple[bytes, int]:
    """Returns the output and the status of a run."""
    ran = subprocess.run([program, *words], input=octets, check=False, capture_output=True)
    return ran.stdout, ran.returncode


def places(packets: bytes) -> list[int]:
    """Returns where in a stream of packets the octets of coded segments are."""
    found: list[int] = []
    at = 0
    for packet in packets_of(packets):
        found.extend(range(at + SEGMENT_AT, at + len(packet)))
        at += len(packet)
    return found


def kind(status: int, is_same: bool) -> str:
    """Returns the row of the table for a run."""
    if is_same:
        return f"the pixels are right, status {status}"
    return f"pixels are wrong or missing, status {status}"


def main() -> int:
    parser = argparse.ArgumentParser(prog="tools/flips.sh")
    parser.add_argument("program", help=argparse.SUPPRESS)
    parser.add_argument("--bits", type=int, default=200, help="how many bits are flipped, one in each run; 200 if it isn't given")
    parser.add_argument("--side", type=int, default=512, help="rows and columns of the drawn picture, 512 if it isn't given")
    given = parser.parse_args()
    size = [f"width={given.side}", f"rows={given.side}"]
    raster, made = run(given.program, ["make", *size, f"seed={SEED}"], b"")
    packets, encoded = run(given.program, ["encode", *size], raster)
    if made or encoded:
        print(f"tools/flips.sh: --side {given.side}: the picture can't be encoded", file=sys.stderr)
        return 1
    draw, octets, counts = random.Random(SEED), places(packets), Counter[str]()
    for _ in range(given.bits):
        changed = bytearray(packets)
        changed[draw.choice(octets)] ^= 1 << draw.randrange(8)
        picture, status = run(given.program, ["decode"], bytes(changed))
        counts[kind(status, picture == raster)] += 1
    print("| of a flipped bit | runs |\n|---|---|")
    for name, count in counts.most_common():
        print(f"| {name} | {count} |")
    return 0


if __name__ == "__main__":
    sys.exit(main())
