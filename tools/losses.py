"""Loses packets of a picture, and reports how much of it is damaged. tools/losses.sh runs it."""
import argparse
import random
import subprocess
import sys

from PIL import Image

from packets import packets_of

SETTINGS = ["segment=16", "segment=64", "segment=256", "segment=1024", "segment=4096", "segment=64 packet=4096"]


def damaged(lines: str) -> int:
    """Returns the number of pixels in some of these rectangles, which are lines of `rects`."""
    columns: dict[int, list[tuple[int, int]]] = {}
    for line in lines.splitlines():
        (top, bottom), (left, right) = (map(int, part.split("-")) for part in line.split())
        for row in range(top, bottom + 1):
            columns.setdefault(row, []).append((left, right))
    total = 0
    for spans in columns.values():
        done = -1
        for left, right in sorted(spans):
            total += max(0, right - max(left, done + 1) + 1)
            done = max(done, right)
    return total


def main() -> int:
    parser = argparse.ArgumentParser(prog="tools/losses.sh")
    parser.add_argument("program", help=argparse.SUPPRESS)
    parser.add_argument("picture", help="it is repeated side by side up to 2,048 x 2,048, as 8 bits of grey")
    parser.add_argument("--draws", type=int, default=10, help="how often packets are drawn, 10 if it isn't given")
    given = parser.parse_args()
    side = 2048
    try:
        with Image.open(given.picture) as picture:
            gray = picture.convert("L")
    except OSError as wrong:
        print(f"tools/losses.py: {given.picture}: {wrong}", file=sys.stderr)
        return 1
    whole = Image.new("L", (side, side))
    for left in range(0, side, gray.width):
        for top in range(0, side, gray.height):
            whole.paste(gray, (left, top))
    print("| setting | octets | packets | damaged, 4 packets lost | damaged, 1 % of the packets lost |\n|---|---|---|---|---|")
    for words in SETTINGS:
        encode = [given.program, "encode", f"width={side}", f"rows={side}", *words.split()]
        stream = subprocess.run(encode, input=whole.tobytes(), check=True, capture_output=True).stdout
        packets = packets_of(stream)
        shares = []
        for four in (True, False):
            total = 0
            for seed in range(given.draws):
                draw = random.Random(seed)
                gone = set(draw.sample(range(len(packets)), 4)) if four else {i for i in range(len(packets)) if draw.random() < 0.01}
                kept = b"".join(packet for number, packet in enumerate(packets) if number not in gone)
                total += damaged(subprocess.run([given.program, "rects"], input=kept, check=False, capture_output=True, text=False).stdout.decode())
            shares.append(100 * total / given.draws / side / side)
        print(f"| `{words}` | {len(stream):,} | {len(packets):,} | {shares[0]:.1f} % | {shares[1]:.1f} % |", flush=True)
    return 0


if __name__ == "__main__":
    sys.exit(main())
