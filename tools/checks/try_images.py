"""Random images and streams, asked of two programs. tools/checks/try_images.sh runs it.

Each image is encoded by both, and its packets are decoded. Then some packets are lost, or octets changed, and what is
left is decoded, looked at and listed, and its damage found. The rows of some cameras are muxed, and the packets of one
are picked. The image is also encoded as a bare stream, which is decoded whole, cut, and with octets changed. It is
encoded with a random code book too, and these packets are decoded with that book, with another one and with none; and
the book is changed or cut. Status, output and note have to be the same each time, and the packets of an image that
leave nothing out have to give its raster.
"""

import random
import sys
from collections import Counter

from try_streams import changed, packets_of, run


def pixels(chance, width, rows, depth, signed):
    """The values of an image: noise, a slope with some noise, one value, or the extremes by turns or at random."""
    least, most = (-(1 << depth - 1), (1 << depth - 1) - 1) if signed else (0, (1 << depth) - 1)
    flat, slope, kind = chance.randint(least, most), chance.uniform(-2, 2), chance.randrange(5)
    for row in range(rows):
        for column in range(width):
            if kind == 0:
                yield chance.randint(least, most)
            elif kind == 1:
                yield min(most, max(least, int(flat + slope * (row + column) + chance.gauss(0, 2))))
            elif kind == 2:
                yield flat
            elif kind == 3:
                yield most if (row + column) % 2 else least
            else:
                yield chance.choice([least, most])


def raster(chance, width, rows, depth, signed):
    size = 1 if depth <= 8 else 2
    return b"".join((it % (1 << 8 * size)).to_bytes(size, "big") for it in pixels(chance, width, rows, depth, signed))


def settings(chance):
    """Words of `encode`, and whether nothing is left out."""
    words = [f"segment={chance.choice([16, 17, 20, 64])}", f"packet={chance.choice([64, 65, 100, 300, 1024])}"]
    words += [f"word={chance.randint(1, 4)}", f"select={chance.choice(['optimal', 'heuristic'])}"]
    if chance.random() < 0.3:
        words.append("weights=" + "".join(chance.choice("0123") for _ in range(10)))
    ends = chance.choice([[], [], ["limit=480"], ["limit=960", "fill=1"], ["total=20000"], ["total=60000", "fill=1"], ["stop=dc"], [f"stop={chance.randint(0, 9)}.{chance.randint(0, 3)}"]])
    return words + ends, not ends


class Pair:
    def __init__(self, program, other):
        self.program, self.other, self.counts = [program], other.split(), Counter()

    def ask(self, words, octets):
        """What both programs answer. Each may want memory, which is status 6; then nothing is compared."""
        ours, theirs = run(self.program, words, octets), run(self.other, words, octets)
        if 6 in (ours[0], theirs[0]):
            self.counts[f"{words[0]}, no memory"] += 1
            return ours
        assert ours == theirs, (words, len(octets), ours[0], theirs[0], ours[2], theirs[2])
        self.counts[f"{words[0]}, status {ours[0]}"] += 1
        return ours


def try_image(pair, chance, books):
    width, rows = chance.randint(17, 70), chance.randint(17, 70)
    depth, signed = chance.randint(1, 16), chance.randint(0, 1)
    given = raster(chance, width, rows, depth, signed)
    words, is_whole = settings(chance)
    _, octets, _ = pair.ask(["encode", f"width={width}", f"rows={rows}", f"depth={depth}", f"signed={signed}", *words], given)
    _, picture, _ = pair.ask(["decode"], octets)
    assert picture == given or not is_whole
    lost = b"".join(it for it in packets_of(octets) if chance.random() < 0.8)
    for left in (lost, changed(chance, octets)):
        pair.ask(["decode", "pixels=1000000"], left)
        pair.ask(["damage", "pixels=1000000"], left)
        pair.ask(["rects", "pixels=1000000"], left)
        pair.ask(["look", "pixels=1000000"], left)
        pair.ask(["list"], left)
    size = [f"width={width}", f"rows={rows}", f"depth={depth}", f"signed={signed}"]
    try_bare(pair, chance, size, words, given, is_whole)
    try_cameras(pair, chance)
    try_books(pair, books, size, words, given, is_whole)


def try_bare(pair, chance, size, words, given, is_whole):
    """An image as a bare stream, which has no packets and no total, and that stream decoded whole, cut and changed."""
    absent = ("packet=", "total=", "fill=") if any(it.startswith("total=") for it in words) else ("packet=",)
    kept = [it for it in words if not it.startswith(absent)]
    _, octets, _ = pair.ask(["bare-encode", *size, *kept], given)
    status, picture, _ = pair.ask(["bare-decode"], octets)
    assert status == 0 and (picture == given or not is_whole)
    for left in (octets[: chance.randrange(len(octets))], octets + b"\0", changed(chance, octets)):
        pair.ask(["bare-decode", "pixels=1000000"], left)


def codes(chance, count):
    """A complete list of codes of 1 to 8 bits, of which none is a prefix of another: each its length and its bits."""
    found = [(0, 0)]
    while len(found) < count:
        length, bits = found.pop(chance.choice([at for at, (length, _) in enumerate(found) if length < 8]))
        found += [(length + 1, 2 * bits), (length + 1, 2 * bits + 1)]
    return chance.sample(found, count)


def book(chance):
    octets = b"".join(bytes(code) for count in (4, 8, 8, 16, 16, 16) for code in codes(chance, count))
    return b"\x12\x2b" + octets


def try_books(pair, chance, size, words, given, is_whole):
    """An image with a code book of its own, whose packets are read with books that need not be that one."""
    own, other = book(chance), book(chance)
    _, octets, _ = pair.ask(["encode", *size, *words, "book=1"], own + given)
    status, picture, _ = pair.ask(["decode", "book=1"], own + octets)
    assert status == 0 and (picture == given or not is_whole)
    lost = b"".join(it for it in packets_of(octets) if chance.random() < 0.8)
    for command in ("decode", "damage", "look", "rects"):
        pair.ask([command, "book=1"], own + lost)
        pair.ask([command, "book=1"], other + octets)
        pair.ask([command], octets)
    place, octet = chance.randrange(138), chance.choice([chance.randrange(256), chance.randrange(10)])
    for bad in (own[:place] + bytes([octet]) + own[place + 1 :], own[:place]):
        pair.ask(["encode", *size, *words, "book=1"], bad + given)
        pair.ask(["decode", "book=1", f"octets={len(octets) + 1}"], bad + octets)


def try_cameras(pair, chance):
    """The records of some cameras in any order, and maybe cut or changed; and a pick of what they give."""
    cameras, width, rows = chance.randint(1, 4), chance.randint(17, 40), chance.randint(17, 40)
    order = [camera for camera in range(cameras) for _ in range(rows)]
    chance.shuffle(order)
    octets = bytearray(b"".join(bytes([it]) + chance.randbytes(width) for it in order))
    if chance.random() < 0.3:
        octets[(1 + width) * chance.randrange(len(order))] = chance.randint(0, cameras)
    if chance.random() < 0.3:
        del octets[chance.randrange(len(octets)):]
    words = [f"cameras={cameras}", f"width={width}", f"rows={rows}", f"depth={chance.choice([8, 8, 7])}"]
    _, link, _ = pair.ask(["mux", *words, "segment=16"], bytes(octets))
    pair.ask(["pick", f"apid={100 + chance.randrange(cameras)}"], link)


def main(program, other, count, seed=1):
    pair, chance, books = Pair(program, other), random.Random(seed), random.Random(f"books {seed}")
    for number in range(count):
        try_image(pair, chance, books)
    for name, times in sorted(pair.counts.items()):
        print(f"{name}: {times}")


if __name__ == "__main__":
    main(sys.argv[1], sys.argv[2], *map(int, sys.argv[3:]))
