"""Streams with packets lost, and with octets changed. tools/checks/try_streams.sh runs it.

Where packets are lost, each row outside the damaged ones has to be that of the picture, `damage` has to tell just the
rows that the definition of docs/formats.md gives for the lost segments, and the status has to be 1 where a segment is
lost, or 3 where all are. Where octets are changed, the program has to end with status 0, 1 or 3, and `decode` and
`damage` with the same one: the first four changed streams of an image are asked for their damage and listed too.

A bare stream is changed in the same ways: the program has to end with status 0, or with 3 and a note that says why.
"""

import random
import re
import subprocess
import sys
from collections import Counter

from packets import packets_of


def run(command, words, octets=b""):
    ended = subprocess.run([*command, *words], input=octets, capture_output=True)
    return ended.returncode, ended.stdout, ended.stderr.decode()


def segment_of(packet):
    return int.from_bytes(packet[18:22], "big")


def damaged_rows(width, rows, segment, lost):
    """The rows that the block rows of lost segments reach."""
    across, down = -(-width // 8), -(-rows // 8)
    missing = {block // across for index in lost for block in range(index * segment, min((index + 1) * segment, across * down))}
    return {row for it in missing for row in range(max(0, 8 * it - 21), min(rows, 8 * it + 30))}


def told_rows(lines):
    return {row for first, last in re.findall(r"(\d+)-(\d+)", lines) for row in range(int(first), int(last) + 1)}


def changed(chance, octets):
    """A stream with some octets changed, cut out or put in."""
    octets = bytearray(octets)
    for _ in range(chance.randint(1, 4)):
        at, kind = chance.randrange(len(octets)), chance.randrange(4)
        if kind == 0:
            octets[at] ^= 1 << chance.randrange(8)
        elif kind == 1:
            octets[at] = chance.randrange(256)
        elif kind == 2 and len(octets) > 100:
            del octets[at : at + chance.randint(1, 50)]
        else:
            octets[at:at] = bytes(chance.randrange(256) for _ in range(chance.randint(1, 20)))
    return bytes(octets)


class Trial:
    def __init__(self, program, chance):
        self.program, self.chance = [program], chance
        self.width, self.rows = chance.randint(17, 200), chance.randint(17, 300)
        self.depth, self.signed = chance.randint(1, 16), chance.randint(0, 1)
        self.segment = chance.choice([16, 20, 64, 200])
        self.sizes = [f"width={self.width}", f"rows={self.rows}", f"depth={self.depth}", f"signed={self.signed}"]
        words = [f"segment={self.segment}", f"packet={chance.choice([64, 100, 300, 1024])}"]
        words += chance.choice([[], [], ["word=4"], ["limit=300"], ["limit=400", "fill=1"], ["stop=2.1"]])
        _, raster, _ = run(self.program, ["make", *self.sizes, f"seed={chance.randint(0, 999)}"])
        status, octets, note = run(self.program, ["encode", *self.sizes, *words], raster)
        assert status == 0, note
        self.packets = packets_of(octets)
        texts = [it for it in words if not it.startswith("packet=")]
        status, self.bare, note = run(self.program, ["bare-encode", *self.sizes, *texts], raster)
        assert status == 0, note
        _, self.whole, _ = run(self.program, ["decode"], octets)

    def loses(self):
        """Some packets are lost."""
        part = self.chance.choice([0.02, 0.1, 0.5])
        kept = [it for it in self.packets if self.chance.random() >= part]
        every = Counter(map(segment_of, self.packets))
        lost = [index for index, count in every.items() if Counter(map(segment_of, kept))[index] < count]
        octets = b"".join(kept)
        status, picture, note = run(self.program, ["decode"], octets)
        found, lines, _ = run(self.program, ["damage"], octets)
        begun = any(it[26:30] == bytes(4) for it in kept)
        if not begun:
            assert status == found == 3 and not picture and not lines, note
            return "no segment"
        assert status == found == (1 if lost else 0), note
        damaged = damaged_rows(self.width, self.rows, self.segment, lost)
        assert told_rows(lines.decode()) == damaged == told_rows(note), note
        length = self.width * (1 if self.depth <= 8 else 2)
        assert len(picture) == len(self.whole) == length * self.rows
        for row in set(range(self.rows)) - damaged:
            assert picture[row * length : (row + 1) * length] == self.whole[row * length : (row + 1) * length], row
        return "damaged" if lost else "whole"

    def changes(self, is_asked_more):
        """Some octets are changed, cut out or put in."""
        octets = changed(self.chance, b"".join(self.packets))
        status, picture, note = run(self.program, ["decode", "pixels=1000000"], octets)
        assert status in (0, 1, 3), (status, note)
        assert status != 3 or not picture
        if is_asked_more:
            found, _, told = run(self.program, ["damage", "pixels=1000000"], octets)
            assert found == status and told == note, (status, found, note, told)
            listed, _, told = run(self.program, ["list"], octets)
            assert listed in (0, 1), told
        return f"changed, status {status}"

    def changes_bare(self):
        """Some octets of the bare stream are changed, cut out or put in."""
        octets = changed(self.chance, self.bare)
        status, picture, note = run(self.program, ["bare-decode", "pixels=1000000"], octets)
        if status == 0:
            assert not note and picture, note
            return "bare, status 0"
        known = re.fullmatch(r"strip122: (segment \d+ refused|too many pixels.*|[a-z ]+)\n", note)
        assert status == 3 and known, (status, note)
        return "bare, a segment is refused" if "refused" in note else f"bare, {note.strip()}"


def main(program, count, seed=1, changes=4):
    chance, counts = random.Random(seed), Counter()
    for _ in range(count):
        trial = Trial(program, chance)
        for number in range(max(4, changes)):
            if number < 4:
                counts[trial.loses()] += 1
            if number < changes:
                counts[trial.changes(number < 4)] += 1
                counts[trial.changes_bare()] += 1
    for name, times in sorted(counts.items()):
        print(f"{name}: {times}")


if __name__ == "__main__":
    main(sys.argv[1], *map(int, sys.argv[2:]))
