"""Chooses among copies of a packet that differ, by which of them the program reads a segment.

The texts of many choices are tried in one run: they are the segments of one made-up stream, and the rectangles of its
damage are the texts that were refused. For this the packet headers, and the first flag and the count of the segment
headers, are written anew. These packets are used for nothing else. A trial takes time in proportion to its octets.
"""

from __future__ import annotations

import itertools
import struct
from dataclasses import dataclass
from typing import Dict, Iterator, List, Optional, Sequence, Set, Tuple

import numpy as np

from .headers import HEADER_SIZE, LEAST_BLOCKS, LEAST_WIDTH, Format
from .images import SortedImage, text_of
from .program import run
from .source import Source

Choice = Sequence[int]  # a packet for each part of a segment

ROUNDS = 64  # choices of a segment that are tried at most
BATCH = 3_000  # segments of a made-up stream
MOST_ACROSS = 131_071  # blocks in a row of blocks, of the greatest width
UNSEEN = 3  # rows of blocks before the first that is tried, so that no rectangle of one is cut off at the top
DATA = 65_536 - (HEADER_SIZE - 6)  # octets of text in the greatest packet
APID = 0


@dataclass(frozen=True)
class Segment:
    """A segment some of whose packets have copies that differ: for each of its parts the copies, as numbers of packets."""

    image: SortedImage
    index: int
    parts: List[List[int]]

    def choices(self) -> Iterator[Choice]:
        """Yields choices of a copy for each part that close the segment, the copies that come first before the others."""
        flags = self.image.headers.flags
        closing = (it for it in itertools.product(*self.parts) if flags[it[-1]] >= 2)
        return itertools.islice(closing, ROUNDS)


def choose(source: Source, images: Sequence[SortedImage]) -> None:
    """Puts those copies first with which the program reads their segment, if there are any."""
    trials = [(segment, segment.choices()) for image in images if image.differing for segment in disputed(image)]
    while trials:
        nexts = [(segment, choices, next(choices, None)) for segment, choices in trials]
        tried = [(segment, choices, choice) for segment, choices, choice in nexts if choice is not None]
        read = are_read(source, [(segment, choice) for segment, _, choice in tried])
        settle([(segment, choice) for (segment, _, choice), is_read in zip(tried, read) if is_read])
        trials = [(segment, choices) for (segment, choices, _), is_read in zip(tried, read) if not is_read]


def disputed(image: SortedImage) -> Iterator[Segment]:
    """Yields the segments of which copies differ and no part before the last one that is there is lost."""
    seen = image.segments_seen
    begin = 0
    for index, parts in zip(seen.index.tolist(), seen.parts):
        packets = image.packets[begin : begin + len(parts)].tolist()
        begin += len(parts)
        copies = [image.differing.get(index << 32 | part, [it]) for part, it in zip(parts.tolist(), packets)]
        if parts[-1] == len(parts) - 1 and any(len(them) > 1 for them in copies):
            yield Segment(image, index, copies)


def settle(choices: Sequence[Tuple[Segment, Choice]]) -> None:
    """Uses these copies of the packets of segments. Those of one image are neighbours."""
    for _, group in itertools.groupby(choices, lambda it: id(it[0].image)):
        them = list(group)
        them[0][0].image.use({segment.index << 32 | part: it for segment, choice in them for part, it in enumerate(choice)})


# ---- made-up streams


def are_read(source: Source, candidates: Sequence[Tuple[Segment, Choice]]) -> List[bool]:
    """Returns for each choice whether the program reads its segment."""
    texts = [text_of(source, segment.image.headers, choice) for segment, choice in candidates]
    answers = [False] * len(texts)
    batches: Dict[Tuple[Optional[Format], int], List[int]] = {}
    for number, (segment, choice) in enumerate(candidates):
        headers, key = segment.image.headers, segment.image.key
        if headers.is_last[choice[0]]:
            answers[number] = is_last_read(texts[number], int(headers.head_blocks[choice[0]]), int(headers.pad_rows[choice[0]]))
        else:
            batches.setdefault((segment.image.format, key.blocks), []).append(number)
    for (_, blocks), numbers in batches.items():
        for begin in range(0, len(numbers), BATCH):
            batch = numbers[begin : begin + BATCH]
            for number, is_read in zip(batch, which_are_read([texts[it] for it in batch], blocks)):
                answers[number] = is_read
    return answers


def which_are_read(texts: Sequence[bytes], blocks: int) -> List[bool]:
    """Returns which of these texts, of segments of a number of blocks that aren't the last ones, the program reads."""
    across = blocks if blocks <= MOST_ACROSS else blocks // 9
    first = UNSEEN + 1
    down = -(-(first + len(texts) + 1) * blocks // across)
    stream = b"".join(
        b"".join(packets(with_place(text, first + number, 8 * across), 8 * down, blocks, first + number))
        for number, text in enumerate(texts)
    )
    missing = missing_rows(stream)
    return [-(-(first + number) * blocks // across) not in missing for number in range(len(texts))]


def is_last_read(text: bytes, blocks: int, pad_rows: int) -> bool:
    """Returns whether the program reads this text of a last segment. One of one or two blocks, or of too many, is not tried."""
    if 8 * blocks < LEAST_WIDTH or blocks > MOST_ACROSS:
        return False
    full = blocks * -(-LEAST_BLOCKS // blocks)
    index = -(-UNSEEN * blocks // full) + 1
    down = index * full // blocks + 1
    stream = packets(with_place(text, index, 8 * blocks), 8 * down - pad_rows, full, index)
    return down - 1 not in missing_rows(b"".join(stream))


def with_place(text: bytes, index: int, width: int) -> bytes:
    """Returns a text with another place of its segment, not the first one, and another width of the image in its header."""
    part_1 = int.from_bytes(text[:3], "big") & ~(1 << 23) & ~(0xFF << 14) | (index % 256) << 14
    at = 8 if not part_1 >> 22 & 1 else 9  # where Part 4 is, less 3 octets
    part_4 = int.from_bytes(text[at + 3 : at + 11], "big") & ~(0xFFFFF << 36) | width << 36
    return part_1.to_bytes(3, "big") + text[3 : at + 3] + part_4.to_bytes(8, "big") + text[at + 11 :]


def packets(text: bytes, rows: int, blocks: int, index: int) -> Iterator[bytes]:
    """Yields packets with the parts of a text."""
    parts = range(0, len(text), DATA)
    for part, at in enumerate(parts):
        piece = text[at : at + DATA]
        flags = (part == 0) << 14 | (part == len(parts) - 1) << 15
        yield struct.pack(">HHHHHIIIII", 0x0800 | APID, flags, len(piece) + 23, 0x1220, 0, rows, blocks, index, index * blocks, part)
        yield piece


def missing_rows(stream: bytes) -> Set[int]:
    """Returns the rows of blocks of which blocks are missing. Those above the first that is tried may be left out."""
    lines = run(["rects", f"apid={APID}", f"pixels={1 << 40}"], stream).output.split()
    firsts = np.array([int(it.split(b"-")[0]) for it in lines[::2]], np.int64)
    return set(((firsts[firsts > 0] + 21) // 8).tolist())

