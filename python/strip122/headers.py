"""The headers of this coder's packets, found in any octets. docs/formats.md ("Packets", "The head", "Fates") has the rules.

Headers are held as columns of numbers, one row for each header: a million of them take 65 MB.
"""

from __future__ import annotations

from dataclasses import dataclass, fields
from typing import Any, Iterable, List, NamedTuple

import numpy as np
from numpy.typing import NDArray

from .rasters import Pixels
from .source import PIECE, Source

Numbers = NDArray[Any]  # of whole numbers
Flags = NDArray[np.bool_]

HEADER_SIZE = 30  # octets of the primary header and the ancillary data
PRIMARY_SIZE = 6  # octets of the primary header; the data field has one octet more than its last field says
MARK_AT = 6
VIEW = 50  # octets that are looked at: a packet's header, and the head of a segment
IDLE = 2047
LEAST_ROWS, MOST_ROWS = 17, 262_144
LEAST_BLOCKS, MOST_BLOCKS = 16, 1_048_575
LEAST_WIDTH = 17
USUAL_WEIGHTS = int("00010101101010111111", 2)  # 0 1 1 1 2 2 2 3 3 3, two bits each
NO_FORMAT = -1


class Format(NamedTuple):
    """What all segment headers of an image have alike: width in pixels, bits of a pixel, octets of a code word, weights."""

    width: int
    depth: int
    signed: bool
    word: int
    weights: int

    @property
    def across(self) -> int:
        """The number of blocks in a row of blocks."""
        return -(-self.width // 8)

    @property
    def pixels(self) -> Pixels:
        """The form of a raster of such an image."""
        return Pixels(self.width, self.depth, self.signed)

    def blocks_in(self, rows: int) -> int:
        """Returns the number of blocks of an image with these rows."""
        return self.across * -(-rows // 8)


def format_of(packed: int) -> Format:
    """Returns the format that a column `format` has as one number."""
    return Format(packed >> 29, packed >> 24 & 31, bool(packed >> 23 & 1), packed >> 20 & 7, packed & 0xFFFFF)


@dataclass
class Headers:
    """Columns of headers, in the order of the octets.

    `rows` is 0 if the height is reported last. `is_head` says whether the packet begins a segment, whose segment header
    gives the columns after it; `is_refused` whether the program would not read that segment header.
    """

    at: Numbers  # the place of the first octet
    end: Numbers  # the place after the last octet, by the header
    apid: Numbers
    image: Numbers
    rows: Numbers
    blocks: Numbers  # of a full segment
    flags: Numbers
    index: Numbers
    part: Numbers
    is_head: Flags
    is_refused: Flags
    is_last: Flags
    head_blocks: Numbers
    pad_rows: Numbers
    format: Numbers  # packed, or NO_FORMAT

    def __len__(self) -> int:
        return len(self.at)

    def places(self, rows: Any = slice(None)) -> Numbers:
        """Returns for some headers, or all, the index of the segment and the part of its text, as one number.

        These numbers rise in the order of an image.
        """
        places: Numbers = self.index[rows] << 32 | self.part[rows]
        return places

    def keys(self) -> Numbers:
        """Returns a number for each header, the same for those of one APID, image, height and segment size."""
        _, size = np.unique(self.rows.astype(np.int64) << 20 | self.blocks, return_inverse=True)
        key: Numbers = (self.apid.astype(np.int64) << 16 | self.image) << 32 | size
        return key

    def chosen(self, rows: Any) -> "Headers":
        """Returns some of the headers, by their numbers or by a flag for each."""
        return Headers(*(getattr(self, it.name)[rows] for it in fields(self)))

    def text(self, number: int) -> str:
        """Returns what messages call a header."""
        apid, image, index, part = (int(it[number]) for it in (self.apid, self.image, self.index, self.part))
        return f"apid {apid} image {image} segment {index} part {part}"


def joined_headers(parts: Iterable[Headers]) -> Headers:
    """Returns the headers of all these, in order."""
    them = list(parts)
    return Headers(*(np.concatenate([getattr(it, field.name) for it in them]) for field in fields(Headers)))


def headers_in(source: Source) -> Headers:
    """Returns every header of this coder, whether its packet is whole or not."""
    found: List[Headers] = [read_headers(np.zeros(0, np.int64), np.zeros((0, VIEW), np.uint8))]
    for begin in range(0, source.length, PIECE):
        found.append(headers_of_piece(source, begin, min(begin + PIECE, source.length)))
    return joined_headers(found)


def headers_of_piece(source: Source, begin: int, end: int) -> Headers:
    """Returns the headers whose mark begins in a range of the octets."""
    base = max(begin - MARK_AT, 0)
    octets = np.frombuffer(source.read(base, end - base + VIEW) + bytes(VIEW), np.uint8)
    marks = np.flatnonzero(octets[begin - base : end - base] == 0x12) + (begin - base)
    marks = marks[octets[marks + 1] & 0xFE == 0x20]
    places = marks[marks >= MARK_AT] - MARK_AT
    places = places[(octets[places] >> 3 == 0b00001) & (base + places + HEADER_SIZE < source.length)]
    return read_headers(base + places, np.lib.stride_tricks.sliding_window_view(octets, VIEW)[places])


def number_in(views: NDArray[np.uint8], begin: int, end: int) -> Numbers:
    """Returns the numbers in some octets of each view, highest octet first."""
    number = np.zeros(len(views), np.int64)
    for place in range(begin, end):
        number = number << 8 | views[:, place]
    return number


def read_headers(places: Numbers, views: NDArray[np.uint8]) -> Headers:
    """Returns the headers in these views that have fields which this coder writes.

    A header has version 0, telemetry, a secondary header, an APID other than 2047, one of the two marks, and fields in
    their ranges that agree: rows, blocks of a segment, first block, and the sequence flags with the part.
    """
    first = number_in(views, 0, 2)
    flags = number_in(views, 2, 3) >> 6
    length = number_in(views, 4, 6) + 7
    is_open = views[:, 7] == 0x21
    rows, blocks = number_in(views, 10, 14), number_in(views, 14, 18)
    index, part = number_in(views, 18, 22), number_in(views, 26, 30)
    ours = (first >> 11 == 0b00001) & (first & 0x7FF != IDLE) & (length > HEADER_SIZE)
    ours &= np.where(is_open, rows == 0, (rows >= LEAST_ROWS) & (rows <= MOST_ROWS))
    ours &= (blocks >= LEAST_BLOCKS) & (blocks <= MOST_BLOCKS)
    ours &= (number_in(views, 22, 26) == index * blocks) & ((part == 0) == (flags & 1 == 1))
    views, places, length = views[ours], places[ours], length[ours]
    rows, blocks, index, part = rows[ours], blocks[ours], index[ours], part[ours]
    heads = read_heads(views, length - HEADER_SIZE, rows, blocks, index, part == 0)
    names = [first[ours] & 0x7FF, number_in(views, 8, 10), rows, blocks]
    small = [*(it.astype(np.int32) for it in names), flags[ours].astype(np.int8)]
    return Headers(*[places, places + length, *small, index, part, *heads])


def read_heads(views: NDArray[np.uint8], octets: Numbers, rows: Numbers, full: Numbers, index: Numbers, is_head: Flags) -> List[Any]:
    """Returns the columns of segment headers: those of packets with part 0, whose texts have these numbers of octets."""
    part_1 = number_in(views, 30, 33)
    is_last = is_head & (part_1 >> 22 & 1 == 1)
    tail = np.where(is_last[:, None], views[:, 34:50], views[:, 33:49])
    part_2, part_3, part_4 = number_in(tail, 0, 5), number_in(tail, 5, 8), number_in(tail, 8, 16)
    limit, fill, blocks, width = part_2 >> 13, part_2 >> 4 & 1, part_3 >> 4, part_4 >> 36 & 0xFFFFF
    pattern, dc, ac = part_4 >> 32 & 7, part_1 >> 9 & 31, part_1 >> 4 & 31
    word = pattern // 2 + 1
    read = is_head & (octets >= np.where(is_last, 20, 19)) & (part_1 & 0b111 == 0b111)
    read &= (tail[:, 8] >> 5 & 0b101 == 0b100) & (part_4 >> 35 & 1 == 0) & (pattern % 2 == 0)
    read &= (blocks > 0) & (dc >= 1) & (dc <= 28) & (ac <= 27) & (width >= LEAST_WIDTH)
    read &= (limit % word == 0) & ((limit == 0) | (limit >= 32)) & ((fill == 0) | (limit > 0))
    pad_rows = np.where(is_last, views[:, 33] >> 5, 0).astype(np.int64)
    agrees = (part_1 >> 23 == (index == 0)) & (part_1 >> 14 & 0xFF == index % 256)
    agrees &= agree(rows, full, index * full, blocks, width, is_last, pad_rows)
    depth = part_4 >> 56 & 15
    depth[depth == 0] = 16
    weights = np.where(part_4 >> 31 & 1 == 1, part_4 >> 11 & 0xFFFFF, USUAL_WEIGHTS)
    packed = width << 29 | depth << 24 | (part_4 >> 60 & 1) << 23 | word << 20 | weights
    is_good = read & agrees
    small = [blocks.astype(np.int32), pad_rows.astype(np.int8)]
    return [is_head, is_head & ~is_good, is_last, *small, np.where(is_good, packed, NO_FORMAT)]


def agree(rows: Numbers, full: Numbers, first: Numbers, blocks: Numbers, width: Numbers, is_last: Flags, pad_rows: Numbers) -> Flags:
    """Returns whether segment headers agree with the headers of their packets, by the tests of "Fates" in docs/formats.md."""
    across = np.maximum(-(-width // 8), 1)
    left = across * -(-rows // 8) - first
    is_known = (blocks == np.minimum(full, left)) & (is_last == (blocks == left))
    is_known &= ~is_last | (pad_rows == -rows % 8)
    height = 8 * ((first + blocks) // across) - pad_rows
    is_end = (blocks <= full) & ((first + blocks) % across == 0) & (height >= LEAST_ROWS) & (height <= MOST_ROWS)
    is_open = np.where(is_last, is_end, (blocks == full) & (first + blocks < 32768 * across))
    agreed: Flags = np.where(rows > 0, is_known, is_open)
    return agreed
