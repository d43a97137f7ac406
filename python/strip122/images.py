"""Sorts packets into images: one packet for each place, in the order of the places."""

from __future__ import annotations

from bisect import bisect_left
from dataclasses import dataclass, field
from functools import cached_property
from typing import Dict, Iterator, List, Mapping, NamedTuple, Optional, Sequence, Tuple

import numpy as np

from .copies import told_apart
from .headers import HEADER_SIZE, NO_FORMAT, Flags, Format, Headers, Numbers, format_of
from .source import Range, Source, joined

SPREAD = 8  # packets are read at once if they have one octet of text in this number of octets
LATER = "bcdefghijklmnopqrstuvwxyz"


class ImageKey(NamedTuple):
    """The fields that every packet of an image has alike. `rows` is 0 if the height is reported last."""

    apid: int
    image: int
    rows: int
    blocks: int  # of a full segment


class LostRange(NamedTuple):
    """Lost packets: all of the segments `first` to `last`; or of one segment the parts `part` to `last_part`.

    `last_part` is None if the parts of the segment after `part` are unknown.
    """

    first: int
    last: int
    part: int = 0
    last_part: Optional[int] = None

    @property
    def packets(self) -> int:
        """How many packets are lost at least."""
        return (self.last - self.first if self.last_part is None else self.last_part - self.part) + 1

    def __str__(self) -> str:
        if self.part == 0 and self.last_part is None:
            return f"{self.first}" if self.first == self.last else f"{self.first}-{self.last}"
        if self.last_part is None:
            return f"{self.first}.{self.part}-"
        return f"{self.first}.{self.part}" if self.part == self.last_part else f"{self.first}.{self.part}-{self.last_part}"


@dataclass
class SortedImage:
    """The packets of one image.

    `packets` has the numbers of its packets, one for each place and in their order; `differing` the copies of each place
    whose copies differ, the one that is used first.
    """

    key: ImageKey
    format: Optional[Format]  # None if no packet has a segment header
    headers: Headers
    leads: Flags
    packets: Numbers
    first: int  # the least number of a packet of it
    duplicates: int = 0
    mended: int = 0
    differing: Dict[int, List[int]] = field(default_factory=dict)
    name: str = ""

    @property
    def ranges(self) -> List[Range]:
        """The octets of its packets, in the order of their places."""
        at, end = self.headers.at[self.packets], self.headers.end[self.packets]
        return joined(zip(at.tolist(), (end - at).tolist()))

    def use(self, chosen: Mapping[int, int]) -> None:
        """Uses these copies of the packets of some places. A place whose copies don't differ keeps its packet."""
        moved = {place: it for place, it in chosen.items() if self.differing.get(place, [it])[0] != it}
        if not moved:
            return
        for place, packet in moved.items():
            self.differing[place].remove(packet)
            self.differing[place].insert(0, packet)
        self.packets[np.searchsorted(self.headers.places(self.packets), list(moved))] = list(moved.values())
        for it in ("segments_seen", "lost"):
            self.__dict__.pop(it, None)

    @property
    def octets(self) -> int:
        return int((self.headers.end[self.packets] - self.headers.at[self.packets]).sum())

    @property
    def before_junk(self) -> List[int]:
        """The packets that lead to no packet and no end."""
        them: List[int] = self.packets[~self.leads[self.packets]].tolist()
        return them

    @property
    def rows(self) -> Optional[int]:
        """The rows of the image, or None if no packet reports them."""
        if self.key.rows or self.format is None:
            return self.key.rows or None
        last = self.packets[self.headers.is_last[self.packets] & (self.headers.part[self.packets] == 0)]
        if len(last) == 0:
            return None
        number = int(last[0])
        blocks = int(self.headers.index[number]) * self.key.blocks + int(self.headers.head_blocks[number])
        return 8 * blocks // self.format.across - int(self.headers.pad_rows[number])

    @property
    def segments(self) -> Optional[int]:
        """The number of segments, or None if no packet gives it."""
        if self.format is None or self.rows is None:
            return None
        return -(-self.format.blocks_in(self.rows) // self.key.blocks)

    @property
    def whole_segments(self) -> int:
        """How many segments have all their packets."""
        return int(self.segments_seen.is_whole.sum())

    @cached_property
    def lost(self) -> List[LostRange]:
        """The packets that are lost. If the number of segments is unknown, those up to the last segment seen."""
        seen = self.segments_seen
        found = list(seen.lost_parts())
        ends = seen.index if self.segments is None else np.append(seen.index, self.segments)
        begins = np.append(0, seen.index + 1)[: len(ends)]
        gaps = np.flatnonzero(ends > begins).tolist()
        found.extend(LostRange(int(begins[it]), int(ends[it]) - 1) for it in gaps)
        return sorted(found)

    @property
    def lost_packets(self) -> int:
        """How many packets are lost at least: one of each segment of which all are."""
        return sum(it.packets for it in self.lost)

    @property
    def is_whole(self) -> bool:
        return self.segments is not None and not self.lost

    @cached_property
    def segments_seen(self) -> "SegmentsSeen":
        """The segments of which packets are there."""
        return segments_seen(self.headers, self.packets)


@dataclass
class SegmentsSeen:
    """The segments of which packets are there: for each its index, whether all its packets are, and which parts are."""

    index: Numbers
    is_whole: Flags
    is_closed: Flags
    parts: List[Numbers]

    def lost_parts(self) -> Iterator[LostRange]:
        """Yields the lost packets of segments of which others are there."""
        for number in np.flatnonzero(~self.is_whole).tolist():
            index, following = int(self.index[number]), 0
            for part in self.parts[number].tolist():
                if part > following:
                    yield LostRange(index, index, following, part - 1)
                following = part + 1
            if not self.is_closed[number]:
                yield LostRange(index, index, following)


def segments_seen(headers: Headers, packets: Numbers) -> SegmentsSeen:
    """Returns the segments that these packets, in the order of their places, belong to."""
    index, part = headers.index[packets], headers.part[packets]
    begins = np.append(0, np.flatnonzero(np.diff(index)) + 1)[: len(index)]
    last = np.append(begins[1:], len(index))[: len(begins)] - 1
    is_closed = headers.flags[packets][last] >= 2
    is_whole = is_closed & (part[begins] == 0) & (part[last] == last - begins)
    return SegmentsSeen(index[begins], is_whole, is_closed, np.split(part, begins[1:]))


def sorted_images(source: Source, headers: Headers, leads: Flags) -> List[SortedImage]:
    """Returns the images of these packets, in the order of their APIDs and numbers.

    Images differ by APID, number, height and segment size, and by the fields of the image in the segment header. Those
    of which all this is the same are told apart by their packets (`told_apart`).
    """
    images: List[SortedImage] = []
    for them in groups(headers.keys()):
        for packed, packets in by_format(headers, them):
            images.extend(images_of(source, headers, leads, packed, packets))
    images.sort(key=lambda it: (it.key.apid, it.key.image, it.first))
    counts: Dict[Tuple[int, int], int] = {}
    for image in images:
        number = counts.get(image.key[:2], 0)
        image.name = f"apid-{image.key.apid}-image-{image.key.image}{suffix(number)}"
        counts[image.key[:2]] = number + 1
    return images


def suffix(number: int) -> str:
    """Returns what the name of the first, second, .. image of a number ends with: nothing, `-b`, .. `-z`, `-27`, .."""
    if number == 0:
        return ""
    return f"-{LATER[number - 1]}" if number <= len(LATER) else f"-{number + 1}"


def groups(keys: Numbers) -> List[Numbers]:
    """Returns the numbers of the packets of each key, in the order of the octets."""
    if len(keys) == 0:
        return []
    order = np.argsort(keys, kind="stable")
    return np.split(order, np.flatnonzero(np.diff(keys[order])) + 1)


def by_format(headers: Headers, packets: Numbers) -> Iterator[Tuple[int, Numbers]]:
    """Yields the formats of packets of one key, each with its packets.

    A packet without a segment header has the format of its segment: that of the last one before it, else of the first,
    else the commonest format.
    """
    formats = headers.format[packets]
    known, counts = np.unique(formats[formats != NO_FORMAT], return_counts=True)
    if len(known) <= 1:
        yield int(known[0]) if len(known) else NO_FORMAT, packets
        return
    begun: Dict[int, List[Tuple[int, int]]] = {}
    for number, packed in zip(packets.tolist(), formats.tolist()):
        if packed != NO_FORMAT:
            begun.setdefault(int(headers.index[number]), []).append((number, packed))
    formats = formats.copy()
    for place in np.flatnonzero(formats == NO_FORMAT).tolist():
        heads = begun.get(int(headers.index[packets[place]]), [])
        before = bisect_left(heads, (int(packets[place]), 0)) - 1
        formats[place] = heads[max(before, 0)][1] if heads else known[np.argmax(counts)]
    for packed in known.tolist():
        yield packed, packets[formats == packed]


def images_of(source: Source, headers: Headers, leads: Flags, packed: int, packets: Numbers) -> Iterator[SortedImage]:
    """Yields the images of packets of one key and format."""
    number = int(packets[0])
    key = ImageKey(*(int(it[number]) for it in (headers.apid, headers.image, headers.rows, headers.blocks)))
    form = None if packed == NO_FORMAT else format_of(packed)
    places = headers.places(packets)
    order = np.argsort(places, kind="stable")
    if not (np.diff(places[order]) == 0).any():
        mended = int((places[1:] < np.maximum.accumulate(places)[:-1]).sum())
        yield SortedImage(key, form, headers, leads, packets[order], number, mended=mended)
        return
    for it in told_apart(source, headers, leads, packets):
        yield SortedImage(key, form, headers, leads, it.packets, it.first, it.duplicates, it.mended, it.differing)


def text_of(source: Source, headers: Headers, packets: Sequence[int]) -> bytes:
    """Returns the parts of a text that these packets carry, one after another."""
    rows = np.array(packets)
    begins, ends = headers.at[rows] + HEADER_SIZE, headers.end[rows]
    first, last = int(begins.min()), int(ends.max())
    if last - first > SPREAD * int((ends - begins).sum()):
        return source.read_all(list(zip(begins.tolist(), (ends - begins).tolist())))
    octets = source.read(first, last - first)
    return b"".join([octets[begin:end] for begin, end in zip((begins - first).tolist(), (ends - first).tolist())])
