"""A strip for each APID: its packets in the order in which they arrived, and the gaps of those that were lost."""

from __future__ import annotations

from dataclasses import dataclass
from itertools import groupby
from typing import Dict, Iterable, Iterator, List, NamedTuple, Tuple

import numpy as np

from .headers import Numbers
from .images import SortedImage
from .passes import Pass

WIDTH = 1000.0  # units of a strip
MOST_RUNS = 600  # runs that are drawn one by one
BINS = 300  # columns of a strip with more runs
LEAST_GAP = 2.0  # units of the narrowest gap that is drawn

USED, COPY, LOST = "used", "copy", "lost"


class Run(NamedTuple):
    """Neighbours of one kind and image in the order of arrival."""

    kind: str
    image: int  # the number of the image in the pass
    packets: int


class Box(NamedTuple):
    """A rectangle of a strip, in units from the left and from 0 to 1 upwards."""

    left: float
    width: float
    kind: str
    image: int
    height: float
    packets: int


@dataclass
class Strip:
    """The strip of an APID, with its counts."""

    apid: int
    images: int
    packets: int
    copies: int
    lost: int
    boxes: List[Box]


def strips(them: Pass) -> List[Strip]:
    """Returns a strip for each APID, in their order."""
    packets = them.found.packets
    owner = np.full(len(packets), -1, np.int64)
    for number, image in enumerate(them.images):
        owner[image.packets] = number
    gaps = gaps_after(them.images)
    found: List[Strip] = []
    for apid in np.unique(packets.apid).tolist():
        numbers = np.flatnonzero(packets.apid == apid)
        own = [(number, it) for number, it in enumerate(them.images) if it.key.apid == apid]
        runs = list(joined_runs(runs_of(numbers, owner, gaps, own[0][0])))
        used = int((owner[numbers] >= 0).sum())
        lost = sum(it.lost_packets for _, it in own)
        found.append(Strip(apid, len(own), used, len(numbers) - used, lost, list(boxes(runs))))
    return found


def gaps_after(images: Iterable[SortedImage]) -> Dict[int, Tuple[int, int]]:
    """Returns the packets after or before which others were lost, by the order of places: how many before and after each."""
    gaps: Dict[int, Tuple[int, int]] = {}
    for image in images:
        places = image.headers.places(image.packets)
        for lost in image.lost:
            at = int(np.searchsorted(places, lost.first << 32 | lost.part)) - 1
            number = int(image.packets[max(at, 0)])
            before, after = gaps.get(number, (0, 0))
            gaps[number] = (before + lost.packets, after) if at < 0 else (before, after + lost.packets)
    return gaps


def runs_of(numbers: Numbers, owner: Numbers, gaps: Dict[int, Tuple[int, int]], first: int) -> Iterator[Run]:
    """Yields a run for each packet, and for each gap."""
    latest = first
    for number, image in zip(numbers.tolist(), owner[numbers].tolist()):
        before, after = gaps.get(number, (0, 0))
        latest = image if image >= 0 else latest
        if before:
            yield Run(LOST, latest, before)
        yield Run(USED if image >= 0 else COPY, latest, 1)
        if after:
            yield Run(LOST, latest, after)


def joined_runs(runs: Iterable[Run]) -> Iterator[Run]:
    """Yields runs with neighbours of one kind and image made into one."""
    for (kind, image), some in groupby(runs, key=lambda it: it[:2]):
        yield Run(kind, image, sum(it.packets for it in some))


def boxes(runs: List[Run]) -> Iterator[Box]:
    """Yields the rectangles of a strip. If it has too many runs, each is a column with the kinds that it has most of."""
    total = sum(it.packets for it in runs)
    if len(runs) > MOST_RUNS:
        yield from columns(runs, total)
        return
    at = 0
    late: List[Box] = []
    for it in runs:
        left, width = WIDTH * at / total, WIDTH * it.packets / total
        at += it.packets
        if it.kind == LOST:
            wide = max(width, LEAST_GAP)
            late.append(Box(min(max(left + (width - wide) / 2, 0), WIDTH - wide), wide, LOST, it.image, 1.0, it.packets))
        else:
            yield Box(left, width, it.kind, it.image, 1.0, it.packets)
    yield from late


def columns(runs: List[Run], total: int) -> Iterator[Box]:
    """Yields columns of equal width; a gap is as high as its share of the column."""
    ends = np.cumsum([it.packets for it in runs])
    width = WIDTH / BINS
    for column in range(BINS):
        begin, end = total * column / BINS, total * (column + 1) / BINS
        first, last = int(np.searchsorted(ends, begin, "right")), int(np.searchsorted(ends, end, "left"))
        shares: Dict[str, float] = {}
        for it in range(first, min(last, len(runs) - 1) + 1):
            inside = min(end, float(ends[it])) - max(begin, float(ends[it]) - runs[it].packets)
            shares[runs[it].kind] = shares.get(runs[it].kind, 0.0) + max(inside, 0.0)
        lost = shares.pop(LOST, 0.0) / (end - begin)
        kind = max(shares, key=lambda it: shares[it], default=USED)
        yield Box(column * width, width, kind, runs[first].image, 1.0, round(end - begin))
        if lost > 0:
            yield Box(column * width, width, LOST, runs[first].image, max(lost, 0.1), round(lost * (end - begin)) or 1)

