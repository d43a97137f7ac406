"""Packets of one key of which places come more than once: copies of one image's packets, or several images.

All this is done with columns of packets: contents are compared by digests, and the images of runs are found with sets of
the contents that differ.
"""

from __future__ import annotations

from dataclasses import dataclass
from operator import itemgetter
from typing import Any, Dict, List, Set, Tuple

import numpy as np

from .digests import digests
from .headers import HEADER_SIZE, Flags, Headers, Numbers
from .source import Source

EVIDENT = 64  # octets of text of which two images hardly have the same by chance; flat segments have fewer
COMPARED = 4  # images with which a run is compared at most


@dataclass
class Copies:
    """The packets of one image.

    `packets` has one packet for each place, in the order of the places. `differing` has for each place whose copies
    differ a packet of each content: the most frequent first, of these one that leads on, else the first.
    """

    first: int
    packets: Numbers
    differing: Dict[int, List[int]]
    duplicates: int
    mended: int


def told_apart(source: Source, headers: Headers, leads: Flags, packets: Numbers) -> List[Copies]:
    """Returns the images of packets of one key, in the order of the octets.

    A run is a sequence of packets whose places don't fall. If a run has other octets in a place that an image has
    already, it is another image, and its packets stay together. It is a copy of the image, in which packets were
    changed, if at least as many of its packets are octet for octet the image's. A packet before junk proves nothing.
    """
    sorter = Sorter(source, headers, leads, packets)
    image = sorter.images()
    order = np.argsort(image, kind="stable")
    begins = np.flatnonzero(np.diff(image[order], prepend=-1))
    return [sorter.copies(them) for them in np.split(order, begins[1:])]


class Sorter:
    """Sorts the runs of one key into images. Packets are numbered as in `packets`, and places and contents as they rise."""

    def __init__(self, source: Source, headers: Headers, leads: Flags, packets: Numbers):
        self.packets, self.leads = packets, leads[packets]
        self.is_evident = (headers.end - headers.at)[packets] > HEADER_SIZE + EVIDENT
        self.places, self.place = np.unique(headers.places(packets), return_inverse=True)
        self.content, self.place_of = contents(source, headers, packets, self.place)
        self.run = np.cumsum(np.diff(self.place, prepend=0) < 0)

    def images(self) -> Numbers:
        """Returns the number of the image of each packet."""
        is_disputed = (np.bincount(self.place_of) > 1)[self.place]
        if not is_disputed.any():
            return np.zeros(len(self.packets), np.int64)
        image_of = ImagesOfRuns(self, np.flatnonzero(is_disputed)).images()
        images: Numbers = np.array(image_of)[self.run]
        return images

    def copies(self, them: Numbers) -> Copies:
        """Returns the image of these packets."""
        place, content, leads = self.place[them], self.content[them], self.leads[them]
        _, first, number, count = np.unique(content, return_index=True, return_inverse=True, return_counts=True)
        used = first.copy()  # of each content the first packet that leads on, or else the first one
        leading = np.flatnonzero(leads)[::-1]
        used[number[leading]] = leading
        order = np.lexsort((first, ~leads[used], -count, place[first]))
        place_of, used = place[first][order], self.packets[them[used[order]]]
        begins = np.flatnonzero(np.diff(place_of, prepend=-1))
        is_new = np.zeros(len(them), bool)
        is_new[np.unique(place, return_index=True)[1]] = True
        is_late = is_new[1:] & (place[1:] < np.maximum.accumulate(place)[:-1])
        differing = listed(self.places[place_of], used, begins)
        return Copies(int(self.packets[them[0]]), used[begins], differing, len(them) - len(first), int(is_late.sum()))


def listed(places: Numbers, packets: Numbers, begins: Numbers) -> Dict[int, List[int]]:
    """Returns the packets of each place that has several."""
    ends = np.append(begins[1:], len(places))
    are_several = ends - begins > 1
    them, begins, ends = packets.tolist(), begins[are_several], ends[are_several]
    return {place: them[begin:end] for place, begin, end in zip(places[begins].tolist(), begins.tolist(), ends.tolist())}


def contents(source: Source, headers: Headers, packets: Numbers, place: Numbers) -> Tuple[Numbers, Numbers]:
    """Returns for each packet the number of its place and octets, except the sequence count, and the place of each number.

    A place of which there is one packet needs no digest.
    """
    first, second = np.zeros((2, len(packets)), np.uint64)
    several = np.flatnonzero(np.bincount(place)[place] > 1)
    first[several], second[several] = digests(source, headers.at[packets[several]], headers.end[packets[several]])
    order = np.lexsort((second, first, place))
    is_new = np.zeros(len(order), bool)
    for it in (place, first, second):
        is_new |= np.diff(it[order], prepend=it[order[:1]]) != 0
    is_new[:1] = True
    content = np.zeros(len(order), np.int64)
    content[order] = np.cumsum(is_new) - 1
    return content, place[order[is_new]]


class ImagesOfRuns:
    """Finds the image of each run, in their order, by the packets of places of which contents differ.

    For each of these runs there are lists: of the contents, of the places of packets that lead on, and of the earlier
    runs in which contents of the run were first, each with the number of these that are evident.
    """

    def __init__(self, sorter: Sorter, disputed: Numbers):
        self.place_of: List[int] = sorter.place_of.tolist()
        self.count = int(sorter.run[-1]) + 1
        self.contents = by_run(sorter.run[disputed], sorter.content[disputed], self.count)
        leading = disputed[sorter.leads[disputed]]
        self.places = by_run(sorter.run[leading], sorter.place[leading], self.count)
        self.votes = by_run(*votes(sorter), self.count)

    def images(self) -> List[int]:
        """Returns the number of the image of each run."""
        images: List[int] = []
        contents_of: List[Set[int]] = []
        places_of: List[Set[int]] = []  # those of which a packet leads on
        for run, votes in enumerate(self.votes):
            contents, places = set(self.contents[run]), set(self.places[run])
            image = len(contents_of)
            for owner, count in owners(images, votes):
                others = places & places_of[owner]
                if others:
                    others.difference_update([self.place_of[it] for it in contents & contents_of[owner]])
                if count >= len(others):
                    image = owner
                    break
            if image == len(contents_of):
                contents_of.append(contents)
                places_of.append(places)
            else:
                contents_of[image] |= contents
                places_of[image] |= places
            images.append(image)
        return images


def owners(images: List[int], votes: List[List[int]]) -> List[Tuple[int, int]]:
    """Returns the images with which a run is compared, and the evident packets that it has of each: none for the first run.

    They are those of which it has the most, and that of the run before. `images` has the images of the earlier runs.
    """
    found: Dict[int, int] = {}
    for before, count in votes:
        found[images[before]] = found.get(images[before], 0) + count
    most = sorted(found.items(), key=itemgetter(1), reverse=True)[:COMPARED] if len(found) > 1 else list(found.items())
    if images and all(it != images[-1] for it, _ in most):
        most.append((images[-1], found.get(images[-1], 0)))
    return most


def by_run(run: Numbers, values: Numbers, count: int) -> List[List[Any]]:
    """Returns the values of each run. The runs are in rising order."""
    them = values.tolist()
    bounds = np.searchsorted(run, np.arange(count + 1)).tolist()
    return [them[begin:end] for begin, end in zip(bounds, bounds[1:])]


def votes(sorter: Sorter) -> Tuple[Numbers, Numbers]:
    """Returns runs, in rising order, and for each an earlier run in which contents of it were first, and how many evident ones.

    The earlier runs of one run are in the order of their contents in it.
    """
    _, first, number = np.unique(sorter.content, return_index=True, return_inverse=True)
    before = sorter.run[first][number]
    again = np.flatnonzero(before < sorter.run)
    pair, at, number = np.unique(sorter.run[again] * len(sorter.run) + before[again], return_index=True, return_inverse=True)
    count = np.bincount(number, sorter.is_evident[again], len(pair)).astype(np.int64)
    order = np.argsort(at)
    runs, earlier = np.divmod(pair[order], len(sorter.run))
    return runs, np.stack([earlier, count[order]], axis=1)
