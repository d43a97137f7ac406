"""Follows packets of other sources, one after another, from many places at once: with numpy, a piece of the octets at a time.

In a piece each place has the place to which its packet leads. Pointers to these are doubled, so a piece takes a number of
rounds in proportion to the logarithm of its packets, and memory in proportion to its octets.
"""

from __future__ import annotations

from dataclasses import dataclass, fields
from typing import Any, List, Tuple

import numpy as np
from numpy.typing import NDArray

from .headers import IDLE, PRIMARY_SIZE, Flags, Numbers
from .source import Source

CUT, REFUSED, IDLES, COMMANDS, OTHERS, JUNK = (
    "packet of this coder, cut",
    "packet of this coder, segment header refused",
    "idle packet",
    "telecommand packet",
    "packet of another source",
    "octets that are no packet",
)
KINDS = (CUT, REFUSED, IDLES, COMMANDS, OTHERS, JUNK)

PIECE = 1 << 17  # octets that are followed at once
LONGEST = 65_542  # octets of a packet
APART = 1 << 12  # octets between two places that are read on their own
AT_ONCE = 1 << 20  # octets that are read at once


@dataclass
class Runs:
    """Columns of stretches: the place, the octets, the kind as a number in `KINDS`, and the packets."""

    at: Numbers
    octets: Numbers
    kind: Numbers
    packets: Numbers

    def chosen(self, rows: Any) -> "Runs":
        """Returns some of the stretches, by their numbers or by a flag for each."""
        return Runs(*(getattr(self, it.name)[rows] for it in fields(self)))


def joined_runs(parts: List[Runs]) -> Runs:
    """Returns the runs of all these, in order."""
    return Runs(*(np.concatenate([getattr(it, field.name) for it in parts]) for field in fields(Runs)))


def others_at(octets: NDArray[np.uint8]) -> Tuple[Numbers, Numbers]:
    """Returns where unsegmented packets may begin in some octets that have their primary headers, and where these end."""
    count = max(len(octets) - PRIMARY_SIZE + 1, 0)
    at = np.flatnonzero((octets[:count] < 0x20) & (octets[2 : count + 2] >= 0xC0))
    return at, at + 7 + (octets[at + 4].astype(np.int64) << 8 | octets[at + 5])


def following(at: Numbers, end: Numbers) -> Numbers:
    """Returns for packets with these places and ends the number of the packet that follows each, or its own if none does."""
    after = np.searchsorted(at, end)
    is_there = np.append(at, -1)[after] == end
    return np.where(is_there, after, np.arange(len(at)))


def last_of(at: Numbers, end: Numbers) -> Numbers:
    """Returns for packets with these places and ends the number of the last of those that follow each, one after another."""
    to = following(at, end)
    active = np.arange(len(at))
    while len(active):
        after = to[active]
        further = to[after]
        to[active] = further
        active = active[further != after]
    return to


def reached_from(begins: Numbers, at: Numbers, end: Numbers) -> Flags:
    """Returns for packets with these places and ends whether packets lead there from a place in `begins`."""
    is_reached = np.zeros(len(at), bool)
    number = np.searchsorted(at, begins)
    reached = number[np.append(at, -1)[number] == begins]
    is_reached[reached] = True
    to, count = following(at, end), 0
    while len(reached) > count:
        count = len(reached)
        is_reached[to[reached]] = True
        reached = np.flatnonzero(is_reached)
        to = to[to]
    return is_reached


def lead_on(source: Source, known: Numbers, places: Numbers) -> Flags:
    """Returns for each of these places, in rising order, whether packets of others lead from it to a known place.

    The pieces are gone through from the last one to that of the first place. `known` is in rising order.
    """
    answers = np.zeros(len(places), bool)
    if len(places) == 0:
        return answers
    leads = np.zeros(PIECE + LONGEST + 1, bool)  # those of a piece, and of what follows as far as a packet reaches
    for begin in range(source.length // PIECE * PIECE, int(places[0]) - PIECE, -PIECE):
        leads[PIECE:] = leads[: LONGEST + 1]
        leads[:PIECE] = False
        first, last = np.searchsorted(known, [begin, begin + PIECE])
        leads[known[first:last] - begin] = True
        at, end = others_at(np.frombuffer(source.read(begin, PIECE + PRIMARY_SIZE - 1), np.uint8))
        is_open = ~leads[at]
        at, end = at[is_open], end[is_open]
        leads[at] = leads[end[last_of(at, end)]]
        first, last = np.searchsorted(places, [begin, begin + PIECE])
        answers[first:last] = leads[places[first:last] - begin]
    return answers


def octets_at(source: Source, places: Numbers) -> NDArray[np.uint8]:
    """Returns the octets at these places, in rising order: 0 after the end."""
    octets = np.zeros(len(places), np.uint8)
    count = int(np.searchsorted(places, source.length))
    apart = np.append(np.flatnonzero(np.diff(places[:count]) > APART) + 1, count)
    begin = 0
    while begin < count:
        end = min(int(np.searchsorted(places, places[begin] + AT_ONCE)), int(apart[np.searchsorted(apart, begin, "right")]))
        first = int(places[begin])
        read = np.frombuffer(source.read(first, int(places[end - 1]) - first + 1), np.uint8)
        octets[begin:end] = read[places[begin:end] - first]
        begin = end
    return octets


# ---- gaps


def runs_between(source: Source, begins: Numbers, ends: Numbers) -> Runs:
    """Returns what gaps hold that have these begins and ends, in rising order.

    Those are the packets of others from the begin of a gap to its end, if they lead there; neighbours of one kind are one
    run. If they don't, only idle packets at the begin are known to be packets, and the rest is no packet.
    """
    runs, gap = Gaps(source, begins, ends).runs()
    is_first = np.diff(gap, prepend=-1) != 0
    is_last = np.append(is_first[1:], True)[: len(gap)]
    leads = np.zeros(len(begins), bool)
    leads[gap[is_last]] = (runs.at + runs.octets)[is_last] == ends[gap[is_last]]
    is_kept = leads[gap] | is_first & (runs.kind == KINDS.index(IDLES))
    runs, gap = runs.chosen(is_kept), gap[is_kept]
    rest = begins.copy()
    rest[gap] = runs.at + runs.octets
    is_junk = rest < ends
    at, octets = rest[is_junk], (ends - rest)[is_junk]
    found = joined_runs([runs, Runs(at, octets, np.full(len(at), KINDS.index(JUNK)), np.ones(len(at), np.int64))])
    return found.chosen(np.argsort(found.at, kind="stable"))


class Gaps:
    """Finds the packets of others, one after another, from the begin of each gap on.

    The octets of the gaps are taken one after another, without those between them.
    """

    def __init__(self, source: Source, begins: Numbers, ends: Numbers):
        self.source = source
        numbers = np.flatnonzero(ends - begins > PRIMARY_SIZE)
        views = octets_at(source, (begins[numbers, None] + np.arange(PRIMARY_SIZE)).ravel()).reshape(-1, PRIMARY_SIZE)
        length = 7 + (views[:, 4].astype(np.int64) << 8 | views[:, 5])
        numbers = numbers[(views[:, 0] < 0x20) & (views[:, 2] >= 0xC0) & (begins[numbers] + length <= ends[numbers])]
        self.numbers, self.begins, self.ends = numbers, begins[numbers], ends[numbers]
        self.before = np.append(0, np.cumsum(self.ends - self.begins))  # the octets of all gaps before each

    def runs(self) -> Tuple[Runs, Numbers]:
        """Returns the runs of packets of one kind in one gap, in order, and the number of the gap of each."""
        none = np.zeros(0, np.int64)
        parts: List[Runs] = [Runs(none, none, none, none)]
        gaps: List[Numbers] = [none]
        at = 0
        while at < self.before[-1]:
            runs, gap, at = self.piece(at)
            parts.append(runs)
            gaps.append(gap)
        runs, gap = summed(joined_runs(parts), np.concatenate(gaps))
        return runs, self.numbers[gap]

    def piece(self, base: int) -> Tuple[Runs, Numbers, int]:
        """Returns the runs in a piece of the octets of the gaps, their gaps, and from where on there may be more."""
        size = int(min(PIECE + PRIMARY_SIZE - 1, self.before[-1] - base))
        first, last = (np.searchsorted(self.before, [base, base + size - 1], "right") - 1).tolist()
        octets = self.octets(first, last, base, size)
        at, end = others_at(octets)
        gap = np.searchsorted(self.before, base + at, "right") - 1
        fits = base + end <= self.before[gap + 1]
        at, end, gap = at[fits], end[fits], gap[fits]
        is_reached = reached_from(np.append(0, self.before[first + 1 : last + 1] - base), at, end)
        at, end, gap = at[is_reached], end[is_reached], gap[is_reached]
        kind = np.where(octets[at] >> 4 & 1, KINDS.index(COMMANDS), KINDS.index(OTHERS))
        kind[(octets[at].astype(np.int64) << 8 | octets[at + 1]) & 0x7FF == IDLE] = KINDS.index(IDLES)
        runs = Runs(base + at - self.before[gap] + self.begins[gap], end - at, kind, np.ones(len(at), np.int64))
        return (*summed(runs, gap), self.next_piece(base, base + end))

    def octets(self, first: int, last: int, base: int, size: int) -> NDArray[np.uint8]:
        """Returns a number of octets of these gaps."""
        shifts = (self.begins - self.before[:-1])[first : last + 1]
        if first == last:
            return np.frombuffer(self.source.read(int(shifts[0]) + base, size), np.uint8)
        sizes = np.diff(np.clip(self.before[first : last + 2], base, base + size))
        return octets_at(self.source, np.repeat(shifts, sizes) + np.arange(base, base + size))

    def next_piece(self, base: int, ends: Numbers) -> int:
        """Returns where the next piece begins: where packets with these ends lead out of this one, or else at the next gap."""
        number = min(int(np.searchsorted(self.before, base + PIECE)), len(self.begins))
        gap = int(self.before[number])
        further = ends[(ends >= base + PIECE) & (ends < gap)]
        return int(further[0]) if len(further) else gap


def summed(runs: Runs, gap: Numbers) -> Tuple[Runs, Numbers]:
    """Returns runs with neighbours of one kind and gap made into one, and the gap of each."""
    begins = np.flatnonzero((np.diff(gap, prepend=-1) != 0) | (np.diff(runs.kind, prepend=-1) != 0))
    if len(begins) == 0:
        return runs, gap
    octets, packets = np.add.reduceat(runs.octets, begins), np.add.reduceat(runs.packets, begins)
    return Runs(runs.at[begins], octets, runs.kind[begins], packets), gap[begins]
