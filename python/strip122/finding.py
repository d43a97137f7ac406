"""Finds the whole packets of this coder in any octets, and says what the octets between them are.

A packet whose octets are all there is whole if nothing begins inside it: no header of this coder, and no file that leads
on to a packet or an end. If something does, the packet was cut there. The exception: its length leads on, and no whole
packet inside it leads on too, begins a file, or is the only one of its place in an image that has others.

Each step takes time in proportion to the octets, whatever they are.
"""

from __future__ import annotations

from array import array
from bisect import bisect_left
from collections import Counter
from dataclasses import dataclass
from functools import cached_property
from typing import Counter as Counts, Dict, Iterator, List, NamedTuple, Optional, Sequence, Tuple, Union, overload

import numpy as np

from .headers import IDLE, PRIMARY_SIZE, Flags, Headers, Numbers, headers_in
from .others import CUT, JUNK, KINDS, REFUSED, Runs, joined_runs, lead_on, runs_between
from .source import Source

NOTED_STEPS = 8  # of the packets of others that are gone through, one in this number is noted
LEAST_STEPS = 500  # packets of others that are gone through one by one, before all are followed at once
OCTETS_OF_STEP = 16_384  # for this number of octets, another one is gone through

OURS = (CUT, REFUSED)
LISTED = (*OURS, JUNK)


class Skipped(NamedTuple):
    """A stretch of octets that is used in no image: packets of one kind, or octets that are no packet."""

    at: int
    octets: int
    kind: str
    packets: int = 1
    detail: str = ""


class Chains:
    """Answers whether packets of others, one after another, lead from a place to a packet of this coder or to an end.

    `begins` has the places of the packets of this coder, in rising order.
    """

    def __init__(self, source: Source, begins: Numbers):
        self.source = source
        stops = np.array([it for it in (*source.starts, source.length) if it > 0], np.int64)
        self.known: Numbers = np.union1d(begins.astype(np.int64), stops)
        self.noted: Dict[int, bool] = {}
        self.places = array("q", self.known.tobytes())
        self.steps = LEAST_STEPS + source.length // OCTETS_OF_STEP

    def lead_on(self, places: Numbers) -> Flags:
        """Returns for each place whether a packet of this coder or an end is there, or packets of others lead to one."""
        leads = self.are_known(places)
        if leads.all():
            return leads
        open_places, back = np.unique(places[~leads], return_inverse=True)
        answers = np.zeros(len(open_places), bool)
        number = len(open_places)
        while number > 0 and self.steps > 0:
            number -= 1
            answers[number] = self.leads_on(int(open_places[number]))
        if self.steps <= 0:
            answers[: number + 1] = lead_on(self.source, self.known, open_places[: number + 1])
        leads[~leads] = answers[back]
        return leads

    def are_known(self, places: Numbers) -> Flags:
        """Returns for each place whether a packet of this coder or an end is there."""
        if len(self.known) == 0:
            return np.zeros(len(places), bool)
        number = np.minimum(np.searchsorted(self.known, places), len(self.known) - 1)
        found: Flags = self.known[number] == places
        return found

    def leads_on(self, at: int) -> bool:
        """Returns whether packets of others lead from a place on: also no, if there are more than `steps` of them."""
        passed: List[int] = []
        answer: Optional[bool] = None
        number = steps = 0
        while self.steps > 0:
            answer = self.noted.get(at)
            if answer is not None:
                break
            number = bisect_left(self.places, at, number)
            if number < len(self.places) and self.places[number] == at:
                answer = True
                break
            self.steps -= 1
            length = other_packet(self.source, at)
            if not length:
                answer = False
                break
            if steps % NOTED_STEPS == 0:
                passed.append(at)
            at, steps = at + length, steps + 1
        self.noted.update((it, bool(answer)) for it in passed)
        return bool(answer)


def other_packet(source: Source, at: int) -> int:
    """Returns the length of the unsegmented packet whose primary header is there, or 0 if there is none."""
    header = source.peek(at, PRIMARY_SIZE)
    if len(header) < PRIMARY_SIZE or header[0] >> 5 or header[2] >> 6 != 0b11:
        return 0
    return 7 + (header[4] << 8 | header[5])


class Stretches(Sequence[Skipped]):
    """Stretches of octets, in the order of their places. Each is made when it is asked for.

    `header` has the number of the header of each in `headers`, or -1 if it is none of a packet of this coder.
    """

    def __init__(self, runs: Runs, header: Numbers, headers: Headers):
        self.runs, self.header, self.headers = runs, header, headers

    def __len__(self) -> int:
        return len(self.header)

    @overload
    def __getitem__(self, number: int) -> Skipped: ...

    @overload
    def __getitem__(self, number: slice) -> List[Skipped]: ...

    def __getitem__(self, number: Union[int, slice]) -> Union[Skipped, List[Skipped]]:
        if isinstance(number, slice):
            return [self[it] for it in range(*number.indices(len(self)))]
        runs = self.runs
        kind = KINDS[runs.kind[number]]
        return Skipped(int(runs.at[number]), int(runs.octets[number]), kind, int(runs.packets[number]), self.detail(number, kind))

    def __iter__(self) -> Iterator[Skipped]:
        runs = self.runs
        columns = zip(runs.at.tolist(), runs.octets.tolist(), runs.kind.tolist(), runs.packets.tolist())
        for number, (at, octets, kind, packets) in enumerate(columns):
            yield Skipped(at, octets, KINDS[kind], packets, self.detail(number, KINDS[kind]))

    def of_headers(self) -> "Stretches":
        """Returns the stretches that are of this coder, with a header."""
        rows = self.header >= 0
        return Stretches(self.runs.chosen(rows), self.header[rows], self.headers)

    def detail(self, number: int, kind: str) -> str:
        """Returns what messages say of the header of a stretch."""
        header = int(self.header[number])
        if header < 0:
            return ""
        text = self.headers.text(header)
        if kind == CUT:
            return f"{text}, of {int(self.headers.end[header] - self.headers.at[header])} octets"
        return text if kind == REFUSED else f"before junk: {text}"


@dataclass
class Found:
    """The whole packets in some octets, whether each leads on to another or an end, and the octets beside them.

    `packets_of` and `octets_of` have the sums for each kind of stretch. `skipped` lists the stretches; those of other
    packets only if they were asked for.
    """

    packets: Headers
    leads: Flags
    skipped: Stretches
    packets_of: Counts[str]
    octets_of: Counts[str]


def find(source: Source, is_strict: bool = False, lists_others: bool = False) -> Found:
    """Returns all whole packets of this coder, in the order of the octets, and the stretches between them.

    `is_strict` leaves out packets before junk, whose own end may have been replaced by junk.
    """
    headers = headers_in(source)
    chains = Chains(source, headers.at)
    leads = chains.lead_on(headers.end)
    starts = np.array(source.starts[1:], np.int64)
    cuts = starts[(starts < source.length) & chains.lead_on(starts)]
    is_whole = Wholeness(headers, leads, cuts).is_whole & (headers.end <= source.length)
    kept = outermost(headers, is_whole)
    headers, leads, is_whole = headers.chosen(kept), leads[kept], is_whole[kept]
    taken = is_whole & ~headers.is_refused
    if is_strict:
        taken &= leads
    ends = ends_of(source, headers, is_whole, cuts)
    runs = joined_runs([untaken(headers, is_whole, taken, ends), runs_between(source, *gaps(source, headers, ends, cuts))])
    header = np.full(len(runs.at), -1)
    header[: int((~taken).sum())] = np.arange(int((~taken).sum()))
    listed = np.flatnonzero(lists_others | np.isin(runs.kind, [KINDS.index(it) for it in LISTED]))
    listed = listed[np.argsort(runs.at[listed], kind="stable")]
    skipped = Stretches(runs.chosen(listed), header[listed], headers.chosen(~taken))
    return Found(headers.chosen(taken), leads[taken], skipped, sums(runs.kind, runs.packets), sums(runs.kind, runs.octets))


def sums(kinds: Numbers, counts: Numbers) -> Counts[str]:
    """Returns the sum for each kind of stretch, in the order in which they are there."""
    there, first = np.unique(kinds, return_index=True)
    return Counter({KINDS[it]: int(counts[kinds == it].sum()) for it in there[np.argsort(first)].tolist()})


class Wholeness:
    """Decides which packets are whole, from the last one to the first, since that depends on the packets inside each."""

    def __init__(self, headers: Headers, leads: Flags, cuts: Numbers):
        self.headers, self.leads = headers, leads
        numbers = np.arange(1, len(headers) + 1)
        self.past = np.searchsorted(headers.at, headers.end)  # the number after the last header inside
        self.tail = np.searchsorted(headers.at, headers.end - PRIMARY_SIZE)  # the first that begins in the last six octets
        self.tail = np.maximum(self.tail, numbers)
        inner_cuts = np.searchsorted(cuts, headers.end) - np.searchsorted(cuts, headers.at, "right")
        self.begins_file = np.isin(headers.at, cuts)
        self.is_whole: Flags = (inner_cuts == 0) | leads
        holding = np.flatnonzero(self.is_whole & (self.past > numbers))
        if len(holding):
            self.decide(holding)

    def decide(self, holding: Numbers) -> None:
        """Decides about the packets inside which others begin."""
        needed = self.is_whole & self.is_needed
        needed[holding] = False
        before = np.append(0, np.cumsum(needed))
        found: List[int] = []  # those of `holding` that are needed, the last one first
        for number in holding[::-1].tolist():
            tail = int(self.tail[number])
            late = [it for it in range(tail, int(self.past[number])) if self.counts_in_tail(it)]
            if self.leads[number]:
                is_cut = bool(before[tail] > before[number + 1]) or bool(found) and found[-1] < tail
                is_cut = is_cut or any(self.is_whole[it] and self.is_needed[it] for it in late)
                is_cut = is_cut or self.holds_its_twin(number, late)
            else:
                is_cut = tail > number + 1 or bool(late)
            self.is_whole[number] = not is_cut
            if not is_cut and self.is_needed[number]:
                found.append(number)

    @cached_property
    def is_needed(self) -> Flags:
        """Which packets are packets wherever they begin: they lead on, begin a file, or are the only one of their place
        in an image that has others."""
        _, key, packets = np.unique(self.headers.keys(), return_inverse=True, return_counts=True)
        needed: Flags = self.leads | self.begins_file | (self.twins[0] == 1) & (packets[key] > 1)
        return needed

    @cached_property
    def twins(self) -> Tuple[Numbers, Numbers]:
        """For each header how many have its image and place, and the number of the next of them, or -1."""
        keys, places = self.headers.keys(), self.headers.places()
        order = np.lexsort((places, keys))
        is_new = np.append(True, (np.diff(keys[order]) != 0) | (np.diff(places[order]) != 0))
        group = np.cumsum(is_new) - 1
        count, following = np.zeros(len(order), np.int64), np.full(len(order), -1)
        count[order] = np.bincount(group)[group]
        following[order[:-1]] = np.where(is_new[1:], -1, order[1:])
        return count, following

    def holds_its_twin(self, outer: int, late: List[int]) -> bool:
        """Returns whether the only other header of a packet's place is inside it, and whole: the outer one was cut there."""
        count, following = self.twins
        inner = int(following[outer])
        if count[outer] != 2 or inner < 0:
            return False
        return (inner < self.tail[outer] or inner in late) and bool(self.is_whole[inner])

    def counts_in_tail(self, number: int) -> bool:
        """Returns whether a header that begins in the last six octets of a packet is one.

        Otherwise those octets and another packet that lost its first ones look like a header. A header that begins a
        file is one, and so is one whose APID others have, or that fits no image of another APID. One that fits such an
        image is one if its packet leads on and the image has its place: otherwise it is what is left of that packet.
        """
        if self.begins_file[number] or self.of_apid[self.headers.apid[number]] > 1:
            return True
        relatives = self.relatives(number)
        return len(relatives) == 0 or bool(self.leads[number]) and not self.is_missed(number, relatives)

    @cached_property
    def of_apid(self) -> Numbers:
        return np.bincount(self.headers.apid, minlength=IDLE)

    @cached_property
    def alike(self) -> Dict[bytes, Numbers]:
        """The numbers of the headers of each image number, height and segment size."""
        sizes = np.stack([self.headers.image, self.headers.rows, self.headers.blocks], axis=1)
        order = np.lexsort(sizes.T)
        is_new = np.flatnonzero(np.diff(sizes[order], axis=0).any(axis=1)) + 1
        return {sizes[them[0]].tobytes(): them for them in np.split(order, is_new)}

    def relatives(self, number: int) -> Numbers:
        """Returns the headers of images of other APIDs that have the number and the sizes of a header's image."""
        headers = self.headers
        size = np.stack([headers.image[number], headers.rows[number], headers.blocks[number]])
        them = self.alike[size.tobytes()]
        others: Numbers = them[headers.apid[them] != headers.apid[number]]
        return others

    def is_missed(self, number: int, relatives: Numbers) -> bool:
        """Returns whether one of these images lacks the place of a header."""
        headers = self.headers
        have = relatives[headers.places(relatives) == headers.places(number)]
        return len(np.setdiff1d(headers.apid[relatives], headers.apid[have])) > 0


def outermost(headers: Headers, is_whole: Flags) -> Flags:
    """Returns which headers aren't inside a whole packet."""
    if len(headers) == 0 or bool((headers.end[:-1] <= headers.at[1:])[is_whole[:-1]].all()):
        return np.ones(len(headers), bool)
    kept, past = np.zeros(len(headers), bool), 0
    for number, (at, end, whole) in enumerate(zip(headers.at.tolist(), headers.end.tolist(), is_whole.tolist())):
        if at >= past:
            kept[number] = True
            past = end if whole else at
    return kept


# ---- what is between the packets


def ends_of(source: Source, headers: Headers, is_whole: Flags, cuts: Numbers) -> Numbers:
    """Returns where the octets of each header end: its packet, or at the next header or file if the packet isn't whole."""
    following = np.append(headers.at[1:], source.length)[: len(headers)]
    files = np.append(cuts, source.length)[np.searchsorted(cuts, headers.at, "right")]
    ends: Numbers = np.where(is_whole, headers.end, np.minimum(following, files))
    return ends


def untaken(headers: Headers, is_whole: Flags, taken: Flags, ends: Numbers) -> Runs:
    """Returns the stretches of the headers whose packets are not used."""
    kind = np.where(headers.is_refused, KINDS.index(REFUSED), KINDS.index(JUNK))
    kind = np.where(is_whole, kind, KINDS.index(CUT))
    return Runs(headers.at, ends - headers.at, kind, np.ones(len(headers), np.int64)).chosen(~taken)


def gaps(source: Source, headers: Headers, ends: Numbers, cuts: Numbers) -> Tuple[Numbers, Numbers]:
    """Returns the places and the ends of what is between the headers. Where a file is cut inside, another gap begins."""
    begins, stops = np.append(0, ends), np.append(headers.at, source.length)
    is_gap = stops > begins
    begins, stops = begins[is_gap], stops[is_gap]
    cuts = np.unique(cuts)
    number = np.searchsorted(begins, cuts) - 1
    inner = cuts[(number >= 0) & (cuts < np.append(stops, -1)[number])]
    return np.sort(np.append(begins, inner)), np.sort(np.append(stops, inner))
