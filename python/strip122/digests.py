"""Digests of packets, made with numpy for all packets of about one length at once."""

from __future__ import annotations

from typing import Tuple

import numpy as np
from numpy.typing import NDArray

from .headers import Numbers
from .others import LONGEST
from .source import PIECE, Source

WORD = 4  # octets that are multiplied at once
FINE, COARSE = 64, 2_048  # lengths are rounded up to FINE if they are less than COARSE, and otherwise to COARSE
MOST = LONGEST // COARSE * COARSE + COARSE
AT_ONCE = 1 << 20  # octets of packets that are put together at once

KEYS: NDArray[np.uint64] = np.random.default_rng().integers(0, 1 << 64, (2, MOST // WORD), np.uint64)


def digests(source: Source, at: Numbers, end: Numbers) -> Tuple[Numbers, Numbers]:
    """Returns two numbers of 64 bits for each packet, of all its octets except the sequence count, which no reader uses.

    Each is the sum of its words, times numbers that are chosen by chance in each process. So two packets of one length
    that differ have the same two with a chance of at most 2^-66. Packets have these places, in rising order, and ends.
    """
    found = np.zeros((len(at), 2), np.uint64)
    length = end - at
    step = np.where(length < COARSE, FINE, COARSE)
    size = length // step * step + step
    begin = 0
    while begin < len(at):
        last = int(np.searchsorted(at, at[begin] + PIECE))
        base = int(at[begin])
        octets = np.frombuffer(source.read(base, int(end[begin:last].max()) - base) + bytes(COARSE), np.uint8)
        for it in np.unique(size[begin:last]).tolist():
            them = begin + np.flatnonzero(size[begin:last] == it)
            for few in np.array_split(them, -(-len(them) * it // AT_ONCE)):
                found[few] = sums(octets, at[few] - base, length[few], it)
        begin = last
    return found[:, 0], found[:, 1]


def sums(octets: NDArray[np.uint8], at: Numbers, length: Numbers, size: int) -> NDArray[np.uint64]:
    """Returns the two numbers of each of the packets at these places. All lengths are less than a size."""
    rows = np.ascontiguousarray(np.lib.stride_tricks.sliding_window_view(octets, size)[at])
    least = int(length.min())
    rows[:, least:] *= np.arange(least, size) < length[:, None]
    rows[:, 2] &= 0xC0
    rows[:, 3] = 0
    words = rows.view(np.uint32).astype(np.uint64)
    return np.stack([words.dot(keys[: size // WORD]) for keys in KEYS], axis=1)
