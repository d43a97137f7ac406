"""Octets to search: files that are joined in order, or octets in memory. At most a few blocks of them are held at a time."""

from __future__ import annotations

import os
import shutil
import stat
import sys
import tempfile
from bisect import bisect_right
from functools import lru_cache
from itertools import accumulate
from pathlib import Path
from typing import IO, Callable, Iterable, List, Sequence, Tuple, Union

from .errors import ReadFault
from .files import reason

Octets = Union[bytes, bytearray, memoryview]
Given = Union[Octets, str, "os.PathLike[str]"]
Range = Tuple[int, int]  # a place in the joined octets, and a number of octets

BLOCK = 1 << 18  # octets that are read at once for small reads
BLOCKS_HELD = 8
PIECE = 1 << 23  # octets that are searched at once


class Source:
    """The joined octets of files (`-` is standard input), or of octets in memory.

    `starts` has the place at which each file begins, and `length` is the number of all octets. A pipe is copied to a
    temporary file first. Raises ReadFault, with the name of the file, if one can't be read.
    """

    def __init__(self, given: Iterable[Given]):
        self.names: List[str] = []
        self._readers: List[Callable[[int, int], bytes]] = []
        self._files: List[IO[bytes]] = []
        sizes: List[int] = []
        try:
            for it in given:
                name, size, reader = self._opened(it)
                self.names.append(name)
                sizes.append(size)
                self._readers.append(reader)
        except BaseException:
            self.close()
            raise
        self.starts = [0, *accumulate(sizes)][:-1]
        self.length = sum(sizes)
        self._block = lru_cache(maxsize=BLOCKS_HELD)(self._read_block)

    def _opened(self, given: Given) -> Tuple[str, int, Callable[[int, int], bytes]]:
        if isinstance(given, (bytes, bytearray, memoryview)):
            octets = memoryview(given).cast("B")
            return "octets", len(octets), lambda at, count: bytes(octets[at : at + count])
        name = os.fspath(given)
        try:
            file: IO[bytes] = spooled(sys.stdin.buffer) if name == "-" else open(name, "rb")
            self._files.append(file)
            kind = os.fstat(file.fileno())
            if stat.S_ISFIFO(kind.st_mode) or stat.S_ISCHR(kind.st_mode):
                file = spooled(file)
                self._files.append(file)
            os.pread(file.fileno(), 1, 0)  # a folder is refused here
            size, descriptor = os.fstat(file.fileno()).st_size, file.fileno()
        except OSError as fault:
            raise ReadFault(f"{name}: {reason(fault)}") from fault
        return name, size, lambda at, count: read_at(name, descriptor, at, count)

    def close(self) -> None:
        """Closes the files."""
        for it in self._files:
            it.close()

    def __enter__(self) -> "Source":
        return self

    def __exit__(self, *_: object) -> None:
        self.close()

    @property
    def title(self) -> str:
        """The names of the files, for messages."""
        return self.names[0] if len(self.names) == 1 else ", ".join(self.names)

    def file_at(self, at: int) -> str:
        """Returns the name of the file that has the octet at this place."""
        return self.names[max(bisect_right(self.starts, at) - 1, 0)]

    def read(self, at: int, count: int) -> bytes:
        """Returns the octets from a place on: that number, or those up to the end."""
        count = min(count, self.length - at)
        pieces: List[bytes] = []
        number = bisect_right(self.starts, at) - 1
        while count > 0:
            end = self.starts[number + 1] if number + 1 < len(self.starts) else self.length
            piece = self._readers[number](at - self.starts[number], min(count, end - at))
            pieces.append(piece)
            at, count, number = at + len(piece), count - len(piece), number + 1
        return pieces[0] if len(pieces) == 1 else b"".join(pieces)

    def read_all(self, ranges: Sequence[Range]) -> bytes:
        """Returns the octets of these ranges, one after another."""
        return b"".join(self.read(at, count) for at, count in ranges)

    def peek(self, at: int, count: int) -> bytes:
        """Returns a few octets, as `read` does, out of a block that is kept for the next calls."""
        place = at % BLOCK
        block = self._block(at - place)
        if place + count <= len(block):
            return block[place : place + count]
        return self.read(at, count)

    def _read_block(self, at: int) -> bytes:
        return self.read(at, BLOCK)


def read_at(name: str, descriptor: int, at: int, count: int) -> bytes:
    """Returns octets of an open file. Raises ReadFault if it fails, or if the file became shorter."""
    pieces: List[bytes] = []
    try:
        while count > 0:
            piece = os.pread(descriptor, count, at)
            if not piece:
                raise ReadFault(f"{name}: became shorter while it was read")
            pieces.append(piece)
            at, count = at + len(piece), count - len(piece)
    except OSError as fault:
        if isinstance(fault, ReadFault):
            raise
        raise ReadFault(f"{name}: {reason(fault)}") from fault
    return pieces[0] if len(pieces) == 1 else b"".join(pieces)


def spooled(pipe: IO[bytes]) -> IO[bytes]:
    """Returns a temporary file with all octets of a pipe."""
    file = tempfile.TemporaryFile(prefix="strip122-")
    shutil.copyfileobj(pipe, file, 1 << 20)
    file.flush()
    return file


def joined(ranges: Iterable[Range]) -> List[Range]:
    """Returns these ranges with neighbours made into one."""
    found: List[Range] = []
    for at, count in ranges:
        if found and sum(found[-1]) == at:
            found[-1] = (found[-1][0], found[-1][1] + count)
        else:
            found.append((at, count))
    return found


def as_source(given: Union[Given, Iterable[Given]]) -> Source:
    """Returns a source of one file, of octets, or of several of them."""
    if isinstance(given, (bytes, bytearray, memoryview, str, Path)) or hasattr(given, "__fspath__"):
        return Source([given])  # type: ignore[list-item]
    return Source(given)
