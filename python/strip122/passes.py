"""A pass: all images in some files, and what else is in them. As text it is a table, and for programs it is JSON."""

from __future__ import annotations

from dataclasses import dataclass
from itertools import islice
from typing import Any, Dict, Iterable, Iterator, List, Sequence, Union

import numpy as np

from . import choosing
from .errors import BadInput
from .finding import LISTED, Found, Skipped, find
from .images import SortedImage, sorted_images
from .others import CUT, JUNK, REFUSED
from .source import Given, Source, as_source

COLUMNS = "image width rows depth signed packets octets whole segments mended copies differing before-junk lost".split()
LINES = 20  # lines of a kind that are listed if not all are asked for


@dataclass
class Pass:
    """All images in a source, in the order of their APIDs and numbers, and what else was found."""

    source: Source
    found: Found
    images: List[SortedImage]

    @property
    def is_whole(self) -> bool:
        """Whether every image has all its packets, and no copies of one differ."""
        return all(it.is_whole and not it.differing for it in self.images)

    @property
    def skipped_octets(self) -> int:
        return sum(self.found.octets_of.values())

    def arrival(self) -> np.ndarray[Any, Any]:
        """Returns the numbers of the images in the order in which the first packet of each arrived."""
        return np.argsort([it.first for it in self.images], kind="stable")

    def stream(self, image: SortedImage) -> bytes:
        """Returns the packets of an image, in the order of their places."""
        return self.source.read_all(image.ranges)

    def table(self, is_verbose: bool = False) -> str:
        """Returns a line for each image, a line for each kind of stretch that was skipped, and lines on what is in doubt."""
        lines = aligned([COLUMNS, *map(cells_of, self.images)])
        lines.append(f"{self.source.length} octets, {self.skipped_octets} skipped")
        for kind in sorted(self.found.packets_of):
            lines.append(f"skipped: {counted(self.found.packets_of[kind], kind)}, {self.found.octets_of[kind]} octets")
        skipped = self.found.skipped if is_verbose else self.found.skipped.of_headers()
        doubts = sum(len(it.differing) + len(it.before_junk) for it in self.images)
        for count, listed in ((len(skipped), map(stretch_text, skipped)), (doubts, self.doubts())):
            lines.extend(listed if is_verbose else shortened(listed, count))
        return "\n".join(lines)

    def doubts(self) -> Iterator[str]:
        """Yields a line for each packet whose copies differ, and for each before junk."""
        for image in self.images:
            for them in image.differing.values():
                yield f"copies differ: {image.headers.text(them[0])}"
        for image in self.images:
            for number in image.before_junk:
                yield f"before junk: {image.headers.text(number)}"

    def record(self) -> Dict[str, Any]:
        """Returns what `--json` prints."""
        kinds = {it: {"count": self.found.packets_of[it], "octets": self.found.octets_of[it]} for it in self.found.packets_of}
        return {
            "files": self.source.names,
            "octets": self.source.length,
            "images": [record_of(it) for it in self.images],
            "skipped": kinds,
            "stretches": [it._asdict() for it in self.found.skipped],
        }


def sort(
    files: Union[Given, Iterable[Given]], is_strict: bool = False, asks_program: bool = True, lists_others: bool = False
) -> Pass:
    """Finds the packets of this coder in files or octets, and sorts them into images.

    `files` is one file name or octets, or several, which are joined in order. If copies of a packet differ, the copy is
    used with which the program reads its segment, except if `asks_program` is false. `is_strict` leaves out packets
    before junk, whose own end may be junk. `lists_others` lists packets of others too.

    Raises BadInput if there is no packet of this coder, ReadFault if a file can't be read.
    """
    source = as_source(files)
    try:
        found = find(source, is_strict, lists_others)
        if len(found.packets) == 0:
            raise BadInput(f"{source.title}: {reason_for_none(source, found)}")
        images = sorted_images(source, found.packets, found.leads)
        if asks_program:
            choosing.choose(source, images)
    except BaseException:
        source.close()
        raise
    return Pass(source, found, images)


def reason_for_none(source: Source, found: Found) -> str:
    """Returns why there is no image."""
    if source.length == 0:
        return "is empty"
    if found.packets_of[CUT] or found.packets_of[REFUSED]:
        return f"no whole packet of this coder: {found.skipped[0].kind}, {found.skipped[0].detail}"
    return "no packet of this coder"


def counted(count: int, kind: str) -> str:
    """Returns a kind of stretch with its number, as `2 idle packets`."""
    if kind == JUNK:
        return f"{count} stretches of {kind}" if count > 1 else f"a stretch of {kind}"
    return f"{count} {kind.replace('packet', 'packets', 1) if count > 1 else kind}"


def stretch_text(it: Skipped) -> str:
    """Returns the line of a stretch of octets that was skipped."""
    return f"skipped {it.at}-{it.at + it.octets - 1}: {counted(it.packets, it.kind)}{': ' if it.detail else ''}{it.detail}"


def shortened(lines: Iterator[str], count: int) -> List[str]:
    """Returns this number of lines, or the first of many and how many more there are."""
    if count <= LINES:
        return list(lines)
    return [*islice(lines, LINES), f".. and {count - LINES} more, which --verbose lists"]


def lost_text(image: SortedImage) -> str:
    """Returns the lost packets of an image as ranges of segments, and of parts of a segment after a point."""
    lost = ",".join(map(str, image.lost))
    if image.segments is None:
        return f"{lost},?" if lost else "?"
    return lost or "none"


def percent(part: int, whole: int) -> str:
    """Returns a share. It is 100 % only if nothing is missing, and 0 % only if all is."""
    share = 100 * part / whole if whole else 0.0
    if part not in (0, whole):
        share = min(max(share, 0.1), 99.9)
    return f"{share:.1f}%"


def cells_of(image: SortedImage) -> List[str]:
    form, segments = image.format, image.segments
    whole = "?" if segments is None else percent(image.whole_segments, segments)
    count = "?" if segments is None else f"{image.whole_segments}/{segments}"
    size = [form and form.width, image.rows, form and form.depth, form and int(form.signed)]
    counts = [image.mended, image.duplicates, len(image.differing), len(image.before_junk)]
    cells = [image.name, *size, len(image.packets), image.octets, whole, count, *counts, lost_text(image)]
    return ["?" if it is None else str(it) for it in cells]


def record_of(image: SortedImage) -> Dict[str, Any]:
    """Returns what JSON has of an image that is sorted."""
    form = image.format
    return {
        "name": image.name,
        "apid": image.key.apid,
        "image": image.key.image,
        "width": form and form.width,
        "rows": image.rows,
        "depth": form and form.depth,
        "signed": form and form.signed,
        "segment": image.key.blocks,
        "packets": len(image.packets),
        "octets": image.octets,
        "segments": image.segments,
        "whole_segments": image.whole_segments,
        "lost": [str(it) for it in image.lost],
        "lost_packets_at_least": image.lost_packets,
        "mended": image.mended,
        "copies": image.duplicates,
        "differing": len(image.differing),
        "before_junk": len(image.before_junk),
    }


def aligned(lines: Sequence[Sequence[str]]) -> List[str]:
    """Returns lines with their columns below one another."""
    widths = [max(map(len, column)) for column in zip(*lines)]
    return ["  ".join(cell.ljust(width) for cell, width in zip(line, widths)).rstrip() for line in lines]


__all__ = ["LISTED", "Pass", "Skipped", "sort"]
