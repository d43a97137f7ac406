"""A page that shows a pass: counts, a strip for each APID, and a card for each image with its damage."""

from __future__ import annotations

from pathlib import Path
from typing import Any, Dict, List, Sequence, Tuple

import jinja2

from .files import store
from .finding import OURS
from .others import JUNK
from .outputs import Record
from .passes import Pass, counted, percent
from .strips import strips

TEMPLATES = Path(__file__).parent / "templates"
WIDEST = 4.0  # the greatest ratio of the sides of a picture on the page
TINY = 160  # a picture with fewer columns is shown with sharp pixels
DASH = "\u2060\u2013\u2060"  # between two numbers, where no line ends
RANGES = 6  # ranges of rows that a card lists
LINKS = [("png", "picture"), ("npy", "array"), ("tif", "TIFF"), ("fits", "FITS"), ("pgm", "PGM"), ("mask", "mask"), ("packets", "packets")]


def write_report(them: Pass, records: List[Record], folder: Path) -> None:
    """Writes index.html into a folder with the files of all images. Raises WriteFault."""
    environment = jinja2.Environment(
        loader=jinja2.FileSystemLoader(TEMPLATES), autoescape=True, trim_blocks=True, lstrip_blocks=True
    )
    environment.filters.update(thousands=thousands, count=count)
    page = environment.get_template("report.html").render(
        names=[Path(it).name for it in them.source.names],
        total=totals(them, records),
        strips=strips(them),
        cards=[card(records[number]) for number in them.arrival().tolist()],
        name_of=[it.name for it in them.images],
        order_of={number: place for place, number in enumerate(them.arrival().tolist())},
        notes=notes(them),
    )
    store(folder / "index.html", page.encode())


def thousands(number: int) -> str:
    """Returns a number with commas."""
    return f"{number:,}"


def count(number: int, one: str, several: str) -> str:
    """Returns a number of things, as `1 copy` or `1,200 copies`."""
    return f"{number:,} {one if number == 1 else several}"


def totals(them: Pass, records: Sequence[Record]) -> Dict[str, Any]:
    """Returns the counts of a pass."""
    used = sum(len(it.packets) for it in them.images)
    return {
        "images": len(records),
        "whole": sum(it["status"] == 0 for it in records),
        "damaged": sum(it["status"] != 0 for it in records),
        "packets": used,
        "lost": sum(it.lost_packets for it in them.images),
        "is_more_lost": any(it.segments is None or any(lost.last_part is None for lost in it.lost) for it in them.images),
        "copies": sum(it.duplicates for it in them.images),
        "differing": sum(len(it.differing) for it in them.images),
        "junk": them.found.octets_of[JUNK],
        "octets": them.source.length,
    }


def notes(them: Pass) -> List[str]:
    """Returns a line for each kind of stretch that was skipped."""
    kinds = sorted(them.found.packets_of, key=lambda it: (it not in OURS, it))
    return [f"{counted(them.found.packets_of[it], it)}, {thousands(them.found.octets_of[it])} octets" for it in kinds]


def card(record: Record) -> Dict[str, Any]:
    """Returns what the page has of an image."""
    width, rows = record["width"] or 1, record["rows"] or 1
    share = record.get("damaged_share") or 0.0
    return {
        **record,
        "is_whole": record["status"] == 0,
        "damage_rank": 2.0 if record["error"] else share,
        "share": "none" if share == 0 else percent_of(share),
        "rows_text": rows_text(record.get("damage") or []),
        "received": percent(record["whole_segments"], record["segments"]) if record["lost"] and record["segments"] else None,
        "ratio": min(max(width / rows, 1 / WIDEST), WIDEST),
        "is_tiny": width < TINY,
        "path": path_of(merged(record.get("rects") or [])),
        "links": [(record["files"][kind], name) for kind, name in LINKS if kind in record["files"]],
    }


def percent_of(share: float) -> str:
    return percent(max(round(share * 1e6), 1), 1_000_000) if share < 1 else "100.0%"


def rows_text(damage: Sequence[Sequence[int]]) -> str:
    """Returns the ranges of damaged rows, or the first of many."""
    texts = [f"{first}{DASH}{last}" for first, last in damage]
    return ", ".join(texts[:RANGES]) + (f" and {len(texts) - RANGES} more" if len(texts) > RANGES else "")


def merged(rects: Sequence[Sequence[int]]) -> List[Tuple[int, int, int, int]]:
    """Returns rectangles with those of the same columns, whose rows overlap, made into one."""
    found: List[Tuple[int, int, int, int]] = []
    latest: Dict[Tuple[int, int], int] = {}
    for first, last, left, right in rects:
        place = latest.get((left, right))
        if place is not None and found[place][1] + 1 >= first:
            found[place] = (found[place][0], max(found[place][1], last), left, right)
        else:
            latest[left, right] = len(found)
            found.append((first, last, left, right))
    return found


def path_of(rects: Sequence[Tuple[int, int, int, int]]) -> str:
    """Returns the outline of rectangles for SVG, in pixels of the image."""
    return "".join(
        f"M{left} {first}h{right - left + 1}v{last - first + 1}h{left - right - 1}z" for first, last, left, right in rects
    )
