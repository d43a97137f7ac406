"""The page of a pass: its counts, strips and cards, and what Chromium makes of it."""

from __future__ import annotations

import json
import random
import re
import subprocess
import sys
from html.parser import HTMLParser
from pathlib import Path
from typing import Any, Callable, Dict, List, Tuple

import pytest
import wire
from browser import chromium
from strip122 import sort
from strip122.report import merged, path_of, rows_text
from strip122.strips import BINS, COPY, LOST, MOST_RUNS, USED, Run, boxes, joined_runs, strips

Command = Callable[..., Tuple[int, str, str]]
HERE = Path(__file__).parent


class Page(HTMLParser):
    """The elements of a page, each with its name and attributes."""

    def __init__(self, text: str):
        super().__init__()
        self.elements: List[Tuple[str, Dict[str, Any]]] = []
        self.open: List[str] = []
        self.feed(text)

    def handle_starttag(self, tag: str, attrs: List[Tuple[str, Any]]) -> None:
        self.elements.append((tag, dict(attrs)))
        if tag not in ("meta", "link", "img", "input"):
            self.open.append(tag)

    def handle_startendtag(self, tag: str, attrs: List[Tuple[str, Any]]) -> None:
        self.elements.append((tag, dict(attrs)))

    def handle_endtag(self, tag: str) -> None:
        assert self.open.pop() == tag

    def named(self, tag: str) -> List[Dict[str, Any]]:
        return [it for name, it in self.elements if name == tag]


@pytest.fixture
def report(command: Command, images: wire.Streams, chance: random.Random, tmp_path: Path) -> Path:
    """The report of a pass with losses, copies, junk, an image without headers, and a name that HTML would read."""
    packets = [it for it in images.all() if wire.place_of(it)[0] != 3]
    octets = [wire.octets_by(chance, 700), *packets, *packets[2:6], *images.packets[7, 1][3:4]]
    octets += [it[:8] + b"\0\7" + it[10:] for it in images.packets[7, 0] if wire.place_of(it)[1] > 0]
    (tmp_path / "a<b>.pass").write_bytes(b"".join(octets))
    status, text, _ = command("report", "a<b>.pass", "--into", "page", "--jobs", 2)
    assert status == 1 and text == "7 images in page, 4 damaged, 1 without a picture\n"
    return tmp_path / "page"


def test_page(report: Path) -> None:
    text = (report / "index.html").read_text()
    page = Page(text)
    assert not page.open and "<b>.pass" not in text and "a&lt;b&gt;.pass" in text
    cards = page.named("article")
    records = json.loads((report / "images.json").read_text())["images"]
    assert [it["id"] for it in cards] == [it["name"] for it in sorted(records, key=lambda it: it["arrival"])]
    sources = [it["src"] for it in page.named("img")]
    links = [it["href"] for it in page.named("a") if not it["href"].startswith("#")]
    assert len(sources) == 6 and all((report / it).is_file() for it in sources + links)
    ids = {it.get("id") for _, it in page.elements}
    assert all(it["href"][1:] in ids for it in page.named("a") if it["href"].startswith("#"))
    assert all(it["alt"] for it in page.named("img"))
    assert not re.search(r"(src|href)=\"(https?:)?//", text)
    totals = dict(re.findall(r"<dt>([a-z, ]+)</dt><dd>(?:&ge; )?([\d,]+)</dd>", text.split("</header>")[0]))
    assert totals["images"] == "7" and totals["whole"] == "2" and totals["damaged"] == "5"
    assert totals["copies"] == "4" and totals["junk, octets"] == "700"


@pytest.mark.skipif(chromium() is None, reason="chromium is missing")
def test_in_a_browser(report: Path) -> None:
    ran = subprocess.run([sys.executable, "-B", str(HERE / "try_report.py"), str(report)], capture_output=True, text=True, check=False)
    assert ran.returncode == 0 and ran.stdout.startswith("as it should be: 7 cards"), ran


# ---- strips


def test_strips(images: wire.Streams) -> None:
    """Packets in order of arrival, those that are lost after the ones before them."""
    packets = images.packets[7, 1]
    first, second = packets[0:2] + packets[4:6], packets[6:7] + packets[0:1]
    them = sort(b"".join(first + second + images.packets[100, 0]))
    one, other = strips(them)
    assert (one.apid, one.images, one.packets, one.copies, one.lost) == (7, 1, 5, 1, 3)
    in_order = sorted(one.boxes, key=lambda it: it.left)
    assert [(it.kind, it.packets) for it in in_order] == [(USED, 2), (LOST, 2), (USED, 3), (LOST, 1), (COPY, 1)]
    assert sum(it.width for it in in_order) == pytest.approx(1000) and in_order[1].left == pytest.approx(1000 * 2 / 9)
    assert [(it.kind, it.packets) for it in other.boxes] == [(USED, len(images.packets[100, 0]))]


def test_strip_of_many_runs() -> None:
    """More runs than are drawn one by one become columns, in which each gap is seen."""
    runs = [Run(USED if number % 2 else LOST, 0, 3 if number % 2 else 1) for number in range(2 * MOST_RUNS)]
    drawn = list(boxes(list(joined_runs(runs))))
    assert len(drawn) <= 2 * BINS
    lost = [it for it in drawn if it.kind == LOST]
    assert len(lost) == BINS and all(it.height == pytest.approx(0.25, abs=0.1) for it in lost)


def test_outlines() -> None:
    assert merged([(0, 50, 0, 9), (8, 58, 0, 9), (8, 58, 20, 29), (200, 250, 0, 9)]) == [(0, 58, 0, 9), (8, 58, 20, 29), (200, 250, 0, 9)]
    assert path_of([(0, 58, 0, 9)]) == "M0 0h10v59h-10z"
    assert rows_text([[0, 5], [9, 9]]).replace("\u2060", "") == "0\u20135, 9\u20139" and rows_text([[0, 1]] * 8).endswith(" and 2 more")
