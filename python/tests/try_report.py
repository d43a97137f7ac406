"""Opens a report in headless Chromium, and looks at what it shows. tools/checks/try_report.sh runs it.

    try_report.py FOLDER [--pictures FOLDER] [--screenshot FILE]
"""

from __future__ import annotations

import argparse
import json
import sys
from pathlib import Path
from typing import Any, Dict, List

from browser import Browser, chromium

SCREENS = {
    "light": {"width": 1280, "height": 900},
    "dark": {"width": 1280, "height": 900, "is_dark": True},
    "phone": {"width": 390, "height": 844, "scale": 2, "is_phone": True},
    "phone-dark": {"width": 390, "height": 844, "scale": 2, "is_phone": True, "is_dark": True},
}
CARDS = "[...document.querySelectorAll('.card')]"
SHOWN = f"{CARDS}.filter(it => it.checkVisibility())"


def check(wanted: Any, found: Any, what: str) -> None:
    if wanted != found:
        sys.exit(f"WRONG: {what}: {found} in place of {wanted}")


def try_cards(page: Browser, images: List[Dict[str, Any]]) -> None:
    """As many cards as images, with their pictures and links."""
    check(len(images), page.run(f"{CARDS}.length"), "cards")
    pictures = sum("small" in it["files"] for it in images)
    check(pictures, page.run("document.images.length"), "pictures")
    check(pictures, page.run("[...document.images].filter(it => it.complete && it.naturalWidth > 0).length"), "pictures that load")
    files = sum(len(it["files"]) - ("small" in it["files"]) for it in images)
    check(files, page.run("document.querySelectorAll('.links a').length"), "links")
    check(sum(bool(it.get("rects")) for it in images), page.run("document.querySelectorAll('svg.rects').length"), "pictures with damage")


def choose(page: Browser, name: str, value: str) -> None:
    page.run(f"(() => {{ const it = document.querySelector(`{name}`); {value}; it.dispatchEvent(new Event('change', {{bubbles: true}})); }})()")


def try_controls(page: Browser, images: List[Dict[str, Any]]) -> None:
    """Cards are sorted and filtered, and damage is switched off and on."""
    names = f"{SHOWN}.map(it => it.id)"
    by_arrival = [it["name"] for it in sorted(images, key=lambda it: it["arrival"])]
    by_apid = [it["name"] for it in sorted(images, key=lambda it: (it["apid"], it["image"], it["arrival"]))]
    check(by_arrival, page.run(names), "order of arrival")
    choose(page, "#sort", "it.value = 'apid'")
    check(by_apid, page.run(names), "order of APIDs")
    choose(page, "#sort", "it.value = 'damage'")
    shares = [2.0 if it["error"] else it["damaged_share"] for it in images]
    check(sorted(shares, reverse=True), page.run(f"{SHOWN}.map(it => Number(it.dataset.damage))"), "order of damage")
    for value, count in (("damaged", sum(it["status"] != 0 for it in images)), ("whole", sum(it["status"] == 0 for it in images))):
        choose(page, f"[name=show][value={value}]", "it.checked = true")
        check(count, page.run(f"{SHOWN}.length"), value)
        check(f"{count} of {len(images)} images", page.run("document.getElementById('count').textContent"), "the count")
    choose(page, "[name=show][value=all]", "it.checked = true")
    rects = "[...document.querySelectorAll('svg.rects')].filter(it => it.checkVisibility()).length"
    shown = page.run(rects)
    choose(page, "#rects", "it.checked = false")
    check(0, page.run(rects), "damage that is switched off")
    choose(page, "#rects", "it.checked = true")
    check(shown, page.run(rects), "damage that is switched on")
    choose(page, "#sort", "it.value = 'arrival'")


def try_keyboard(page: Browser) -> None:
    """The key Tab reaches the controls and each link, and the space bar switches damage off."""
    page.run("document.activeElement.blur(); window.scrollTo(0, 0)")
    reached = []
    for _ in range(60):
        page.press("Tab", 9)
        reached.append(page.run("document.activeElement.id || document.activeElement.className || document.activeElement.name"))
        if reached[-1] == "rects":
            page.press(" ", 32)
            check(False, page.run("document.activeElement.checked"), "damage by the space bar")
            page.press(" ", 32)
    for it in ("sort", "show", "rects", "stage"):
        check(True, it in reached, f"{it} by keyboard, of {reached}")


def try_screens(page: Browser, folder: Path) -> None:
    """On each screen nothing is wider than the window."""
    for name, words in SCREENS.items():
        page.show(**words)
        page.run("window.scrollTo(0, 0)")
        check(True, page.run("document.documentElement.scrollWidth <= innerWidth"), f"width on the screen {name}")
        if folder.name:
            folder.mkdir(parents=True, exist_ok=True)
            (folder / f"{name}.png").write_bytes(page.picture())
            page.run("document.getElementById('images').scrollIntoView()")
            (folder / f"{name}-cards.png").write_bytes(page.picture())


def main() -> None:
    words = argparse.ArgumentParser()
    words.add_argument("folder", type=Path, help="of the report")
    words.add_argument("--pictures", type=Path, default=Path(), metavar="FOLDER", help="for a picture of each screen")
    words.add_argument("--screenshot", type=Path, metavar="FILE", help="for a picture of the whole top of the page")
    given = words.parse_args()
    program = chromium()
    if program is None:
        print("skipped: chromium is missing")
        return
    images = json.loads((given.folder / "images.json").read_text())["images"]
    with Browser(program) as page:
        page.show(**SCREENS["light"])
        page.open(given.folder / "index.html")
        try_cards(page, images)
        try_controls(page, images)
        try_keyboard(page)
        try_screens(page, given.pictures)
        if given.screenshot:
            page.show(1280, 1150)
            page.run("window.scrollTo(0, 0); document.activeElement.blur()")
            given.screenshot.write_bytes(page.picture())
        check([], page.messages, "messages on the console")
    print(f"as it should be: {len(images)} cards, {len(SCREENS)} screens, no message")


if __name__ == "__main__":
    main()
