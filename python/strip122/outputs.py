"""Decodes all images of a pass, each once and several at a time, and writes their files and a list of them."""

from __future__ import annotations

import json
import multiprocessing
import os
import sys
from concurrent.futures import Executor, Future, ProcessPoolExecutor, ThreadPoolExecutor, as_completed
from dataclasses import dataclass
from pathlib import Path
from typing import Any, Dict, Iterator, List, Optional, Tuple

from tqdm import tqdm

from .coding import USUAL, Decoded, EarlyRects, Reading, decoded_as, look_of, rects_of
from .errors import BadInput, Status
from .files import make_folder, store
from .images import SortedImage
from .passes import Pass, record_of
from .pictures import mask_picture, plain_picture, small_picture
from .program import shared_library
from .rasters import Array
from .writers import store_image, store_png

Record = Dict[str, Any]
EarlyLook = Optional["Future[Array]"]


@dataclass(frozen=True)
class Wish:
    """Which files are written into a folder: the kinds of arrays and pictures, and what else; and how packets are read."""

    folder: Path
    kinds: Tuple[str, ...] = ("npy", "png")
    is_full: bool = False  # PNG with all bits and without tint
    has_look: bool = True
    has_small: bool = False  # a small picture, for the report
    has_packets: bool = False
    reading: Reading = USUAL
    jobs: int = 1


def stream_of(them: Pass, image: SortedImage, pixels: int) -> bytes:
    """Returns the packets of an image that can be decoded. Raises BadInput with the name of the image if it can't."""
    if image.format is None:
        raise BadInput(f"{image.name}: no packet has a segment header, so nothing can be decoded")
    count = image.format.width * (image.rows or 0)
    if count > pixels:
        raise BadInput(f"{image.name}: {count} pixels are more than the {pixels} that are allowed")
    return them.stream(image)


def early_rects(image: SortedImage, stream: bytes, pixels: int, thread: Executor) -> EarlyRects:
    """Asks in a thread for the rectangles of damage, if damage is expected, so that they are there when the picture is."""
    is_hurt = not image.is_whole or bool(image.before_junk) or bool(image.differing)
    return thread.submit(rects_of, stream, image.key.apid, pixels, shared_library()) if is_hurt else None


def early_look(image: SortedImage, stream: bytes, wish: Wish, thread: Executor) -> EarlyLook:
    """Asks in a thread for the look, if it is wished."""
    if not wish.has_look or not image.format:
        return None
    return thread.submit(look_of, stream, image.key.apid, image.format.pixels, wish.reading, shared_library())


def decoded_stream(image: SortedImage, stream: bytes, reading: Reading, early: EarlyRects) -> Decoded:
    """Returns the picture of the packets of an image. Raises BadInput with the name of the image."""
    assert image.format
    form, lib = image.format.pixels, shared_library()
    try:
        return decoded_as(stream, image.key.apid, form, reading, lib, early)
    except BadInput as fault:
        raise BadInput(f"{image.name}: {fault}") from fault


def write_image(them: Pass, number: int, wish: Wish) -> Record:
    """Writes the files of an image, and returns what the list of images has of it: if it can't be decoded, the reason.

    Raises WriteFault, NoMemory, and MissingPackage if the program can't be run.
    """
    image = them.images[number]
    record: Record = {**record_of(image), "status": int(Status.DONE), "error": None, "files": {}}
    try:
        stream = stream_of(them, image, wish.reading.pixels)
        with ThreadPoolExecutor(1) as thread:  # it asks for the rectangles, and then for the look
            early = early_rects(image, stream, wish.reading.pixels, thread)
            look = early_look(image, stream, wish, thread)
            decoded = decoded_stream(image, stream, wish.reading, early)
            write_pictures(record, decoded, wish)
            if look:
                store_png(named(record, wish.folder, "look", "look.png"), plain_picture(look.result(), decoded.depth))
    except BadInput as fault:
        record.update(status=int(fault.status), error=str(fault))
    else:
        if not decoded.is_whole or not image.is_whole or image.differing:
            record["status"] = int(Status.PARTLY)
    if wish.has_packets:
        store(named(record, wish.folder, "packets", "packets"), them.stream(image))
    return record


def write_pictures(record: Record, decoded: Decoded, wish: Wish) -> None:
    """Writes the files of a picture, and notes them and what is known of it. Raises WriteFault, and BadInput if it has no rows."""
    record.update(facts_of(decoded))
    if decoded.array.size == 0:
        raise BadInput(f"{record['name']}: the packets determine no row")
    facts = {**record, "full": wish.is_full}
    for kind in wish.kinds:
        store_image(named(record, wish.folder, kind, kind), kind, decoded, facts)
    store_png(named(record, wish.folder, "mask", "mask.png"), mask_picture(decoded))
    if wish.has_small:
        store_png(named(record, wish.folder, "small", "small.png"), small_picture(decoded))


def facts_of(decoded: Decoded) -> Record:
    """Returns what the list of images has of a picture."""
    return {
        "rows": int(decoded.array.shape[0]),
        "height_known": decoded.is_height_known,
        "damage": [[it.start, it.stop - 1] for it in decoded.damage],
        "rects": [list(it) for it in decoded.rects],
        "damaged_share": decoded.damaged_share,
        "fault": decoded.fault or None,
    }


def named(record: Record, folder: Path, kind: str, suffix: str) -> Path:
    """Returns the path of a file of an image, and notes its name."""
    name = f"{record['name']}.{suffix}"
    record["files"][kind] = name
    return folder / name


# ---- all images


_shared: Optional[Tuple[Pass, Wish]] = None  # what the processes of a pool work on; they are forked, so nothing is copied


def _share(them: Pass, wish: Wish) -> None:
    global _shared
    _shared = (them, wish)


def _write_shared(number: int) -> Record:
    assert _shared
    return write_image(_shared[0], number, _shared[1])


def write_all(them: Pass, wish: Wish) -> List[Record]:
    """Writes the files of all images, and returns what the list of images has of each. Raises WriteFault."""
    make_folder(wish.folder)
    tqdm.monitor_interval = 0  # no thread of its own, since processes are forked
    records: List[Optional[Record]] = [None] * len(them.images)
    with tqdm(total=len(records), unit="image", disable=not sys.stderr.isatty(), leave=False) as bar:
        for number, record in written_in_any_order(them, wish):
            records[number] = record
            bar.update()
    found = [it for it in records if it is not None]
    for place, number in enumerate(them.arrival().tolist()):
        found[number]["arrival"] = place
    return found


def written_in_any_order(them: Pass, wish: Wish) -> Iterator[Tuple[int, Record]]:
    jobs = min(wish.jobs, len(them.images))
    if jobs <= 1:
        for number in range(len(them.images)):
            yield number, write_image(them, number, wish)
        return
    context = multiprocessing.get_context("fork")
    with ProcessPoolExecutor(jobs, context, _share, (them, wish)) as pool:
        futures = {pool.submit(_write_shared, number): number for number in range(len(them.images))}
        try:
            for future in as_completed(futures):
                yield futures.pop(future), future.result()
        except BaseException:
            pool.shutdown(cancel_futures=True)
            raise


def processors() -> int:
    """Returns how many processors this process may use."""
    return len(os.sched_getaffinity(0)) if hasattr(os, "sched_getaffinity") else os.cpu_count() or 1


def store_list(them: Pass, records: List[Record], folder: Path) -> None:
    """Writes images.json: what was found in the files, and what is known of each image."""
    whole = {**them.record(), "images": records}
    store(folder / "images.json", (json.dumps(whole, indent=1) + "\n").encode())


def status_of(records: List[Record]) -> Status:
    """Returns the status of a pass: 0 if all images are whole, 3 if none could be decoded, otherwise 1."""
    if all(it["error"] for it in records):
        return Status(max(it["status"] for it in records))
    return Status.DONE if all(it["status"] == Status.DONE for it in records) else Status.PARTLY
