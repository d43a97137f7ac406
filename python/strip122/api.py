"""Images of files as objects."""

from __future__ import annotations

from concurrent.futures import ThreadPoolExecutor
from functools import cached_property
from typing import Any, List, Mapping, Optional

import numpy as np
from numpy.typing import NDArray

from .coding import MOST_PIXELS, USUAL, Decoded, Reading, Rect, look_of
from .errors import BadInput
from .images import SortedImage
from .keys import checked
from .outputs import decoded_stream, early_rects, stream_of
from .passes import Pass, sort
from .program import shared_library
from .rasters import Array
from .source import Given


class Image:
    """An image of some packets, which are in order and without copies. It is decoded when it is first asked for.

    `width`, `rows`, `depth`, `signed` and `segment` are its geometry; `rows` is None if no packet reports the height.
    `packets` and `octets` count what is there, `segments` and `whole_segments` its segments, `lost_packets` what is lost
    at least, and `copies`, `mended` and `differing` what was dropped, moved to its place, and had copies that differ.
    """

    def __init__(self, them: Pass, image: SortedImage, reading: Reading = USUAL):
        if image.format is None:
            raise BadInput(f"{them.source.title}: {image.name}: no packet has a segment header, so nothing can be decoded")
        self._pass, self._image, self._reading = them, image, reading
        self.name = image.name
        self.apid, self.image = image.key.apid, image.key.image
        self.width, self.depth, self.signed = image.format.pixels
        self.rows, self.segment = image.rows, image.key.blocks
        self.packets, self.octets = len(image.packets), image.octets
        self.segments, self.whole_segments, self.lost_packets = image.segments, image.whole_segments, image.lost_packets
        self.lost = [str(it) for it in image.lost]
        self.copies, self.mended, self.differing = image.duplicates, image.mended, len(image.differing)

    def __repr__(self) -> str:
        return f"<strip122.Image {self.name}: {self.width} x {self.rows or '?'}, depth {self.depth}, {self.packets} packets>"

    @property
    def stream(self) -> bytes:
        """The packets of the image, one after another."""
        return self._pass.stream(self._image)

    @cached_property
    def decoded(self) -> Decoded:
        """The picture, and what of it can't be trusted. Raises BadInput, with the names of the file and the image."""
        try:
            stream = stream_of(self._pass, self._image, self._reading.pixels)
            with ThreadPoolExecutor(1) as thread:
                early = early_rects(self._image, stream, self._reading.pixels, thread)
                return decoded_stream(self._image, stream, self._reading, early)
        except BadInput as fault:
            raise BadInput(f"{self._pass.source.title}: {fault}") from fault

    def array(self) -> Array:
        """Returns the picture: shape (rows, width), type uint8 or uint16, or int8 or int16 if pixels have a sign."""
        return self.decoded.array

    def mask(self) -> NDArray[np.bool_]:
        """Returns an array of the picture's shape that is true for each pixel that can't be trusted."""
        return self.decoded.mask()

    def look(self) -> Array:
        """Returns a value for each block of 8 x 8 pixels: shape (rows / 8, width / 8), both rounded up, and the picture's type."""
        assert self._image.format
        return look_of(self.stream, self.apid, self._image.format.pixels, self._reading, shared_library())

    @property
    def damage(self) -> List[range]:
        """The ranges of rows that can't be trusted."""
        return self.decoded.damage

    @property
    def rects(self) -> List[Rect]:
        """The rectangles of pixels that can't be trusted."""
        return self.decoded.rects


def open(  # noqa: A001 - the name that users expect, as of PIL.Image.open
    path: Given, apid: Optional[int] = None, image: Optional[int] = None, *, pixels: int = MOST_PIXELS, restore: bool = False
) -> Image:
    """Returns the image in a file, or in octets.

    Packets may be in disorder, come twice, or have junk between them. `apid` (0 to 2046) and `image` (0 to 65535) choose
    one of several images; `pixels` bounds the pixels of a picture. With `restore` coefficients that a stop or a limit
    gives in part are moved inside their intervals.

    Raises ReadFault if the file can't be read; BadInput if it has no packet of this coder, none of this APID and image,
    or several images that fit; BadKey if a value is out of range.
    """
    keys = {"apid": apid, "image": image, "pixels": pixels, "restore": restore}
    reading = reading_of(checked(keys, list(keys)))
    them = sort(path)
    fitting = [it for it in them.images if apid in (None, it.key.apid) and image in (None, it.key.image)]
    if len(fitting) != 1:
        names = ", ".join(it.name for it in (fitting or them.images)[:10])
        more = ", .." if len(fitting or them.images) > 10 else ""
        what = f"{len(fitting)} images fit" if fitting else "no image fits"
        them.source.close()
        raise BadInput(f"{them.source.title}: {what}; name apid and image of one of: {names}{more}")
    return Image(them, fitting[0], reading)


def reading_of(keys: Mapping[str, Any]) -> Reading:
    """Returns how packets are read by checked keys."""
    return Reading(keys.get("pixels", MOST_PIXELS), restore=keys.get("restore", False))


def images(path: Given, *, pixels: int = MOST_PIXELS, restore: bool = False) -> List[Image]:
    """Returns all images in a file or in octets that have a segment header, in the order of their APIDs and numbers.

    `pixels` and `restore` are as for `open`. Raises ReadFault, BadKey, and BadInput if there is no packet of this coder.
    """
    keys = {"pixels": pixels, "restore": restore}
    reading = reading_of(checked(keys, list(keys)))
    them = sort(path)
    return [Image(them, it, reading) for it in them.images if it.format]


def decode_file(
    path: Given, apid: Optional[int] = None, image: Optional[int] = None, *, pixels: int = MOST_PIXELS, restore: bool = False
) -> Decoded:
    """Returns the picture of the image in a file, and what of it can't be trusted, as a value that can be sent to other machines.

    Takes and raises what `open` does.
    """
    found = open(path, apid, image, pixels=pixels, restore=restore)
    try:
        return found.decoded
    finally:
        found._pass.source.close()
