"""Rasters and arrays. A raster has its rows from the top: one octet a pixel up to 8 bits, and above that two, the higher first."""

from __future__ import annotations

from typing import Any, NamedTuple, Optional, Tuple

import numpy as np
from numpy.typing import ArrayLike, NDArray

from .errors import BadInput, BadKey
from .keys import KEYS
from .source import Octets

Array = NDArray[Any]


class Pixels(NamedTuple):
    """The form of a raster: its width, the bits of a pixel, and whether pixels have a sign."""

    width: int
    depth: int
    signed: bool

    @property
    def dtype(self) -> np.dtype[Any]:
        """The type of an array of these pixels: int8, uint8, int16 or uint16."""
        return np.dtype(("i" if self.signed else "u") + ("1" if self.depth <= 8 else "2"))

    @property
    def least(self) -> int:
        return -(1 << self.depth - 1) if self.signed else 0

    @property
    def most(self) -> int:
        return self.least + (1 << self.depth) - 1


def array_of(raster: Octets, form: Pixels) -> Array:
    """Returns the array of a raster, of shape (rows, width)."""
    pixels = np.frombuffer(raster, form.dtype.newbyteorder(">")).reshape(-1, form.width)
    return pixels.astype(form.dtype)


def raster_of(array: ArrayLike, depth: Optional[int] = None, signed: Optional[bool] = None) -> Tuple[bytes, Pixels]:
    """Returns the raster of an array of shape (rows, width), and its form.

    Depth and sign are by default those of the array's type: 8 or 16 bits, or 1 for booleans. Raises BadInput if the
    array isn't one of whole numbers in two dimensions, or has values out of range; BadKey if its type gives no depth.
    """
    pixels = np.asarray(array)
    if pixels.ndim != 2 or pixels.dtype.kind not in "bui":
        raise BadInput(f"the array has shape {pixels.shape} and type {pixels.dtype}: it has no rows of whole numbers")
    if pixels.size == 0:
        raise BadInput(f"the array of shape {pixels.shape} is empty")
    known = 1 if pixels.dtype.kind == "b" else {1: 8, 2: 16}.get(pixels.dtype.itemsize)
    if known is None and (depth is None or signed is None):
        key = "depth" if depth is None else "signed"
        raise BadKey(f"{key}: the array's type {pixels.dtype} gives none, so it has to be given; it is {KEYS[key].about}")
    form = Pixels(pixels.shape[1], depth or known or 16, pixels.dtype.kind == "i" if signed is None else signed)
    if not 17 <= form.width <= 1_048_575 or not 17 <= len(pixels) <= 262_144:
        shape = f"{len(pixels)} rows and {form.width} columns"
        raise BadInput(f"the array has {shape}; rows are 17 to 262144 and columns 17 to 1048575")
    least, most = int(pixels.min()), int(pixels.max())
    if least < form.least or most > form.most:
        raise BadInput(f"values {least} to {most} are outside {form.least} to {form.most}, the range of depth {form.depth}")
    return pixels.astype(form.dtype.newbyteorder(">")).tobytes(), form
