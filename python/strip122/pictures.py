"""Pictures of arrays: grays stretched over the values that can be trusted, with what can't be trusted tinted."""

from __future__ import annotations

from typing import Optional, Tuple

import numpy as np
from numpy.typing import NDArray
from PIL import Image

from .coding import Decoded
from .rasters import Array, Pixels

LOW, HIGH = 1.0, 99.5  # the percentiles that become black and white
LEVELS = 256  # grays of a picture that is whole
GRAYS, TINTS = 224, 32  # grays and tints of a picture with tints: together the 256 colours of a palette
TINT = (214, 40, 57)  # half of a tinted pixel is this red, and half its gray
ROWS_AT_ONCE = 16  # so that what is made of them fits the cache of a processor
SMALL_SIDE = 512  # pixels of the longer side of a small picture

Gray = NDArray[np.uint8]


def pixels_of(array: Array, depth: int) -> Pixels:
    return Pixels(array.shape[1], depth, array.dtype.kind == "i")


def counted_values(array: Array, form: Pixels, mask: Optional[NDArray[np.bool_]]) -> NDArray[np.int64]:
    """Returns how often each value is in an array, outside a mask, from the least value on."""
    counts = np.zeros(form.most - form.least + 1, np.int64)
    for begin in range(0, len(array), ROWS_AT_ONCE):
        piece = array[begin : begin + ROWS_AT_ONCE]
        hidden = None if mask is None else mask[begin : begin + ROWS_AT_ONCE]
        values = piece[~hidden] if hidden is not None and hidden.any() else piece.ravel()
        counts += np.bincount(values.astype(np.intp) - form.least, minlength=len(counts))
    return counts


def stretch(array: Array, form: Pixels, mask: Optional[NDArray[np.bool_]] = None) -> Tuple[int, int]:
    """Returns the values that become black and white: the percentiles 1 and 99.5 of the pixels outside a mask.

    If the mask has all pixels, they are those of the whole array.
    """
    counts = counted_values(array, form, mask)
    if not counts.any():
        counts = counted_values(array, form, None)
    sums = np.cumsum(counts)
    low, high = (int(np.searchsorted(sums, sums[-1] * it / 100)) for it in (LOW, HIGH))
    return form.least + low, form.least + high


def grays(array: Array, form: Pixels, black: int, white: int, levels: int = LEVELS) -> Gray:
    """Returns an array of grays from 0, for `black` and all values below, to `levels` - 1, for `white` and all above."""
    values = np.arange(form.least, form.most + 1, dtype=np.float64)
    table = np.clip((values - black) * ((levels - 1) / max(white - black, 1)), 0, levels - 1).round().astype(np.uint8)
    if form.signed:  # the table by the patterns of octets, which begin with the values from 0 on
        whole = np.zeros(256 if form.depth <= 8 else 65_536, np.uint8)
        whole[np.arange(form.least, form.most + 1)] = table
        table, array = whole, array.view(array.dtype.str.replace("i", "u"))
    gray = np.empty(array.shape, np.uint8)
    for begin in range(0, len(array), ROWS_AT_ONCE):
        np.take(table, array[begin : begin + ROWS_AT_ONCE], out=gray[begin : begin + ROWS_AT_ONCE], mode="clip")
    return gray


def tinted(gray: Gray, mask: NDArray[np.bool_]) -> Image.Image:
    """Returns a picture with a palette, out of grays from 0 to 223, in which the pixels of a mask are tinted."""
    indices = gray.copy()
    for row in np.flatnonzero(mask.any(axis=1)).tolist():
        there = mask[row]
        indices[row][there] = GRAYS + gray[row][there] // (GRAYS // TINTS)
    image = Image.fromarray(indices)
    image.putpalette(palette().tobytes())
    return image


def palette() -> NDArray[np.uint8]:
    """Returns the colours of a picture with tints, of shape (256, 3)."""
    gray = (np.arange(GRAYS) * 255 / (GRAYS - 1)).round()
    half = (np.arange(TINTS) * 255 / (TINTS - 1)) / 2
    colours = np.concatenate([np.repeat(gray[:, None], 3, axis=1), half[:, None] + np.array(TINT) / 2])
    whole: NDArray[np.uint8] = colours.round().clip(0, 255).astype(np.uint8)
    return whole


def picture(decoded: Decoded) -> Image.Image:
    """Returns the stretched picture of 8 bits: gray if all of it can be trusted, otherwise tinted where it can't."""
    form = pixels_of(decoded.array, decoded.depth)
    if not decoded.rects:
        return Image.fromarray(grays(decoded.array, form, *stretch(decoded.array, form)))
    mask = decoded.mask()
    return tinted(grays(decoded.array, form, *stretch(decoded.array, form, mask), GRAYS), mask)


def full_picture(decoded: Decoded) -> Image.Image:
    """Returns the picture with all its bits and no tint: 8 bits a pixel up to a depth of 8, and 16 above.

    Values are as they are; those with a sign are moved up by half their range.
    """
    return Image.fromarray(unsigned(decoded.array, decoded.depth))


def unsigned(array: Array, depth: int) -> Array:
    """Returns an array without a sign: values with a sign are moved up by half their range."""
    if array.dtype.kind == "u":
        return array
    kind = np.uint8 if depth <= 8 else np.uint16
    return (array.astype(np.int32) + (1 << depth - 1)).astype(kind)


def plain_picture(array: Array, depth: int) -> Image.Image:
    """Returns the stretched picture of an array, in gray."""
    form = pixels_of(array, depth)
    return Image.fromarray(grays(array, form, *stretch(array, form)))


def small_picture(decoded: Decoded) -> Image.Image:
    """Returns the stretched picture in gray with at most 512 pixels a side, for a page that shows many."""
    form = pixels_of(decoded.array, decoded.depth)
    mask = decoded.mask() if decoded.rects else None
    return reduced(Image.fromarray(grays(decoded.array, form, *stretch(decoded.array, form, mask))))


def reduced(image: Image.Image) -> Image.Image:
    """Returns a picture made smaller, if it is too large for a page that shows many."""
    factor = -(-max(image.size) // SMALL_SIDE)
    return image.reduce(factor) if factor > 1 else image


def mask_picture(decoded: Decoded) -> Image.Image:
    """Returns a picture of one bit that is white where a pixel can't be trusted."""
    return Image.fromarray(decoded.mask().astype(np.uint8) * 255).convert("1", dither=Image.Dither.NONE)
