"""Writes a decoded image to files: arrays, pictures, masks. A file gets its name only after all of it is written."""

from __future__ import annotations

import importlib.util
import io
from pathlib import Path
from typing import Any, BinaryIO, Callable, Dict, List

import numpy as np
from PIL import Image

from .coding import Decoded
from .errors import BadKey, MissingPackage
from .files import written
from .pictures import full_picture, picture, unsigned

RUN_LENGTHS = 3  # zlib's strategy Z_RLE: fast, and small for pictures with noise

Facts = Dict[str, Any]  # what is known of an image, for formats that have a place for it
Writer = Callable[[BinaryIO, Decoded, Facts], None]


def save_png(file: BinaryIO, image: Image.Image) -> None:
    """Writes a PNG, with a compression that takes little time."""
    image.save(file, format="PNG", compress_level=1, compress_type=RUN_LENGTHS)


def store_png(path: Path, image: Image.Image) -> None:
    with written(path) as file:
        save_png(file, image)


def write_npy(file: BinaryIO, decoded: Decoded, _: Facts) -> None:
    np.save(file, decoded.array)


def write_png(file: BinaryIO, decoded: Decoded, facts: Facts) -> None:
    save_png(file, full_picture(decoded) if facts.get("full") else picture(decoded))


def write_tif(file: BinaryIO, decoded: Decoded, _: Facts) -> None:
    """Writes a TIFF with all bits. Pixels with a sign have 32 bits, since Pillow writes no others with a sign."""
    array = decoded.array
    octets = io.BytesIO()
    Image.fromarray(array.astype(np.int32) if array.dtype.kind == "i" else array).save(octets, format="TIFF")
    file.write(octets.getbuffer())


def write_pgm(file: BinaryIO, decoded: Decoded, _: Facts) -> None:
    """Writes a raw PGM with all bits. Values with a sign are moved up by half their range."""
    array = unsigned(decoded.array, decoded.depth)
    file.write(b"P5\n%d %d\n%d\n" % (array.shape[1], array.shape[0], (1 << decoded.depth) - 1))
    file.write(array.astype(array.dtype.newbyteorder(">")).tobytes())


def write_fits(file: BinaryIO, decoded: Decoded, facts: Facts) -> None:
    """Writes a FITS file: the array, its rows in the order of the array, and after it the mask if anything is damaged."""
    from astropy.io import fits

    image = fits.PrimaryHDU(decoded.array)
    for key, name, about in FITS_CARDS:
        if facts.get(name) is not None:
            image.header[key] = (facts[name], about)
    masks = [fits.ImageHDU(decoded.mask().astype(np.uint8), name="MASK")] if decoded.rects else []
    fits.HDUList([image, *masks]).writeto(file)


FITS_CARDS = [
    ("APID", "apid", "application process identifier"),
    ("IMAGENUM", "image", "number of the image"),
    ("DEPTH", "depth", "bits of a pixel"),
    ("DAMAGED", "damaged_share", "share of pixels that can't be trusted"),
]
WRITERS: Dict[str, Writer] = {"npy": write_npy, "png": write_png, "tif": write_tif, "fits": write_fits, "pgm": write_pgm}


def kinds_of(text: str) -> List[str]:
    """Returns the kinds of files in a list with commas. Raises BadKey if one is unknown, MissingPackage if it needs another package."""
    kinds = [it.strip().lower().lstrip(".") for it in text.split(",") if it.strip()]
    known = ", ".join(WRITERS)
    for it in kinds:
        if it not in WRITERS:
            raise BadKey(f"--as: {it} is not one of {known}")
    if not kinds:
        raise BadKey(f"--as: names no kind; the kinds are {known}")
    if "fits" in kinds and importlib.util.find_spec("astropy") is None:
        raise MissingPackage("fits needs astropy (Debian: apt-get install python3-astropy)")
    return list(dict.fromkeys(kinds))


def store_image(path: Path, kind: str, decoded: Decoded, facts: Facts) -> None:
    """Writes an image to a file of a kind. Raises WriteFault."""
    with written(path) as file:
        WRITERS[kind](file, decoded, facts)
