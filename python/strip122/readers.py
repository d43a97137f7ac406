"""Reads arrays from files, for `encode`: .npy, .png, .tif, .fits and .pgm."""

from __future__ import annotations

import sys
from pathlib import Path
from typing import BinaryIO, Callable, Dict, List, Optional, Tuple

import numpy as np
from PIL import Image

from .errors import BadInput, BadKey, MissingPackage, ReadFault
from .files import reason
from .rasters import Array

Read = Tuple[Array, Optional[int]]  # an array, and its depth if the file has one
MODES = ("1", "L", "I;16", "I;16B", "I")


def read_npy(file: BinaryIO) -> Read:
    array: Array = np.load(file, allow_pickle=False)
    return array, None


def read_pgm(file: BinaryIO) -> Read:
    """Reads a raw PGM. Its depth is that of its greatest value; Pillow would stretch values to that of the type."""
    octets = file.read()
    fields: List[bytes] = []
    at = 0
    while len(fields) < 4 and at < len(octets):
        if octets[at : at + 1].isspace():
            at += 1
        elif octets[at : at + 1] == b"#":
            at = octets.find(b"\n", at) + 1 or len(octets)
        else:
            end = next((it for it in range(at, len(octets)) if octets[it : it + 1].isspace()), len(octets))
            fields.append(octets[at:end])
            at = end
    if len(fields) < 4 or fields[0] != b"P5" or not all(it.isdigit() for it in fields[1:]):
        raise BadInput("no raw PGM (P5)")
    width, rows, most = map(int, fields[1:])
    kind = np.dtype("u1" if most < 256 else ">u2")
    if not 0 < most < 65_536 or len(octets) - at - 1 < width * rows * kind.itemsize:
        raise BadInput("the PGM is cut, or has pixels of more than 16 bits")
    pixels = np.frombuffer(octets, kind, width * rows, at + 1).reshape(rows, width)
    return pixels.astype(kind.newbyteorder("=")), most.bit_length()


def read_picture(file: BinaryIO) -> Read:
    with Image.open(file) as image:
        if image.mode not in MODES:
            raise BadInput(f"has the mode {image.mode}, not one of grays; each colour is an image of its own")
        array = np.asarray(image)
        return array.astype(array.dtype.newbyteorder("=")), 1 if image.mode == "1" else None


def read_fits(file: BinaryIO) -> Read:
    try:
        from astropy.io import fits
    except ImportError as fault:
        raise MissingPackage("fits needs astropy (Debian: apt-get install python3-astropy)") from fault
    array = np.asarray(fits.getdata(file))
    return array.astype(array.dtype.newbyteorder("=")), None


READERS: Dict[str, Callable[[BinaryIO], Read]] = {
    ".npy": read_npy,
    ".pgm": read_pgm,
    ".png": read_picture,
    ".tif": read_picture,
    ".tiff": read_picture,
    ".fits": read_fits,
}


def read_array(name: str) -> Read:
    """Returns the array in a file, by its suffix, and its depth if the file has one.

    Raises BadKey if the suffix is unknown, ReadFault, BadInput if the file has no array; each with the file's name.
    """
    path = Path(name)
    reader = READERS.get(path.suffix.lower())
    if reader is None:
        raise BadKey(f"{name}: the suffix is not one of {', '.join(READERS)}")
    try:
        with open(path, "rb") as file:
            return reader(file)
    except (BadInput, MissingPackage) as fault:
        raise type(fault)(f"{name}: {fault}") from fault
    except (ValueError, EOFError, SyntaxError, TypeError, Image.DecompressionBombError) as fault:
        raise BadInput(f"{name}: {fault}") from fault
    except OSError as fault:
        if fault.errno is None:  # Pillow and astropy raise these for octets that are no picture
            raise BadInput(f"{name}: {fault}") from fault
        raise ReadFault(f"{name}: {reason(fault)}") from fault


def read_octets(name: str) -> bytes:
    """Returns the octets of a file, or of standard input for `-`. Raises ReadFault."""
    try:
        return sys.stdin.buffer.read() if name == "-" else Path(name).read_bytes()
    except OSError as fault:
        raise ReadFault(f"{name}: {reason(fault)}") from fault
