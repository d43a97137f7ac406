"""Mends files of space packets of strip122, decodes their images, encodes arrays, and shows a pass on a page.

    import strip122

    image = strip122.open("pass.bin", apid=100, image=7)
    image.array(), image.mask(), image.damage, image.rects
    packets = strip122.encode(array, depth=12, segment=256)
    strip122.decode(packets).array

`python3 -m strip122` has the same for the command line. docs/ground.md and python/README.md have more.
"""

from pathlib import Path

from . import needs

needs.check()

from .api import Image, decode_file, images, open
from .books import book
from .coding import Decoded, Rect, decode, encode
from .errors import BadInput, BadKey, MissingPackage, NoMemory, ReadFault, Status, Strip122Error, WriteFault
from .passes import Pass, sort

__version__ = (Path(__file__).parent / "VERSION").read_text(encoding="utf-8").strip()
__all__ = [
    "BadInput",
    "BadKey",
    "Decoded",
    "Image",
    "MissingPackage",
    "NoMemory",
    "Pass",
    "ReadFault",
    "Rect",
    "Status",
    "Strip122Error",
    "WriteFault",
    "book",
    "decode",
    "decode_file",
    "encode",
    "images",
    "open",
    "sort",
]
