"""Encodes arrays and decodes packets, by the program or by the shared library. Both give the same."""

from __future__ import annotations

from concurrent.futures import Future
from dataclasses import dataclass, field, replace
from typing import Any, Dict, List, NamedTuple, Optional

import numpy as np
from numpy.typing import ArrayLike, NDArray

from . import library as c
from .errors import BadInput, BadKey, NoMemory
from .headers import NO_FORMAT, Headers, format_of, headers_in
from .keys import ENCODE, KEYS, checked, to_words
from .program import Ran, call, read_note, run, shared_library
from .rasters import Array, Pixels, array_of, raster_of
from .source import Octets, Source

FAULTS = {1: "bad version at octet {}", 2: "packet cut, {} octets missing"}  # why packets can't be read on
MOST_PIXELS = 1 << 28  # pixels of a picture that is decoded, if the caller allows no other number


@dataclass(frozen=True)
class Reading:
    """How packets are read: the most pixels of a picture, the code book, if it is not that of the profile, and whether coefficients
    that are given in part are moved inside their intervals.
    """

    pixels: int = MOST_PIXELS
    book: Optional[bytes] = None
    restore: bool = False

    def words(self) -> List[str]:
        """The arguments of `decode`, and of `look` if there is no book. The octets of a book are before the input."""
        words = [f"pixels={self.pixels}"]
        return words + ["restore=1"] * self.restore + ["book=1"] * (self.book is not None)

    def wish(self, apid: int) -> c.Wish:
        """The parameters of the library."""
        return c.usual_wish(apid, self.pixels, book=self.book or b"", restore=self.restore)


USUAL = Reading()


class Rect(NamedTuple):
    """A rectangle of pixels that can't be trusted; its last row and column are among them."""

    first_row: int
    last_row: int
    first_column: int
    last_column: int


EarlyRects = Optional["Future[List[Rect]]"]


@dataclass(frozen=True)
class Decoded:
    """A picture, and what of it can't be trusted.

    `array` has the shape (rows, width) and the type int8, uint8, int16 or uint16. `damage` has the ranges of damaged
    rows, and `rects` the rectangles outside of which no pixel depends on what is missing. `fault` says why the packets
    couldn't be read to their end, or is empty. If `is_height_known` is false, the last segment is missing, and the
    picture has the rows that the others determine.
    """

    array: Array
    depth: int
    damage: List[range] = field(default_factory=list)
    rects: List[Rect] = field(default_factory=list)
    is_height_known: bool = True
    fault: str = ""

    @property
    def is_whole(self) -> bool:
        return not self.damage and self.is_height_known and not self.fault

    def mask(self) -> NDArray[np.bool_]:
        """Returns an array of the picture's shape that is true for each pixel in a rectangle of damage."""
        return mask_of(self.array.shape, self.rects)

    @property
    def damaged_share(self) -> float:
        """The share of pixels in rectangles of damage, from 0 to 1."""
        return float(self.mask().mean()) if self.rects else 0.0


def mask_of(shape: Any, rects: List[Rect]) -> NDArray[np.bool_]:
    """Returns an array of this shape that is true in the rectangles."""
    mask = np.zeros(shape, bool)
    for it in rects:
        mask[it.first_row : it.last_row + 1, it.first_column : it.last_column + 1] = True
    return mask


# ---- encoding


def encode(array: ArrayLike, *, engine: Optional[str] = None, **keys: Any) -> bytes:
    """Returns the packets of an array of shape (rows, width), of 17 to 262,144 rows and 17 to 1,048,575 columns.

    Its type is bool or an integer type. `depth` (1 to 16) and `signed` are by default those of the type. The other keys
    are those of `strip122 encode`: segment, limit, fill, word, stop, weights, select, apid, image, packet, total; and
    `book`, a code book of 138 octets. `engine` is 'program', 'library', or None for the library where there is one.

    Raises BadKey if a key is unknown, has another type or is out of range; BadInput if the array is no picture, or a
    value is out of range; MissingPackage if the engine isn't there; NoMemory.
    """
    settings = checked(keys, ENCODE)
    raster, form = raster_of(array, settings.pop("depth", None), settings.pop("signed", None))
    settings = {"width": form.width, "rows": len(raster) // form.dtype.itemsize // form.width, "depth": form.depth} | settings
    settings["signed"] = form.signed
    lib = library_for(engine)
    if lib:
        return encoded_by_library(lib, raster, settings)
    ran = call(["encode", *to_words(settings)], settings.get("book", b"") + raster)
    if ran.status != 0:
        raise refusal(ran)
    return ran.output


def refusal(ran: Ran) -> Exception:
    """Returns the exception for a run of `encode` that was refused."""
    if ran.note.startswith("out of range: "):
        return out_of_range(ran.note.split(": ")[1])
    if ran.status == 6:
        return NoMemory(ran.note)
    return BadInput(ran.note)


def out_of_range(field_name: str) -> BadKey:
    about = KEYS[field_name].about if field_name in KEYS else "in its range"
    return BadKey(f"{field_name}: is not {about}")


def library_for(engine: Optional[str]) -> Optional[c.Library]:
    """Returns the library, or None if the program does the work. Raises BadKey and MissingPackage."""
    if engine not in (None, "program", "library"):
        raise BadKey(f"engine: {engine!r} is not 'program' or 'library'")
    lib = None if engine == "program" else shared_library()
    if engine == "library" and lib is None:
        raise BadKey("engine: there is no shared library")
    return lib


def encoded_by_library(lib: c.Library, raster: bytes, settings: Dict[str, Any]) -> bytes:
    fields = {name: value for name, value in settings.items() if name not in ("signed", "select", "stop", "weights")}
    fields["is_signed"] = settings["signed"]
    fields["optimal"] = settings.get("select", "optimal") == "optimal"
    fields["weights"] = tuple(map(int, settings["weights"])) if "weights" in settings else c.USUAL_WEIGHTS
    stop = settings.get("stop", "0.3")
    if stop == "dc":
        fields["stop_dc"] = 1
    else:
        fields["stop_plane"], fields["stop_stage"] = map(int, stop.split("."))
    got = lib.encode_whole(c.usual(**fields), raster)
    if got.answer == c.OUT_OF_RANGE:
        raise out_of_range(c.FIELDS[got.report.field])
    if got.answer == c.BAD_BOOK:
        raise BadInput("book refused")
    if got.answer == c.NO_MEMORY:
        raise NoMemory("no memory")
    if got.answer != c.DONE:
        raise BadInput(f"the library refuses the raster with answer {got.answer}")
    return got.room[: got.report.octets]


# ---- decoding


def decode(
    packets: Octets,
    *,
    apid: Optional[int] = None,
    pixels: int = MOST_PIXELS,
    book: Optional[bytes] = None,
    restore: bool = False,
    engine: Optional[str] = None,
) -> Decoded:
    """Returns the picture of packets, which are read strictly, one after another and in their order.

    `apid` is by default that of the first packet of this coder. `pixels` bounds the pixels of the picture. `book` is the
    code book with which the packets were written; with one, `rects` are whole rows. With `restore` coefficients that a
    stop or a limit gives in part are moved inside their intervals. `engine` is as for `encode`.

    Raises BadInput if no packet begins a segment or the picture has more pixels; BadKey; MissingPackage; NoMemory.
    """
    keys = checked({"apid": apid, "pixels": pixels, "book": book, "restore": restore}, ["apid", "pixels", "book", "restore"])
    reading = Reading(keys.get("pixels", MOST_PIXELS), keys.get("book"), keys.get("restore", False))
    with Source([packets]) as source:
        headers = headers_in(source)
    if apid is None:
        if len(headers) == 0:
            raise BadInput("no packet of this coder")
        apid = int(headers.apid[0])
    lib = library_for(engine)
    form = None if lib else form_in(headers, packets, apid)
    return decoded_as(packets, apid, form, reading, lib)


def decoded_as(
    packets: Octets,
    apid: int,
    form: Optional[Pixels],
    reading: Reading = USUAL,
    lib: Optional[c.Library] = None,
    early: EarlyRects = None,
) -> Decoded:
    """Returns the picture of packets whose pixels have this form; the library needs none.

    `early` gives its rectangles of damage, if they are asked for while the picture is decoded.
    """
    decoded = decoded_by_library(lib, packets, apid, reading) if lib else decoded_by_program(packets, apid, form, reading)
    if not decoded.damage:
        return decoded
    if reading.book is not None:  # `rects` of the program takes no book
        rects = [Rect(it.start, it.stop - 1, 0, decoded.array.shape[1] - 1) for it in decoded.damage]
    else:
        rects = early.result() if early else rects_of(packets, apid, reading.pixels, lib)
    return replace(decoded, rects=rects)


def decoded_by_program(packets: Octets, apid: int, form: Optional[Pixels], reading: Reading) -> Decoded:
    ran = run(["decode", f"apid={apid}", *reading.words()], reading.book + bytes(packets) if reading.book else packets)
    if form is None:
        raise BadInput("no segment")
    note = read_note(ran.note)
    return Decoded(array_of(ran.output, form), form.depth, note.damage, [], note.is_height_known, note.fault)


def form_in(headers: Headers, packets: Octets, apid: int) -> Optional[Pixels]:
    """Returns the form of the picture that the program decodes, or None if no packet begins a segment."""
    formats = np.unique(headers.format[(headers.apid == apid) & (headers.format != NO_FORMAT)])
    if len(formats) > 1:  # then the first packet that is kept decides
        formats = headers.format[headers.at == first_kept(packets, apid)]
    if len(formats) == 0 or formats[0] == NO_FORMAT:
        return None
    return format_of(int(formats[0])).pixels


def first_kept(packets: Octets, apid: int) -> int:
    """Returns the place of the first packet that the program keeps, by `list`."""
    at = 0
    for line in run(["list", f"apid={apid}"], packets).output.split(b"\n"):
        if b" kept " in line:
            return at
        at += 7 + int.from_bytes(packets[at + 4 : at + 6], "big")
    return -1


def given(got: c.Picture) -> bytes:
    """Returns what the library gave of packets. Raises the exception of another answer."""
    if got.answer == c.NO_MEMORY:
        raise NoMemory("no memory")
    if got.answer == c.BAD_BOOK:
        raise BadInput("book refused")
    if got.answer == c.TOO_MANY_PIXELS:
        raise BadInput(f"too many pixels, {got.report.pixels}")
    if got.answer not in (c.DONE, c.DAMAGED):
        raise BadInput("no segment")
    return got.room


def decoded_by_library(lib: c.Library, packets: Octets, apid: int, reading: Reading) -> Decoded:
    got = lib.whole(lib.decode_with, reading.wish(apid), bytes(packets))
    picture, report = given(got), got.report
    form = Pixels(report.width, report.depth, bool(report.is_signed))
    damage = [range(first, last + 1) for first, last in got.ranges]
    fault = FAULTS[report.fault].format(report.fault_octets) if report.fault else ""
    return Decoded(array_of(picture, form), form.depth, damage, [], bool(report.rows), fault)


def rects_of(packets: Octets, apid: int, pixels: int = MOST_PIXELS, lib: Optional[c.Library] = None) -> List[Rect]:
    """Returns the rectangles of pixels that can't be trusted, by `rects` of the library or of the program."""
    if lib:
        output = given(lib.whole(lib.rects, c.usual_wish(apid, pixels), bytes(packets)))
    else:
        output = run(["rects", f"apid={apid}", f"pixels={pixels}"], packets).output
    lines = output.decode().split()
    numbers = [list(map(int, it.split("-"))) for it in lines]
    return [Rect(*rows, *columns) for rows, columns in zip(numbers[::2], numbers[1::2])]


def look_of(packets: Octets, apid: int, form: Pixels, reading: Reading = USUAL, lib: Optional[c.Library] = None) -> Array:
    """Returns the quick look by `look` of the library or of the program: a value for each block of 8 x 8 pixels."""
    if lib:
        output = given(lib.whole(lib.look, reading.wish(apid), bytes(packets)))
    else:
        output = run(["look", f"apid={apid}", *reading.words()], packets).output
    return array_of(output, Pixels(-(-form.width // 8), form.depth, form.signed))
