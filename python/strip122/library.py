"""The library for C (docs/c.md) by ctypes: its declarations and its calls, `Library(path).encode(..)`, `.decode(..)`, `.look(..)`,
`.rects(..)`, `.info(..)` and `.encoder(..)`.

Nothing else in this package knows the declarations, and this module needs nothing else of the package.
"""

from __future__ import annotations

import ctypes
from typing import Any, Callable, Dict, List, NamedTuple, Sequence, Tuple

# The version of the header that these declarations follow. A library fits if the first two of its three numbers are the same.
VERSION = 200

DONE, DAMAGED, OUT_OF_RANGE, SHORT, LONG, BAD_PIXEL, NO_SEGMENT, SMALL_ROOM, NO_MEMORY = range(9)
NO_IMAGE, ALL_ROWS, UNFINISHED, BAD_BOOK, WRONG_SIZE, TOO_MANY_PIXELS, LONG_INPUT, TOO_MANY_IMAGES = range(9, 17)
# The APID of a wish by which `info` lists the images of each APID.
EACH_APID = 65535
FIELDS = "none width rows depth segment limit fill word stop weights apid image packet pixels octets total".split()
USUAL: Dict[str, Any] = {"segment": 64, "packet": 1024, "apid": 100, "depth": 8, "word": 1, "stop_stage": 3, "optimal": 1}
USUAL_WEIGHTS = (0, 1, 1, 1, 2, 2, 2, 3, 3, 3)

Fields = List[Tuple[str, Any]]


def fields(kind: Any, names: str) -> Fields:
    return [(name, kind) for name in names.split()]


class Setting(ctypes.Structure):
    """A setting of the encoder; `usual` makes one with the usual value of each field that is not named."""

    _fields_ = (
        fields(ctypes.c_uint32, "size width rows segment limit packet")
        + fields(ctypes.c_uint64, "total")
        + fields(ctypes.c_uint16, "apid image")
        + fields(ctypes.c_uint8, "depth is_signed fill word stop_dc stop_plane stop_stage optimal")
        + [("weights", ctypes.c_uint8 * 10)]
        + fields(ctypes.c_uint8, "has_book")
        + [("book", ctypes.c_uint8 * 138)]
    )


class Encoded(ctypes.Structure):
    """What an encoder reports."""

    _fields_ = (
        fields(ctypes.c_uint32, "size field")
        + fields(ctypes.c_uint64, "octets all packets")
        + fields(ctypes.c_uint32, "segments rows column")
        + fields(ctypes.c_int32, "value")
    )


class Wish(ctypes.Structure):
    """The parameters of the calls that read packets; `usual_wish` makes one."""

    _fields_ = (
        fields(ctypes.c_uint32, "size")
        + fields(ctypes.c_uint16, "apid")
        + fields(ctypes.c_uint8, "has_book")
        + [("book", ctypes.c_uint8 * 138)]
        + fields(ctypes.c_uint64, "pixels octets")
        + fields(ctypes.c_uint8, "restore")
    )


class Decoded(ctypes.Structure):
    """What a decoder reports."""

    _fields_ = (
        fields(ctypes.c_uint32, "size width")
        + fields(ctypes.c_uint64, "octets ranges fault_octets pixels")
        + fields(ctypes.c_uint32, "rows written segment")
        + fields(ctypes.c_uint16, "image")
        + fields(ctypes.c_uint8, "depth is_signed word fault")
        + [("weights", ctypes.c_uint8 * 10)]
    )


class Listed(ctypes.Structure):
    """What a list of images reports."""

    _fields_ = fields(ctypes.c_uint32, "size fault") + fields(ctypes.c_uint64, "octets images fault_octets")


class Range(ctypes.Structure):
    """The rows from one to another, both among them."""

    _fields_ = fields(ctypes.c_uint32, "first last")


class Place(ctypes.Structure):
    """The place of an encoder."""

    _fields_ = [("kept", ctypes.c_uint64 * 512)]


def usual(width: int, rows: int, weights: Sequence[int] = USUAL_WEIGHTS, book: bytes = b"", **others: int) -> Setting:
    """Returns a setting for an image of this size, with the usual value of each field that is not named, and with a code book of 138
    octets or that of the profile.

    Raises ValueError if a field is unknown, or a value doesn't fit the type of its field: ctypes would cut it.
    """
    if len(book) not in (0, 138):
        raise ValueError(f"book: has {len(book)} octets, not 138")
    named = {"size": ctypes.sizeof(Setting), "width": width, "rows": rows, "has_book": len(book) > 0, **USUAL, **others}
    bits = {name: 8 * ctypes.sizeof(kind) for name, kind in Setting._fields_}
    for name, value in named.items():
        if name not in bits:
            raise ValueError(f"{name}: no such field")
        if not 0 <= int(value) < 1 << bits[name]:
            raise ValueError(f"{name}: {value} is not 0 to {(1 << bits[name]) - 1}")
    octets = {"weights": (ctypes.c_uint8 * 10)(*weights), "book": (ctypes.c_uint8 * 138)(*book)}
    return Setting(**octets, **{name: int(value) for name, value in named.items()})


def usual_wish(apid: int = 100, pixels: int = 1 << 32, octets: int = 1 << 40, book: bytes = b"", restore: bool = False) -> Wish:
    """Returns parameters of the decoder, with a code book of 138 octets or that of the profile. Raises ValueError if the book has another
    size.
    """
    if len(book) not in (0, 138):
        raise ValueError(f"book: has {len(book)} octets, not 138")
    return Wish(ctypes.sizeof(Wish), apid, len(book) > 0, (ctypes.c_uint8 * 138)(*book), pixels, octets, restore)


class Packets(NamedTuple):
    """An answer of the encoder: the answer, what it reports, and its room."""

    answer: int
    report: Encoded
    room: bytes


class Lines(NamedTuple):
    """An answer of a list of images: the answer, what it reports, and its room."""

    answer: int
    report: Listed
    room: bytes


class Picture(NamedTuple):
    """An answer of the decoder, of a look or of rectangles: the answer, what it reports, its room, and the ranges of damaged rows."""

    answer: int
    report: Decoded
    room: bytes
    ranges: List[Tuple[int, int]]


Call = Callable[[Wish, bytes, int, int], Picture]


def new_report() -> Encoded:
    return Encoded(size=ctypes.sizeof(Encoded))


class Encoder:
    """An encoder that takes an image row by row."""

    def __init__(self, calls: Any, setting: Setting):
        self._calls, self._place, self.report = calls, Place(), new_report()
        self.answer = calls.strip122_encoder_new(self._place, setting, self.report)

    def row(self, octets: bytes, size: int) -> Packets:
        """Takes a row, with a room of `size` octets."""
        room, report = (ctypes.c_uint8 * max(size, 1))(), new_report()
        answer = self._calls.strip122_encoder_row(self._place, bytes(octets) or b"\0", len(octets), room, size, report)
        return Packets(answer, report, bytes(memoryview(room)[:size]))

    def end(self, image: int, size: int) -> Packets:
        """Ends the image, with a room of `size` octets, and opens the next one."""
        room, report = (ctypes.c_uint8 * max(size, 1))(), new_report()
        answer = self._calls.strip122_encoder_end(self._place, image, room, size, report)
        return Packets(answer, report, bytes(memoryview(room)[:size]))

    def free(self) -> None:
        """Frees what the encoder owns."""
        self._calls.strip122_encoder_free(self._place)


class Library:
    """The library in a shared object. Raises OSError if it can't be loaded, or has other declarations than these."""

    def __init__(self, path: str):
        self.calls = library = ctypes.CDLL(path)
        if not hasattr(library, "strip122_version") or library.strip122_version() // 100 != VERSION // 100:
            raise OSError(f"{path}: is not the library of this version of strip122")
        size, octets, pointer = ctypes.c_size_t, ctypes.c_void_p, ctypes.POINTER
        self._encode = library.strip122_encode
        self._encode.argtypes = [pointer(Setting), octets, size, octets, size, pointer(Encoded)]
        reading = (library.strip122_decode, library.strip122_look, library.strip122_rects)
        for call in reading:
            call.argtypes = [pointer(Wish), octets, size, octets, size, octets, size, pointer(Decoded)]
        library.strip122_info.argtypes = [pointer(Wish), octets, size, octets, size, pointer(Listed)]
        for call in (self._encode, library.strip122_info, *reading):
            call.restype = ctypes.c_uint32
        place, report = pointer(Place), pointer(Encoded)
        library.strip122_encoder_new.argtypes = [place, pointer(Setting), report]
        library.strip122_encoder_row.argtypes = [place, octets, size, octets, size, report]
        library.strip122_encoder_end.argtypes = [place, ctypes.c_uint16, octets, size, report]
        for call in (library.strip122_encoder_new, library.strip122_encoder_row, library.strip122_encoder_end):
            call.restype = ctypes.c_uint32
        library.strip122_encoder_free.argtypes, library.strip122_encoder_free.restype = [place], None
        for call in (library.strip122_row_room, library.strip122_end_room, library.strip122_bound):
            call.argtypes, call.restype = [pointer(Setting)], ctypes.c_uint64

    def row_room(self, setting: Setting) -> int:
        """Returns the octets of a room that is enough for each row, or 0 if the setting is refused."""
        return int(self.calls.strip122_row_room(setting))

    def end_room(self, setting: Setting) -> int:
        """Returns the octets of a room that is enough for each end, or 0 if the setting is refused."""
        return int(self.calls.strip122_end_room(setting))

    def bound(self, setting: Setting) -> int:
        """Returns the octets of a room that is enough for an image, or 0 if the setting is refused."""
        return int(self.calls.strip122_bound(setting))

    def encoder(self, setting: Setting) -> Encoder:
        """Makes an encoder. Its `answer` is DONE, or the reason why there is none. Free it."""
        return Encoder(self.calls, setting)

    def encode(self, setting: Setting, raster: bytes, size: int) -> Packets:
        """Encodes a raster into a room of `size` octets."""
        room, report = (ctypes.c_uint8 * max(size, 1))(), new_report()
        answer = self._encode(setting, bytes(raster) or b"\0", len(raster), room, size, report)
        return Packets(answer, report, bytes(memoryview(room)[:size]))

    def decode(self, apid: int, packets: bytes, size: int, places: int) -> Picture:
        """As `decode_with`, with the usual wish for packets of this APID."""
        return self.decode_with(usual_wish(apid), packets, size, places)

    def decode_with(self, wish: Wish, packets: bytes, size: int, places: int) -> Picture:
        """Decodes packets into a room of `size` octets, with places for that number of ranges of damaged rows."""
        return self._read(self.calls.strip122_decode, wish, packets, size, places)

    def look(self, wish: Wish, packets: bytes, size: int, places: int) -> Picture:
        """Makes the look at packets, as the command `look` does."""
        return self._read(self.calls.strip122_look, wish, packets, size, places)

    def rects(self, wish: Wish, packets: bytes, size: int, places: int) -> Picture:
        """Lists the damaged rectangles of packets, as the command `rects` does."""
        return self._read(self.calls.strip122_rects, wish, packets, size, places)

    def info(self, wish: Wish, packets: bytes, size: int) -> Lines:
        """Lists the images of packets, as the command `info` does: of the wish's APID, or of each if that is EACH_APID."""
        room, report = (ctypes.c_uint8 * max(size, 1))(), Listed(size=ctypes.sizeof(Listed))
        answer = self.calls.strip122_info(wish, bytes(packets) or b"\0", len(packets), room, size, report)
        return Lines(answer, report, bytes(memoryview(room)[:size]))

    def _read(self, call: Any, wish: Wish, packets: bytes, size: int, places: int) -> Picture:
        """Reads packets by a call, into a room of `size` octets."""
        room, ranges = (ctypes.c_uint8 * max(size, 1))(), (Range * max(places, 1))()
        report = Decoded(size=ctypes.sizeof(Decoded))
        answer = call(wish, bytes(packets) or b"\0", len(packets), room, size, ranges, places, report)
        found = [(ranges[it].first, ranges[it].last) for it in range(min(report.ranges, places))]
        return Picture(answer, report, bytes(memoryview(room)[:size]), found)

    def encode_whole(self, setting: Setting, raster: bytes) -> Packets:
        """Encodes a raster, with a room that is found."""
        got = self.encode(setting, raster, 2 * len(raster) + (1 << 16))
        return self.encode(setting, raster, got.report.octets) if got.answer == SMALL_ROOM else got

    def whole(self, call: Call, wish: Wish, packets: bytes) -> Picture:
        """Reads packets by `decode_with`, `look` or `rects`, with a room that is found."""
        asked = call(wish, packets, 0, 0)
        if asked.answer != SMALL_ROOM:
            return asked
        return call(wish, packets, asked.report.octets, asked.report.written // 52 + 2)
