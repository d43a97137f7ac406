"""Arrays to packets and back, by the program and by the library: values, types, damage, and what is refused."""

from __future__ import annotations

import random
from typing import Any, Dict, List, Tuple

import numpy as np
import pytest
import strip122
import wire
from strip122 import BadInput, BadKey, Decoded, Rect, library
from strip122.coding import Reading, library_for, look_of, mask_of
from strip122.keys import from_words
from strip122.program import call
from strip122.rasters import Pixels, array_of, raster_of

# Rows, columns, depth and sign: the least size, odd sizes, and the ends of depths.
SHAPES = [(17, 17, 8, 0), (17, 18, 1, 0), (18, 17, 16, 0), (23, 41, 1, 0), (41, 23, 16, 1), (33, 65, 9, 0), (64, 31, 8, 1), (25, 25, 12, 1)]
TYPES = {(8, 0): "uint8", (8, 1): "int8", (16, 0): "uint16", (16, 1): "int16"}


def type_of(depth: int, signed: int) -> str:
    return TYPES[8 if depth <= 8 else 16, signed]


def noise(chance: random.Random, rows: int, width: int, depth: int, signed: int) -> Any:
    values = np.random.default_rng(chance.getrandbits(32)).integers(0, 1 << depth, (rows, width))
    return (values - (1 << depth - 1 if signed else 0)).astype(type_of(depth, signed))


@pytest.fixture(params=["program", "library"])
def engine(request: pytest.FixtureRequest, monkeypatch: pytest.MonkeyPatch) -> str:
    if request.param == "library":
        monkeypatch.setenv("STRIP122_LIBRARY", request.getfixturevalue("shared_library"))
    return str(request.param)


@pytest.mark.parametrize("rows, width, depth, signed", SHAPES)
def test_there_and_back(engine: str, chance: random.Random, rows: int, width: int, depth: int, signed: int) -> None:
    array = noise(chance, rows, width, depth, signed)
    packets = strip122.encode(array, depth=depth, engine=engine, segment=16)
    raster, form = raster_of(array, depth)
    sizes = {"width": width, "rows": rows, "depth": depth, "signed": signed, "segment": 16}
    assert form == Pixels(width, depth, bool(signed)) and packets == wire.encoded(raster, **sizes)
    back = strip122.decode(packets, engine=engine)
    assert back.array.dtype == array.dtype and back.array.shape == (rows, width) and (back.array == array).all()
    assert back.is_whole and not back.mask().any() and back.depth == depth and not back.rects


def test_types(engine: str) -> None:
    """Depth and sign are by default those of the array's type."""
    for depth, signed, name in ((8, 0, "uint8"), (8, 1, "int8"), (16, 0, "uint16"), (16, 1, "int16"), (1, 0, "bool")):
        array = (np.arange(400).reshape(20, 20) % (2 if depth == 1 else 100)).astype(name)
        packets = strip122.encode(array, engine=engine)
        assert strip122.decode(packets, engine=engine).array.dtype == (np.uint8 if depth == 1 else array.dtype)
        assert packets[30 + 4 + 8] & 15 == depth % 16 and packets[30 + 4 + 8] >> 4 & 1 == signed
    for array in (np.arange(400).reshape(20, 20), [list(range(20))] * 20):
        back = strip122.decode(strip122.encode(array, depth=9, signed=False, engine=engine))
        assert back.array.dtype == np.uint16 and (back.array == array).all()


def test_both_ways_are_alike(images: wire.Streams, chance: random.Random, shared_library: str, monkeypatch: pytest.MonkeyPatch) -> None:
    """Packets lost, changed and cut: the program and the library give the same, or refuse alike."""
    monkeypatch.setenv("STRIP122_LIBRARY", shared_library)
    answers: List[object] = []
    for (apid, _), packets in images.packets.items():
        for _ in range(12):
            kept = [it for it in packets if chance.random() > chance.choice([0, 0.1, 0.9])]
            octets = bytearray(b"".join(kept))
            if octets and chance.random() < 0.4:
                octets[chance.randrange(len(octets))] ^= 1 << chance.randrange(8)
            octets = octets[: chance.randrange(len(octets) + 1)] if chance.random() < 0.2 else octets
            both = [answer(bytes(octets), apid, engine) for engine in ("program", "library")]
            assert same(*both), both
            answers.append(type(both[0]))
    assert {Decoded, str} == set(answers)
    assert strip122.encode(np.zeros((20, 20), "uint8")) == strip122.encode(np.zeros((20, 20), "uint8"), engine="program")


def answer(octets: bytes, apid: int, engine: str) -> Any:
    try:
        return strip122.decode(octets, apid=apid, engine=engine, pixels=1 << 20)
    except BadInput as fault:
        return str(fault)


def same(one: Any, other: Any) -> bool:
    if isinstance(one, str) or isinstance(other, str):
        return bool(one == other)
    facts = ("depth", "damage", "rects", "is_height_known", "fault")
    alike = all(getattr(one, it) == getattr(other, it) for it in facts)
    return alike and one.array.dtype == other.array.dtype and bool((one.array == other.array).all())


KEYS: List[Dict[str, Any]] = [
    {"segment": 20, "packet": 100, "apid": 7, "image": 9},
    {"limit": 400, "fill": True, "word": 4},
    {"stop": "3.1"},
    {"stop": "dc"},
    {"weights": "0000000000", "select": "heuristic"},
]


@pytest.mark.parametrize("keys", KEYS)
def test_keys(engine: str, chance: random.Random, keys: Dict[str, Any]) -> None:
    array = noise(chance, 40, 50, 10, 0)
    raster, _ = raster_of(array, 10)
    words = {name: int(value) if isinstance(value, bool) else value for name, value in keys.items()}
    assert strip122.encode(array, depth=10, engine=engine, **keys) == wire.encoded(raster, width=50, rows=40, depth=10, **words)


def test_total_and_book(engine: str, chance: random.Random) -> None:
    array = noise(chance, 40, 50, 8, 0)
    assert strip122.encode(array, total=900, engine=engine) == wire.encoded(array.tobytes(), width=50, rows=40, total=900)
    lengths = ["1 2 3 3", "4 1 2 5 3 6 7 7", "2 2 3 3 4 4 4 4", "6 2 2 3 3 4 5 6 6 4 6 7 7 7 8 8"]
    lengths += ["6 3 3 2 2 5 5 6 5 5 5 6 7 6 6 7", "6 3 3 3 3 4 4 5 5 4 4 6 5 5 5 4"]
    book = strip122.book([list(map(int, it.split())) for it in lengths])
    packets = strip122.encode(array, book=book, segment=16, engine=engine)
    assert packets == wire.encoded(book + array.tobytes(), width=50, rows=40, segment=16, book=1)
    assert (strip122.decode(packets, book=book, engine=engine).array == array).all()
    lost = b"".join(wire.packets_of(packets)[2:])
    back = strip122.decode(lost, book=book, engine=engine)
    assert back.damage and back.rects == [Rect(it.start, it.stop - 1, 0, 49) for it in back.damage]
    for refused in (
        lambda: strip122.encode(array, book=bytes(138), engine=engine),
        lambda: strip122.decode(packets, book=bytes(138), engine=engine),
    ):
        with pytest.raises(BadInput, match="^book "):
            refused()


def squared_error(decoded: Decoded, array: Any) -> float:
    """The mean squared difference of the pixels."""
    return float(((decoded.array.astype(float) - array) ** 2).mean())


@pytest.mark.parametrize("keys", [{"stop": "5.3"}, {"limit": 60}, {"stop": "dc"}])
def test_restored(engine: str, chance: random.Random, keys: Dict[str, Any]) -> None:
    """Restored coefficients bring a smooth picture closer, and change neither the damage nor a picture that was sent whole."""
    slope = np.add.outer(40 * np.arange(40), 20 * np.arange(50))
    array = (slope + noise(chance, 40, 50, 6, 0)).astype("uint16")
    packets = strip122.encode(array, depth=12, segment=16, engine=engine, **keys)
    plain, restored = (strip122.decode(packets, restore=it, engine=engine) for it in (False, True))
    assert squared_error(restored, array) < squared_error(plain, array)
    assert restored.is_whole
    lost = b"".join(wire.packets_of(packets)[1:])
    assert strip122.decode(lost, restore=True, engine=engine).rects == strip122.decode(lost, engine=engine).rects != []
    whole = strip122.encode(array, depth=12, engine=engine)
    assert (strip122.decode(whole, restore=True, engine=engine).array == array).all()


def test_restored_look(engine: str, chance: random.Random) -> None:
    """A look has restored coefficients of the lowest subband too."""
    array = noise(chance, 40, 50, 12, 0)
    packets = strip122.encode(array, depth=12, stop="dc", engine=engine)
    form, lib = Pixels(50, 12, False), library_for(engine)
    plain, restored = (look_of(packets, 100, form, Reading(restore=it), lib) for it in (False, True))
    assert (restored >= plain).all() and (restored > plain).any()


def test_engine_without_program(shared_library: str, chance: random.Random, monkeypatch: pytest.MonkeyPatch) -> None:
    """The library alone encodes with a total and a book, decodes, and finds rectangles and looks."""
    monkeypatch.setenv("STRIP122_LIBRARY", shared_library)
    array = noise(chance, 40, 50, 8, 0)
    wanted = wire.encoded(array.tobytes(), width=50, rows=40, total=900, segment=16)
    lost = b"".join(wire.packets_of(wanted)[1:])
    by_program = [strip122.decode(lost, engine="program").rects, look_of(lost, 100, Pixels(50, 8, False))]
    monkeypatch.setenv("STRIP122", "/no/program")
    assert strip122.encode(array, total=900, segment=16) == wanted
    by_library = [strip122.decode(lost).rects, look_of(lost, 100, Pixels(50, 8, False), lib=library_for("library"))]
    assert by_program[0] == by_library[0] and (by_program[1] == by_library[1]).all()


def test_info_of_the_library(images: wire.Streams, shared_library: str) -> None:
    """The images of a stream are listed as `info` lists them: of each APID and of one."""
    lib = library.Library(shared_library)
    octets = b"".join(images.all())
    for apid, words in ((library.EACH_APID, []), (7, ["apid=7"])):
        asked = lib.info(library.usual_wish(apid), octets, 0)
        assert asked.answer == library.SMALL_ROOM
        got = lib.info(library.usual_wish(apid), octets, asked.report.octets)
        assert got.answer == library.DONE and got.room == call(["info", *words], octets).output
        assert got.report.images == got.room.count(b"\n")


BAD_KEYS: List[Tuple[Dict[str, Any], str]] = [
    ({"segmnet": 16}, "segmnet: no such key; did you mean segment (16 to 1048575)?"),
    ({"width": 20}, "width: no such key; "),
    ({"rows": 20}, "rows: no such key; "),
    ({"depth": 264}, "depth: 264 is not 1 to 16"),
    ({"depth": 0}, "depth: 0 is not 1 to 16"),
    ({"depth": "8"}, "depth: '8' is not 1 to 16"),
    ({"depth": 8.0}, "depth: 8.0 is not 1 to 16"),
    ({"depth": True}, "depth: True is not 1 to 16"),
    ({"apid": 65543}, "apid: 65543 is not 0 to 2046"),
    ({"apid": 2047}, "apid: 2047 is not 0 to 2046"),
    ({"image": -1}, "image: -1 is not 0 to 65535"),
    ({"segment": 15}, "segment: 15 is not 16 to 1048575"),
    ({"packet": 63}, "packet: 63 is not 64 to 65536"),
    ({"word": 5}, "word: 5 is not 1 to 4"),
    ({"limit": 31}, "limit: 31 is not 0, or 32 to 134217724 and a multiple of word"),
    ({"limit": 33, "word": 2}, "limit: 33 is not "),
    ({"fill": True}, "fill: True is not False, or True with a limit or a total"),
    ({"total": 1000, "limit": 100}, "total: 1000 is not "),
    ({"total": 35}, "total: 35 is not "),
    ({"total": 40, "segment": 16, "packet": 64}, "total: is not 0, or at least 36 for each segment"),
    ({"stop": "28.0"}, "stop: '28.0' is not "),
    ({"stop": 3}, "stop: 3 is not "),
    ({"weights": "012"}, "weights: '012' is not ten digits"),
    ({"select": "best"}, "select: 'best' is not 'optimal' or 'heuristic'"),
    ({"signed": "yes"}, "signed: 'yes' is not False or True"),
    ({"book": b"\x12\x2b"}, "book: '2 octets' is not bytes, a code book of 138 octets"),
    ({"engine": "both"}, "engine: 'both' is not 'program' or 'library'"),
]


@pytest.mark.parametrize("keys, message", BAD_KEYS, ids=[str(it) for it, _ in BAD_KEYS])
def test_bad_keys(keys: Dict[str, Any], message: str) -> None:
    with pytest.raises(BadKey) as fault:
        strip122.encode(np.zeros((40, 40), "uint8"), **keys)
    assert str(fault.value).startswith(message) and fault.value.status == 2


BAD_ARRAYS: List[Tuple[Any, Dict[str, Any], type, str]] = [
    ([], {}, BadInput, "the array has shape (0,)"),
    (np.zeros((0, 20), "uint8"), {}, BadInput, "the array of shape (0, 20) is empty"),
    (np.zeros((1, 17), "uint8"), {}, BadInput, "the array has 1 rows and 17 columns; rows are 17 to 262144"),
    (np.zeros((17, 16), "uint8"), {}, BadInput, "the array has 17 rows and 16 columns"),
    (np.zeros((20, 20, 3), "uint8"), {}, BadInput, "the array has shape (20, 20, 3) and type uint8"),
    (np.zeros((20, 20)), {}, BadInput, "the array has shape (20, 20) and type float64"),
    (np.zeros((20, 20), "int64"), {}, BadKey, "depth: the array's type int64 gives none"),
    (np.zeros((20, 20), "int32"), {"depth": 8}, BadKey, "signed: the array's type int32 gives none"),
    (np.full((20, 20), 300, "uint16"), {"depth": 8}, BadInput, "values 300 to 300 are outside 0 to 255"),
    (np.full((20, 20), -1, "int8"), {"signed": False}, BadInput, "values -1 to -1 are outside 0 to 255"),
    (np.full((20, 20), 200, "uint8"), {"signed": True}, BadInput, "values 200 to 200 are outside -128 to 127"),
]


@pytest.mark.parametrize("array, keys, kind, message", BAD_ARRAYS, ids=[it[3] for it in BAD_ARRAYS])
def test_bad_arrays(array: Any, keys: Dict[str, Any], kind: type, message: str) -> None:
    with pytest.raises(kind) as fault:
        strip122.encode(array, **keys)
    assert str(fault.value).startswith(message)


def test_bad_packets(engine: str, images: wire.Streams) -> None:
    packets = images.packets[7, 1]
    for octets, keys, message in (
        (b"", {}, "no packet of this coder"),
        (bytes(1000), {}, "no packet of this coder"),
        (b"".join(packets), {"apid": 8}, "no segment"),
        (packets[0][:100], {"apid": 7}, "no segment"),
        (b"".join(packets), {"pixels": 8191}, "too many pixels, 8192"),
    ):
        with pytest.raises(BadInput, match=message):
            strip122.decode(octets, engine=engine, **keys)
    with pytest.raises(BadKey, match="apid: 2047 is not 0 to 2046"):
        strip122.decode(b"".join(packets), apid=2047)
    cut = strip122.decode(b"".join(packets)[:-5], engine=engine)
    assert cut.fault == "packet cut, 5 octets missing" and cut.damage and not cut.is_whole


def test_damage(engine: str, images: wire.Streams) -> None:
    """No pixel outside the mask depends on what is lost; the mask has exactly the rectangles, and these the damaged rows."""
    for (apid, _), packets in images.packets.items():
        kept = [it for it in packets if wire.place_of(it)[0] != 2]
        whole = strip122.decode(b"".join(packets), engine=engine)
        found = strip122.decode(b"".join(kept), engine=engine)
        lines = wire.run("damage", b"".join(kept), apid=apid)[1].decode().split()
        assert [f"{it.start}-{it.stop - 1}" for it in found.damage] == lines
        lines = wire.run("rects", b"".join(kept), apid=apid)[1].decode().splitlines()
        assert [f"{a}-{b} {c}-{d}" for a, b, c, d in found.rects] == lines
        if len(kept) == len(packets):
            assert not lines and not found.mask().any()
            continue
        mask = found.mask()
        assert mask.shape == found.array.shape and (found.array == whole.array)[~mask].all()
        assert [row for row in range(len(mask)) if mask[row].any()] == [row for it in found.damage for row in it]
        assert abs(found.damaged_share - mask.sum() / mask.size) < 1e-12


def test_mask() -> None:
    """Two rectangles on 5 x 6 pixels, by hand."""
    mask = mask_of((5, 6), [Rect(0, 1, 0, 2), Rect(1, 4, 5, 5)])
    assert mask.astype(int).tolist() == [[1, 1, 1, 0, 0, 0], [1, 1, 1, 0, 0, 1], *[[0, 0, 0, 0, 0, 1]] * 3]


def test_height_unknown(engine: str, images: wire.Streams) -> None:
    raster = images.rasters[7, 1]
    packets = wire.packets_of(wire.encoded(raster, width=64, rows=0, segment=16))
    found = strip122.decode(b"".join(packets[:-1]), engine=engine)
    assert found.array.shape == (91, 64) and not found.is_height_known and not found.damage and not found.is_whole
    whole = strip122.decode(b"".join(packets), engine=engine)
    assert whole.is_whole and whole.array.tobytes() == raster


def test_rasters() -> None:
    """Pixels above 8 bits have the higher octet first, by hand."""
    assert array_of(bytes([1, 2, 255, 254]), Pixels(2, 12, False)).tolist() == [[258, 65534]]
    assert array_of(bytes([1, 2, 255, 254]), Pixels(2, 12, True)).tolist() == [[258, -2]]
    assert array_of(bytes([1, 255]), Pixels(1, 8, True)).tolist() == [[1], [-1]]
    octets, form = raster_of(np.full((17, 17), -2, "int16"), 12)
    assert octets[:4] == b"\xff\xfe\xff\xfe" and form == Pixels(17, 12, True)


def test_settings_of_the_library() -> None:
    """Values that the fields of C would cut are refused."""
    assert library.usual(64, 128, segment=16).apid == 100
    for words in ({"segmnet": 16}, {"depth": 264}, {"apid": 65543}, {"image": -1}):
        with pytest.raises(ValueError, match=next(iter(words))):
            library.usual(64, 128, **words)


def test_books_of_the_library() -> None:
    """A setting has the octets of a code book, or none."""
    assert library.usual(64, 128).has_book == 0
    setting = library.usual(64, 128, book=bytes(range(138)))
    assert setting.has_book == 1 and bytes(setting.book) == bytes(range(138))
    with pytest.raises(ValueError, match="book"):
        library.usual(64, 128, book=b"short")


def test_rows_of_the_library(shared_library: str) -> None:
    """Rows given one by one settle the packets that the whole raster has."""
    lib = library.Library(shared_library)
    setting = library.usual(64, 128, segment=16)
    raster = bytes(range(256)) * 32
    whole = lib.encode_whole(setting, raster)
    encoder = lib.encoder(setting)
    assert (whole.answer, encoder.answer) == (library.DONE, library.DONE)
    given = b""
    for at in range(0, len(raster), 64):
        got = encoder.row(raster[at : at + 64], lib.row_room(setting))
        assert got.answer == library.DONE and got.report.rows == at // 64 + 1
        given += got.room[: got.report.octets]
    assert 0 < len(given) < whole.report.octets and encoder.row(raster[:64], 0).answer == library.ALL_ROWS
    last = encoder.end(1, lib.end_room(setting))
    assert given + last.room[: last.report.octets] == whole.room[: whole.report.octets]
    assert len(given) < whole.report.octets <= lib.bound(setting)
    encoder.free()
    assert encoder.row(raster[:64], 0).answer == library.NO_IMAGE


def test_words() -> None:
    assert from_words(["depth=12", "signed=1", "stop=dc"]) == {"depth": 12, "signed": True, "stop": "dc"}
    for words in (["depth"], ["=8"], ["depth=8", "depth=8"], ["depth=many"], ["signed=2"], ["program=true"], ["book=1"]):
        with pytest.raises(BadKey):
            from_words(words)
