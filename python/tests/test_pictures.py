"""Pictures and files of arrays: stretched grays, tints, masks, and all bits."""

from __future__ import annotations

import io
from pathlib import Path
from typing import Any, List

import numpy as np
import pytest
from PIL import Image
from strip122 import BadInput, BadKey, Decoded, ReadFault, Rect
from strip122.pictures import GRAYS, TINT, full_picture, grays, mask_picture, picture, small_picture, stretch
from strip122.rasters import Pixels
from strip122.readers import read_array
from strip122.writers import WRITERS, kinds_of, store_image

FORMS = [(1, False), (8, False), (8, True), (9, False), (12, True), (16, False), (16, True)]


def slope(depth: int, signed: bool, rows: int = 40, width: int = 50) -> Any:
    """All values of a depth, from the least at the top left to the greatest."""
    form = Pixels(width, depth, signed)
    values = np.linspace(form.least, form.most, rows * width).round().astype(form.dtype)
    return values.reshape(rows, width)


def test_stretch_by_hand() -> None:
    """Of 1,000 values from 0 to 999 the percentiles 1 and 99.5 are 9 and 994."""
    array = np.arange(1000, dtype="uint16").reshape(20, 50)
    form = Pixels(50, 10, False)
    assert stretch(array, form) == (9, 994)
    gray = grays(array, form, 9, 994)
    assert gray.dtype == np.uint8 and gray.ravel()[[0, 9, 10, 501, 502, 994, 999]].tolist() == [0, 0, 0, 127, 128, 255, 255]
    mask = array >= 500
    assert stretch(array, form, mask) == (4, 497)
    assert stretch(array, form, np.ones_like(mask)) == (9, 994)


def test_stretch_of_values_with_a_sign() -> None:
    array = np.arange(-500, 500, dtype="int16").reshape(20, 50)
    assert stretch(array, Pixels(50, 10, True)) == (-491, 494)
    assert grays(array, Pixels(50, 10, True), -491, 494).ravel()[[0, 9, 501, 502, 999]].tolist() == [0, 0, 127, 128, 255]
    array = np.arange(-100, 100, dtype="int8").reshape(4, 50)
    assert grays(array, Pixels(50, 8, True), -98, 98).ravel()[[0, 100, 199]].tolist() == [0, 128, 255]


def test_flat_picture() -> None:
    flat = Decoded(np.full((20, 20), 7, "uint8"), 8)
    assert set(np.asarray(picture(flat)).ravel().tolist()) == {0}


@pytest.mark.parametrize("depth, signed", FORMS)
def test_tint(depth: int, signed: bool) -> None:
    """Outside the mask a picture is gray, and inside it is half red and half its gray."""
    array = slope(depth, signed)
    found = Decoded(array, depth, [range(3, 9)], [Rect(3, 8, 10, 29)])
    image = picture(found)
    assert image.mode == "P"
    colours, mask = np.asarray(image.convert("RGB")).astype(int), found.mask()
    gray = grays(array, Pixels(50, depth, signed), *stretch(array, Pixels(50, depth, signed), mask)).astype(int)
    assert np.abs(colours[~mask] - gray[~mask][:, None]).max() <= 255 / GRAYS + 1
    assert np.abs(colours[mask] - (gray[mask][:, None] + np.array(TINT)) / 2).max() <= 6
    whole = picture(Decoded(array, depth))
    assert whole.mode == "L" and whole.size == (50, 40)


@pytest.mark.parametrize("depth, signed", FORMS)
def test_all_bits(depth: int, signed: bool) -> None:
    array = slope(depth, signed)
    image = full_picture(Decoded(array, depth, [range(3, 9)], [Rect(3, 8, 10, 29)]))
    octets = io.BytesIO()
    image.save(octets, "PNG")
    back = np.asarray(Image.open(octets)).astype(int)
    assert (back == array.astype(int) + ((1 << depth - 1) if signed else 0)).all()


def test_mask_picture() -> None:
    found = Decoded(slope(8, False), 8, [range(3, 9)], [Rect(3, 8, 10, 29)])
    image = mask_picture(found)
    assert image.mode == "1" and (np.asarray(image) == found.mask()).all()


def test_small_picture() -> None:
    assert small_picture(Decoded(np.zeros((1025, 1024), "uint8"), 8)).size == (342, 342)
    assert small_picture(Decoded(np.zeros((512, 40), "uint8"), 8)).size == (40, 512)


@pytest.mark.parametrize("depth, signed", FORMS)
@pytest.mark.parametrize("kind", ["npy", "tif", "fits", "pgm", "png"])
def test_files(tmp_path: Path, kind: str, depth: int, signed: bool) -> None:
    """What a file has is what was written, for each kind that keeps all bits."""
    if kind == "fits":
        pytest.importorskip("astropy")
    array = slope(depth, signed)
    path = tmp_path / f"a.{kind}"
    store_image(path, kind, Decoded(array, depth), {"full": True, "apid": 7, "image": 3, "depth": depth})
    back, found = read_array(str(path))
    moved = (1 << depth - 1) if signed and kind in ("pgm", "png") else 0
    assert (back.astype(int) == array.astype(int) + moved).all()
    assert found == (depth if kind == "pgm" else None)
    assert [it.name for it in tmp_path.iterdir()] == [path.name]


def test_fits_has_the_mask(tmp_path: Path) -> None:
    fits = pytest.importorskip("astropy.io.fits")
    found = Decoded(slope(12, True), 12, [range(3, 9)], [Rect(3, 8, 10, 29)])
    store_image(tmp_path / "a.fits", "fits", found, {"apid": 7, "image": 3, "depth": 12, "damaged_share": 0.06})
    with fits.open(tmp_path / "a.fits") as them:
        assert (them[0].header["APID"], them[0].header["IMAGENUM"], them[0].header["DEPTH"]) == (7, 3, 12)
        assert (them["MASK"].data.astype(bool) == found.mask()).all() and (them[0].data == found.array).all()


def test_pgm_by_hand(tmp_path: Path) -> None:
    array = np.array([[0, 4095], [256, 1]], "uint16")
    store_image(tmp_path / "a.pgm", "pgm", Decoded(array, 12), {})
    assert (tmp_path / "a.pgm").read_bytes() == b"P5\n2 2\n4095\n" + bytes([0, 0, 15, 255, 1, 0, 0, 1])
    (tmp_path / "b.pgm").write_bytes(b"P5 # made\n2\t2\n#more\n255 " + bytes([1, 2, 3, 4]))
    back, depth = read_array(str(tmp_path / "b.pgm"))
    assert back.tolist() == [[1, 2], [3, 4]] and depth == 8


BAD_FILES: List[Any] = [
    ("a.pgm", b"P5\n20 20\n255\n", "the PGM is cut"),
    ("a.pgm", b"P5\n20", "no raw PGM"),
    ("a.pgm", b"P2\n2 2\n255\n1 2 3 4", "no raw PGM"),
    ("a.npy", b"\x93NUMPY", ""),
    ("a.npy", b"", ""),
    ("a.png", b"\x89PNG\r\n\x1a\n", ""),
    ("a.png", b"no picture", ""),
    ("a.tif", b"II*\0", ""),
]


@pytest.mark.parametrize("name, octets, message", BAD_FILES, ids=[f"{it[0]} {it[1][:8]!r}" for it in BAD_FILES])
def test_bad_files(tmp_path: Path, name: str, octets: bytes, message: str) -> None:
    (tmp_path / name).write_bytes(octets)
    with pytest.raises(BadInput) as fault:
        read_array(str(tmp_path / name))
    assert str(fault.value).startswith(f"{tmp_path / name}: {message}")


def test_colours_are_refused(tmp_path: Path) -> None:
    Image.new("RGB", (20, 20)).save(tmp_path / "a.png")
    with pytest.raises(BadInput, match="each colour is an image of its own"):
        read_array(str(tmp_path / "a.png"))


def test_missing_files(tmp_path: Path) -> None:
    with pytest.raises(ReadFault, match="No such file"):
        read_array(str(tmp_path / "a.npy"))
    with pytest.raises(BadKey, match="the suffix is not one of"):
        read_array(str(tmp_path / "a.jpg"))


def test_kinds() -> None:
    assert kinds_of("npy, .PNG,npy") == ["npy", "png"] and set(WRITERS) == {"npy", "png", "tif", "fits", "pgm"}
    for text in ("jpg", "npy,raw", ""):
        with pytest.raises(BadKey, match="--as"):
            kinds_of(text)
