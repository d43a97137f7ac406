"""The command line: files, statuses, messages with the file's name, and nothing half written."""

from __future__ import annotations

import json
import os
import pickle
import random
import re
import subprocess
import sys
from pathlib import Path
from typing import Any, Callable, Dict, List, Tuple

import numpy as np
import pytest
import strip122
import wire
from PIL import Image

Command = Callable[..., Tuple[int, str, str]]


@pytest.fixture
def files(images: wire.Streams, chance: random.Random, tmp_path: Path) -> Path:
    """Two files with all packets, and one without a packet."""
    packets = images.all()
    (tmp_path / "first").write_bytes(b"".join(packets[::2]))
    (tmp_path / "second").write_bytes(wire.octets_by(chance, 5000) + b"".join(packets[1::2]))
    (tmp_path / "lost").write_bytes(b"".join(it for it in packets if wire.place_of(it)[0] != 3))
    return tmp_path


def test_sort(command: Command, files: Path, images: wire.Streams) -> None:
    status, table, notes = command("sort", "--into", "sorted", "first", "second")
    assert (status, notes) == (0, "") and "5000 skipped" in table
    for (apid, image), packets in images.packets.items():
        assert (files / f"sorted/apid-{apid}-image-{image}.packets").read_bytes() == b"".join(packets)
    names = [line.split()[0] for line in table.splitlines()[1:7]]
    assert names == [f"apid-{apid}-image-{image}" for apid, image in sorted(images.packets)]
    assert not re.search("^skipped [0-9]", table, re.M) and "a stretch of octets that are no packet, 5000 octets" in table
    assert re.search("^skipped [0-9]+-[0-9]+: a stretch", command("sort", "--verbose", "first", "second")[1], re.M)
    assert command("sort", "first")[0] == 1


def test_sort_json(command: Command, files: Path) -> None:
    status, text, _ = command("sort", "--json", "lost")
    record = json.loads(text)
    assert status == 1 and record["octets"] == (files / "lost").stat().st_size
    images = {it["name"]: it for it in record["images"]}
    assert images["apid-7-image-1"]["lost"] == ["3"] and images["apid-7-image-1"]["whole_segments"] == 7


def test_sort_a_pipe(command: Command, files: Path, images: wire.Streams) -> None:
    given = (files / "first").read_bytes()
    assert command("sort", "-", "second", "--into", "piped", given=given)[0] == 0
    for (apid, image), packets in images.packets.items():
        assert (files / f"piped/apid-{apid}-image-{image}.packets").read_bytes() == b"".join(packets)


@pytest.mark.parametrize("jobs", [1, 3])
def test_out(command: Command, files: Path, images: wire.Streams, jobs: int) -> None:
    status, text, notes = command("out", "lost", "--into", "out", "--as", "npy,png,tif,pgm", "--jobs", jobs)
    assert (status, text, notes) == (1, "6 images in out, 5 damaged, 0 without a picture\n", "")
    record = json.loads((files / "out/images.json").read_text())
    names = {"images.json"}
    for it in record["images"]:
        key = it["apid"], it["image"]
        kept = b"".join(packet for packet in images.packets[key] if wire.place_of(packet)[0] != 3)
        wanted = strip122.decode(kept)
        assert (np.load(files / "out" / it["files"]["npy"]) == wanted.array).all()
        assert (np.asarray(Image.open(files / "out" / it["files"]["mask"])) == wanted.mask()).all()
        assert Image.open(files / "out" / it["files"]["png"]).size == (64, 128)
        assert Image.open(files / "out" / it["files"]["look"]).size == (8, 16)
        assert it["rects"] == [list(rect) for rect in wanted.rects] and it["status"] == (0 if wanted.is_whole else 1)
        assert it["damage"] == [[rows.start, rows.stop - 1] for rows in wanted.damage]
        names |= set(it["files"].values())
    assert {it.name for it in (files / "out").iterdir()} == names
    assert [it["arrival"] for it in record["images"]] == list(range(6))


def test_restored_pictures(command: Command, files: Path, images: wire.Streams) -> None:
    """`--restore` gives the restored picture and look, which `open` has too."""
    packets = wire.encoded(images.rasters[100, 0], width=64, rows=128, depth=12, stop="dc")
    (files / "coarse").write_bytes(packets)
    wanted, look = (wire.run(word, packets, restore=1)[1] for word in ("decode", "look"))
    for words, is_wanted in (([], False), (["--restore"], True)):
        assert command("out", "coarse", "--into", "out", "--as", "npy", *words)[0] == 0
        array = np.load(files / "out/apid-100-image-0.npy")
        assert (array.astype(">u2").tobytes() == wanted) == is_wanted
    image = strip122.open(files / "coarse", restore=True)
    assert image.array().astype(">u2").tobytes() == wanted and image.look().astype(">u2").tobytes() == look
    assert (strip122.decode_file(files / "coarse", restore=True).array == strip122.images(files / "coarse", restore=True)[0].array()).all()


def test_full_pictures(command: Command, files: Path, images: wire.Streams) -> None:
    assert command("out", "first", "second", "--into", "out", "--as", "png", "--full")[0] == 0
    raster = np.frombuffer(images.rasters[100, 0], ">u2").reshape(128, 64)
    assert (np.asarray(Image.open(files / "out/apid-100-image-0.png")) == raster).all()
    assert not list((files / "out").glob("*.npy"))


def test_encode(command: Command, files: Path, images: wire.Streams) -> None:
    command("out", "first", "second", "--into", "out", "--as", "npy,pgm")
    wanted = b"".join(images.packets[100, 0])
    assert command("encode", "out/apid-100-image-0.pgm", "a", "segment=20", "packet=100")[0] == 0
    assert command("encode", "out/apid-100-image-0.npy", "b", "depth=12", "segment=20", "packet=100")[0] == 0
    assert (files / "a").read_bytes() == (files / "b").read_bytes() == wanted
    for word in ("depth=many", "depth", "=8", "signed=2", "program=true", "segmnet=16"):
        status, text, notes = command("encode", "out/apid-100-image-0.pgm", "c", word)
        assert (status, text) == (2, "") and notes.startswith("strip122: ") and word.split("=")[0] in notes
    status, _, notes = command("encode", "out/apid-100-image-0.npy", "c", "depth=8")
    assert status == 3 and notes.startswith("strip122: out/apid-100-image-0.npy: values ")
    assert not (files / "c").exists()


def test_book(command: Command, files: Path) -> None:
    lengths = ["1 2 3 3", "4 1 2 5 3 6 7 7", "2 2 3 3 4 4 4 4", "6 2 2 3 3 4 5 6 6 4 6 7 7 7 8 8"]
    lengths += ["6 3 3 2 2 5 5 6 5 5 5 6 7 6 6 7", "6 3 3 3 3 4 4 5 5 4 4 6 5 5 5 4"]
    assert command("book", "book", *lengths)[0] == 0
    octets = (files / "book").read_bytes()
    assert len(octets) == 138 and octets[:10] == bytes([0x12, 0x2B, 1, 0b0, 2, 0b10, 3, 0b110, 3, 0b111])
    np.save(files / "a.npy", np.zeros((20, 20), "uint8"))
    assert command("encode", "a.npy", "a", "--book", "book")[0] == 0
    (files / "short").write_bytes(octets[:-1])
    status, _, notes = command("encode", "a.npy", "b", "--book", "short")
    assert status == 3 and notes == "strip122: short: has 137 octets, and a code book has 138\n"
    for words, message in (
        (lengths[:5], "book: 5 tables in place of 6"),
        (["1 2 3", *lengths[1:]], "book: table 0 has 3 lengths in place of 4"),
        (["1 2 3 9", *lengths[1:]], "book: code 3 of table 0 has 9 bits"),
        (["1 2 3 4", *lengths[1:]], "book: the sum of table 0 is 240/256"),
        (["1 2 3 x", *lengths[1:]], "book: x is no length"),
    ):
        assert command("book", "none", *words)[::2] == (2, f"strip122: {message}\n")
    assert not (files / "none").exists()


# ---- bad input


def noise() -> bytes:
    return random.Random(5).randbytes(1_000_000)


def headless(images: wire.Streams) -> bytes:
    """Packets of an image without one that has a segment header."""
    return b"".join(it for it in images.packets[7, 0] if wire.place_of(it)[1] > 0)


COMMANDS = [["sort"], ["out", "--into", "made"], ["report", "--into", "made"]]


@pytest.mark.parametrize("words", COMMANDS, ids=[it[0] for it in COMMANDS])
def test_bad_input(command: Command, files: Path, images: wire.Streams, words: List[str]) -> None:
    whole = b"".join(images.packets[7, 1])
    octets: Dict[str, Tuple[bytes, int, str]] = {
        "empty": (b"", 3, "empty: is empty"),
        "zeros": (bytes(1000), 3, "zeros: no packet of this coder"),
        "noise": (noise(), 3, "noise: no packet of this coder"),
        "cut": (whole[:200], 3, "cut: no whole packet of this coder: packet of this coder, cut, apid 7 image 1 segment 0 part 0"),
        "idle": (wire.other_packet(0x07FF, bytes(90)) * 9, 3, "idle: no packet of this coder"),
    }
    for name, (given, status, message) in octets.items():
        (files / name).write_bytes(given)
        found = command(*words, name)
        assert found[0] == status and found[1] == "" and found[2].startswith(f"strip122: {message}"), found
    assert command(*words, "nothing")[::2] == (4, "strip122: nothing: No such file or directory\n")
    assert command(*words, files)[::2] == (4, f"strip122: {files}: Is a directory\n")
    assert not (files / "made").exists()


@pytest.mark.parametrize("words", COMMANDS[1:], ids=["out", "report"])
def test_image_without_headers(command: Command, files: Path, images: wire.Streams, words: List[str]) -> None:
    (files / "headless").write_bytes(headless(images))
    status, _, notes = command(*words, "headless")
    assert status == 3 and notes.startswith("strip122: headless: apid-7-image-0: no packet has a segment header")
    (files / "both").write_bytes(headless(images) + b"".join(images.packets[7, 1]))
    status, text, notes = command(*words, "both")
    assert status == 1 and "2 images in made, 0 damaged, 1 without a picture" in text and "both: apid-7-image-0: " in notes


def test_names_that_cannot_be_written(command: Command, files: Path) -> None:
    for words in COMMANDS:
        status, _, notes = command(words[0], "first", "--into", "second/x")
        assert status == 5 and notes == "strip122: second/x: Not a directory\n"
    (files / "taken/apid-7-image-0.npy").mkdir(parents=True)
    status, _, notes = command("out", "first", "--into", "taken")
    assert status == 5 and notes.startswith("strip122: taken/apid-7-image-0.npy: Is a directory")
    assert not [it for it in (files / "taken").iterdir() if it.name.endswith(".part")]
    assert command("encode", "nothing.npy", "a")[::2] == (4, "strip122: nothing.npy: No such file or directory\n")


@pytest.mark.skipif(not os.path.exists("/dev/full"), reason="there is no full device")
def test_full_device(command: Command, files: Path) -> None:
    status, _, notes = command("book", "/dev/full/x", "1")
    assert status == 2  # the lengths are refused before any work
    ran = os.system(f"{sys.executable} -m strip122 --help > /dev/full 2> {files}/note")
    assert ran != 0


def test_words(command: Command, files: Path) -> None:
    assert command()[0] == 2
    assert command("sort")[0] == 2
    assert command("out", "first")[::2] == (2, "strip122: the following arguments are required: --into; --help lists the words\n")
    for words, message in (
        (["--as", "jpg"], "--as: jpg is not one of npy, png, tif, fits, pgm"),
        (["--as", ""], "--as: names no kind"),
        (["--jobs", "0"], "--jobs: 0 is not 1 or more"),
        (["--jobs", "x"], "argument --jobs: invalid int value: 'x'"),
        (["--pixels", "-1"], "--pixels: -1 is not 0 to 1099511627776"),
    ):
        status, _, notes = command("out", "first", "--into", "made", *words)
        assert status == 2 and notes.startswith(f"strip122: {message}")
    assert not (files / "made").exists()
    assert command("--help")[0] == 0 and command("--version")[1].startswith("strip122 ")


def test_pixels(command: Command, files: Path) -> None:
    """A picture with more pixels than are allowed is refused before it is decoded."""
    status, _, notes = command("out", "lost", "--into", "made", "--pixels", "8191")
    assert status == 3 and notes.count("8192 pixels are more than the 8191 that are allowed") == 6


def test_missing_program(command: Command, files: Path) -> None:
    status, _, notes = command("out", "first", "--into", "made", STRIP122="/nothing")
    assert status == 2 and "cannot run /nothing: No such file or directory; STRIP122 names the program" in notes


def test_missing_packages(files: Path) -> None:
    """A missing library is named with what needs it, before any work."""
    blocked = files / "blocked"
    blocked.mkdir()
    here = Path(__file__).parent.parent
    script = f"import sys, runpy; sys.path = [{str(here)!r}] + [p for p in sys.path if not p.endswith('-packages')];"
    script += "sys.argv = ['-m']; runpy.run_module('strip122', run_name='__main__')"
    ran = subprocess.run([sys.executable, "-I", "-S", "-c", script], capture_output=True, text=True, check=False)
    assert ran.returncode == 2 and ran.stderr.startswith("strip122 needs numpy for arrays and PIL for pictures")
    assert "apt-get install python3-numpy python3-pil" in ran.stderr and "Traceback" not in ran.stderr


# ---- objects


def test_open(files: Path, images: wire.Streams) -> None:
    image = strip122.open(files / "lost", apid=100, image=0)
    kept = b"".join(it for it in images.packets[100, 0] if wire.place_of(it)[0] != 3)
    wanted = strip122.decode(kept)
    assert image.stream == kept and (image.array() == wanted.array).all() and (image.mask() == wanted.mask()).all()
    assert image.damage == wanted.damage and image.rects == wanted.rects
    look = np.frombuffer(wire.run("look", kept, apid=100)[1], ">u2").reshape(16, 8)
    assert image.look().dtype == np.uint16 and (image.look() == look).all()
    facts = (image.width, image.rows, image.depth, image.signed, image.segment, image.segments, image.whole_segments)
    assert facts == (64, 128, 12, False, 20, 7, 6) and image.lost == ["3"] and "apid-100-image-0" in repr(image)
    assert [it.name for it in strip122.images(files / "lost")] == [f"apid-{a}-image-{i}" for a, i in sorted(images.packets)]


@pytest.mark.parametrize("words", [{}, {"apid": 7}, {"apid": 8}, {"image": 77}])
def test_open_needs_one_image(files: Path, words: Dict[str, int]) -> None:
    with pytest.raises(strip122.BadInput, match=f"{files / 'first'}: .*; name apid and image of one of: apid-7-image-0"):
        strip122.open(files / "first", **words)
    with pytest.raises(strip122.BadKey, match="apid: 2047 is not 0 to 2046"):
        strip122.open(files / "first", apid=2047)
    with pytest.raises(strip122.ReadFault, match="nothing: No such file"):
        strip122.open(files / "nothing")


def test_decode_file(files: Path, images: wire.Streams) -> None:
    """Its value can be sent to other processes."""
    (files / "one").write_bytes(b"".join(images.packets[7, 1]))
    found: Any = pickle.loads(pickle.dumps(strip122.decode_file(files / "one")))
    assert found.array.tobytes() == images.rasters[7, 1] and found.is_whole
    assert strip122.decode_file(str(files / "first"), 7, 1).array.shape == (128, 64)
