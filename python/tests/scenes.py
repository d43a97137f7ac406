"""A pass of five cameras, drawn: cratered ground, a planet's limb, dunes, stars, and signed measurements.

    STRIP122=PROGRAM python3 python/tests/scenes.py FILE [--images 40] [--size 1.0] [--seed 1] [--large FOLDER]

The file has packets lost, copies, junk, idle packets, and a packet that is cut. With `--large`, the folder gets packets of pictures of
4,096 x 4,096 pixels of 12 bits of which eight are lost: `drawn` of the program's own picture, `noisy` of dunes, and `gigabyte`,
which is `noisy` under 56 numbers. tools/checks/try_report.sh and docs/benchmarks.md use these.
"""

from __future__ import annotations

import argparse
import random
import sys
from pathlib import Path
from typing import Any, Callable, List, NamedTuple, Tuple

import numpy as np
from numpy.typing import NDArray

sys.path.insert(0, str(Path(__file__).resolve().parent.parent))

from strip122 import encode  # noqa: E402
from strip122.program import call  # noqa: E402
from wire import packets_of  # noqa: E402

Scene = NDArray[np.float64]
Chance = np.random.Generator


def rough(chance: Chance, rows: int, width: int, power: float) -> Scene:
    """A surface whose amplitudes fall by a power of the frequency, of mean 0 and deviation 1."""
    waves = np.hypot(np.fft.fftfreq(rows)[:, None], np.fft.rfftfreq(width)[None, :])
    waves[0, 0] = 1.0
    phases = np.exp(2j * np.pi * chance.random(waves.shape))
    surface = np.fft.irfft2(phases * waves**-power, (rows, width))
    surface -= surface.mean()
    return surface / surface.std()


def lit(height: Scene, chance: Chance) -> Scene:
    """How bright a surface is in light from one side."""
    down, across = np.gradient(height)
    angle = chance.random() * 2 * np.pi
    slope = across * np.cos(angle) + down * np.sin(angle)
    return slope / np.hypot(1.0, np.hypot(down, across))


def craters(chance: Chance, rows: int, width: int) -> Scene:
    height = 1.2 * rough(chance, rows, width, 1.9)
    y, x = np.mgrid[0:rows, 0:width]
    for _ in range(int(rows * width / 3000)):
        radius = min(2 + 3 / (chance.random() ** 1.1 + 0.02), rows / 5)
        far = np.hypot(y - chance.random() * rows, x - chance.random() * width) / radius
        near = far < 2.2
        bowl = np.where(far < 1, far**2 - 1, 0.0) * 0.45 + 0.5 * np.exp(-((far - 1) ** 2) * 12)
        height[near] += (bowl * radius * 0.55)[near]
    return 0.45 + 0.42 * lit(height, chance)


def limb(chance: Chance, rows: int, width: int) -> Scene:
    y, x = np.mgrid[0:rows, 0:width] / width
    tilt = 0.3 * (chance.random() - 0.5)
    far = np.hypot(x - 0.5 - tilt, y - 1.35) / 1.1
    bands = np.sin(38 * (y + 0.12 * rough(chance, rows, width, 1.6) * 0.12) + 9 * tilt) * 0.12
    light = np.clip(1.15 - far, 0, 1) ** 0.4
    disc = np.where(far < 1, (0.5 + bands + 0.05 * rough(chance, rows, width, 1.2)) * light * 1.5, 0.0)
    return disc + 0.35 * np.exp(-np.clip(far - 1, 0, 9) * 60) * (far >= 1)


def dunes(chance: Chance, rows: int, width: int) -> Scene:
    y, x = np.mgrid[0:rows, 0:width]
    bent = x + 26 * rough(chance, rows, width, 2.0)
    height = 7 * np.abs(np.sin(bent / 23 + y / 61)) + 2.0 * rough(chance, rows, width, 1.5)
    return 0.5 + 0.4 * lit(height, chance)


def stars(chance: Chance, rows: int, width: int) -> Scene:
    sky = np.clip(0.07 + 0.05 * rough(chance, rows, width, 1.8), 0, 1)
    for _ in range(rows * width // 700):
        y, x, bright = int(chance.integers(2, rows - 2)), int(chance.integers(2, width - 2)), chance.random() ** 6
        spot = np.exp(-(np.arange(-2, 3)[:, None] ** 2 + np.arange(-2, 3)[None, :] ** 2) / (0.5 + bright))
        sky[y - 2 : y + 3, x - 2 : x + 3] += spot * (0.1 + bright)
    return sky


def measured(chance: Chance, rows: int, width: int) -> Scene:
    return 0.5 + 0.13 * rough(chance, rows, width, 1.4)


class Camera(NamedTuple):
    """What a camera draws, its APID, the rows and columns of its pictures, and its settings."""

    draw: Callable[[Chance, int, int], Scene]
    apid: int
    rows: int
    width: int
    settings: "dict[str, Any]"


CAMERAS = [
    Camera(craters, 100, 512, 512, {"depth": 8, "packet": 1024}),
    Camera(limb, 101, 480, 640, {"depth": 12, "packet": 2048, "segment": 128}),
    Camera(dunes, 102, 256, 1024, {"depth": 10, "packet": 4096}),
    Camera(measured, 103, 256, 256, {"depth": 16, "signed": True, "segment": 32}),
    Camera(stars, 104, 768, 768, {"depth": 8, "packet": 1024, "segment": 256}),
]


def drawn(camera: Camera, chance: Chance, size: float) -> NDArray[Any]:
    """A picture of a camera, with the noise of its sensor."""
    rows, width = (max(int(it * size), 32) for it in (camera.rows, camera.width))
    depth, signed = camera.settings["depth"], camera.settings.get("signed", False)
    scene = camera.draw(chance, rows, width) + chance.normal(0, 0.006, (rows, width))
    values = np.clip(scene, 0, 1) * ((1 << depth) - 1) - ((1 << depth - 1) if signed else 0)
    return values.round().astype(("i" if signed else "u") + ("1" if depth <= 8 else "2"))


def received(packets: List[bytes], dice: random.Random) -> List[bytes]:
    """What arrives of an image: all of it, or all except some packets, one of which may be cut."""
    kind = dice.random()
    if kind < 0.4:
        return packets
    if kind < 0.8:
        gone = set(dice.sample(range(len(packets)), max(1, len(packets) // 60)))
        return [it for number, it in enumerate(packets) if number not in gone]
    begin = dice.randrange(len(packets))
    burst = range(begin, begin + max(2, len(packets) // 12))
    kept = [it for number, it in enumerate(packets) if number not in burst]
    cut = packets[begin][: len(packets[begin]) // 2]
    return [*kept[:begin], cut, *kept[begin:]]


def made_pass(images: int, size: float, seed: int) -> Tuple[bytes, List[NDArray[Any]]]:
    """The octets of a pass, and its pictures."""
    dice, chance = random.Random(seed), np.random.default_rng(seed)
    octets: List[bytes] = [dice.randbytes(3000)]
    pictures = []
    for number in range(images):
        camera = CAMERAS[number % len(CAMERAS)]
        pictures.append(drawn(camera, chance, size))
        packets = packets_of(encode(pictures[-1], apid=camera.apid, image=number // len(CAMERAS), **camera.settings))
        octets += received(packets, dice)
        if number % 4 == 1:
            octets.append(b"\x07\xff\xc0\x00\x01\xf3" + bytes(500))
        if number % 7 == 3:
            octets += packets[5:12]
        if number % 9 == 5:
            octets.append(dice.randbytes(dice.randrange(200, 1500)))
    return b"".join(octets), pictures


def lose(packets: List[bytes]) -> List[bytes]:
    """Loses eight packets of many."""
    del packets[40:44], packets[900:903], packets[2000]
    return packets


def write_large(folder: Path) -> None:
    """Writes the packets of large pictures."""
    side = 4096
    size = {"depth": 12, "packet": 4096}
    raster = call(["make", f"width={side}", f"rows={side}", "depth=12", "seed=1"]).output
    own = np.frombuffer(raster, ">u2").reshape(side, side)
    camera = Camera(dunes, 102, side, side, size)
    noisy = lose(packets_of(encode(drawn(camera, np.random.default_rng(1), 1.0), **size)))
    (folder / "drawn").write_bytes(b"".join(lose(packets_of(encode(own, **size)))))
    (folder / "noisy").write_bytes(b"".join(noisy))
    with (folder / "gigabyte").open("wb") as file:
        for number in range(56):
            file.writelines(it[:8] + number.to_bytes(2, "big") + it[10:] for it in noisy)


def main() -> None:
    words = argparse.ArgumentParser(description=__doc__.splitlines()[0] if __doc__ else "")
    words.add_argument("file", type=Path)
    words.add_argument("--images", type=int, default=40)
    words.add_argument("--size", type=float, default=1.0, help="factor of all sides")
    words.add_argument("--seed", type=int, default=1)
    words.add_argument("--large", type=Path, metavar="FOLDER")
    given = words.parse_args()
    octets, _ = made_pass(given.images, given.size, given.seed)
    given.file.write_bytes(octets)
    if given.large:
        write_large(given.large)


if __name__ == "__main__":
    main()
