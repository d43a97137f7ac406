"""Packets taken apart for the tests, by the places of their fields alone, and faults put into streams of them."""

from __future__ import annotations

import os
import random
import struct
import subprocess
from dataclasses import dataclass, field
from typing import Any, Dict, Iterable, List, Sequence, Tuple

Place = Tuple[int, int]  # the index of a segment, and the part of its text
Key = Tuple[int, int]  # an APID, and the number of an image

WIDTH, ROWS = 64, 128
# For each image its APID and number, and its settings.
IMAGES: Dict[Key, Dict[str, int]] = {
    (7, 0): {"depth": 8, "segment": 16, "packet": 200},
    (7, 1): {"depth": 8, "segment": 16, "packet": 65536},
    (100, 0): {"depth": 12, "segment": 20, "packet": 100},
    (100, 1): {"depth": 12, "signed": 1, "segment": 64, "packet": 300},
    (2046, 0): {"depth": 16, "segment": 24, "packet": 64, "limit": 400, "fill": 1},
    (2046, 65535): {"depth": 1, "segment": 16, "packet": 1024},
}


def run(command: str, octets: bytes = b"", **keys: Any) -> Tuple[int, bytes, str]:
    words = [f"{key}={value}" for key, value in keys.items()]
    ran = subprocess.run([os.environ["STRIP122"], command, *words], input=octets, capture_output=True, check=False)
    return ran.returncode, ran.stdout, ran.stderr.decode()


def encoded(raster: bytes, **keys: Any) -> bytes:
    status, octets, note = run("encode", raster, **keys)
    assert status == 0, note
    return octets


def made(seed: int, width: int = WIDTH, rows: int = ROWS, **keys: Any) -> Tuple[bytes, List[bytes]]:
    """A raster, and its packets."""
    sizes = {"width": width, "rows": rows, "depth": keys.get("depth", 8), "signed": keys.get("signed", 0)}
    _, raster, _ = run("make", seed=seed, **sizes)
    return raster, packets_of(encoded(raster, **{**sizes, **keys}))


def packets_of(octets: bytes) -> List[bytes]:
    at, packets = 0, []
    while at < len(octets):
        length = 7 + int.from_bytes(octets[at + 4 : at + 6], "big")
        packets.append(octets[at : at + length])
        at += length
    return packets


def place_of(packet: bytes) -> Place:
    return int.from_bytes(packet[18:22], "big"), int.from_bytes(packet[26:30], "big")


def key_of(packet: bytes) -> Key:
    return int.from_bytes(packet[:2], "big") & 0x7FF, int.from_bytes(packet[8:10], "big")


def counted_on(packet: bytes, count: int) -> bytes:
    """A packet with another sequence count, as if an instrument goes on counting from image to image."""
    return packet[:2] + struct.pack(">H", packet[2] >> 6 << 14 | count % 16384) + packet[4:]


def octets_by(chance: random.Random, count: int) -> bytes:
    return chance.getrandbits(8 * count).to_bytes(count, "big") if count else b""


def other_packet(kind: int, data: bytes, count: int = 0) -> bytes:
    return struct.pack(">HHH", kind, 0xC000 | count, len(data) - 1) + data


def of_others(chance: random.Random) -> bytes:
    """A packet of no image: idle, a telecommand, of another source, or of another coder."""
    kind = chance.choice([0x0FFF, 0x1864, 0x0064, 0x0864])
    return other_packet(kind, b"\0\1" + octets_by(chance, chance.randint(1, 300)), chance.randrange(16384))


def header(apid: int = 5, rows: int = 64, blocks: int = 16, index: int = 0, part: int = 0, length: int = 300) -> bytes:
    """The 30 octets at the head of a packet whose data field has this length."""
    flags = 0x4000 if part == 0 else 0
    return struct.pack(">HHHHHIIIII", 0x0800 | apid, flags, length - 1, 0x1220, 0, rows, blocks, index, index * blocks, part)


@dataclass
class Streams:
    """The rasters and packets of some images."""

    rasters: Dict[Key, bytes] = field(default_factory=dict)
    packets: Dict[Key, List[bytes]] = field(default_factory=dict)

    def all(self) -> List[bytes]:
        return [it for them in self.packets.values() for it in them]


def streams(settings: Dict[Key, Dict[str, int]]) -> Streams:
    found = Streams()
    for number, ((apid, image), keys) in enumerate(settings.items()):
        found.rasters[apid, image], found.packets[apid, image] = made(number, apid=apid, image=image, **keys)
    return found


def without(packets: Sequence[bytes], places: Iterable[Place]) -> List[bytes]:
    gone = set(places)
    return [it for it in packets if place_of(it) not in gone]
