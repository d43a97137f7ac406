"""Compares coders on pictures: octets, and the greatest memory at one size. tools/pictures.sh runs it."""
import argparse
import pathlib
import shutil
import subprocess
import sys
import tempfile
from dataclasses import dataclass

from PIL import Image

DATA = pathlib.Path("/usr/lib/python3/dist-packages/skimage/data")
NAMES = "astronaut brick camera cell chelsea coffee coins grass gravel hubble_deep_field moon retina".split()


@dataclass(frozen=True)
class Coder:
    """A coder: its name, and its commands from the files RASTER and PGM to PACKED, and from PACKED to BACK."""

    name: str
    encode: str
    decode: str

    def is_there(self) -> bool:
        return all(shutil.which(command.split()[0]) for command in (self.encode, self.decode))


def coders(program: str) -> list[Coder]:
    ours = [
        Coder(f"strip122{words}", f"{program} encode width=WIDTH rows=ROWS{words} < RASTER > PACKED", f"{program} decode < PACKED > BACK")
        for words in ("", " packet=4096", " segment=1024 packet=65536")
    ]
    return ours + [
        Coder("libaec", "aec -n 8 -j 32 -r 64 RASTER PACKED", "aec -n 8 -j 32 -r 64 -d PACKED BACK"),
        Coder("OpenJPEG", "opj_compress -i PGM -o PACKED.j2k", "opj_decompress -i PACKED.j2k -o BACK.pgm"),
        Coder("libjxl, effort 1", "cjxl -d 0 -e 1 --num_threads=0 PGM PACKED.jxl", "djxl --num_threads=0 PACKED.jxl BACK.pgm"),
    ]


class Folder:
    """The files of one picture."""

    def __init__(self, folder: pathlib.Path, size: tuple[int, int], octets: bytes):
        self.size, self.octets, self.at = size, octets, folder
        (folder / "RASTER").write_bytes(octets)
        (folder / "PGM.pgm").write_bytes(b"P5\n%d %d\n255\n" % size + octets)

    def run(self, command: str) -> int:
        """Runs a command, and returns the greatest memory in kB."""
        words = {"WIDTH": str(self.size[0]), "ROWS": str(self.size[1]), "PGM": "PGM.pgm"}
        line = " ".join(words.get(word, word) for word in command.replace("=WIDTH", f"={self.size[0]}").replace("=ROWS", f"={self.size[1]}").split())
        done = subprocess.run(
            ["/usr/bin/time", "-f", "%M", "-o", "used", "sh", "-c", "exec " + line], cwd=self.at, capture_output=True, text=True, check=False
        )
        if done.returncode != 0:
            raise OSError(f"{line}: status {done.returncode}: {done.stderr.strip()}")
        return int((self.at / "used").read_text())

    def measure(self, coder: Coder) -> tuple[int, int, int]:
        """Returns the octets, and the memory to encode and to decode; what is decoded has to be what was encoded."""
        for old in (*self.at.glob("PACKED*"), *self.at.glob("BACK*")):
            old.unlink()
        memory = self.run(coder.encode), self.run(coder.decode)
        (packed,) = self.at.glob("PACKED*")
        (back,) = self.at.glob("BACK*")
        if self.octets not in (back.read_bytes()[-len(self.octets) :], back.read_bytes()[: len(self.octets)]):
            raise OSError(f"{coder.name}: what is decoded isn't what was encoded")
        return packed.stat().st_size, *memory


def read_gray(path: pathlib.Path) -> tuple[tuple[int, int], bytes]:
    with Image.open(path) as picture:
        gray = picture.convert("L")
        return gray.size, gray.tobytes()


def usual_pictures() -> list[pathlib.Path]:
    """The twelve pictures of Debian's python3-skimage; an OSError if one isn't there."""
    paths = []
    for name in NAMES:
        found = sorted(DATA.glob(f"{name}.[pj][np]g"))
        if not found:
            raise FileNotFoundError(f"{DATA}: {name} is missing (Debian: apt-get install python3-skimage)")
        paths.append(found[0])
    return paths


def main() -> int:
    parser = argparse.ArgumentParser(prog="tools/pictures.sh")
    parser.add_argument("--side", type=int, default=4096, help="the side of the picture of `make` for the memory, 4096 if it isn't given")
    parser.add_argument("program", help=argparse.SUPPRESS)
    parser.add_argument("pictures", nargs="*", help="the twelve of Debian's python3-skimage if none is given")
    given = parser.parse_intermixed_args()
    known = [coder for coder in coders(given.program) if coder.is_there()]
    octets, pixels = dict.fromkeys([coder.name for coder in known], 0), 0
    rows = {}
    try:
        paths = [pathlib.Path(name) for name in given.pictures] or usual_pictures()
        with tempfile.TemporaryDirectory(prefix="strip122-pictures-") as name:
            for path in paths:
                size, raster = read_gray(path)
                pixels += size[0] * size[1]
                folder = Folder(pathlib.Path(name), size, raster)
                each = {coder.name: folder.measure(coder)[0] for coder in known}
                for coder_name, count in each.items():
                    octets[coder_name] += count
                print(f"{path.stem} {size[0]} x {size[1]}:", ", ".join(f"{n} {8 * c / size[0] / size[1]:.3f}" for n, c in each.items()), flush=True)
            made = subprocess.run([given.program, "make", f"width={given.side}", f"rows={given.side}"], check=True, capture_output=True).stdout
            folder = Folder(pathlib.Path(name), (given.side, given.side), made)
            for coder in known:
                rows[coder.name] = folder.measure(coder)[1:]
    except OSError as wrong:
        print(f"tools/pictures.py: {wrong}", file=sys.stderr)
        return 1
    print(f"\n| coder | octets of {len(paths)} pictures, {pixels:,} pixels | bits a pixel | MB to encode {given.side} x {given.side} | MB to decode |")
    print("|---|---|---|---|---|")
    for coder_name, count in octets.items():
        encode, decode = rows[coder_name]
        print(f"| {coder_name} | {count:,} | {8 * count / pixels:.3f} | {encode / 1000:.1f} | {decode / 1000:.1f} |")
    return 0


if __name__ == "__main__":
    sys.exit(main())
