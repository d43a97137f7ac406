"""Makes pictures, encodes and decodes them, and prints a table of times. tools/bench.sh runs it."""

import argparse
import math
import os
import shutil
import subprocess
import sys
import tempfile
from array import array
from dataclasses import dataclass, field
from pathlib import Path

SIDE = 2048  # the side of the usual picture
PIXELS = 1 << 20  # a smaller picture runs several times for one figure
AEC = "aec (libaec)"

# The lengths of the codes of the six tables of a book.
LENGTHS = [
    "1 2 3 3",
    "4 1 2 5 3 6 7 7",
    "2 2 3 3 4 4 4 4",
    "6 2 2 3 3 4 5 6 6 4 6 7 7 7 8 8",
    "6 3 3 2 2 5 5 6 5 5 5 6 7 6 6 7",
    "6 3 3 3 3 4 4 5 5 4 4 6 5 5 5 4",
]


# ---- pictures, of 16 bits, as lists of rows


def wave(side, cycles, height):
    return [height * math.sin(2 * math.pi * cycles * k / side) for k in range(side)]


def ring(x, y, side, at):
    """Discs and a ring with sharp edges: what is added there."""
    cx, cy, radius, inner, height = at
    distance = math.hypot(x / side - cx, y / side - cy)
    return height if inner <= distance < radius else 0


DISCS = [
    (0.28, 0.30, 0.18, 0, 22000),
    (0.28, 0.30, 0.10, 0.05, -30000),
    (0.72, 0.22, 0.12, 0.09, 18000),
    (0.60, 0.75, 0.22, 0, -14000),
]


def drawn(side):
    """Smooth shapes, edges, and noise in two quarters."""
    state = 1
    columns, lines = wave(side, 1.5, 9000), wave(side, 2.2, 7000)
    fine = wave(side, 37, 1500)
    rows = []
    for y in range(side):
        row = array("H")
        near = [it for it in DISCS if abs(y / side - it[1]) < it[2]]
        for x in range(side):
            value = 30000 + columns[x] + lines[y] + (fine[(x + 2 * y) % side] if x > side // 2 else 0)
            for it in near:
                value += ring(x, y, side, it)
            if (8 * x + 3 * y) // side % 5 == 4:  # slanted bands with straight edges
                value += 8000
            if (x < side // 2) != (y < side // 2):
                state = (1664525 * state + 1013904223) & 0xFFFFFFFF
                value += (state >> 20) - 2048
            row.append(min(65535, max(0, int(value))))
        rows.append(row)
    return rows


def noise(side):
    state, rows = 7, []
    for _ in range(side):
        row = array("H")
        for _ in range(side):
            state = (1664525 * state + 1013904223) & 0xFFFFFFFF
            row.append(state >> 16)
        rows.append(row)
    return rows


def flat(side):
    return [array("H", [25600] * side) for _ in range(side)]


def raster(rows, depth):
    """The octets of a picture at a depth: one a pixel up to 8 bits, else two, the higher first."""
    octets = bytearray()
    for row in rows:
        cut = array("B" if depth <= 8 else "H", [value >> (16 - depth) for value in row])
        if depth > 8 and sys.byteorder == "little":
            cut.byteswap()
        octets += cut.tobytes()
    return bytes(octets)


def tiled(rows, side):
    """A greater picture, of copies."""
    times = side // len(rows)
    return [row * times for row in rows] * times


# ---- lines of the table


@dataclass
class Process:
    """A command with its standard input and output."""

    words: list[str]
    source: Path = Path(os.devnull)
    target: Path = Path(os.devnull)

    def run(self) -> float:
        """Runs it, and returns its user and system seconds."""
        with open(self.source, "rb") as source, open(self.target, "wb") as target:
            process = subprocess.Popen(self.words, stdin=source, stdout=target, stderr=subprocess.PIPE)
            note = process.stderr.read()
            _, status, used = os.wait4(process.pid, 0)
        process.returncode = os.waitstatus_to_exitcode(status)
        if process.returncode != 0:
            sys.exit(f"{' '.join(self.words)}: status {process.returncode}: {note.decode(errors='replace')}")
        return used.ru_utime + used.ru_stime


@dataclass
class Line:
    """A picture, what encodes it, and what decodes the result."""

    name: str
    size: tuple[int, int]
    depth: int
    raster: Path
    encode: Process
    decode: Process
    packed: Path
    back: Path
    book: bytes = b""
    is_ours: bool = True
    times: tuple[list[float], list[float]] = field(default_factory=lambda: ([], []))
    is_same: bool = True

    def measure(self) -> None:
        """Encodes and decodes once more, and compares what is decoded."""
        pixels = self.size[0] * self.size[1]
        repeats = max(1, PIXELS // pixels)
        for process, times in zip((self.encode, self.decode), self.times):
            times.append(1e9 * sum(process.run() for _ in range(repeats)) / repeats / pixels)
            if process is self.encode and self.book:
                self.decode.source.write_bytes(self.book + self.packed.read_bytes())
        self.is_same &= self.holds_raster(self.back.read_bytes())

    def holds_raster(self, back: bytes) -> bool:
        """Whether these octets are the raster. Of other coders, a PGM has a header before it, and aec fills its last block."""
        raster = self.raster.read_bytes()
        return back == raster or (not self.is_ours and raster in (back[-len(raster) :], back[: len(raster)]))

    def row(self) -> str:
        length = self.packed.stat().st_size
        bits = 8 * length / (self.size[0] * self.size[1])
        same = "yes" if self.is_same else "NO"
        return f"| {self.name} | {self.size[0]} x {self.size[1]} | {self.depth} | {spans(self.times)} | {length:,} | {bits:.2f} | {same} |"


def spans(times: tuple[list[float], list[float]]) -> str:
    """The least and the greatest time to encode and to decode."""
    return " | ".join(f"{min(each):.1f} to {max(each):.1f}" for each in times)


@dataclass
class Together:
    """Pictures of one depth that are one line of the table: their time over all their pixels."""

    name: str
    lines: list[Line]

    @property
    def times(self) -> tuple[list[float], list[float]]:
        """The nanoseconds a pixel of each round, to encode and to decode."""
        counts = [line.size[0] * line.size[1] for line in self.lines]
        encode, decode = (
            [sum(time * count for time, count in zip(each, counts)) / sum(counts) for each in zip(*(line.times[way] for line in self.lines))]
            for way in (0, 1)
        )
        return encode, decode

    def row(self) -> str:
        pixels = sum(line.size[0] * line.size[1] for line in self.lines)
        length = sum(line.packed.stat().st_size for line in self.lines)
        same = "yes" if all(line.is_same for line in self.lines) else "NO"
        size = f"{len(self.lines)} pictures"
        return f"| {self.name} | {size} | {self.lines[0].depth} | {spans(self.times)} | {length:,} | {8 * length / pixels:.2f} | {same} |"


def photograph_book() -> bytes:
    """A code book whose lengths fit photographs (docs/recipes.md, "Another code book")."""
    words = [sys.executable, "-m", "strip122", "book", "-", *LENGTHS]
    path = {**os.environ, "PYTHONPATH": str(Path(__file__).resolve().parent.parent / "python")}
    return subprocess.run(words, check=True, stdout=subprocess.PIPE, env=path).stdout


class Bench:
    """The lines of a table, with their files in a folder."""

    def __init__(self, program: str, folder: Path):
        self.program, self.folder = program, folder
        self.lines: list[Line] = []
        self.real: list[Together] = []

    def keep(self, name: str, octets: bytes) -> Path:
        path = self.folder / name
        path.write_bytes(octets)
        return path

    def ours(self, name: str, size: tuple[int, int], depth: int, raster: Path, *words: str, book: bytes = b"") -> None:
        """Adds a line for the program."""
        number = len(self.lines)
        packed, back = self.folder / f"{number}.packed", self.folder / "back"
        sent = self.folder / f"{number}.sent" if book else packed
        source = self.keep(f"{number}.source", book + raster.read_bytes()) if book else raster
        booked = ["book=1"] if book else []
        encode = [self.program, "encode", f"width={size[0]}", f"rows={size[1]}", f"depth={depth}", *words, *booked]
        decode = [self.program, "decode", "pixels=1099511627776", *booked]
        self.lines.append(
            Line(name, size, depth, raster, Process(encode, source, packed), Process(decode, sent, back), packed, back, book)
        )

    def others(self, size: tuple[int, int], depth: int, raster: Path) -> None:
        """Adds a line for each other coder that is installed, as one process with one thread."""
        header = f"P5\n{size[0]} {size[1]}\n{(1 << depth) - 1}\n".encode()
        pgm = str(self.keep(f"{raster.name}.pgm", header + raster.read_bytes()))
        aec = f"aec -n {max(8, depth)}{' -m' if depth > 8 else ''} -j 32 -r 64"
        lone = "--num_threads=0"
        known = [
            (AEC, "aec", "raw", f"{aec} {raster} PACKED", f"{aec} -d PACKED BACK"),
            ("opj_compress (OpenJPEG)", "j2k", "pgm", f"opj_compress -i {pgm} -o PACKED", "opj_decompress -i PACKED -o BACK"),
            ("cjxl -e 1 (libjxl)", "jxl", "pgm", f"cjxl -d 0 -e 1 {lone} {pgm} PACKED", f"djxl {lone} PACKED BACK"),
        ]
        for name, packed_form, back_form, *commands in known:
            # At this effort libjxl 0.7 keeps 8 bits of a pixel.
            if not all(shutil.which(it.split()[0]) for it in commands) or (packed_form == "jxl" and depth > 8):
                continue
            packed, back = self.folder / f"{len(self.lines)}.{packed_form}", self.folder / f"back.{back_form}"
            named = {"PACKED": str(packed), "BACK": str(back)}
            encode, decode = (Process([named.get(word, word) for word in it.split()]) for it in commands)
            self.lines.append(Line(name, size, depth, raster, encode, decode, packed, back, is_ours=False))

    def made(self, depth: int) -> Path:
        target = self.folder / f"made{depth}"
        Process([self.program, "make", f"width={SIDE}", f"rows={SIDE}", f"depth={depth}"], target=target).run()
        return target

    def add_all(self, most: int) -> None:
        """Adds the lines of the usual pictures, up to this side."""
        square = (SIDE, SIDE)
        picture = drawn(SIDE)
        rasters = {depth: self.keep(f"drawn{depth}", raster(picture, depth)) for depth in (8, 12, 16)}
        for depth in (8, 12, 16):
            self.ours("drawn picture", square, depth, rasters[depth])
        for depth in (8, 12, 16):
            self.ours("`make`", square, depth, self.made(depth))
        for segment in (16, 64, 1024, 4096, 65536):
            self.ours(f"drawn, segment={segment}", square, 8, rasters[8], f"segment={segment}")
        self.ours("drawn, select=heuristic", square, 8, rasters[8], "select=heuristic")
        self.ours("drawn, another code book", square, 8, rasters[8], book=photograph_book())
        for side in (256 << n for n in range(20)):
            if side <= most and side != SIDE:
                rows = drawn(side) if side < SIDE else tiled(picture, side)
                path = self.keep(f"drawn{side}", raster(rows, 8))
                self.ours("drawn", (side, side), 8, path)
                if side > SIDE:
                    self.ours("drawn, segment=65536", (side, side), 8, path, "segment=65536")
        self.ours("noise", square, 8, self.keep("noise", raster(noise(SIDE), 8)))
        self.ours("flat", square, 8, self.keep("flat", raster(flat(SIDE), 8)))
        for depth in (8, 12, 16):
            self.others(square, depth, rasters[depth])

    def add_real(self) -> bool:
        """Adds real pictures, the program's beside those of libaec, if they and libaec are installed; returns whether they are."""
        if shutil.which("aec") is None:
            return False
        try:
            pictures = real_pictures()
        except (ImportError, OSError):
            return False
        ours, theirs = Bench(self.program, self.folder / "real"), Bench(self.program, self.folder / "aec")
        ours.folder.mkdir()
        theirs.folder.mkdir()
        for name, size, octets in pictures:
            path = ours.keep(f"{name}.raster", octets)
            ours.ours(name, size, 8, path)
            theirs.others(size, 8, path)
        theirs.lines = [line for line in theirs.lines if line.name == AEC]
        self.real = [Together("real pictures", ours.lines), Together(f"real pictures, {AEC}", theirs.lines)]
        return True

    def rows(self, rounds: int) -> str:
        """Measures the library row by row beside whole images, and returns the row of a table, or why there is none."""
        top = Path(__file__).resolve().parent.parent
        library = os.environ.get("STRIP122_C") or str(top / "crates/strip122_c/out/libstrip122_c.a")
        compiler = shutil.which(os.environ.get("CC", "cc"))
        if compiler is None or not os.path.exists(library):
            return f"Rows are not measured: {library} or a C compiler is missing."
        binary = str(self.folder / "rows")
        sources = [str(top / "tools/rows.c"), str(top / "c/heap.c")]
        subprocess.run([compiler, "-std=c99", "-O2", f"-I{top / 'c'}", "-o", binary, *sources, library], check=True)
        target = self.folder / "rows.line"
        Process([binary, str(SIDE), str(SIDE), str(rounds)], self.folder / "drawn8", target).run()
        head = "| `strip122_encode` | `strip122_encoder_row` | percent more |\n|---|---|---|"
        return f"The library, drawn picture of {SIDE} x {SIDE}, depth 8:\n\n{head}\n| {target.read_text().strip()} |"

    def add_file(self, name: str) -> None:
        size, depth, octets = read_pgm(name)
        path = self.keep(f"{len(self.lines)}.raster", octets)
        self.ours(os.path.basename(name), size, depth, path)
        self.others(size, depth, path)


# ---- real pictures


def real_pictures() -> list[tuple[str, tuple[int, int], bytes]]:
    """The twelve pictures of tools/pictures.py, which needs Pillow and python3-skimage: names, sizes and rasters of 8 bits of grey."""
    import pictures

    return [(path.stem, *pictures.read_gray(path)) for path in pictures.usual_pictures()]


# ---- a picture that is handed in


def read_pgm(path):
    with open(path, "rb") as it:
        data = it.read()
    fields, at = [], 0
    while len(fields) < 4:
        while data[at : at + 1].isspace():
            at += 1
        if data[at : at + 1] == b"#":
            at = data.index(b"\n", at)
            continue
        end = at
        while not data[end : end + 1].isspace():
            end += 1
        fields.append(data[at:end])
        at = end
    if fields[0] != b"P5":
        sys.exit(f"{path}: no PGM of octets (P5)")
    width, rows, most = map(int, fields[1:])
    return (width, rows), most.bit_length(), data[at + 1 :]


# ---- the table


def machine() -> str:
    with open("/proc/cpuinfo", encoding="utf-8") as it:
        names = [line.split(":", 1)[1].strip() for line in it if line.startswith("model name")]
    load = " ".join(f"{it:.2f}" for it in os.getloadavg())
    return f"{len(names)} processors, {names[0] if names else 'unknown'}; load {load}"


def main() -> None:
    words = argparse.ArgumentParser(prog="tools/bench.sh")
    words.add_argument("--rounds", type=int, default=5, help="how often each line is measured, 5 if it isn't given")
    words.add_argument("--most", type=int, default=SIDE, help=f"the side of the greatest picture, {SIDE} if it isn't given")
    words.add_argument("program", help=argparse.SUPPRESS)
    words.add_argument("pictures", nargs="*", metavar="PICTURE.pgm", help="P5, of 8 or 16 bits")
    given = words.parse_intermixed_args()
    with tempfile.TemporaryDirectory(prefix="strip122-bench-") as folder:
        bench = Bench(given.program, Path(folder))
        bench.add_all(given.most)
        for name in given.pictures:
            bench.add_file(name)
        if not bench.add_real():
            print("Real pictures are not measured: Debian's python3-skimage, Pillow or libaec-tools is missing.")
        print(f"Least to greatest of {given.rounds} rounds, user and system nanoseconds a pixel. {machine()}.", flush=True)
        for _ in range(given.rounds):
            for line in [*bench.lines, *(line for group in bench.real for line in group.lines)]:
                line.measure()
        print("\n| what | size | depth | encode | decode | octets | bits a pixel | the same |")
        print("|---|---|---|---|---|---|---|---|")
        for line in [*bench.lines, *bench.real]:
            print(line.row())
        print(f"\n{bench.rows(given.rounds)}")
        print(f"\nAt the end: {machine()}.")
        measured = [*bench.lines, *(line for group in bench.real for line in group.lines)]
        sys.exit(0 if all(line.is_same for line in measured) else "what is decoded isn't what was encoded")


if __name__ == "__main__":
    main()
