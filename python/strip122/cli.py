"""The command line: sort, out, report, encode and book."""

from __future__ import annotations

import argparse
import json
import os
import sys
from pathlib import Path
from typing import Any, Callable, List, NoReturn, Optional, Sequence

from . import __version__
from .books import book, lengths_in
from .coding import MOST_PIXELS, Reading, encode
from .errors import BadInput, BadKey, Status, Strip122Error, WriteFault
from .files import make_folder, reason, store
from .keys import BOOK_SIZE, ENCODE, KEYS, from_words
from .outputs import Record, Wish, processors, status_of, store_list, write_all
from .passes import Pass, sort
from .readers import READERS, read_array, read_octets
from .writers import WRITERS, kinds_of

STATUSES = """\
status  0 done, 1 rows or packets are missing or copies of a packet differ, 2 bad words,
        3 bad input, 4 read fault, 5 write fault, 6 no memory
`-` is standard input or output. STRIP122 names the program strip122."""

Words = argparse.Namespace


class Parser(argparse.ArgumentParser):
    def error(self, message: str) -> NoReturn:
        raise BadKey(f"{message}; --help lists the words")


def warn(text: str) -> None:
    print(f"strip122: {text}", file=sys.stderr)


def put(octets: bytes) -> None:
    """Writes to standard output. Raises WriteFault."""
    try:
        sys.stdout.buffer.write(octets)
        sys.stdout.buffer.flush()
    except OSError as fault:
        devnull = os.open(os.devnull, os.O_WRONLY)
        os.dup2(devnull, sys.stdout.fileno())  # so that nothing is written again at the end
        raise WriteFault(f"standard output: {reason(fault)}") from fault


def store_or_put(name: str, octets: bytes) -> None:
    if name == "-":
        put(octets)
    else:
        store(Path(name), octets)


# ---- the commands


def sort_command(words: Words) -> Status:
    them = sort(words.files, words.strict, not words.no_trial, words.verbose)
    folder = Path(words.into)
    make_folder(folder)
    for image in them.images:
        store(folder / f"{image.name}.packets", them.stream(image))
    text = json.dumps(them.record(), indent=1) if words.json else them.table(words.verbose)
    put(f"{text}\n".encode())
    return Status.DONE if them.is_whole else Status.PARTLY


def wish_of(words: Words, **others: Any) -> Wish:
    if words.jobs < 1:
        raise BadKey(f"--jobs: {words.jobs} is not 1 or more")
    if not 0 <= words.pixels <= KEYS["pixels"].most:
        raise BadKey(f"--pixels: {words.pixels} is not {KEYS['pixels'].about}")
    kinds = tuple(kinds_of(words.kinds))
    reading = Reading(words.pixels, restore=words.restore)
    return Wish(Path(words.into), kinds, words.full, jobs=words.jobs, reading=reading, **others)


def decoded_files(words: Words, wish: Wish, finish: Callable[[Pass, List[Record]], None]) -> Status:
    """Sorts files, decodes all images and writes their files; then what `finish` does."""
    them = sort(words.files, words.strict, not words.no_trial)
    records = write_all(them, wish)
    store_list(them, records, wish.folder)
    finish(them, records)
    for record in records:
        if record["error"]:
            warn(f"{them.source.title}: {record['error']}")
    damaged = sum(it["status"] == Status.PARTLY for it in records)
    lost = sum(bool(it["error"]) for it in records)
    images = "1 image" if len(records) == 1 else f"{len(records)} images"
    texts = [f"{images} in {wish.folder}", f"{damaged} damaged", f"{lost} without a picture"]
    put((", ".join(texts) + "\n").encode())
    return status_of(records)


def out_command(words: Words) -> Status:
    return decoded_files(words, wish_of(words), lambda them, records: None)


def report_command(words: Words) -> Status:
    from .report import write_report  # here, since Jinja2 takes a while to load

    wish = wish_of(words, has_look=False, has_small=True, has_packets=True)
    return decoded_files(words, wish, lambda them, records: write_report(them, records, wish.folder))


def encode_command(words: Words) -> Status:
    keys = from_words(words.keys)
    if words.book:
        keys["book"] = read_octets(words.book)
        if len(keys["book"]) != BOOK_SIZE:
            raise BadInput(f"{words.book}: has {len(keys['book'])} octets, and a code book has {BOOK_SIZE}")
    array, depth = read_array(words.array)
    if depth is not None:
        keys.setdefault("depth", depth)
    try:
        octets = encode(array, **keys)
    except BadInput as fault:
        raise BadInput(f"{words.array}: {fault}") from fault
    store_or_put(words.packets, octets)
    return Status.DONE


def book_command(words: Words) -> Status:
    store_or_put(words.out, book([lengths_in(it) for it in words.lengths]))
    return Status.DONE


# ---- the words


def add_files(it: argparse.ArgumentParser) -> None:
    it.add_argument("files", nargs="+", metavar="FILE", help="files of octets, joined in this order")
    it.add_argument("--strict", action="store_true", help="leave out packets before junk, whose own end may be junk")
    it.add_argument("--no-trial", action="store_true", help="do not ask the program which of differing copies is read")


def add_outputs(it: argparse.ArgumentParser) -> None:
    kinds = ",".join(WRITERS)
    it.add_argument("--into", required=True, metavar="FOLDER", help="where the files go")
    it.add_argument("--as", dest="kinds", default="npy,png", metavar="KINDS", help=f"of {kinds}; by default npy,png")
    it.add_argument("--full", action="store_true", help="PNG with all bits and without tint")
    it.add_argument("--jobs", type=int, default=processors(), metavar="N", help="images at a time, by default one a processor")
    pixels = f"the most pixels of a picture, by default {MOST_PIXELS}"
    it.add_argument("--pixels", type=int, default=MOST_PIXELS, metavar="N", help=pixels)
    it.add_argument("--restore", action="store_true", help="move coefficients that are given in part inside their intervals")


def parser() -> Parser:
    lines = argparse.RawDescriptionHelpFormatter
    top = Parser(
        prog="python3 -m strip122",
        formatter_class=lines,
        epilog=STATUSES,
        description="Mends files of packets, decodes their images, and shows a pass on a page.",
    )
    top.add_argument("--version", action="version", version=f"strip122 {__version__}, the package for the ground")
    commands = top.add_subparsers(dest="command", required=True, metavar="COMMAND", parser_class=Parser)

    def command(name: str, action: Callable[[Words], Status], about: str) -> argparse.ArgumentParser:
        added = commands.add_parser(name, help=about, description=about, formatter_class=lines, epilog=STATUSES)
        added.set_defaults(action=action)
        return added

    it = command("sort", sort_command, "find the packets in any octets, write those of each image, and print a table")
    add_files(it)
    it.add_argument("--into", default=".", metavar="FOLDER", help="where the packets go, by default here")
    it.add_argument("--verbose", action="store_true", help="list all stretches of octets that are in no image")
    it.add_argument("--json", action="store_true", help="print JSON in place of the table")
    it = command("out", out_command, "decode all images of files to arrays, pictures, masks and quick looks")
    add_files(it)
    add_outputs(it)
    it = command("report", report_command, "decode all images of files, and write a page that shows them")
    add_files(it)
    add_outputs(it)
    suffixes = " ".join(READERS)
    it = command("encode", encode_command, "encode an array or a picture to packets")
    it.add_argument("array", metavar="ARRAY", help=f"one of {suffixes}")
    it.add_argument("packets", metavar="PACKETS")
    it.add_argument("keys", nargs="*", metavar="KEY=VALUE", help=f"of {' '.join(key for key in ENCODE if key != 'book')}")
    it.add_argument("--book", metavar="FILE", help="a code book of 138 octets")
    it = command("book", book_command, "write a code book from the lengths of the codes of its six tables")
    it.add_argument("out", metavar="FILE")
    it.add_argument("lengths", nargs="+", metavar="LENGTHS", help="the lengths of a table in one word, as '1 2 3 3'")
    return top


def main(words: Optional[Sequence[str]] = None) -> int:
    """Runs a command, and returns its status."""
    try:
        parsed = parser().parse_args(words)
        return int(parsed.action(parsed))
    except Strip122Error as fault:
        warn(str(fault))
        return int(fault.status)
    except MemoryError:
        warn("no memory")
        return int(Status.NO_MEMORY)
    except KeyboardInterrupt:
        return 130
