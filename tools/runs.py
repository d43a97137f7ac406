"""Runs of a program, for tools/cases.py: on a pipe, on a file, with streams that fail, and with calls that fail (tools/calls.c)."""

from __future__ import annotations

import contextlib
import os
import shutil
import subprocess
import tempfile
import threading
from collections.abc import Iterator
from dataclasses import dataclass, replace
from pathlib import Path

BIG = 65_536  # the greatest pieces
SECONDS = 100  # a run that takes longer has failed


@dataclass(frozen=True)
class Left:
    """What a run left."""

    status: int
    stdout: bytes
    stderr: bytes
    taken: int | None = None


def feed(write_end: int, octets: bytes, piece: int, endless: bool = False) -> None:
    """Writes octets into a pipe in pieces, once or without end, until the program no longer reads, and closes it."""
    with contextlib.suppress(BrokenPipeError):
        again = True
        while again:
            for at in range(0, len(octets), piece):
                part = octets[at : at + piece]
                while part:
                    part = part[os.write(write_end, part) :]
            again = endless
    os.close(write_end)


@contextlib.contextmanager
def piped(octets: bytes, piece: int, endless: bool = False) -> Iterator[int]:
    """The end of a pipe from which the octets are read in pieces. Those of one octet are read one by one."""
    read_end, write_end = os.pipe2(os.O_CLOEXEC | (os.O_DIRECT if piece == 1 else 0))
    feeder = threading.Thread(target=feed, args=(write_end, octets, piece, endless))
    feeder.start()
    try:
        yield read_end
    finally:
        os.close(read_end)
        feeder.join()


def ended(
    program: str,
    args: tuple[bytes, ...],
    stdin: int,
    others: dict[str, int] | None = None,
    settings: dict[str, str] | None = None,
    passed: tuple[int, ...] = (),
) -> Left:
    """Runs the program to its end, with a file for each of the output and the notes, or another stream in its place."""
    others = others or {}
    with tempfile.TemporaryFile() as out, tempfile.TemporaryFile() as err:
        status = subprocess.run(
            [os.fsencode(program), *args],
            stdin=stdin,
            stdout=others.get("stdout", out.fileno()),
            stderr=others.get("stderr", err.fileno()),
            env={**os.environ, **(settings or {})},
            pass_fds=passed,
            timeout=SECONDS,
            check=False,
        ).returncode
        out.seek(0)
        err.seek(0)
        return Left(status, out.read(), err.read())


def in_pieces(program: str, args: tuple[bytes, ...], octets: bytes, piece: int, endless: bool = False) -> Left:
    with piped(octets, piece, endless) as stdin:
        return ended(program, args, stdin)


@contextlib.contextmanager
def filed(octets: bytes) -> Iterator[int]:
    """A file with these octets, open at its start."""
    with tempfile.TemporaryFile() as file:
        file.write(octets)
        file.seek(0)
        yield file.fileno()


def from_file(program: str, args: tuple[bytes, ...], octets: bytes) -> Left:
    """Runs the program on a file, whose place says how many octets it took."""
    with filed(octets) as stdin:
        left = ended(program, args, stdin)
        return replace(left, taken=os.lseek(stdin, 0, os.SEEK_CUR))


def with_streams(program: str, args: tuple[bytes, ...], octets: bytes, streams: tuple[tuple[str, str], ...]) -> Left:
    """Runs the program with streams that fail: a folder, a full device, or a pipe that has no reader."""
    with contextlib.ExitStack() as stack:
        others: dict[str, int] = {}
        stdin = stack.enter_context(piped(octets, BIG))
        for name, kind in streams:
            if kind == "folder":
                stdin = os.open("/", os.O_RDONLY)
                stack.callback(os.close, stdin)
            elif kind == "full":
                others[name] = os.open("/dev/full", os.O_WRONLY)
                stack.callback(os.close, others[name])
            else:
                read_end, others[name] = os.pipe2(os.O_CLOEXEC)
                os.close(read_end)
                stack.callback(os.close, others[name])
        left = ended(program, args, stdin, others)
    return left


# Runs of which each call is counted.


@dataclass(frozen=True)
class Call:
    """A call of the program: `read`, `write` or `note`, and how many octets were taken and given as it began."""

    kind: str
    taken: int
    given: int


def call_library(folder: str) -> str | None:
    """The library that tools/calls.c is, made in this folder; none if there is no C compiler."""
    compilers = [shutil.which(it) for it in os.environ.get("CC", "cc gcc clang").split()]
    compiler = next((it for it in compilers if it), None)
    if not compiler:
        return None
    library = f"{folder}/calls.so"
    source = Path(__file__).resolve().with_name("calls.c")
    subprocess.run([compiler, "-std=c11", "-O2", "-shared", "-fPIC", "-o", library, source], check=True)
    return library


@dataclass(frozen=True)
class Counter:
    """A way to run the program on a file, in which each call is counted and moves at most `piece` octets."""

    library: str
    piece: int

    def run(self, program: str, args: tuple[bytes, ...], octets: bytes, failing: int = -1) -> tuple[Left, list[Call]]:
        """What a run left of which the call of this number fails, and its calls."""
        with tempfile.TemporaryFile() as log, filed(octets) as stdin:
            settings = {
                "LD_PRELOAD": self.library,
                "CALLS_PIECE": str(self.piece),
                "CALLS_FAIL": str(failing),
                "CALLS_LOG": str(log.fileno()),
            }
            left = ended(program, args, stdin, settings=settings, passed=(log.fileno(),))
            log.seek(0)
            lines = [it.split() for it in log.read().decode("ascii").splitlines()]
            return left, [Call(kind, int(taken), int(given)) for kind, taken, given in lines]
