"""What the tests share: the program, six images, and chance with a seed (`--seed`, 1 if it isn't given)."""

from __future__ import annotations

import os
import random
import shutil
import subprocess
import sys
from pathlib import Path
from typing import Any, Callable, Iterator, Tuple

import pytest

HERE = Path(__file__).parent
sys.path.insert(0, str(HERE))
sys.path.insert(0, str(HERE.parent))

import wire  # noqa: E402
from strip122.program import BUILT, REPOSITORY  # noqa: E402

Command = Callable[..., Tuple[int, str, str]]


def pytest_addoption(parser: Any) -> None:
    parser.addoption("--seed", type=int, default=1, help="of the random faults")
    parser.addoption("--files", type=int, default=50, help="how many sets of random files are tried")


@pytest.fixture(scope="session", autouse=True)
def program() -> str:
    """The program: the one that STRIP122 names, or that of this repository."""
    name = os.environ.get("STRIP122") or str(BUILT)
    if shutil.which(name) is None:
        pytest.exit(f"skipped: {name} is missing, and STRIP122 names no other program", returncode=0)
    os.environ["STRIP122"] = str(Path(shutil.which(name) or name).resolve())
    os.environ.setdefault("STRIP122_LIBRARY", "")
    return os.environ["STRIP122"]


@pytest.fixture
def chance(request: pytest.FixtureRequest) -> random.Random:
    return random.Random(f"{request.config.getoption('--seed')} {request.node.name}")


@pytest.fixture(scope="session")
def images(program: str) -> wire.Streams:
    """Six images of three APIDs."""
    return wire.streams(wire.IMAGES)


@pytest.fixture(scope="session")
def shared_library(tmp_path_factory: pytest.TempPathFactory) -> Iterator[str]:
    """The library for C as a shared object, linked of the static one that STRIP122_C names or that is built here."""
    static = Path(os.environ.get("STRIP122_C") or REPOSITORY / "crates/strip122_c/out/libstrip122_c.a")
    compiler = shutil.which(os.environ.get("CC", "cc"))
    if not static.exists() or compiler is None:
        pytest.skip(f"{static} or a C compiler is missing")
    shared = tmp_path_factory.mktemp("library") / "libstrip122.so"
    heap = REPOSITORY / "c/heap.c"
    whole = ["-Wl,--whole-archive", str(static), "-Wl,--no-whole-archive"]
    subprocess.run([compiler, "-O2", "-fPIC", "-shared", "-o", str(shared), str(heap), *whole], check=True)
    yield str(shared)


@pytest.fixture
def command(tmp_path: Path, monkeypatch: pytest.MonkeyPatch) -> Command:
    """Runs `python3 -m strip122` in a new folder, and gives its status, output and notes."""
    monkeypatch.chdir(tmp_path)

    def run(*words: object, given: bytes = b"", **environment: str) -> Tuple[int, str, str]:
        ran = subprocess.run(
            [sys.executable, "-B", "-m", "strip122", *map(str, words)],
            input=given,
            capture_output=True,
            check=False,
            env={**os.environ, "PYTHONPATH": str(HERE.parent), **environment},
        )
        assert b"Traceback" not in ran.stderr, ran.stderr.decode()
        return ran.returncode, ran.stdout.decode(), ran.stderr.decode()

    return run
