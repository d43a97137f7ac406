"""The libraries that this package stands on. A missing one is named with what needs it, before any work."""

from __future__ import annotations

import importlib.util
import sys

NEEDED = {
    "numpy": ("python3-numpy", "arrays"),
    "PIL": ("python3-pil", "pictures"),
    "tqdm": ("python3-tqdm", "the progress bar"),
    "jinja2": ("python3-jinja2", "the report"),
}


def check() -> None:
    """Raises ImportError if a library is missing. Under `python3 -m strip122` it ends the program with status 2."""
    missing = [it for it in NEEDED if importlib.util.find_spec(it) is None]
    if not missing:
        return
    needs = " and ".join(f"{it} for {NEEDED[it][1]}" for it in missing)
    text = f"strip122 needs {needs} (Debian: apt-get install {' '.join(NEEDED[it][0] for it in missing)})"
    if sys.argv[:1] == ["-m"]:  # so Python sets it while it looks for the module to run
        print(text, file=sys.stderr)
        sys.exit(2)
    raise ImportError(text)
