"""The keys of `encode`, with their types and ranges. Each value is tested before any work, and refused by its key's name."""

from __future__ import annotations

import difflib
from dataclasses import dataclass
from typing import Any, Dict, List, Mapping, Optional, Sequence

import numpy as np

from .errors import BadKey

BOOK_SIZE = 138  # octets of a code book
MOST = 1 << 40


@dataclass(frozen=True)
class Key:
    """A key: its range as messages give it, and either its least and greatest number or the values of another kind."""

    about: str
    least: int = 0
    most: int = -1
    also: Optional[int] = None  # a number outside the range that is allowed too


KEYS: Dict[str, Key] = {
    "depth": Key("1 to 16", 1, 16),
    "signed": Key("False or True"),
    "segment": Key("16 to 1048575", 16, 1_048_575),
    "limit": Key("0, or 32 to 134217724 and a multiple of word", 32, 134_217_724, 0),
    "fill": Key("False, or True with a limit or a total"),
    "word": Key("1 to 4", 1, 4),
    "stop": Key("'dc', or 'PLANE.STAGE' with a plane of 0 to 27 and a stage of 0 to 3"),
    "weights": Key("ten digits of 0 to 3, as a string"),
    "select": Key("'optimal' or 'heuristic'"),
    "apid": Key("0 to 2046", 0, 2046),
    "image": Key("0 to 65535", 0, 65_535),
    "packet": Key("64 to 65536", 64, 65_536),
    "total": Key("0, or at least 36 for each segment, up to 1099511627776, without a limit", 36, MOST, 0),
    "book": Key("bytes, a code book of 138 octets"),
    "pixels": Key("0 to 1099511627776", 0, MOST),
    "restore": Key("False or True"),
}
ENCODE = [it for it in KEYS if it not in ("pixels", "restore")]
FLAGS = ("signed", "fill", "restore")


def checked(given: Mapping[str, Any], names: Sequence[str]) -> Dict[str, Any]:
    """Returns the keys that were given, without those that are None.

    Raises BadKey, with the name of the key and its range, if a name is unknown, or a value has another type or is out of
    range.
    """
    for name in given:
        if name not in names:
            near = difflib.get_close_matches(name, names, 1)
            hint = f"did you mean {near[0]} ({KEYS[near[0]].about})?" if near else f"the keys are {', '.join(names)}"
            raise BadKey(f"{name}: no such key; {hint}")
    keys = {name: value_of(name, value) for name, value in given.items() if value is not None}
    if keys.get("limit") and keys["limit"] % keys.get("word", 1):
        raise refused("limit", given["limit"])
    if keys.get("fill") and not keys.get("limit") and not keys.get("total"):
        raise refused("fill", given["fill"])
    if keys.get("total") and keys.get("limit"):
        raise refused("total", given["total"])
    return keys


def refused(name: str, value: Any) -> BadKey:
    return BadKey(f"{name}: {value!r} is not {KEYS[name].about}")


def value_of(name: str, value: Any) -> Any:
    """Returns the value of a key. Raises BadKey if it has another type or is out of range."""
    key = KEYS[name]
    if name in FLAGS:
        if not isinstance(value, (bool, np.bool_)) and (not is_whole_number(value) or value not in (0, 1)):
            raise refused(name, value)
        return bool(value)
    if key.most >= 0:
        if not is_whole_number(value) or not (key.least <= value <= key.most or value == key.also):
            raise refused(name, value)
        return int(value)
    if name == "book":
        if not isinstance(value, (bytes, bytearray, memoryview)) or len(value) != BOOK_SIZE:
            raise refused(name, value if not isinstance(value, bytes) else f"{len(value)} octets")
        return bytes(value)
    if not isinstance(value, str) or not is_spelled(name, value):
        raise refused(name, value)
    return value


def is_whole_number(value: Any) -> bool:
    return isinstance(value, (int, np.integer)) and not isinstance(value, (bool, np.bool_))


def is_spelled(name: str, value: str) -> bool:
    """Returns whether a text is a value of this key."""
    if name == "select":
        return value in ("optimal", "heuristic")
    if name == "weights":
        return len(value) == 10 and all(it in "0123" for it in value)
    plane, _, stage = value.partition(".")
    return value == "dc" or (plane in map(str, range(28)) and stage in map(str, range(4)))


def from_words(words: Sequence[str]) -> Dict[str, Any]:
    """Returns the keys in `KEY=VALUE` arguments, as the program has them. Raises BadKey."""
    keys: Dict[str, Any] = {}
    for word in words:
        name, equals, value = word.partition("=")
        if not equals or name in keys:
            raise BadKey(f"bad word: {word}")
        if name == "book":
            raise BadKey("book: is given by --book FILE")
        is_number = name in KEYS and (KEYS[name].most >= 0 or name in FLAGS) and value.isdecimal()
        keys[name] = int(value) if is_number else value
    return checked(keys, ENCODE)


def to_words(keys: Mapping[str, Any]) -> List[str]:
    """Returns the arguments of the program for these keys. A book is `book=1`: its octets are before the input."""
    words = {name: 1 if name == "book" else int(value) if isinstance(value, bool) else value for name, value in keys.items()}
    return [f"{name}={value}" for name, value in words.items()]
