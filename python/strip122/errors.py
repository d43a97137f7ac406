"""What ends a call: exceptions with the status that the command line ends with (docs/statuses.md)."""

from __future__ import annotations

import enum


class Status(enum.IntEnum):
    """The statuses of the program, which are those of this package too."""

    DONE = 0
    PARTLY = 1
    BAD_WORDS = 2
    BAD_INPUT = 3
    READ_FAULT = 4
    WRITE_FAULT = 5
    NO_MEMORY = 6


class Strip122Error(Exception):
    """The base of all exceptions of this package; `status` is that of the command line."""

    status = Status.BAD_INPUT


class BadKey(Strip122Error, ValueError):
    """A key is unknown, or its value has another type or is out of range. The message names the key and its range."""

    status = Status.BAD_WORDS


class MissingPackage(Strip122Error, ImportError):
    """A library or a program that the call needs is not installed."""

    status = Status.BAD_WORDS


class BadInput(Strip122Error, ValueError):
    """The input has no image, or is no array of pixels."""

    status = Status.BAD_INPUT


class ReadFault(Strip122Error, OSError):
    """A file can't be read."""

    status = Status.READ_FAULT


class WriteFault(Strip122Error, OSError):
    """A file can't be written."""

    status = Status.WRITE_FAULT


class NoMemory(Strip122Error, MemoryError):
    """Memory is missing."""

    status = Status.NO_MEMORY


BY_STATUS = {it.status: it for it in (BadKey, BadInput, ReadFault, WriteFault, NoMemory)}


def fault_of(status: int, message: str) -> Strip122Error:
    """Returns the exception for a status of the program."""
    return BY_STATUS.get(Status(status), BadInput)(message) if status in list(Status) else BadInput(message)
