"""Code books of 138 octets, made from the lengths of their codes (docs/formats.md, "Words and codes")."""

from __future__ import annotations

from typing import List, Sequence

from .errors import BadKey

MARK = bytes([0x12, 0x2B])
SYMBOLS = [4, 8, 8, 16, 16, 16]  # codes of each table
LONGEST = 8  # bits of a code


def book(tables: Sequence[Sequence[int]]) -> bytes:
    """Returns the book whose six tables have codes of these lengths, in the order of symbols.

    The tables have 4, 8, 8, 16, 16 and 16 codes of 1 to 8 bits, and the sum of 2^-length over a table is 1. The codes
    are canonical: in the order of their lengths, and of symbols where these are equal, each is the next string after
    the one before. Raises BadKey.
    """
    if len(tables) != len(SYMBOLS):
        raise BadKey(f"book: {len(tables)} tables in place of {len(SYMBOLS)}")
    octets = bytearray(MARK)
    for table, lengths in enumerate(tables):
        check(table, lengths)
        for length, code in zip(lengths, canonical_codes(lengths)):
            octets += bytes([length, code])
    return bytes(octets)


def check(table: int, lengths: Sequence[int]) -> None:
    if len(lengths) != SYMBOLS[table]:
        raise BadKey(f"book: table {table} has {len(lengths)} lengths in place of {SYMBOLS[table]}")
    for symbol, length in enumerate(lengths):
        if not 1 <= length <= LONGEST:
            raise BadKey(f"book: code {symbol} of table {table} has {length} bits")
    total = sum(1 << (LONGEST - length) for length in lengths)
    if total != 1 << LONGEST:
        raise BadKey(f"book: the sum of table {table} is {total}/{1 << LONGEST}")


def canonical_codes(lengths: Sequence[int]) -> List[int]:
    """Returns the bits of each code as a number."""
    codes = [0] * len(lengths)
    code, before = 0, 0
    for length, symbol in sorted((length, symbol) for symbol, length in enumerate(lengths)):
        code <<= length - before
        codes[symbol], before = code, length
        code += 1
    return codes


def lengths_in(text: str) -> List[int]:
    """Returns the lengths of a table, which are given as words of one text. Raises BadKey."""
    words = text.split()
    bad = next((it for it in words if not it.isdecimal()), None)
    if bad is not None:
        raise BadKey(f"book: {bad} is no length")
    return [int(it) for it in words]
