#!/usr/bin/env python3
"""Tests of tools/cases.py: the text form of octets, cases that can't be run, and that each difference is found, also in calls that fail."""

from __future__ import annotations

import contextlib
import io
import os
import shutil
import sys
import tempfile
import unittest
from pathlib import Path
from unittest import mock

sys.dont_write_bytecode = True
sys.path.insert(0, str(Path(__file__).resolve().parents[1]))
import cases
import runs

# A program that writes its input, or fails as its first argument says.
PROGRAM = """#!/bin/sh
case "$1" in
    copy) cat ;;
    none) ;;
    first) dd bs=1 count=3 2>/dev/null ;;
    note) echo "note" >&2; exit 3 ;;
    more) cat; echo more ;;
    shorter) dd bs=4 count=1 2>/dev/null ;;
    full) echo text 2>/dev/null || exit 5 ;;
esac
"""


# A program whose calls are known: it reads three octets at a time, and gives them before the next read. Its first argument is what it does
# otherwise.
COUNTED = f"""#!{sys.executable} -IS
import os, sys

how = sys.argv[1]

def give(descriptor, octets):
    while octets:
        octets = octets[os.write(descriptor, octets):]

def end(status, note):
    try:
        give(2, note)
    except OSError:
        status = 6 if how == "strict" else status
    sys.exit(status)

kept = b""
taken = 0
while how != "idle":
    try:
        part = os.read(0, 3)
    except OSError:
        end(4, b"strip122: read fault\\n" if how != "wordless" else b"")
    try:
        if how == "late" and part:
            kept += part
        else:
            give(1, kept + part)
    except OSError:
        if how != "deaf":
            end(5, b"strip122: write fault\\n")
    kept = kept if part and how == "late" else b""
    taken += len(part)
    if not part or (how == "cap" and taken >= 9):
        break
end(3 if how in ("cap", "strict", "note") else 0, b"note\\n" if how in ("strict", "note") else b"")
"""


class Folder(unittest.TestCase):
    """A folder of cases, and a program."""

    text = PROGRAM

    def setUp(self) -> None:
        kept = tempfile.TemporaryDirectory()
        self.addCleanup(kept.cleanup)
        self.top = Path(kept.name)
        (self.top / "cases" / "octets").mkdir(parents=True)
        self.put("octets/abc.hex", "# three octets\n61 62 63\n")
        self.program = self.top / "program"
        self.program.write_text(self.text)
        self.program.chmod(0o755)

    def put(self, name: str, text: str) -> None:
        file = self.top / "cases" / name
        file.parent.mkdir(exist_ok=True)
        file.write_text(text)

    def case(self, passed: int = 1, **files: str) -> str:
        """Runs a case with these files alone, and returns what is printed. If all is well, this number of runs passed."""
        shutil.rmtree(self.top / "cases" / "it", ignore_errors=True)
        for name, text in {"why": "By hand.\n", **files}.items():
            self.put(f"it/{name.replace('_', '.')}", text)
        words = ["cases.py", str(self.program), str(self.top / "cases")]
        out = io.StringIO()
        with mock.patch.object(sys, "argv", words), contextlib.redirect_stdout(out):
            status = cases.main()
        self.assertEqual(status, 0 if out.getvalue().endswith(f"{passed} passed, 0 failed\n") else 1)
        return out.getvalue()

    def passes(self, passed: int = 1, **files: str) -> None:
        self.assertEqual(self.case(passed, **files), f"{passed} passed, 0 failed\n")

    def fails(self, message: str, passed: int = 0, **files: str) -> None:
        printed = self.case(**files)
        self.assertIn(message, printed)
        self.assertRegex(printed, rf"\b{passed} passed, [1-9]\d* failed\n\Z")


class OctetsTest(Folder):
    def test_items(self) -> None:
        octets = cases.Octets(self.top / "cases" / "octets")
        for text, wanted in (
            ("", b""),
            ("00 fF # 11\n10", b"\0\xff\x10"),
            ('"a\\n" @abc', b"a\nabc"),
            ("00*3 (61 62)*2", b"\0\0\0abab"),
            ("@abc[1:] @abc[:1] @abc[1:2]*2", b"bcabb"),
            ("@abc{1=41 42}", b"aAB"),
            ("((61)*2 62)*2[1:]", b"abaab"),
            ("made(17 17 8 0 0)[0:5]", b"\0\4\x09\x0e\x13"),
        ):
            self.assertEqual(octets.of_text(text), wanted, text)

    def test_faults(self) -> None:
        octets = cases.Octets(self.top / "cases" / "octets")
        for text in ("0", "000", "zz", "*2", "(00", "00)", "@none", "@abc[2:4]", "@abc[2:1]", "@abc{3=00}", "@abc{00", '"a'):
            with self.assertRaises(cases.BadCase, msg=text):
                octets.of_text(text)


class CasesTest(Folder):
    def test_what_is_as_it_should_be_passes(self) -> None:
        self.passes(args="copy\n", stdin_hex="@abc*9", stdout="abc" * 9)
        self.passes(args="note\n", stderr="note\n", status="3\n")

    def test_each_difference_is_found(self) -> None:
        abc = {"stdin": "abc", "stdout": "abc"}
        self.fails("in pieces of 7: standard output: 8 octets in place of 3", args="more\n", **abc)
        self.fails("status 3 in place of 0", args="note\n", stderr="note\n")
        self.fails("standard error b'note\\n' in place of b''", args="note\n", stderr="", status="3\n")

    def test_pieces_of_one_octet_are_read_one_by_one(self) -> None:
        self.fails("in pieces of 1: standard output: 1 octets in place of 4", args="shorter\n", stdin="abcdef", stdout="abcd")

    def test_what_is_taken(self) -> None:
        self.passes(args="first\n", stdin="abcdef", stdout="abc", taken="3\n")
        self.fails("from a file: took 3 octets in place of 2", args="first\n", stdin="abcdef", stdout="abc", taken="2\n")

    def test_runs_after_another(self) -> None:
        self.passes(args="copy\n| 0:1 2:\ncopy\n", stdin="abc", stdout="ac")
        self.fails("note has status 3", args="note\n|\ncopy\n")

    def test_streams(self) -> None:
        self.passes(args="full\n", status="5\n", streams="stdout full\n")

    def test_tables(self) -> None:
        self.passes(runs="# a reason\ncopy -> 0\n", stdin="abc", stdout="abc")
        self.fails("it, line 1: in pieces of 1: status 3 in place of 2", runs="note -> 2 note\n")

    def test_bad_cases_have_a_message(self) -> None:
        self.fails("either args or runs", stdin="")
        self.fails("no file of a case is std", args="copy\n", std="")
        self.fails("why: empty", args="copy\n", why=" \n")
        self.fails("both stdin and stdin.hex", args="copy\n", stdin="0", stdin_hex="00")
        self.fails("status: not one number", args="copy\n", status="zero\n")
        self.fails("the last line has no end", args="copy", status="0\n")
        self.fails("no such stream", args="copy\n", streams="stdout slow\n")
        self.fails("not ARGUMENTS -> STATUS", runs="copy 0\n")
        self.fails("it/calls, line 2: not NUMBER PIECE -> STATUS OCTETS NOTE", args="copy\n", calls="# a call\n0 -> 4\n")
        self.fails("it/calls, line 1: a piece of no octets", args="copy\n", calls="0 0 -> 4 0\n")
        self.fails("more octets than the run gives", args="copy\n", calls="0 -> 4 1\n")
        self.fails("it/calls, line 1: no note is", args="copy\n", calls='0 -> 4 0 "strip122\n')
        self.fails("it/asked, line 1: not TAKEN -> GIVEN", args="copy\n", asked="0 0\n")
        self.fails("it/asked: no lines, or not in order", args="copy\n", asked="3 -> 0\n3 -> 3\n")
        self.fails("it/asked: no lines, or not in order", args="copy\n", asked="# none\n")
        self.fails("no other way to run it", args="copy\n", streams="stdout full\n", faults="")
        self.fails("no other way to run it", args="copy\n", endless="", taken="1\n")
        self.fails("no other way to run it", runs="copy -> 0\n", calls="0 -> 4 0\n")
        self.fails("it/faults: not empty", args="copy\n", faults="each\n")


class CallsTest(Folder):
    """A program whose calls are known."""

    text = COUNTED
    abc = {"stdin": "abcdef", "stdout": "abcdef"}
    read = "strip122: read fault"
    write = "strip122: write fault"

    def setUp(self) -> None:
        super().setUp()
        if not any(map(shutil.which, ("cc", "gcc", "clang"))):
            self.skipTest("there is no C compiler")

    def test_one_call_fails(self) -> None:
        lines = f"0 -> 4 0 {self.read}\n1 -> 5 0 {self.write}\n2 -> 4 3 {self.read}\n5 -> 0 6\n3 1 -> 5 1 {self.write}\n"
        self.passes(6, args="copy\n", calls=lines, **self.abc)
        self.passes(2, args="note\n", stderr="note\n", status="3\n", calls='2 3 -> 3 0 "not"\n')
        self.fails("it, calls, line 1: status 4 in place of 5", 1, args="copy\n", calls=f"0 -> 5 0 {self.read}\n", **self.abc)
        self.fails("standard output: 3 octets in place of 2", 1, args="copy\n", calls=f"2 -> 4 2 {self.read}\n", **self.abc)
        self.fails("standard error b'strip122: read fault", 1, args="copy\n", calls="0 -> 4 0\n", **self.abc)

    def test_what_was_given_as_more_is_read(self) -> None:
        steps = "".join(f"{it} -> {it}\n" for it in range(7))
        self.passes(4, args="copy\n", asked=steps, **self.abc)
        self.fails("it, asked, in pieces of 1: 0 octets in place of 1 were given as 1 octets", 1, args="late\n", asked=steps, **self.abc)
        self.fails("it, asked, in pieces of 7: 0 octets in place of 3", 1, args="late\n", asked=steps, **self.abc)
        self.fails("in pieces of 1: no read call after 9 octets", 3, args="copy\n", asked=f"{steps}9 -> 6\n", **self.abc)

    def test_each_call_fails(self) -> None:
        self.passes(4, args="copy\n", faults="", **self.abc)
        self.passes(4, args="note\n", faults="", stderr="note\n", status="3\n", **self.abc)
        self.fails("faults, in pieces of 7: call 1, a write: status 0 in place of 5; standard output: 3", 1, args="deaf\n", faults="", **self.abc)
        self.fails("call 0, a read: standard error b''", 1, args="wordless\n", faults="", **self.abc)
        self.fails("a note: status 6 in place of 3", 1, args="strict\n", faults="", stderr="note\n", status="3\n", **self.abc)
        self.fails("makes no call", 1, args="idle\n", faults="", stdin="abc")
        self.fails("faults, in pieces of 1: status 0 in place of 1", args="copy\n", faults="", status="1\n", **self.abc)

    def test_endless_input(self) -> None:
        self.passes(args="cap\n", stdin="abc", endless="", stdout="abc" * 3, status="3\n")
        with mock.patch.object(runs, "SECONDS", 1):
            self.fails("no end within", args="late\n", stdin="abc", endless="")

    def test_without_a_compiler(self) -> None:
        with mock.patch.dict(os.environ, CC="no-such-compiler"):
            printed = self.case(args="copy\n", faults="", calls="0 -> 5 0\n", **self.abc)
        self.assertEqual(printed, "skipped: 4 runs whose calls are counted, since there is no C compiler\n1 passed, 0 failed\n")


if __name__ == "__main__":
    unittest.main()
