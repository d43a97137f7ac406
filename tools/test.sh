#!/bin/sh
# Runs the cases of cases/ on the program, and compares standard output, standard error and status: tools/test.sh [NAME ..]. The last line
# is `N passed, M failed`, and the status is 0 if none failed. It needs python3, and a C compiler for runs whose calls are counted; without
# one these are skipped.
#
# The program is the one that STRIP122 names, otherwise the one that is built (crates/strip122/out/strip122), and if that is missing or a
# file is newer, one that `rt try` builds without a proof, with checks of each index and each sum. That one is slow: big cases are omitted,
# and so are the faults in pieces of one octet.
#
# A case is a folder cases/NAME/ with these files. One that isn't there is empty, and the status 0.
#
#   args      the arguments, one a line. A line `|` begins another run, which reads what the one before it wrote, or, as `| 0:51 102:`,
#             these places of it. All but the last run must end with status 0 and no note.
#   stdin     the input: octets as they are, or as text in stdin.hex
#   stdout    what is written: octets as they are, or as text in stdout.hex
#   stderr    the note
#   status    the status
#   taken     how many octets are taken from an input that is a file; 0 if the status is 2
#   streams   streams that fail: `stdin folder`, `stdout full`, `stdout broken`, `stderr full`, `stderr broken`, one a line
#   why       how the expectation was worked out: by hand, with the reason, or by the rules, if the numbers are those of an implementation
#             of docs/formats.md that shares no code with this one. None is copied from the program.
#   big       empty: the case takes minutes on an unproved program
#   runs      in place of args, stderr and status: a table of runs on one input, each a line ARGUMENTS -> STATUS NOTE. A run with another
#             status than 0 writes nothing.
#   endless   empty: the input is repeated without end, and the program must end by itself
#
# With one of these files the case is run again, on a file. The calls of the C library that read standard input (reads) and write standard
# output (writes) and standard error (notes) are numbered together from 0, and each moves at most a piece of 65,536 octets.
#
#   calls     a table of runs in which one call fails, each a line NUMBER -> STATUS OCTETS NOTE: the call of this number fails, and then the
#             first OCTETS of stdout are written. With NUMBER PIECE -> .. a call moves at most PIECE octets. A note in quotes has no end of line.
#   asked     what is written before more is read, each a line TAKEN -> GIVEN: as a read begins, GIVEN octets of output are written if TAKEN
#             octets or more, up to those of the next line, are taken, and none before the first line. With pieces of 1, 7 and 65,536.
#   faults    empty: each call fails in turn, with pieces of 1, 7 and 65,536. If it is a read, the status is 4, and if it is a write, 5, with
#             the note of that fault. If it is a note, status and output stay as they are, and a prefix of the note is written. The output is
#             always a prefix of stdout.
#
# The text form of octets has two hexadecimal digits for an octet, "TEXT" with the escapes of JSON, made(WIDTH ROWS DEPTH SIGNED SEED) for
# the made image of docs/formats.md, @NAME for the octets of cases/octets/NAME.hex, and groups in parentheses. After each of these may be
# *COUNT, which repeats it, [FIRST:END], which takes a part, or {PLACE=OCTET ..}, which changes octets; one without a place follows the one
# before it. # begins a comment.
#
# Input is given through a pipe in pieces of 1, 7 and 65,536 octets, and if it has more than 65,536 octets, in the last alone.
. "$(dirname "$0")/common.sh"
need python3

program=${STRIP122:-$top/crates/strip122/out/strip122}
if [ -n "$STRIP122" ] || is_built "$program"; then
    exec python3 "$top/tools/cases.py" "$program" "$top/cases" "$@"
fi
make_folder
echo "strip122 isn't built, so 'rt try' builds it without a proof, which takes one to two minutes" >&2
build_unproved
python3 "$top/tools/cases.py" --small "$program" "$top/cases" "$@"
