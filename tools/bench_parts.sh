#!/bin/sh
# Measures the parts of the program: the transform, the DC part, bit planes and packets, by runs that end after them.
#
#   tools/bench_parts.sh [--rounds N]
#
# A round measures each run once; there are 5 if it isn't given. The pictures are those of `make`, of 8 bits. The program is that of
# this repository, or the one that STRIP122 names.
. "$(dirname "$0")/common.sh"
need python3
find_program
exec python3 "$top/tools/bench_parts.py" "$program" "$@"
