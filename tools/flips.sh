#!/bin/sh
# Flips single bits of coded segments, and counts what `decode` makes of each.
#
#   tools/flips.sh [--bits N] [--side N]
#
# The program is that of this repository, or the one that STRIP122 names.
. "$(dirname "$0")/common.sh"
need python3
find_program
exec python3 -B "$top/tools/flips.py" "$(realpath "$program")" "$@"
