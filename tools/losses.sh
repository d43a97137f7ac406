#!/bin/sh
# Loses packets of a picture at random, and reports how much of it is damaged, for some sizes of segments and packets.
#
#   tools/losses.sh PICTURE [--draws N]
#
# The program is that of this repository, or the one that STRIP122 names.
. "$(dirname "$0")/common.sh"
if ! find_python PIL; then
    echo "$0: needs Pillow (Debian: apt-get install python3-pil)" >&2
    exit 1
fi
find_program
exec "$python" -B "$top/tools/losses.py" "$(realpath "$program")" "$@"
