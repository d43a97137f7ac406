#!/bin/sh
# Asks this program and another one the same of random images and streams, and compares status, output and note.
#
#   OTHER=COMMAND tools/checks/try_images.sh COUNT [SEED]
#
# COMMAND runs another reading of the rules in docs/formats.md that takes the program's words. Needs python3. The program
# is that of this repository, or the one that STRIP122 names.
. "$(dirname "$0")/../common.sh"
if [ -z "$OTHER" ]; then
    echo "usage: OTHER=COMMAND $0 COUNT [SEED]" >&2
    exit 2
fi
need python3
find_program
PYTHONPATH=$top/tools exec python3 -B "$top/tools/checks/try_images.py" "$program" "$OTHER" "$@"
