#!/bin/sh
# Loses and changes parts of streams of packets, decodes what is left, and compares.
#
#   tools/checks/try_streams.sh COUNT [SEED [CHANGES]]
#
# COUNT images are made; the packets of each are lost in four ways, and its octets changed in CHANGES ways, 4 if left out. Needs
# python3. The program is that of this repository, or the one that STRIP122 names.
. "$(dirname "$0")/../common.sh"
need python3
find_program
PYTHONPATH=$top/tools exec python3 -B "$top/tools/checks/try_streams.py" "$program" "$@"
