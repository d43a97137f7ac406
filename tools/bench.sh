#!/bin/sh
# Measures encoding and decoding, in nanoseconds of user and system time a pixel, and prints a table.
#
#   tools/bench.sh [--rounds N] [--most SIDE] [PICTURE.pgm ..]
#
# A round measures each line of the table once; there are 5 if it isn't given. SIDE is the side of the greatest picture, 2048 if it
# isn't given. A PGM is P5, of 8 or 16 bits. The program is that of this repository, or the one that STRIP122 names. Other coders run
# beside it if they are installed: Debian's packages libaec-tools, libopenjp2-tools and libjxl-tools. Twelve real pictures are
# measured beside libaec if Debian's python3-skimage is installed too. A table of its own has the library row by row, beside whole images: the library of this repository, or the one that STRIP122_C names, if it is built.
. "$(dirname "$0")/common.sh"
need_package
find_program
exec "$python" "$top/tools/bench.py" "$program" "$@"
