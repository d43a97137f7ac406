#!/bin/sh
# Compares the program with other coders on real pictures: octets, and the greatest memory at 4,096 x 4,096.
#
#   tools/pictures.sh [--side SIDE] [PICTURE ..]
#
# Without pictures it takes twelve of Debian's python3-skimage, as 8 bits of grey. Other coders run if they are installed: Debian's packages
# libaec-tools, libopenjp2-tools and libjxl-tools. The program is that of this repository, or the one that STRIP122 names.
. "$(dirname "$0")/common.sh"
need /usr/bin/time
if ! find_python PIL; then
    echo "$0: needs Pillow (Debian: apt-get install python3-pil)" >&2
    exit 1
fi
find_program
exec "$python" -B "$top/tools/pictures.py" "$(realpath "$program")" "$@"
