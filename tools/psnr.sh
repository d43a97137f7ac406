#!/bin/sh
# Compares decoded pictures with and without restored coefficients at equal octets: a table of PSNR in dB.
#
#   tools/psnr.sh [PICTURE ..]
#
# Without pictures it takes docs/pictures/picture.png and two that it draws, and if Debian's python3-skimage is installed, its photograph
# of a camera too. Each is encoded with a stop, and with a total of 0.25 to 2 bits a pixel. The program is that of this repository, or the
# one that STRIP122 names.
. "$(dirname "$0")/common.sh"
need_package
find_program
exec "$python" -B "$top/tools/psnr.py" "$(realpath "$program")" "$@"
