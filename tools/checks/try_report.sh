#!/bin/sh
# Draws a pass, writes its report, and opens that in headless Chromium: as many cards as images, no picture that fails to load,
# sorting, filters and keys, four screens, and no message on the console.
#
#   tools/checks/try_report.sh [--images N] [--pictures FOLDER] [--screenshot FILE]
#
# FOLDER gets a picture of each screen, and FILE one of the top of the page. The program is that of this repository, or the one that
# STRIP122 names. Without Chromium or the packages that tools/setup.sh installs it says `skipped`, and tries nothing.
. "$(dirname "$0")/../common.sh"
images=40
if [ "$1" = --images ]; then
    images=$2
    shift 2
fi
if ! find_python $package_modules || ! command -v chromium >/dev/null; then
    echo "skipped: the report in a browser: needs chromium and a Python 3 with $package_modules; tools/setup.sh installs them"
    exit 0
fi
find_program
make_folder
STRIP122=$(realpath "$(command -v "$program")")
export STRIP122 PYTHONPATH="$top/python"
"$python" -B "$top/python/tests/scenes.py" "$kept/downlink.pass" --images "$images" || exit
"$python" -B -m strip122 report "$kept/downlink.pass" --into "$kept/report"
[ $? -le 1 ] || exit 1
"$python" -B "$top/python/tests/try_report.py" "$kept/report" "$@"
