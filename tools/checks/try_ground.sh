#!/bin/sh
# Runs the tests of the package in python/, and mypy over it if that is installed.
#
#   tools/checks/try_ground.sh [WORDS OF PYTEST ..]        as: tools/checks/try_ground.sh --seed 2
#
# The program is that of this repository, or the one that STRIP122 names. The library for C is tried too, if it is built or
# STRIP122_C names it. Without the packages that tools/setup.sh installs it says `skipped`, and tries nothing.
. "$(dirname "$0")/../common.sh"
if ! find_python $test_modules; then
    echo "skipped: the tests of python/: no Python 3 has $test_modules; tools/setup.sh installs them"
    exit 0
fi
find_program
if "$python" -m mypy --version >/dev/null 2>&1; then
    (cd "$top/python" && "$python" -m mypy --cache-dir=/dev/null) || exit
else
    echo "skipped: mypy is missing"
fi
cd "$top/python" && STRIP122=$(realpath "$(command -v "$program")") exec "$python" -B -m pytest -q "$@"
