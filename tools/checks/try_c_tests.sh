#!/bin/sh
# Tests the library for C by its calls: links c_tests.c with it, by each C compiler that is there, and runs it, once under valgrind too if that
# is installed. A run ends with `N passed, M failed`.
#
# The library is the one that STRIP122_C names, or else the one that `rt lib` in crates/strip122_c, tools/checks/build_c.sh or tools/build.sh
# has built, if no file of the crates is newer. If there is none, nothing is tested: a build is a proof of the crate.
. "$(dirname "$0")/../common.sh"
find_compilers
library=$STRIP122_C
for built in "$top/crates/strip122_c/out/libstrip122_c.a" "$top/build/libstrip122.a"; do
    if [ -z "$library" ] && is_built "$built"; then
        library=$built
    fi
done
if [ -z "$library" ]; then
    echo "skipped: the library for C isn't built, or files of the crates are newer"
    exit 0
fi
make_folder
for compiler in $compilers; do
    "$compiler" -std=c11 -pedantic -O2 -g -Wall -Wextra -Wconversion -Werror -I"$top/c" -o "$kept/c_tests_$compiler" \
        "$top/tools/checks/c_tests.c" "$library" && "$kept/c_tests_$compiler" || exit
done
if command -v valgrind >/dev/null; then
    valgrind -q --leak-check=full --error-exitcode=9 "$kept/c_tests_$first_compiler"
fi
