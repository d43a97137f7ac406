#!/bin/sh
# Calls the library for C with inputs that clang's libFuzzer makes: settings and rows, row by row and whole, and packets to decode. A call
# that breaks the rules of c/strip122.h, reads or writes where it may not, or never ends stops it, and the input is kept.
#
#   tools/fuzz_c.sh [SECONDS] [FOLDER]     60 seconds, and a folder of inputs to begin with, where new ones are kept
#
# The library is that of this repository, which has to be built, or the one that STRIP122_C names.
. "$(dirname "$0")/common.sh"
seconds=${1:-60}
library=${STRIP122_C:-$top/crates/strip122_c/out/libstrip122_c.a}
make_folder
folder=${2:-$kept/inputs}

printf '#include <stddef.h>\n#include <stdint.h>\nint LLVMFuzzerTestOneInput(const uint8_t *a, size_t n) { return a[0] > n; }\n' >"$kept/none.c"
if ! command -v clang >/dev/null || ! clang -fsanitize=fuzzer -o "$kept/none" "$kept/none.c" 2>/dev/null; then
    echo "skipped: there is no clang with libFuzzer"
    exit 0
fi
if [ ! -e "$library" ]; then
    echo "$0: $library is missing: make build, or STRIP122_C names the library" >&2
    exit 1
fi
mkdir -p "$folder" &&
    clang -std=c99 -g -O1 -fsanitize=fuzzer,address,undefined -I"$top/c" -o "$kept/fuzz" "$top/tools/fuzz.c" "$top/c/heap.c" "$library" &&
    "$kept/fuzz" -max_total_time="$seconds" -max_len=4096 -timeout=20 -artifact_prefix="$top/" "$folder"
