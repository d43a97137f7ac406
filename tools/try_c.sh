#!/bin/sh
# Builds the library for C, links it, runs its tests (tools/checks/c_tests.c), and compares its answers with those of the program: the header
# by itself, an example in C with fixed memory, one that encodes row by row and one that reads packets, these also under valgrind if it is
# there, one in Rust if rustc is there, and random settings, row by row and whole, by Python's ctypes. It prints how much of a painted stack
# each call has written, and fails if that is more than 65,536 octets.
#
#   tools/try_c.sh [SETTINGS] [SEED]
#
# The program is that of this repository, or the one that STRIP122 names, and the library too, or the one that STRIP122_C names.
. "$(dirname "$0")/common.sh"
settings=${1:-300}
seed=${2:-1}

find_compilers
need python3
find_program
if [ -z "$STRIP122_C" ]; then
    (cd "$top/crates/strip122_c" && rt lib) >&2 </dev/null || exit
fi
library=${STRIP122_C:-$top/crates/strip122_c/out/libstrip122_c.a}
STRIP122_C=$library "$top/tools/checks/try_c_tests.sh" || exit
make_folder

# NAME PACKETS COMMAND ..: an example gives the packets that the program gives, and a picture that it makes of them is the raster.
example() {
    name=$1
    packets=$2
    shift 2
    "$@" <"$kept/raster" >"$kept/$name.packets" 2>"$kept/note" && cmp "$kept/$name.packets" "$packets" || {
        cat "$kept/note" >&2
        echo "$0: $name differs from the program" >&2
        exit 1
    }
    echo "same: $name"
}

"$program" make width=200 rows=100 seed=3 >"$kept/raster" &&
    "$program" encode width=200 rows=100 <"$kept/raster" >"$kept/packets" &&
    "$program" encode width=200 rows=100 segment=128 limit=8192 <"$kept/raster" >"$kept/rows.packets" &&
    "$program" encode width=200 rows=0 segment=128 limit=8192 <"$kept/raster" >"$kept/open.packets" || exit
strict="-std=c99 -pedantic -O2 -Wall -Wextra -Wconversion -Werror -I$top/c"
for compiler in $compilers; do
    for example in example example_rows; do
        "$compiler" $strict -o "$kept/${example}_$compiler" "$top/c/$example.c" "$top/c/arena.c" "$library" || exit
    done
    example "example_c_$compiler" "$kept/packets" "$kept/example_$compiler" 200 100
    example "example_rows_$compiler" "$kept/rows.packets" "$kept/example_rows_$compiler" 200 100 8
    example "open_rows_$compiler" "$kept/open.packets" "$kept/example_rows_$compiler" 200 0 8
    "$compiler" $strict -o "$kept/example_ground_$compiler" "$top/c/example_ground.c" "$top/c/heap.c" "$library" || exit
done

# NAME COMMAND ..: an example gives what each command gives of packets of which one is lost, with the same status.
reads() {
    name=$1
    shift
    for call in decode look rects info; do
        "$program" $call apid=100 <"$kept/lost.packets" >"$kept/wanted" 2>"$kept/note"
        wanted=$?
        "$@" $call 100 <"$kept/lost.packets" >"$kept/got" 2>"$kept/note"
        got=$?
        [ $got -eq $wanted ] && [ $got -le 1 ] && cmp "$kept/got" "$kept/wanted" || {
            cat "$kept/note" >&2
            echo "$0: $name $call differs from the program: status $got, and not $wanted" >&2
            exit 1
        }
    done
    echo "same: $name"
}

head -c 12000 "$kept/packets" >"$kept/lost.packets"
for compiler in $compilers; do
    reads "example_ground_$compiler" "$kept/example_ground_$compiler"
done

if command -v valgrind >/dev/null; then
    example valgrind_rows "$kept/rows.packets" valgrind -q --error-exitcode=9 "$kept/example_rows_$first_compiler" 200 100 8
    reads valgrind_ground valgrind -q --leak-check=full --error-exitcode=9 "$kept/example_ground_$first_compiler"
else
    echo "no valgrind: it is skipped"
fi
for compiler_of_cpp in ${CXX:-g++ clang++}; do
    if command -v "$compiler_of_cpp" >/dev/null; then
        printf '#include "arena.h"\n#include "strip122.h"\n' >"$kept/header.cc" &&
            "$compiler_of_cpp" -std=c++11 -pedantic -Wall -Wextra -Wconversion -Werror -I"$top/c" -fsyntax-only "$kept/header.cc" || exit
        echo "clean: the headers as C++ by $compiler_of_cpp"
    fi
done

"$first_compiler" $strict -fPIC -c -o "$kept/heap.o" "$top/c/heap.c" &&
    "$first_compiler" $strict -fPIC -c -o "$kept/arena.o" "$top/c/arena.c" &&
    "$first_compiler" $strict -D_POSIX_C_SOURCE=200809L -o "$kept/stack" "$top/tools/stack.c" "$kept/heap.o" "$library" -lpthread &&
    "$program" make width=512 rows=512 seed=3 >"$kept/square" && "$kept/stack" <"$kept/square" || exit
for memory in heap arena; do
    "$first_compiler" -shared -o "$kept/lib_$memory.so" "$kept/$memory.o" -Wl,--whole-archive "$library" -Wl,--no-whole-archive || exit
done

if command -v rustc >/dev/null && rustc --version >/dev/null 2>&1; then
    rustc --edition 2024 -O -C "link-arg=$library" -C "link-arg=$kept/heap.o" -o "$kept/example_rust" "$top/c/example.rs" || exit
    example example_rust "$kept/packets" "$kept/example_rust" 200 100
else
    echo "no rustc: its example is skipped"
fi

PYTHONPATH=$top/python/strip122 python3 -B "$top/tools/try_c.py" "$program" "$kept/lib_heap.so" "$kept/lib_arena.so" "$settings" "$seed" || exit
echo "all the same"
