#!/bin/sh
# Refuses one allocation of a run, for each of its allocations in turn, and tells what came of it.
#
#   tools/checks/refuse_allocations.sh WORDS <IN            the program with these words and this input, to its last allocation
#   tools/checks/refuse_allocations.sh tests CRATE MOST     each test of a crate, to its last allocation or the one of this number
#
# A run without that allocation may end as the undisturbed one does, or with status 6 and nothing given; a test may pass or
# have no memory. The program is that of this repository, or the one that STRIP122 names, and the tests are those that `rt test`
# builds. A C compiler makes the allocator that refuses.
. "$(dirname "$0")/../common.sh"
make_folder
wrong=0

# An allocator over that of the C library, which refuses the call whose number from the start is in REFUSED, and then writes to
# descriptor 9. The program takes all its memory by these calls.
allocator='
#include <stdlib.h>
#include <unistd.h>

void *__libc_malloc(size_t);
void *__libc_calloc(size_t, size_t);
void *__libc_realloc(void *, size_t);

static long left;

__attribute__((constructor)) static void start(void) { left = atol(getenv("REFUSED")); }

static int refuses(void) { return left > 0 && --left == 0 && write(9, "refused\n", 8) == 8; }

void *malloc(size_t size) { return refuses() ? NULL : __libc_malloc(size); }
void *calloc(size_t count, size_t size) { return refuses() ? NULL : __libc_calloc(count, size); }
void *realloc(void *old, size_t size) { return refuses() ? NULL : __libc_realloc(old, size); }
'

make_allocator() {
    need cc
    printf %s "$allocator" >"$kept/allocator.c"
    cc -O1 -fno-builtin -shared -fPIC -o "$kept/allocator.so" "$kept/allocator.c" || exit
}

# Runs the program with one allocation refused, or with none for 0: its output, its note, its status, and whether one was.
run_program() {
    refused=$1
    to=$kept/$2
    shift 2
    env REFUSED="$refused" LD_PRELOAD="$kept/allocator.so" "$program" "$@" <"$kept/in" >"$to" 2>"$to.note" 9>"$to.refused"
    echo $? >"$to.status"
}

is_undisturbed() {
    cmp -s "$kept/now" "$kept/alone" &&
        cmp -s "$kept/now.note" "$kept/alone.note" &&
        cmp -s "$kept/now.status" "$kept/alone.status"
}

# Status 6, nothing given, and nothing but the note.
is_want_of_memory() {
    note=$(cat "$kept/now.note")
    [ "$(cat "$kept/now.status")" = 6 ] && [ ! -s "$kept/now" ] && { [ -z "$note" ] || [ "$note" = "strip122: no memory" ]; }
}

try_program() {
    find_program
    make_allocator
    cat >"$kept/in"
    run_program 0 alone "$@"
    n=1 same=0 wants=0
    while
        run_program $n now "$@"
        [ -s "$kept/now.refused" ]
    do
        if is_undisturbed; then
            same=$((same + 1))
        elif is_want_of_memory; then
            wants=$((wants + 1))
        else
            echo "OTHER: $*: N = $n: status $(cat "$kept/now.status"), $(wc -c <"$kept/now") octets, '$(cat "$kept/now.note")'"
            wrong=1
        fi
        n=$((n + 1))
    done
    as="status $(cat "$kept/alone.status"), $(wc -c <"$kept/alone") octets"
    echo "$*: $((n - 1)) allocations: status 6 and nothing given $wants, as undisturbed ($as) $same, other $((n - 1 - wants - same))"
}

# A test that has no memory ends with an error that says so, or on the status that does.
lacks_memory() {
    grep -q -e ' AllocError$' -e ' AllocFailed ' -e '^ *left: 6$' "$kept/now.note"
}

try_test() {
    n=1 passed=0 wants=0 others=0
    while
        run_program $n now "$1"
        [ -s "$kept/now.refused" ] && [ $n -le "$2" ]
    do
        if [ "$(cat "$kept/now.status")" = 0 ]; then
            passed=$((passed + 1))
        elif lacks_memory; then
            wants=$((wants + 1))
        else
            echo "OTHER: $1: N = $n: status $(cat "$kept/now.status"), $(cat "$kept/now.note")"
            others=$((others + 1)) wrong=1
        fi
        n=$((n + 1))
    done
    more=
    [ ! -s "$kept/now.refused" ] || more=" and more"
    echo "$1: $((n - 1))$more allocations: no memory $wants, passed $passed, other $others"
}

try_tests() {
    program=$top/crates/$1/out/$1_tests
    [ -x "$program" ] || (cd "$top/crates/$1" && rt test) >&2 || exit
    make_allocator
    : >"$kept/in"
    "$program" --list | sed -n 's/: test$//p' >"$kept/names"
    while read -r name <&8; do
        try_test "$name" "$2"
    done 8<"$kept/names"
}

case "$#,$1" in
0,*)
    echo "usage: $0 WORDS <IN, or $0 tests CRATE MOST" >&2
    exit 2
    ;;
3,tests) try_tests "$2" "$3" ;;
*) try_program "$@" ;;
esac
exit $wrong
