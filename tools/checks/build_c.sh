#!/bin/sh
# Builds the library for C (crates/strip122_c/out/libstrip122_c.a) in a clone in which `rt ci` has run and nothing else. The compiler proves
# the crate strip122_c for it, over the libraries that `rt ci` has left. `rt lib` would prove all crates below it as well, since it doesn't
# begin with these libraries. Without a C compiler, which the tests of the library need, nothing is built.
. "$(dirname "$0")/../common.sh"
need rt
find_compilers
kit=$(dirname "$(dirname "$(realpath "$(command -v rt)")")")
crate=strip122_c

set -- --extern std="$kit/rlibs/std.rlib" -L dependency="$kit/rlibs"
for name in $(crates_below "$crate"); do
    [ "$name" = "$crate" ] || set -- "$@" -L dependency="../$name/out/rlib"
done
for name in $(sed -n "s/^$crate [^:]*://p" "$top/crates.txt"); do
    library=../$name/out/rlib/$name.rlib
    [ -d "$top/crates/$name" ] || library=$kit/rlibs/$name.rlib
    set -- "$@" --extern "$name=$library"
done
make_folder
cd "$top/crates/$crate" && mkdir -p out || exit
if ! "$kit/bin/rattle" build --crate-name "$crate" --crate-type staticlib src/lib.rt "$@" --antt-project "$kit/rattle/logic/antt-project.json" \
    --logic-built "$kit/logic_built" --jobs 2 --toolchain "$kit/toolchain" --backend llvm -o "out/lib$crate.a" >"$kept/log" 2>&1; then
    cat "$kept/log" >&2
    echo "$0: the library for C isn't built" >&2
    exit 1
fi
tail -n 1 "$kept/log"
