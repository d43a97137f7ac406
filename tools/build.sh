#!/bin/sh
# Proves and builds the program (crates/strip122/out/strip122) and the library for C (build/), and says how far it is. The first time it
# proves all crates below them, which takes one to two hours on four processors; what is proved is kept.
. "$(dirname "$0")/common.sh"
need rt
cc=${CC:-cc}
need "$cc"
need ar
find_version
make_folder
cd "$top" || exit
start=$(date +%s)

# The crates that the program and the library for C are made of, each after those that it uses.
crates=$(crates_below strip122 strip122_c) || exit
count=$(echo "$crates" | wc -l)
at=0
for crate in $crates; do
    at=$((at + 1))
    minutes=$((($(date +%s) - start) / 60))
    echo "crate $at of $count: $crate, $minutes minutes so far"
    case $crate in
        strip122) set -- run -- version ;;
        strip122_c) set -- lib ;;
        *) set -- check ;;
    esac
    (cd "crates/$crate" && rt "$@") >"$kept/log" 2>&1 </dev/null
    status=$?
    if [ $status != 0 ]; then
        cat "$kept/log" >&2
        echo "$0: 'rt $*' in crates/$crate ended with status $status; what is proved so far is kept" >&2
        exit 1
    fi
done

# The library for C, static and shared. While the version begins with 0, its second number is a part of the interface's.
mkdir -p build || exit
interface=${version%.*}
printf '{ global: strip122_*; local: *; };\n' >"$kept/exports"
"$cc" -std=c11 -O2 -fPIC -Ic -ffile-prefix-map="$top"=. -c -o "$kept/heap.o" c/heap.c &&
    cp crates/strip122_c/out/libstrip122_c.a "$kept/libstrip122.a" &&
    chmod u+w "$kept/libstrip122.a" &&
    ar rD "$kept/libstrip122.a" "$kept/heap.o" 2>/dev/null &&
    "$cc" -shared -Wl,-soname,libstrip122.so."$interface" -Wl,--version-script="$kept/exports" -o "$kept/libstrip122.so" "$kept/heap.o" \
        -Wl,--whole-archive crates/strip122_c/out/libstrip122_c.a -Wl,--no-whole-archive || exit
rt version >"$kept/kit" || exit
mv "$kept/libstrip122.a" "$kept/libstrip122.so" "$kept/kit" build/ || exit
echo "built after $((($(date +%s) - start) / 60)) minutes: crates/strip122/out/strip122, build/libstrip122.a, build/libstrip122.so"
