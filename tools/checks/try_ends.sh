#!/bin/sh
# Encodes and decodes at the ends of sizes and settings, and compares what comes back. The program is that of this
# repository, or the one that STRIP122 names; /usr/bin/time (Debian's package time) tells the memory where it is there.
. "$(dirname "$0")/../common.sh"
find_program
make_folder
wrong=0
apid=100

# Runs the program, with its greatest memory in a file.
run() {
    if [ -x /usr/bin/time ]; then
        /usr/bin/time -f %M -o "$kept/memory" "$program" "$@"
    else
        "$program" "$@"
    fi
}

memory() {
    [ ! -s "$kept/memory" ] || echo "$(tail -n 1 "$kept/memory") kB"
}

# WIDTH ROWS DEPTH SIGNED KEY=VALUE ..: one picture there and back.
back() {
    sizes="width=$1 rows=$2 depth=$3 signed=$4"
    shift 4
    "$program" make $sizes seed=5 >"$kept/raster" &&
        run encode $sizes apid=$apid "$@" <"$kept/raster" >"$kept/packets" && encoded=$(memory) &&
        run decode pixels=1099511627776 apid=$apid <"$kept/packets" >"$kept/picture" && decoded=$(memory) &&
        cmp "$kept/raster" "$kept/picture" &&
        echo "same: $sizes${*:+ $*}: $(wc -c <"$kept/packets") octets${encoded:+, $encoded and $decoded}" || {
        echo "WRONG: $sizes${*:+ $*}"
        wrong=1
    }
}

for depth in 1 8 9 16; do
    for signed in 0 1; do
        back 17 17 $depth $signed
        back 24 25 $depth $signed segment=1048575 packet=64
    done
done
back 1048575 17 8 0
back 1048575 17 16 1 packet=65536 segment=1048575
back 17 262144 8 0 segment=16 packet=64
back 17 262144 16 1 packet=65536
back 4096 16384 8 0
back 1024 262144 8 0
for word in 1 2 3 4; do
    back 333 222 12 1 word=$word select=heuristic weights=3333333333
    back 333 222 12 1 word=$word limit=134217720 weights=0000000000
done
apid=0
back 100 100 8 0 image=65535
apid=2046
back 100 100 8 0 segment=16 limit=9600 fill=1
exit $wrong
