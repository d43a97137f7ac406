#!/bin/sh
# Makes the PNG files here by the program, and reports the octets of each encoding. It needs netpbm (Debian's package), and for lost_packets.png
# the photograph of an astronaut by NASA, in the public domain, that Debian's python3-skimage has.
# The program is that of this repository, or the one that STRIP122 names.
cd "$(dirname "$0")" || exit
if ! command -v pnmtopng >/dev/null; then
    echo "$0: needs netpbm (Debian: apt-get install netpbm)" >&2
    exit 1
fi
program=$(realpath "${STRIP122:-../../strip122}")
"$program" version >/dev/null || exit
kept=$(mktemp -d) || exit
trap 'rm -rf "$kept"' EXIT
trap 'exit 1' HUP INT TERM
side=256

# A sun, hills and fields, as a plain PGM.
drawing='
function hill(x, at, width, height,    d) { d = (x - at) / width; return height / (1 + d * d) }
function shade(y, x,    sun, far, near) {
    sun = (y - 62) * (y - 62) + (x - 176) * (x - 176)
    far = 150 - hill(x, 60, 30, 70) - hill(x, 200, 45, 45)
    near = 186 - hill(x, 130, 60, 34)
    if (y > near) return 70 + int((x - 128) * 12 / (y - near + 24) + 400) % 2 * 70 + int((y - near) / 2)
    if (y > far) return 120 - int((y - far) / 2) + (x * 7 + y * 13) % 11
    if (sun < 900) return 250
    if (sun < 1300) return 190
    return 215 - int(y / 2)
}
BEGIN {
    print "P2\n" side, side, 255
    for (y = 0; y < side; y++) for (x = 0; x < side; x++) print shade(y, x)
}'

# PGM of a raster on standard input.
pgm() {
    printf 'P5\n%d %d\n255\n' $side $side
    cat
}

encode() {
    "$program" encode width=$side rows=$side "$@" <"$kept/raster"
}

# NAME RESTORE KEY=VALUE ..: a picture that was encoded so, and decoded with restore=RESTORE.
picture() {
    name=$1 restore=$2
    shift 2
    encode "$@" >"$kept/packets" && "$program" decode "restore=$restore" <"$kept/packets" | pgm | pnmtopng -compression 9 >"$name.png"
    echo "$name.png: restore=$restore $* $(wc -c <"$kept/packets") octets of packets"
}

# The packets without those whose numbers are given.
without() {
    ../../tools/drop_packet.sh "$@" <"$kept/packets"
}

# A column that is bright in the damaged rows, from the lines of `damage`.
column() {
    awk -F - -v side=$side '
    { for (y = $1; y <= $2; y++) bright[y] = 1 }
    END {
        print "P2\n8", side, 255
        for (y = 0; y < side; y++) for (x = 0; x < 8; x++) print (x > 1 && (y in bright) ? 255 : 0)
    }'
}

# A picture on which the edges of rectangles are bright: the lines of `rects`, and then a plain PGM.
edges='
FNR == NR {
    split($0, ends, /[- ]/)
    for (y = ends[1]; y <= ends[2]; y++) edge[y, ends[3]] = edge[y, ends[4]] = 1
    for (x = ends[3]; x <= ends[4]; x++) edge[ends[1], x] = edge[ends[2], x] = 1
    next
}
{ for (i = 1; i <= NF; i++) token[count++] = $i }
END {
    print "P2\n" side, side, 255
    for (at = 4; at < count; at++) print ((int((at - 4) / side), (at - 4) % side) in edge ? 255 : token[at])
}'

awk -v side=$side "$drawing" | pnmtopnm >"$kept/drawn.pgm" || exit
tail -c $((side * side)) "$kept/drawn.pgm" >"$kept/raster"
picture picture 0
encode packet=65536 >"$kept/packets"
without 3 >"$kept/received"
"$program" decode <"$kept/received" 2>"$kept/note" | pgm >"$kept/lost.pgm"
"$program" damage <"$kept/received" 2>/dev/null | column >"$kept/column.pgm"
pnmcat -lr "$kept/lost.pgm" "$kept/column.pgm" | pnmtopng -compression 9 >lost.png
echo "lost.png: packet=65536, without packet 3; $(cat "$kept/note")"
encode segment=16 packet=65536 >"$kept/packets"
without 8 21 32 45 >"$kept/received"
"$program" decode <"$kept/received" 2>"$kept/note" | pgm | pnmtoplainpnm >"$kept/lost.pgm"
"$program" rects <"$kept/received" 2>/dev/null >"$kept/rects"
awk -v side=$side "$edges" "$kept/rects" "$kept/lost.pgm" | pnmtopnm | pnmtopng -compression 9 >rects.png
echo "rects.png: segment=16 packet=65536, without packets 8, 21, 32 and 45; $(cat "$kept/note")"
picture stop_dc 0 stop=dc
picture stop_6.3 0 stop=6.3
picture restored_6.3 1 stop=6.3
picture stop_3.3 0 stop=3.3
picture limit 0 limit=200

photograph=/usr/lib/python3/dist-packages/skimage/data/astronaut.png
if [ -f "$photograph" ]; then
    side=512
    pngtopnm "$photograph" | ppmtopgm | tail -c $((side * side)) >"$kept/raster"
    encode segment=32 packet=65536 >"$kept/packets"
    ../../tools/drop_packet.sh 21 46 47 90 <"$kept/packets" >"$kept/received"
    "$program" decode <"$kept/received" 2>"$kept/note" | pgm | pnmtopng -compression 9 >lost_packets.png
    echo "lost_packets.png: segment=32 packet=65536, without packets 21, 46, 47 and 90 of 128; $(cat "$kept/note")"
fi
