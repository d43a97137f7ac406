#!/bin/sh
# Draws a picture, encodes it, loses one of its packets, decodes the rest, and shows what was lost.
# The program is the one that STRIP122 names, or the proved one if it is built, and otherwise one that `rt try` compiles without proving it.
. "$(dirname "$0")/common.sh"
make_folder
width=96
rows=192

program=${STRIP122:-$top/crates/strip122/out/strip122}
if [ ! -x "$program" ]; then
    need rt
    echo "compiling it unproved, one to three minutes" >&2
    build_unproved
fi

# A disc, a ring and stripes before a sky that darkens, as octal escapes.
drawing='
function shade(i, j,    up, across, d) {
    up = (i - 64) / 2; across = j - 40; d = up * up + across * across
    if (d < 500) return 255
    if (d < 800) return 60
    if (i > 110 && i < 170 && j > 20) return int((2 * j + i) / 24) % 2 ? 230 : 90
    return 200 - int(i / 2)
}
BEGIN { for (i = 0; i < rows; i++) for (j = 0; j < width; j++) printf "\\%03o", shade(i, j) }'

# A raster as text, a character for 6 rows and 3 columns.
shown='
{ for (i = 1; i <= NF; i++) octet[count++] = $i }
END {
    for (i = 0; i < count; i += 6 * width) {
        for (j = 0; j < width; j += 3) {
            sum = 0
            for (a = 0; a < 6; a++) for (b = 0; b < 3; b++) sum += octet[i + a * width + j + b]
            printf "%s", substr(" .:-=+*#%@", 1 + int(sum / 18 / 25.6), 1)
        }
        print ""
    }
}'

# The lines of both pictures, and a mark where a line has damaged rows.
beside='
BEGIN { split(damaged, ends, "-") }
{
    first = 6 * (NR - 1)
    mark = ends[2] != "" && first + 5 >= ends[1] && first <= ends[2] ? "|" : " "
    print $0 "  " mark
}'

printf "$(awk -v width=$width -v rows=$rows "$drawing")" >"$kept/raster"
"$program" encode width=$width rows=$rows segment=24 packet=65536 <"$kept/raster" >"$kept/packets" || exit
"$top/tools/drop_packet.sh" 5 <"$kept/packets" >"$kept/received" || exit
sent=$(wc -c <"$kept/packets")
lost=$((sent - $(wc -c <"$kept/received")))
"$program" decode <"$kept/received" >"$kept/decoded" 2>"$kept/note"
status=$?
grep -v '^strip122' "$kept/note" >&2
damaged=$(sed -n 's/^strip122: damaged rows \([0-9]*-[0-9]*\).*/\1/p' "$kept/note")

# A line of numbers for each row.
for name in raster decoded; do
    od -An -v -tu1 -w$width "$kept/$name" >"$kept/$name.rows"
    awk -v width=$width "$shown" "$kept/$name.rows" >"$kept/$name.text"
done
paste -d '~' "$kept/raster.text" "$kept/decoded.text" | sed 's/~/    /' | awk -v damaged="$damaged" "$beside"
echo
echo "$(wc -c <"$kept/raster") octets of $rows rows went into $("$program" list <"$kept/packets" | wc -l) packets of $sent octets."
echo "Packet 5 of $lost octets was lost. Decoding the others ended with status $status and this note:"
grep '^strip122' "$kept/note"
paste -d '~' "$kept/raster.rows" "$kept/decoded.rows" | awk -F '~' -v damaged="$damaged" '
BEGIN { split(damaged, ends, "-") }
$1 != $2 { if (NR - 1 >= ends[1] && NR - 1 <= ends[2]) within++; else without++ }
END { print "Of these rows " within + 0 " differ from the picture, and of all others " without + 0 "." }'
