#!/bin/sh
# Drops packets from a stream, as a bad link does: tools/drop_packet.sh NUMBER .. < packets > received. Packets are counted from 0, as `list`
# counts them.
. "$(dirname "$0")/common.sh"
for number in "$@"; do
    case $number in
        '' | *[!0-9]*)
            echo "usage: $0 NUMBER .. < packets > received" >&2
            exit 1
            ;;
    esac
done
make_folder
cat >"$kept/packets" || exit

# The places and lengths of the packets that are kept, side by side ones together. A primary header has 6 octets, and the data field one more
# than its last two say.
places='
BEGIN { split(dropped, numbers, " "); for (i in numbers) is_dropped[numbers[i]] = 1 }
{ for (i = 1; i <= NF; i++) octet[count++] = $i }
END {
    for (at = 0; at < count; at = end) {
        end = at + 7 + 256 * octet[at + 4] + octet[at + 5]
        if (number++ in is_dropped) { if (at > from) print from + 0, at - from; from = end }
    }
    if (count > from) print from + 0, count - from
}'
od -An -v -tu1 "$kept/packets" | awk -v dropped="$*" "$places" >"$kept/places" || exit
while read -r at length; do
    tail -c +$((at + 1)) "$kept/packets" | head -c "$length" || exit
done <"$kept/places"
