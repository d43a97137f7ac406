#!/bin/sh
# Refuses each allocation of twenty runs of the program in turn (tools/checks/refuse_allocations.sh). A run is wrong if it has another end than status 6
# with nothing given, or that of the undisturbed run, or if no allocation was refused: then the program doesn't allocate by the C library.
#
#   tools/checks/try_allocations.sh
#
# The program is that of this repository, or the one that STRIP122 names. It needs a C compiler.
. "$(dirname "$0")/../common.sh"
find_program
make_folder
program=$(realpath "$program")
cd "$kept" || exit

# The program's inputs: rasters, packets of one image whole and with a loss, a bare stream, and records of two cameras.
head -c 289 /dev/zero >black
head -c 8192 /dev/zero >tall
"$program" encode width=17 rows=17 <black >one
"$program" encode width=64 rows=128 segment=16 <tall >eight
"$top/tools/drop_packet.sh" 3 <eight >seven
"$program" make width=64 rows=128 | "$program" encode width=64 rows=128 segment=16 limit=120 fill=1 packet=64 >parts
"$top/tools/drop_packet.sh" 10 <parts >fewer
"$program" bare-encode width=17 rows=17 <black >bare
for row in $(seq 17); do for camera in 0 1; do printf "\\$camera"; head -c 17 /dev/zero; done; done >records

runs=0 wrong=0

# INPUT WORDS ..: refuses each allocation of this run.
refuse() {
    input=$1
    shift
    if ! STRIP122=$program "$top/tools/checks/refuse_allocations.sh" "$@" <"$input" >line || grep -q ': 0 allocations:' line; then
        wrong=$((wrong + 1))
    fi
    cat line
    runs=$((runs + 1))
}

refuse black encode width=17 rows=17
refuse tall encode width=64 rows=128 segment=16
for packets in one seven fewer; do
    for command in decode damage list; do
        refuse $packets $command
    done
done
for command in look rects info pick; do
    refuse seven $command
done
refuse black bare-encode width=17 rows=17
refuse bare bare-decode
refuse records mux cameras=2 width=17 rows=17
refuse /dev/null trial width=17 rows=17
refuse /dev/null make width=17 rows=17
echo "$runs runs, $wrong wrong"
[ $wrong = 0 ]
