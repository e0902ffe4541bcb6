#!/bin/sh
# Holds the example head-end against the independent implementation: against the same example linked with it, and what it
# prints of the stop against its list of the stops.
# Usage: tests/example.sh TOOLS PROGRAM
#   TOOLS    the folder where tests/build.sh put plain_head_end and plain_stops
#   PROGRAM  the example, linked with the library
# SAMPLES in the environment is the folder of the real packets.
set -eu
[ $# -eq 2 ] || { echo "usage: tests/example.sh TOOLS PROGRAM" >&2; exit 2; }
tools=$1
program=$2
cd "$(dirname "$0")/.."
. tests/tally.sh
samples=${SAMPLES:-samples}
room=$(mktemp -d)
trap 'rm -rf "$room"' EXIT

# same PACKET BUDGET: both print the same and end with the same status
same() {
    "$program" "$1" "$2" >"$room/printed" 2>&1 && echo 0 >>"$room/printed" || echo $? >>"$room/printed"
    "$tools/plain_head_end" "$1" "$2" >"$room/expected" 2>&1 && echo 0 >>"$room/expected" || echo $? >>"$room/expected"
    cmp -s "$room/printed" "$room/expected" && return
    echo "      $1, budget $2: printed $(head -n 1 "$room/printed"), expected $(head -n 1 "$room/expected")"
    return 1
}

# every fortieth stop, at its bits and a bit less
compared=0
wrong=0
for packet in "$samples"/*_q50.pkt; do
    "$tools/plain_stops" <"$packet" | awk 'NR % 40 == 2' >"$room/stops"
    while read -r bits _ kept; do
        compared=$((compared + 4))
        same "$packet" "$bits" || wrong=$((wrong + 1))
        grep -q "^$kept levels kept in " "$room/printed" || wrong=$((wrong + 1))
        grep -qx "this stop: $bits bits, $kept levels kept" "$room/printed" || wrong=$((wrong + 1))
        same "$packet" $((bits - 1)) || wrong=$((wrong + 1))
    done <"$room/stops"
done
settle "example: budgets at the stops of real packets" "$compared" "$wrong"

# damaged, beyond the ends, and not a packet at all
head -c 24801 "$samples/camera_q50.pkt" >"$room/short.pkt"
{ cat "$samples/camera_q50.pkt" && echo; } >"$room/long.pkt"
{ printf '\1\377' && head -c 24800 /dev/zero; } >"$room/zero.pkt"
: >"$room/empty.pkt"
compared=0
wrong=0
for packet in "$samples/camera_q90.pkt" "$room"/*.pkt README.md; do
    for budget in 0 1023 1024 20000 4294967295 4294967296 -1 ten ''; do
        compared=$((compared + 1))
        same "$packet" "$budget" || wrong=$((wrong + 1))
    done
done
settle "example: other packets and budgets" "$compared" "$wrong"

finish
