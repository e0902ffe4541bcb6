#!/bin/sh
# Holds the list program against the independent implementation, packet by packet.
# Usage: tests/stops.sh TOOLS PROGRAM
#   TOOLS    the folder where tests/build.sh put packets and plain_stops
#   PROGRAM  the list program
# COUNT and SEED in the environment choose the random packets, SAMPLES the folder of the real ones. From a COUNT of 2,500 on
# every length of a packet is tried.
set -eu
[ $# -eq 2 ] || { echo "usage: tests/stops.sh TOOLS PROGRAM" >&2; exit 2; }
tools=$1
program=$2
cd "$(dirname "$0")/.."
. tests/tally.sh
count=${COUNT:-500}
seed=${SEED:-1}
samples=${SAMPLES:-samples}
room=$(mktemp -d)
trap 'rm -rf "$room"' EXIT
: >"$room/refusals"

# list: the program under test; of its exit status no more is promised than that it is 1 where a read or a write fails
list() {
    "$program" || true
}

# begin NAME: a group in which the independent implementation tells what to print
begin() {
    name=$1
    compared=0
    wrong=0
}

# try PACKET: one packet of the group
try() {
    compared=$((compared + 1))
    "$tools/plain_stops" <"$1" >"$room/expected"
    list <"$1" >"$room/printed"
    read -r word number _ <"$room/expected"
    [ "$word" = corners ] || echo "$number" >>"$room/refusals"
    cmp -s "$room/expected" "$room/printed" && return
    wrong=$((wrong + 1))
    [ "$wrong" -gt 5 ] || echo "      $name, $(basename "$1"), $(wc -c <"$1") bytes: printed $(head -n 1 "$room/printed")," \
        "expected $(head -n 1 "$room/expected")"
}

end() {
    settle "$name" "$compared" "$wrong"
}

# compare NAME PACKET...: a whole group
compare() {
    begin "$1"
    shift
    for packet do
        try "$packet"
    done
    end
}

# expect NAME: a group of one, what was printed against what was expected
expect() {
    if cmp -s "$room/expected" "$room/printed"; then
        settle "$1" 1 0
    else
        echo "      $1, printed:"
        cat "$room/printed"
        settle "$1" 1 1
    fi
}

# lengths: of a packet, all of them or those next to a packet's own
lengths() {
    if [ "$count" -ge 2500 ]; then
        seq 0 24803
    else
        seq 0 330
        for length in $(seq 418 96 24802); do
            echo $((length - 1)) "$length" $((length + 1))
        done
    fi
}

echo "list program: $count random and $count damaged packets, seed $seed"
mkdir "$room/small" "$room/large" "$room/damaged" "$room/header" "$room/length" "$room/exact"
"$tools/packets" "$room" "$count" "$seed"

cat >"$room/expected" <<'TEXT'
corners 4
8 108 0
22 8 1
25 4 2
31 0 3
TEXT
list <"$room/document.pkt" >"$room/printed"
expect "list program: the whole output of document 01"

compare "list program: real packets" "$samples"/*.pkt
compare "list program: small packets" "$room"/small/*
compare "list program: large packets" "$room"/large/*
compare "list program: 1,024 corners are listed, 1,025 refused" "$room"/exact/*
compare "list program: damaged packets" "$room"/damaged/*
compare "list program: every bit of the header turned over" "$room"/header/*
compare "list program: lengths at the ends" "$room"/length/*

begin "list program: a packet cut off, at every length or next to a packet's"
{ cat "$samples/camera_q50.pkt" && echo; } >"$room/whole.pkt"
for length in $(lengths); do
    head -c "$length" "$room/whole.pkt" >"$room/cut.pkt"
    try "$room/cut.pkt"
done
end

# a pipe hands over what has arrived so far, which may be part of the packet
"$tools/plain_stops" <"$samples/camera_q50.pkt" >"$room/expected"
{ dd bs=1 count=1 && sleep 1 && dd bs=1 count=999 && sleep 1 && cat; } <"$samples/camera_q50.pkt" 2>"$room/log" |
    list >"$room/printed"
expect "list program: a packet that arrives in pieces"

echo "refused 11 24803 0" >"$room/expected"
yes | list >"$room/printed"
expect "list program: an input without end"

# broken INPUT OUTPUT: a run that can't read or can't write ends with 1 and has printed nothing
broken() {
    compared=$((compared + 1))
    status=0
    "$program" <"$1" >"$2" 2>"$room/log" || status=$?
    [ "$status" -eq 1 ] && [ ! -s "$2" ] && return
    wrong=$((wrong + 1))
    echo "      $name: from $1 to $2 it ended with $status"
}

begin "list program: an input that can't be read, an output that can't be written"
broken "$room" "$room/printed"
broken "$samples/camera_q50.pkt" /dev/full
end

begin "list program: every refusal that it can give"
for number in 2 3 6 7 8 11; do
    seen=$(grep -cx "$number" "$room/refusals") || wrong=$((wrong + 1))
    compared=$((compared + seen))
    told="${told:-}${told:+, }$number: $seen"
done
echo "      refused by $told"
end

finish
