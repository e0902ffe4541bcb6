#!/bin/sh
# The tests from outside and the example under valgrind, which sees every read and write of the library. Not part
# of the gate.
# Usage: tests/valgrind.sh
# COUNT in the environment is the number of random small stills, 20 by default.
set -eu
cd "$(dirname "$0")/.."
. tests/machine.sh
need_rt
need valgrind valgrind
out=target/valgrind
count=${COUNT:-20}
export WATCHED=1 CFLAGS=-g

# watched COMMAND...: fails at the first read or write that valgrind objects to
watched() {
    valgrind -q --error-exitcode=9 --exit-on-first-error=yes "$@"
}

archive probe
for test in price lists; do
    tests/build.sh "$out" "$test" target/staticlib/libprobe.a
    watched "$out/$test" "$count"
done
archive headend
tests/build.sh "$out" headend target/staticlib/libheadend.a
watched "$out/headend" "$count"
tests/build.sh "$out" head_end target/staticlib/libheadend.a
for budget in 0 1024 6000 4294967295; do
    watched "$out/head_end" samples/camera_q50.pkt "$budget" || [ $? -eq 1 ]
done
echo "nothing to object to"
