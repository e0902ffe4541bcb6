#!/bin/sh
# Builds the tests from outside.
# Usage: tests/build.sh OUT                    what needs no library: self, packets, cases, plain_stops and plain_head_end
#        tests/build.sh OUT PROGRAM ARCHIVE    price, lists, headend or the example head_end, linked with the library
# CC compiles them.
set -eu
case $# in 1 | 3) ;; *) echo "usage: tests/build.sh OUT [PROGRAM ARCHIVE]" >&2; exit 2 ;; esac
out=$1
top=$(dirname "$0")/..
here=$top/tests
mkdir -p "$out"
flags="-std=c11 -D_DEFAULT_SOURCE -Wall -Wextra -O2 ${CFLAGS:-} -I$top/include"
plain="$here/plain.c $here/stops.c $here/definition.c $here/programme.c $here/packed.c $here/k5.c"
made="$plain $here/random.c $here/stills.c"
example=$top/examples/head_end.c

# the lists of sources, flags and commands are split at blanks on purpose
# shellcheck disable=SC2086
case ${2:-} in
'')
    ${CC:-cc} $flags -o "$out/self" "$here/self.c" "$here/tally.c" $made
    ${CC:-cc} $flags -o "$out/packets" "$here/packets.c" "$here/faults.c" $made
    ${CC:-cc} $flags -o "$out/cases" "$here/cases.c" $plain
    ${CC:-cc} $flags -o "$out/plain_stops" "$here/plain_stops.c" $plain
    ${CC:-cc} $flags -o "$out/plain_head_end" "$example" "$here/plain_budget.c" $plain
    ;;
head_end) ${CC:-cc} $flags -o "$out/head_end" "$example" "$3" ;;
*)
    ${CC:-cc} $flags -pthread -I"$top/bench" -o "$out/$2" "$here/$2.c" "$here/groups.c" "$here/faults.c" "$here/lent.c" \
        "$here/tally.c" "$top/bench/stack.c" $made "$3"
    ;;
esac
