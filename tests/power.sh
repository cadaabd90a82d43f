#!/bin/sh
# Cuts the power of the built program anywhere: tests/power.py says how, and what it looks at. It takes stories in which all goes
# well, and then some in which a sync fails. Then it leaves out the syncs, all and each kind by itself, and sees that each time
# something is lost: so each sync is needed, and a loss is seen.
#
# The same with each recovery made by an opening of the library (tests/opening_test.c), whose calls are made in another order;
# there the syncs of openings alone are left out.
#
# usage: tests/power.sh [PROGRAM [SEED [CUTS [LIBRARY [HEAP]]]]]
#   PROGRAM   default: crates/lcrvm/out/lcrvm
#   SEED      default: 1
#   CUTS      default: 5000
#   LIBRARY   default: crates/lc_c/out/liblc_c.a, which `rt lib` makes in crates/lc_c
#   HEAP      what a library of Rattle has its memory from; default: c/liblibc_c.a of the kit
#
# `cc` and `python3` are wanted. It takes some minutes, and works in a folder of its own below TMPDIR. A process that does not end
# within a minute is a failure.
set -eu
. "$(dirname "$0")/common.sh"

program=$(whole "${1:-crates/lcrvm/out/lcrvm}")
seed=${2:-1}
cuts=${3:-5000}
library=$(whole "${4:-$top/crates/lc_c/out/liblc_c.a}")
heap=$(whole "${5:-$(heap_of_kit)}")

make_work
child=''
leave() {
    [ -z "$child" ] || { kill "$child" && wait "$child"; } 2> /dev/null || true
    rm -rf "$work"
}
trap leave EXIT
cc -shared -fPIC -O2 -o "$work/calls.so" "$top/tests/traced_calls.c" -ldl
cc -std=c11 -Wall -Wextra -Werror -O2 -pthread -I"$top/include" "$top/tests/opening_test.c" "$top/clients/c/embedded.c" \
    "$library" "$heap" -o "$work/opening"

cut() {
    POWER_WORK="$work" timeout -k 5 1800 python3 -B "$top/tests/power.py" "$program" "$work/calls.so" --seed "$seed" "$@" &
    child=$!
    if wait $child; then passes; else fails "$*"; fi
    child=''
}
cut --cuts "$cuts"
cut --cuts $(((cuts + 1) / 2)) --stories failing
for kind in all group gate reset close fill open first; do
    cut --cuts 20000 --without-syncs $kind
done
cut --cuts "$cuts" --opening "$work/opening"
for kind in all close fill open first; do
    cut --cuts 20000 --without-syncs $kind --opening "$work/opening"
done
ends_counted
