#!/bin/sh
# Refuses each allocation in turn, one a run, and sees that want of memory is said and changes nothing else:
# - tests/two_nodes.script, which the program runs: what is printed is the front of what a run with enough memory prints, and
#   then `refused NoMemory`, with status 1; or all of it, where less memory did as well;
# - the tests of crates/lc_tests_store/src/growth_tests.rt, which run their events again from the one that wanted memory on, and
#   compare all replies with the expected ones.
#
# usage: tests/refused_growths.sh     (a C compiler `cc` is wanted)
#
# The program and the tests have to be built: `(cd crates/lcrvm && rt run -- run < /dev/null)` and `(cd crates/lc_tests_store && rt test)`.
# LCRVM and LC_TESTS_STORE may name them elsewhere.
set -eu
. "$(dirname "$0")/common.sh"

program=${LCRVM:-$top/crates/lcrvm/out/lcrvm}
tests=${LC_TESTS_STORE:-$top/crates/lc_tests_store/out/lc_tests_store_tests}
most=100000

make_work
cc -shared -fPIC -O2 -o "$work/refuse.so" "$top/tests/refused_allocation.c" -ldl

fail() {
    echo "failed: $*" >&2
    echo "0 passed, 1 failed"
    exit 1
}

# Runs a command with one allocation refused; its status is that of the command.
refusing() {
    number=$1
    shift
    rm -f "$work/mark"
    REFUSED_ALLOCATION=$number REFUSED_MARK=$work/mark LD_PRELOAD=$work/refuse.so "$@"
}

size='--nodes 2 --segments 2'
"$program" run $size < "$top/tests/two_nodes.script" > "$work/whole" || fail "the script is not done"
spared=0
number=1
while [ $number -le $most ]; do
    status=0
    refusing $number "$program" run $size < "$top/tests/two_nodes.script" > "$work/text" 2> "$work/errors" || status=$?
    [ -e "$work/mark" ] || break
    if [ $status -eq 0 ] && cmp -s "$work/text" "$work/whole"; then
        spared=$((spared + 1))
        number=$((number + 1))
        continue
    fi
    [ $status -eq 1 ] || fail "allocation $number of the script: status $status"
    [ "$(tail -n 1 "$work/text")" = 'refused NoMemory' ] || fail "allocation $number of the script: want of memory is not said"
    lines=$(($(wc -l < "$work/text") - 1))
    head -n $lines "$work/text" > "$work/front"
    head -n $lines "$work/whole" | cmp -s - "$work/front" || fail "allocation $number of the script: other replies"
    number=$((number + 1))
done
[ $((number - 1)) -gt $spared ] || fail "no allocation of the script was missed"
echo "a script of two nodes: each of $((number - 1)) allocations was refused once; $spared were not missed"

"$tests" --list > "$work/listed" || fail "the tests are not built: $tests"
names=$(sed -n 's/^\(growth_tests::[a-z_]*\): test$/\1/p' "$work/listed")
[ -n "$names" ] || fail "none of the tests is of growth_tests: $tests"
for test in $names; do
    number=1
    while [ $number -le $most ]; do
        refusing $number "$tests" "$test" > "$work/text" 2>&1 || fail "allocation $number of $test: $(tail -n 3 "$work/text")"
        [ -e "$work/mark" ] || break
        number=$((number + 1))
    done
    [ $number -gt 1 ] || fail "$test makes no allocation"
    echo "$test: each of $((number - 1)) allocations was refused once"
done
echo "1 passed, 0 failed"
