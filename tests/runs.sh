#!/bin/sh
# Runs the built program once for each folder of tests/runs, in an empty folder: with the words of `args`, one a line, on what
# `stdin` has. It has to print what `stdout` has, and to end with the number of `status`.
#
# usage: tests/runs.sh [PROGRAM]     (default: crates/lcrvm/out/lcrvm)
#
# It takes a second, and works in a folder of its own below TMPDIR.
set -eu
. "$(dirname "$0")/common.sh"

program=$(whole "${1:-$top/crates/lcrvm/out/lcrvm}")

make_work

for run in "$top"/tests/runs/*/; do
    run=${run%/}
    name=$(basename "$run")
    mkdir "$work/$name"
    status=0
    (
        cd "$work/$name"
        IFS='
'
        set -f
        # shellcheck disable=SC2046
        exec "$program" $(cat "$run/args")
    ) < "$run/stdin" > "$work/stdout" 2> "$work/stderr" || status=$?
    wanted=$(cat "$run/status")
    if [ "$status" -eq "$wanted" ] && cmp -s "$work/stdout" "$run/stdout"; then
        passes
    else
        fails "$name: status $status, where $wanted is wanted; what is printed, beside what is wanted:"
        diff "$work/stdout" "$run/stdout" || :
        cat "$work/stderr"
    fi
done
ends_counted
