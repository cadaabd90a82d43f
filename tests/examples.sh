#!/bin/sh
# Runs each script of examples/ by the command that its first line has, as `# COMMAND`. The command has to name the script and
# print what stands beside it as NAME.wanted, and end with status 1 where a line of that is a refusal, else with 0.
#
# usage: tests/examples.sh [PROGRAM]     (default: crates/lcrvm/out/lcrvm)
#
# It takes a second, and works in a folder of its own below TMPDIR.
set -eu
. "$(dirname "$0")/common.sh"

program=$(whole "${1:-$top/crates/lcrvm/out/lcrvm}")

make_work
mkdir "$work/bin" "$work/examples"
cp "$program" "$work/bin/lcrvm"
cp "$top"/examples/*.script "$work/examples"
export PATH="$work/bin:$PATH"
cd "$work"

for script in examples/*.script; do
    name=$(basename "$script" .script)
    wanted=$top/examples/$name.wanted
    command=$(sed -n '1s/^# //p' "$script")
    case $command in
        "lcrvm run "*" $script") ;;
        *) fails "examples/$name.script:1: no command that runs the script: $command"; continue ;;
    esac
    [ -f "$wanted" ] || { fails "examples/$name.wanted is missing"; continue; }
    status=0
    sh -c "$command" > stdout 2> stderr || status=$?
    refusals=0
    ! grep -q '^refused ' "$wanted" || refusals=1
    if [ "$status" -eq $refusals ] && cmp -s stdout "$wanted" && [ ! -s stderr ]; then
        passes
    else
        fails "examples/$name.script: status $status, where $refusals is wanted; what is printed, beside what is wanted:"
        diff stdout "$wanted" || :
        cat stderr
    fi
done
for wanted in "$top"/examples/*.wanted; do
    name=$(basename "$wanted" .wanted)
    [ -f "examples/$name.script" ] || fails "examples/$name.wanted: there is no such script"
done
ends_counted
