#!/bin/sh
# Starts two processes of the built program on one folder at once, many times: one that finds the store in use says so and
# does nothing, and what either has acknowledged is there. It also opens stores with a geometry that forgets some of their
# files, and stores that lack a file: what is wrong is said, and nothing is written.
#
# usage: tests/processes.sh [PROGRAM [PAIRS]]     (default: crates/lcrvm/out/lcrvm, 100)
#
# It takes about a minute, and works in a folder of its own below TMPDIR. A program that does not end within a minute is a failure.
set -eu
. "$(dirname "$0")/common.sh"

program=$(whole "${1:-crates/lcrvm/out/lcrvm}")
pairs=${2:-100}
bound=60

make_work
cd "$work"

lcrvm() {
    timeout -k 5 "$bound" "$program" "$@"
}

# ---- pairs on one folder

size='--segments 2 --pages 4 --words 256'
commits=10
# Commit K of a process puts K at a place of its own in both segments.
script() {
    awk -v at="$1" -v commits=$commits 'BEGIN {
        for (k = 1; k <= commits; k++) {
            print "begin 0 0 1 2"
            for (s = 1; s <= 2; s++) { printf "range 0 0 %d %d 2\nwrite 0 0 %d %d %04x\n", s, at, s, at, k }
            print "end 0 0"; print "flush 0"
        }
    }'
}

# The end of a process: its status, and whether it found the store in use.
ended() {
    case $2 in
        0) runs=$((runs + 1)) ;;
        3)
            in_use=$((in_use + 1))
            grep -qxE 'lcrvm: store: store in use( by process [1-9][0-9]*)?' "$1.err" && [ "$(wc -l < "$1.err")" -eq 1 ] ||
                fails "$3: status 3, and on standard error: $(cat "$1.err")"
            [ "$(cat "$1.out")" = 'device fault' ] || fails "$3: a store in use is not a device fault alone"
            ;;
        *) fails "$3: status $2: $(tail -n 1 "$1.out")" ;;
    esac
}

mkdir store
lcrvm init store $size
in_use=0
pair=1
while [ $pair -le "$pairs" ]; do
    runs=0
    name="pair $pair"
    [ $((pair % 60)) -ne 1 ] || { rm -rf store; mkdir store; lcrvm init store $size; : > wanted; }
    first=$((pair % 60 * 8))
    script $first > first.script
    script $((first + 4)) > second.script
    lcrvm run --store store $size < first.script > first.out 2> first.err &
    one=$!
    if [ $((pair % 4)) -eq 0 ]; then
        lcrvm recover store $size > second.out 2> second.err &
    else
        lcrvm run --store store $size < second.script > second.out 2> second.err &
    fi
    two=$!
    status=0
    wait $one || status=$?
    ended first $status "$name"
    status=0
    wait $two || status=$?
    ended second $status "$name"
    [ $runs -ge 1 ] || fails "$name: none ran"
    echo "$first $(grep -c '^acked' first.out)" >> wanted || true
    [ $((pair % 4)) -eq 0 ] || echo "$((first + 4)) $(grep -c '^acked' second.out)" >> wanted || true

    # All that was ever acknowledged in this store is there, and nothing of a process that did not run.
    [ "$(ls store | tr '\n' ' ')" = 'lcrvm.store log0 seg1 seg2 ' ] || fails "$name: other files are there"
    status=0
    lcrvm recover store $size > recovered 2> /dev/null || status=$?
    [ $status -eq 0 ] || fails "$name: the recovery has status $status: $(tail -n 1 recovered)"
    { echo 'begin 0 0 1 2'; awk '{ for (s = 1; s <= 2; s++) print "read 0 0 " s " " $1 " 2" }' wanted; } > look.script
    status=0
    lcrvm run --store store $size < look.script > looked 2> /dev/null || status=$?
    [ $status -eq 0 ] || fails "$name: the look has status $status: $(tail -n 1 looked)"
    awk '{ for (s = 1; s <= 2; s++) printf "bytes %04x\n", $2 }' wanted > told
    tail -n +2 looked | cmp -s - told || {
        fails "$name: other commits are there than were acknowledged"
        # What follows is looked at in a new store.
        rm -rf store
        mkdir store
        lcrvm init store $size
        : > wanted
    }
    pair=$((pair + 1))
done
echo "$pairs pairs of processes: $in_use found the store in use"
[ "$in_use" -gt 0 ] || fails "no process found the store in use"

# ---- two that make a store

inits=$(((pairs + 4) / 5))
pair=1
while [ $pair -le $inits ]; do
    name="init $pair"
    rm -rf store
    mkdir store
    lcrvm init store $size > first.out 2> first.err &
    one=$!
    lcrvm init store $size > second.out 2> second.err &
    two=$!
    first=0
    wait $one || first=$?
    second=0
    wait $two || second=$?
    case "$first $second" in
        '0 1' | '0 3' | '1 0' | '3 0') ;;
        *) fails "$name: the statuses are $first and $second" ;;
    esac
    lcrvm recover store $size > recovered 2>&1 || fails "$name: no recovery: $(tail -n 1 recovered)"
    pair=$((pair + 1))
done
echo "$inits pairs made a store: one of each did"

# ---- a geometry that forgets files

full='--nodes 2 --segments 2'
rm -rf store
mkdir store
lcrvm init store $full
{
    printf 'begin 1 0 1\nrange 1 0 1 0 1\nwrite 1 0 1 0 11\nend 1 0\nflush 1\n'
    printf 'begin 0 0 2\nrange 0 0 2 0 1\nwrite 0 0 2 0 22\nend 0 0\nflush 0\n'
} > two.script
lcrvm run --store store $full < two.script > two.out
[ "$(grep -c -x 'acked 1' two.out)" -eq 2 ] || fails 'no commits of two nodes'
cp -r store made

# Nothing in the folder is another, and nothing is new.
same() {
    [ "$(ls -a store)" = "$(ls -a made)" ] || fails "$1: other files are there"
    for file in log0 log1 seg1 seg2; do
        [ ! -f made/$file ] || cmp -s store/$file made/$file || fails "$1: $file is another"
    done
}

for sizes in '1 2' '2 1' '1 1'; do
    set -- $sizes
    for command in run recover; do
        name="$command with $1 nodes and $2 segments"
        status=0
        case $command in
            run) lcrvm run --store store --nodes $1 --segments $2 < two.script > out 2> err || status=$? ;;
            *) lcrvm recover store --nodes $1 --segments $2 > out 2> err || status=$? ;;
        esac
        [ $status -eq 1 ] || fails "$name: status $status"
        [ "$(cat out)" = "refused BadGeometry $(($1 + $2))" ] || fails "$name: $(tail -n 1 out)"
        same "$name"
        rm -rf store
        cp -r made store
    done
done

# ---- a file that is not there

for file in log0 log1 seg1 seg2; do
    for place in nothing folder; do
        for command in run recover; do
            name="$command with $place in the place of $file"
            rm -rf store made
            mkdir store
            lcrvm init store $full
            rm store/$file
            [ $place = nothing ] || mkdir store/$file
            cp -r store made
            status=0
            case $command in
                run) lcrvm run --store store $full < two.script > out 2> err || status=$? ;;
                *) lcrvm recover store $full > out 2> err || status=$? ;;
            esac
            [ $status -eq 3 ] || fails "$name: status $status"
            [ "$(cat out)" = 'device fault' ] || fails "$name: $(tail -n 1 out)"
            grep -q "^lcrvm: store/$file: ." err || fails "$name: standard error does not say so: $(cat err)"
            [ $place = folder ] || grep -q -x "lcrvm: store/$file: No such file or directory.*" err || fails "$name: no reason: $(cat err)"
            same "$name"
        done
    done
done
status=0
lcrvm inspect store/log9 > out 2> err || status=$?
[ $status -eq 3 ] && grep -q '^lcrvm: store/log9: No such file or directory' err || fails "inspect of nothing: status $status: $(cat err)"

ends_as_one
