#!/bin/sh
# Tries the built program over stores in folders: a store that is left and opened again goes on as one that is stopped
# and recovered in memory, and what was acknowledged holds after a process that is killed; a check says what the recovery
# after it prints, and changes nothing.
#
# usage: tests/files.sh [PROGRAM [SEED]]     (default: crates/lcrvm/out/lcrvm, 1)
#
# A kill shows in which order the calls were made. It does not show that the syncs work: what a killed process wrote
# is in the system's memory, and stays. It takes about a minute, and works in a folder of its own below TMPDIR. A program
# that does not end within a minute is a failure.
set -eu
. "$(dirname "$0")/common.sh"

program=$(whole "${1:-crates/lcrvm/out/lcrvm}")
seed=${2:-1}

scripts=200
kills_in_runs=40
kills_in_recoveries=10
kills_wanted=30
commits=400
bound=60

make_work
cd "$work"

fail() {
    echo "failed: $*" >&2
    echo "0 passed, 1 failed"
    exit 1
}

# The program, which has to end within the bound.
lcrvm() {
    timeout -k 5 "$bound" "$program" "$@"
}

# ---- a store that is left and opened again

size='--nodes 2 --threads 2 --segments 2 --pages 2 --words 96'

# A random script of so many lines, each of which is understood.
random_script() {
    awk -v seed="$1" -v lines="$2" '
        function upto(n) { return int(rand() * n) }
        function bytes(n,  text) { text = ""; while (n-- > 0) text = text sprintf("%02x", upto(256)); return text }
        BEGIN {
            srand(seed)
            while (lines > 0) {
                n = upto(2); t = upto(2); s = 1 + upto(2); o = upto(500); l = 1 + upto(12)
                kind = upto(20)
                if (kind < 7) {
                    print "begin " n " " t " " s
                    print "range " n " " t " " s " " o " " l
                    print "write " n " " t " " s " " o " " bytes(l)
                    print "end " n " " t
                    lines -= 4
                    continue
                }
                lines -= 1
                if (kind == 7) print "begin " n " " t " " s " r" (3 - s)
                else if (kind == 8) print "read " n " " t " " s " " o " " l
                else if (kind == 9) print "abort " n " " t
                else if (kind == 10) print "flush " n
                else if (kind == 11) print "step " n
                else if (kind == 12) print "leave " n " " s
                else if (kind == 13) print "arrive " n " " s
                else if (kind == 14) print "deliver " n " " 1 + upto(6) " " s " " 1 - n
                else if (kind == 15) print "trim " n
                else if (kind == 16) { p = upto(2); for (i = 0; i < 6; i++) print "page " n " " s " " p; lines -= 5 }
                else if (kind == 17) { for (i = 0; i < 4; i++) print "reset " n; lines -= 3 }
                else if (kind == 18) print "show " n " " s " " upto(2)
                else print "inspect " n
            }
            for (n = 0; n < 2; n++) for (s = 1; s <= 2; s++) for (p = 0; p < 2; p++) print "show " n " " s " " p
        }'
}

# What a run prints; a refusal is no failure of the run.
run() {
    lcrvm run $size "$@" || [ $? -eq 1 ] || fail "a run ended with another status, or did not end"
}

number=1
while [ $number -le $scripts ]; do
    random_script $((seed * 1000 + number)) 40 > first
    random_script $((seed * 1000 + 500 + number)) 40 > second
    mkdir store
    lcrvm init store $size || fail "no store was made"
    run --store store < first > halves 2> /dev/null
    run --store store < second >> halves 2> /dev/null
    { cat first; echo 'stop keep'; echo recover; cat second; } > whole
    run < whole | grep -v -x -e down -e recovered > memory || true
    grep -q 'not understood' halves memory && fail "a line of script $number is not understood"
    cmp -s halves memory || fail "script $number: a store in a folder goes on otherwise than one in memory"
    rm -rf store
    number=$((number + 1))
done
echo "$scripts scripts went on in a second process as in memory"

# ---- a process that is killed

random_below() {
    awk -v seed="$1" -v n="$2" 'BEGIN { srand(seed); rand(); print int(rand() * n) }'
}

# Commit K puts the two bytes of K at offset 0 of each segment, and is acknowledged before the next begins.
segments=8
all_segments=$(awk -v n=$segments 'BEGIN { for (s = 1; s <= n; s++) printf " %d", s }')
awk -v commits=$commits -v segments=$segments -v all="$all_segments" 'BEGIN {
    for (k = 1; k <= commits; k++) {
        print "begin 0 0" all
        for (s = 1; s <= segments; s++) { print "range 0 0 " s " 0 2"; printf "write 0 0 %d 0 %04x\n", s, k }
        print "end 0 0"; print "flush 0"
        if (k % 50 == 0) {
            for (s = 1; s <= segments; s++) for (i = 0; i < 6; i++) print "page 0 " s " 0"
            for (i = 0; i < 4; i++) print "reset 0"
        }
    }
}' > commits.script
store_size="--segments $segments --words 4096"

# Starts a run whose replies come through a pipe into the file `replies`. Both are there and both ends are open before either
# process begins, so the reader ends with the run, however early that is killed.
start_run() {
    rm -f pipe
    mkfifo pipe
    : > replies
    exec 3<> pipe
    exec 4< pipe 5> pipe 3>&-
    cat <&4 4<&- 5>&- > replies &
    reader=$!
    "$program" run --store store $store_size < commits.script >&5 4<&- 5>&- &
    running=$!
    exec 4<&- 5>&-
}

acknowledged() {
    grep -c '^acked' replies || true
}

# The store is recovered. It has the commits up to one, none of which that was acknowledged is missing.
check_store() {
    cksum store/* > before
    lcrvm check store > checked || fail "kill $1: the check says that it does not recover"
    cksum store/* | cmp -s - before || fail "kill $1: the check changed a file"
    lcrvm recover store $store_size > recovered || fail "kill $1: no recovery"
    tail -n "$(wc -l < recovered)" checked | cmp -s - recovered || fail "kill $1: the check said something else"
    kept=$(sed -n 's/^segment 1 sequence //p' recovered)
    [ "$(grep -c " sequence $kept\$" recovered)" -eq $segments ] || fail "kill $1: a part of a commit"
    [ "$kept" -ge "$2" ] || fail "kill $1: $2 commits were acknowledged, and $kept are there"
    [ "$kept" -le $commits ] || fail "kill $1: more commits than were made"
    { echo "begin 0 0$all_segments"; for s in $all_segments; do echo "read 0 0 $s 0 2"; done; } > look
    lcrvm run --store store $store_size < look > looked 2> /dev/null || fail "kill $1: the store cannot be read"
    want=$(printf 'bytes %04x' "$kept")
    [ "$(grep -c -x "$want" looked)" -eq $segments ] || fail "kill $1: the bytes are not those of commit $kept"
}

# Kills a process, and tells whether it still ran.
killed() {
    kill -9 "$1" 2> /dev/null || true
    status=0
    wait "$1" 2> /dev/null || status=$?
    [ $status -eq 137 ]
}

behind=0
in_recoveries=0
kill=1
while [ $kill -le $((kills_in_runs + kills_in_recoveries)) ]; do
    mkdir store
    lcrvm init store $store_size || fail "no store was made"
    start_run
    wanted=$((1 + $(random_below $((seed * 1000 + kill)) 150)))
    end=$(($(date +%s) + bound))
    while [ "$(acknowledged)" -lt $wanted ] && kill -0 $running 2> /dev/null; do
        [ "$(date +%s)" -lt $end ] || { killed $running || true; fail "kill $kill: the run goes on and acknowledges nothing"; }
    done
    cut=no
    killed $running && cut=yes
    wait $reader
    count=$(acknowledged)
    [ $cut = yes ] && [ "$count" -ge 1 ] && behind=$((behind + 1))
    if [ $kill -gt $kills_in_runs ]; then
        turns=$(random_below $((seed * 2000 + kill)) 4000)
        "$program" recover store $store_size > /dev/null &
        recovering=$!
        while [ "$turns" -gt 0 ]; do turns=$((turns - 1)); done
        killed $recovering && in_recoveries=$((in_recoveries + 1))
    fi
    check_store $kill "$count"
    rm -rf store
    kill=$((kill + 1))
done
echo "$behind runs were killed after an acknowledged commit, $in_recoveries recoveries in their midst"
[ $behind -ge $kills_wanted ] || fail "too few kills fell after an acknowledged commit"
[ $in_recoveries -ge 1 ] || fail "no kill fell in a recovery"
echo "1 passed, 0 failed"
