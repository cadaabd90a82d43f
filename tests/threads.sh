#!/bin/sh
# Compiles a C program whose threads share a store (clients/c/embedded.c), and tries it: 16 threads that commit, also on a log
# that is full all the time; how many syncs they make; who waits for whom; a sync that fails; children of forks, and a parent
# that is killed while its child lives; kills amid the commits of four threads, and cuts of the power as the calls on the files
# tell them, after which each acknowledged commit has to be there and the sums right; and copies that are made beside them. Then
# the same by the sanitizers of the compiler, where they are. The last lines are figures, which decide nothing.
#
# usage: tests/threads.sh [LIBRARY [HEAP]]
#   LIBRARY   default: crates/lc_c/out/liblc_c.a, which `rt lib` makes in crates/lc_c
#   HEAP      what a library of Rattle has its memory from; default: c/liblibc_c.a of the kit
#
# KILLS, COPIES and CUTS are how many of each are made, by default 100, 100 and 200. A C compiler `cc` is wanted. It takes two
# minutes, and works in a folder of its own below TMPDIR.
set -eu
. "$(dirname "$0")/common.sh"

library=${1:-$top/crates/lc_c/out/liblc_c.a}
heap=${2:-$(heap_of_kit)}
kills=${KILLS:-100}
copies=${COPIES:-100}
cuts=${CUTS:-200}
bound=300

make_work
process=''
trap '[ -z "$process" ] || kill -KILL $process 2> /dev/null; rm -rf "$work"' EXIT

command -v cc > /dev/null || { echo 'skipped: threads: there is no cc'; exit 0; }

# Compiles both programs, by these flags, with this at the end of their names.
compile() {
    name=$1
    shift
    cc -std=c11 -Wall -Wextra -Werror -O2 -g -pthread "$@" -c "$top/clients/c/embedded.c" -o "$work/embedded$name.o"
    for program in threads embedded; do
        cc -std=c11 -Wall -Wextra -Werror -O2 -g -pthread "$@" -I"$top/include" "$top/tests/${program}_test.c" \
            "$work/embedded$name.o" "$library" "$heap" -o "$work/$program$name"
    done
}

# Runs a mode of a program in a new folder; all that it says is shown where it fails.
tries() {
    program=$1
    mode=$2
    shift 2
    rm -rf "$work/folder"
    mkdir "$work/folder"
    status=0
    timeout $bound "$work/$program" "$mode" "$work/folder" "$@" > "$work/told" 2>&1 || status=$?
    if [ $status -eq 0 ]; then
        passes
    else
        fails "$program $mode $*: status $status"
        head -n 20 "$work/told"
    fi
}

compile ''
for mode in commits syncs crowd shares waits ends faults forks; do tries threads $mode; done

# A parent is killed, and its store is opened while its child lives.
mkfifo "$work/input"
exec 9<> "$work/input"
"$work/threads" lives "$work/lives" < "$work/input" > "$work/child" 9>&- &
process=$!
for _ in $(seq 100); do
    [ ! -s "$work/child" ] || break
    sleep 0.1
done
kill -KILL $process
wait $process 2> "$work/waited" || true
process=''
child=$(cat "$work/child")
if timeout 60 "$work/threads" shows "$work/lives" > "$work/told" 2>&1 && kill -0 "$child"; then passes; else fails "lives: $(cat "$work/told")"; fi
exec 9>&-

# Whether each thread's number is the last that it said, or one more.
has_all() {
    awk 'FNR == 1 { file++ }
        file == 1 { told[$1] = $2; next }
        { said = ($1 in told) ? told[$1] : before[$1]; if (said != "" && ($2 < said || $2 > said + 1)) bad = bad " " $1 ": " said " said, " $2 " found" }
        END { if (bad != "") { print bad; exit 1 } }' "$1" "$2"
}

: > "$work/last"
for kill in $(seq "$kills"); do
    "$work/threads" runs "$work/runs" > "$work/told" &
    process=$!
    sleep 0.0$((kill * 7 % 9 + 1))
    kill -KILL $process
    wait $process 2> "$work/waited" || true
    process=''
    [ -e "$work/runs/seg4" ] || continue
    # A line may be cut; what no thread has said since is as it was found before.
    sed '/^[0-9]* [0-9]*$/!d' "$work/told" > "$work/lines"
    cat "$work/last" "$work/lines" > "$work/said"
    if "$work/threads" shows "$work/runs" > "$work/found" 2> "$work/why" && has_all "$work/said" "$work/found" > "$work/why"
    then passes; else fails "kill $kill: $(cat "$work/why")"; fi
    cp "$work/found" "$work/last"
done
echo "$(awk '{ sum += $2 } END { print sum + 0 }' "$work/last") commits of four threads, killed $kills times"

tries threads copies "$copies"
cat "$work/told"
tries threads cuts "$cuts"
cat "$work/told"

# The same by sanitizers.
sanitized() {
    kind=$1
    flags=$2
    if ! printf 'int main(void) { return 0; }\n' | cc -x c $flags -o "$work/empty" - 2> "$work/why" || ! "$work/empty" 2> "$work/why"; then
        echo "skipped: $kind: the compiler has no $flags"
        return
    fi
    compile "_$kind" $flags
    tries "threads_$kind" commits 60
    for mode in crowd shares waits ends; do tries "threads_$kind" $mode; done
    # In a child the address sanitizer's allocator may wait for a thread that only the parent has.
    [ "$kind" != thread ] || tries "threads_$kind" forks
    tries "threads_$kind" faults 4
    tries "threads_$kind" copies 10
    tries "threads_$kind" cuts 20
    [ "$kind" = thread ] || tries "embedded_$kind" calls
}

sanitized thread -fsanitize=thread
sanitized address '-fsanitize=address,undefined -fno-sanitize-recover=all'

tries threads figures
cat "$work/told"
ends_counted
