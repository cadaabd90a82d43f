#!/bin/sh
# Compiles a C program with a store in its own process (clients/c/embedded.c), and tries it: the calls, with what they refuse;
# kills amid its commits, after which the program lcrvm, and the C program by turns, have to find each commit that was
# acknowledged; each of its writes and syncs failing in turn, after which `lcrvm recover`, and the library itself by turns, have
# to find them; each write and sync of the making of a store, of a copy, and of an opening that copies its files failing in turn,
# after which nothing is left of it; each write and sync of an opening that recovers failing in turn, after which the next one has
# all; each allocation refused in turn, after which the call is done once more and all memory is given back; and each choice of
# standard descriptors closed, of which no file of the store may take the place.
#
# usage: tests/embedded.sh [PROGRAM [LIBRARY [HEAP]]]
#   PROGRAM   default: crates/lcrvm/out/lcrvm
#   LIBRARY   default: crates/lc_c/out/liblc_c.a, which `rt lib` makes in crates/lc_c
#   HEAP      what a library of Rattle has its memory from; default: c/liblibc_c.a of the kit
#
# A C compiler `cc` is wanted. It takes a minute, and works in a folder of its own below TMPDIR.
set -eu
. "$(dirname "$0")/common.sh"

program=${1:-$top/crates/lcrvm/out/lcrvm}
library=${2:-$top/crates/lc_c/out/liblc_c.a}
heap=${3:-$(heap_of_kit)}
kills=12

make_work

command -v cc > /dev/null || { echo 'skipped: embedded: there is no cc'; exit 0; }
cc -std=c11 -Wall -Wextra -Werror -O2 -pthread -c "$top/clients/c/embedded.c" -o "$work/embedded.o"
cc -std=c11 -Wall -Wextra -Werror -O2 -pthread -I"$top/include" "$top/tests/embedded_test.c" "$work/embedded.o" \
    "$library" "$heap" -o "$work/test"
cc -shared -fPIC -O2 -o "$work/refuse.so" "$top/tests/refused_allocation.c" -ldl

# The greatest number in the first 256 bytes of segment 1, as the program reads them.
number_by_program() {
    printf 'begin 0 0 r1\nread 0 0 1 0 256\n' | "$program" run --as-found --store "$1" 2> /dev/null |
        awk '$1 == "bytes" {
            greatest = 0
            for (place = 0; place < 32; place++) {
                number = 0
                for (byte = 7; byte >= 0; byte--)
                    number = number * 256 + hex(substr($2, place * 16 + byte * 2 + 1, 2))
                if (number > greatest) greatest = number
            }
            print greatest
        }
        function hex(pair) {
            return 16 * (index("0123456789abcdef", substr(pair, 1, 1)) - 1) + index("0123456789abcdef", substr(pair, 2, 1)) - 1
        }'
}

# What a folder has, but for the record of a close.
names_in() {
    ls "$1" | grep -v -x lcrvm.clean | tr '\n' ' '
}

# Whether a store has all that was acknowledged, and at most one commit more.
has_commits() {
    [ -n "$2" ] && [ "$2" -ge "$1" ] && [ "$2" -le $(($1 + 1)) ]
}

mkdir "$work/calls"
if "$work/test" calls "$work/calls"; then passes; else fails "calls"; fi

mkdir "$work/killed"
"$program" init "$work/killed" --segments 2 --words 1024
last=0
for kill in $(seq $kills); do
    "$work/test" commits "$work/killed" > "$work/told" &
    process=$!
    sleep 0.$((kill * 7 % 10))$kill
    kill -KILL $process
    wait $process 2> "$work/waited" || true
    told=$(tail -n 1 "$work/told")
    [ -z "$told" ] || last=$told
    if [ $((kill % 2)) -eq 0 ]; then found=$("$work/test" shows "$work/killed"); else found=$(number_by_program "$work/killed"); fi
    if has_commits "$last" "$found"; then passes; else fails "killed: $last acknowledged, $found found"; fi
    last=$found
done
echo "$last commits, killed $kills times"

call=1
while :; do
    rm -rf "$work/faults"
    mkdir "$work/faults"
    "$program" init "$work/faults" --segments 2 --words 1024
    status=0
    "$work/test" faults "$work/faults" $call > "$work/told" || status=$?
    [ $status -ne 0 ] || break
    told=$(tail -n 1 "$work/told")
    if [ $((call % 2)) -eq 0 ]; then
        "$program" recover "$work/faults" --as-found > "$work/recovered" || fails "call $call: not recovered"
    fi
    found=$("$work/test" shows "$work/faults")
    left=$(names_in "$work/faults")
    if [ "$left" = 'lcrvm.store log0 seg1 seg2 ' ]; then passes; else fails "call $call: the folder has $left"; fi
    if [ $status -eq 3 ] && has_commits "${told:-0}" "$found"; then passes; else fails "call $call: status $status, ${told:-0} acknowledged, $found found"; fi
    call=$((call + 1))
done
echo "$((call - 1)) writes and syncs failed in turn"

# Each write and sync in turn of the making of a store, in a folder that is there or is made with it.
for folder in there made; do
    call=1
    made=0
    while :; do
        rm -rf "$work/created"
        [ $folder = made ] || mkdir "$work/created"
        status=0
        "$work/test" creates "$work/created" $call || status=$?
        case $status in
            0) break ;;
            3) passes ;;
            4) made=$((made + 1)) ;;
            *) fails "call $call of a creation: status $status"; break ;;
        esac
        call=$((call + 1))
    done
    "$program" check "$work/created" --as-found > "$work/checked" || fails "a store that was made: $(cat "$work/checked")"
    wanted=0
    [ $folder = made ] || wanted=1
    if [ $made -eq $wanted ]; then passes; else fails "$made creations in spite of a failure, and not $wanted"; fi
    echo "$((call - 1)) writes and syncs of a creation failed in turn"
done

# The same of a copy, and of an opening that copies the files.
for mode in copies renews; do
    call=1
    while :; do
        rm -rf "$work/one" "$work/one.copy"
        "$work/test" makes "$work/one" || fails "$mode: no store"
        status=0
        "$work/test" $mode "$work/one" $call || status=$?
        case $status in
            0) break ;;
            3) passes ;;
            *) fails "call $call of $mode: status $status"; break ;;
        esac
        "$work/test" shows "$work/one" > "$work/shown" || fails "call $call of $mode: not opened"
        left=$(names_in "$work/one")
        if [ "$left" = 'lcrvm.store log0 seg1 seg2 ' ]; then passes; else fails "call $call of $mode: the folder has $left"; fi
        call=$((call + 1))
    done
    echo "$((call - 1)) writes and syncs of $mode failed in turn"
done

# The same of an opening that recovers; the next one has all.
mkdir "$work/left"
"$program" init "$work/left" --segments 2 --pages 8 --words 1024
"$work/test" leaves "$work/left" > "$work/told" || fails "leaves: no commits"
call=1
while :; do
    rm -rf "$work/one"
    cp -r "$work/left" "$work/one"
    status=0
    "$work/test" recovers "$work/one" $call || status=$?
    left=$(names_in "$work/one")
    if [ "$left" = 'lcrvm.store log0 seg1 seg2 ' ]; then passes; else fails "call $call of a recovery: the folder has $left"; fi
    case $status in
        0) break ;;
        3) passes ;;
        *) fails "call $call of a recovery: status $status"; break ;;
    esac
    call=$((call + 1))
done
echo "$((call - 1)) writes and syncs of a recovery failed in turn"

mkdir "$work/memory"
LD_PRELOAD=$work/refuse.so "$work/test" memory "$work/memory" > "$work/whole" || fails "memory: $(tail -n 1 "$work/whole")"
number=1
while :; do
    rm -rf "$work/memory" "$work/mark"
    mkdir "$work/memory"
    status=0
    REFUSED_ALLOCATION=$number REFUSED_MARK=$work/mark LD_PRELOAD=$work/refuse.so "$work/test" memory "$work/memory" > "$work/text" \
        || status=$?
    [ -e "$work/mark" ] || break
    if [ $status -eq 0 ] && cmp -s "$work/text" "$work/whole"; then passes; else fails "allocation $number: $(tail -n 1 "$work/text")"; fi
    number=$((number + 1))
done
if [ $number -gt 1 ]; then passes; else fails "no allocation was refused"; fi
echo "$((number - 1)) allocations were refused in turn"

# What each store holds is what the first holds, of which no descriptor was closed.
for input in '< /dev/null' '<&-'; do for output in '> /dev/null' '>&-'; do for errors in '2> /dev/null' '2>&-'; do
    rm -rf "$work/closed" "$work/closed.copy"
    mkdir "$work/closed"
    status=0
    eval "\"\$work/test\" closed \"\$work/closed\" $input $output $errors" || status=$?
    [ -e "$work/open" ] || cp -r "$work/closed" "$work/open"
    if [ $status -eq 0 ] && diff -r -x lcrvm.clean "$work/open" "$work/closed" && "$program" check "$work/closed" --as-found > "$work/checked" &&
        [ "$(tail -n 1 "$work/checked")" = recovered ]; then passes; else fails "closed: $input $output $errors: status $status"; fi
done; done; done

ends_counted
