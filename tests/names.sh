#!/bin/sh
# Kills the server `names` in its midst, again and again, while eight clients ask at once: each time every change that
# was replied to is there. And what is around it: closed descriptors, a reader that goes away, a store in use, and
# inputs of all kinds.
#
# usage: tests/names.sh [NAMES [PROGRAM [KILLS [SEED]]]]
#        (default: $NAMES, or crates/names/out/names; $LCRVM, or crates/lcrvm/out/lcrvm; 500; 1)
#
# It takes minutes, and works in a folder of its own below TMPDIR. What does not end in time is a failure.
set -eu
. "$(dirname "$0")/common.sh"

names=$(whole "${1:-${NAMES:-$top/crates/names/out/names}}")
program=$(whole "${2:-${LCRVM:-$top/crates/lcrvm/out/lcrvm}}")
kills=${3:-500}
seed=${4:-1}
bound=60

make_work
export PYTHONDONTWRITEBYTECODE=1
cd "$work"

# Compares a status and what was printed with what is wanted.
is() {
    if [ "$2" = "$3" ]; then
        passes
    else
        fails "$1: it is"
        printf '%s\nand not\n%s\n' "$2" "$3" >&2
    fi
}

# Runs the server on the store, and shows what it printed and its status.
serve() {
    status=0
    timeout -k 5 $bound "$names" "$@" 2> err || status=$?
    echo "status $status"
}

# So many bytes.
bytes() {
    head -c "$1" /dev/zero | tr '\0' "$2"
}

mkdir store
"$program" init store --threads 8 --pages 16 --words 4096

# ---- Inputs

is 'no input' "$(serve store < /dev/null)" 'status 0'
is 'no folder' "$(serve < /dev/null)" 'status 2'
is 'two folders' "$(serve store store < /dev/null)" 'status 2'
is 'no store' "$(serve nowhere < /dev/null)" 'device fault
status 3'
is 'a last line that does not end' "$(printf '0 create a' | serve store)" '0 created
status 0'
bad_lines() {
    printf '\n0\n0 \nx list\n8 list\n 0 list\n0 find \377\n0 list a\n0\tfind\ta\r\n'
}
is 'lines that are none' "$(bad_lines | serve store)" 'line 1: not understood
line 2: not understood
0 line 3: not understood
line 4: not understood
line 5: not understood
line 6: not understood
0 line 7: not understood
0 line 8: not understood
0 attributes 
status 2'
is 'long lines' "$({
    bytes 3000000 x
    echo
    printf '0 find a'
    bytes 247 ' '
    echo
    printf '0 find a'
    bytes 248 ' '
    echo
    echo '0 find a'
} | serve store)" 'line 1: not understood
0 attributes 
0 line 3: not understood
0 attributes 
status 2'
is 'a folder as input' "$(serve store < .)" 'status 1'
is 'one of many clients' "$(printf '7 remove a\n7 list\n7 remove a\n' | serve store)" '7 removed
7 listed 0
7 refused NoName
status 0'

# ---- Descriptors

is 'a closed standard input' "$(serve store <&-)" 'status 1'
status=0
echo '0 find a' | timeout -k 5 $bound "$names" store >&- 2> err || status=$?
is 'a closed standard output' "$status" 1
status=0
echo '0 find a' | timeout -k 5 $bound "$names" store <&- >&- 2>&- || status=$?
is 'all closed' "$status" 1
status=0
echo '0 find a' | timeout -k 5 $bound "$names" store > /dev/full 2> err || status=$?
is 'a full standard output' "$status $(cat err)" '1 names: standard output: No space left on device (os error 28)'

# ---- Who reads and who writes

mkfifo input
# The input stays open: the reply comes all the same.
{ echo '0 create b'; sleep 2; } > input &
is 'a reply while the input is open' "$(timeout -k 5 $bound "$names" store < input | head -n 1)" '0 created'
wait

# The reader is gone with the first line, and the input open: the next reply ends the server.
begun=$(date +%s)
{ echo '0 find b'; sleep 1; echo '0 find b'; exec sleep 20; } > input &
writer=$!
{
    status=0
    timeout -k 5 $bound "$names" store < input 2> err || status=$?
    echo "status $status" > ended
} | head -n 1 > /dev/null
kill $writer 2> /dev/null || true
wait 2> /dev/null || true
is 'a reader that is gone' "$(cat ended) $(cat err)" 'status 1 names: standard output: Broken pipe (os error 32)'
is 'and soon' "$(($(date +%s) - begun < 15))" 1

# Two processes on one folder: the second says so, and the first goes on.
{ echo '0 find b'; sleep 2; echo '0 find b'; } > input &
timeout -k 5 $bound "$names" store < input > first &
timeout $bound sh -c 'until [ -s first ]; do sleep 0.1; done'
is 'a second process' "$(echo '0 remove b' | serve store)" 'device fault
status 3'
is 'and why' "$(sed 's/[0-9][0-9]*$/P/' err)" 'lcrvm: store: store in use by process P'
wait
is 'the first process' "$(cat first)" '0 attributes 
0 attributes '

# ---- Kills

mkdir killed
"$program" init killed --threads 8 --pages 16 --words 4096
echo "seed $seed"
if python3 "$top/tests/killed_names.py" "$seed" "$kills" "$names" killed; then passes; else fails kills; fi
ends_counted
