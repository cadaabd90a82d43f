#!/bin/sh
# Copies stores by the built program: what the copy has, that the store is not changed, copies that are larger, and those that are
# refused, which leave nothing.
#
# usage: tests/copies.sh [PROGRAM]     (default: crates/lcrvm/out/lcrvm)
#
# It takes some seconds, and works in a folder of its own below TMPDIR.
set -eu
. "$(dirname "$0")/common.sh"

program=$(whole "${1:-crates/lcrvm/out/lcrvm}")
make_work
cd "$work"

# Copies by these words, and looks at the status, at what is printed, and that standard error has a text.
copies() {
    wanted=$1 printed=$2 said=$3
    shift 3
    status=0
    "$program" copy "$@" > out 2> err || status=$?
    if [ "$status" -ne "$wanted" ]; then
        fails "$name: status $status, and not $wanted: $(cat out err)"
    elif [ "$(cat out)" != "$printed" ]; then
        fails "$name: printed '$(cat out)', and not '$printed'"
    elif [ -n "$said" ] && ! grep -qF "$said" err; then
        fails "$name: standard error has '$(cat err)', and not '$said'"
    else
        passes
    fi
}

sums() {
    (cd "$1" && cksum ./*)
}

is_same() {
    if [ "$1" = "$2" ]; then passes; else fails "$name: has '$1', and not '$2'"; fi
}

# The bytes of a segment from an offset on, after a recovery.
bytes_of() {
    printf 'begin 0 0 r%s\nread 0 0 %s %s %s\nabort 0 0\n' "$2" "$2" "$3" "$4" |
        "$program" run --as-found --store "$1" 2> /dev/null | sed -n 's/^bytes //p'
}

mkdir bank
"$program" init bank --pages 4 --words 128
printf 'begin 0 0 1\nrange 0 0 1 3 5\nwrite 0 0 1 3 68656c6c6f\nend 0 0\nflush 0\ntruncate 0\nbegin 0 0 1\nrange 0 0 1 768 2\nwrite 0 0 1 768 abcd\nend 0 0\nflush 0\n' |
    "$program" run --as-found --store bank > /dev/null 2>&1
before=$(sums bank)

name='a copy of a store with a page and a record'
mkdir same
copies 0 '' '' bank same
is_same "$(sums same)" "$before"
name='the store that was copied'
is_same "$(sums bank)" "$before"
name='the bytes of the copy'
is_same "$(bytes_of same 1 3 5)" 68656c6c6f
is_same "$(bytes_of same 1 768 2)" abcd

name='a larger copy'
mkdir larger
copies 0 '' '' bank larger --pages 9 --segments=3
is_same "$("$program" check larger 2> /dev/null | head -n 1)" 'nodes 1 segments 3 pages 9 words 128'
is_same "$(bytes_of larger 1 3 5)" 68656c6c6f
is_same "$(bytes_of larger 1 768 2)" abcd
is_same "$(bytes_of larger 3 2300 4)" 00000000
printf 'begin 0 0 1 3\nrange 0 0 3 2300 2\nwrite 0 0 3 2300 1234\nend 0 0\ntruncate 0\n' |
    "$program" run --as-found --store larger > /dev/null 2>&1
name='what was written to a larger copy'
is_same "$(bytes_of larger 3 2300 2)" 1234

mkdir none
for words in '--pages 3:refused BadGeometry 1' '--words 256:refused BadGeometry 0' '--words 64:refused BadGeometry 0' \
    '--nodes 2:refused BadGeometry 0'; do
    name="a copy with ${words%%:*}"
    # shellcheck disable=SC2086
    copies 1 "${words#*:}" '' bank none ${words%%:*}
    is_same "$(ls none)" ''
done
name='a copy of fewer segments'
copies 1 'refused BadGeometry 2' '' larger none --segments 1
is_same "$(ls none)" ''

name='a copy where a name is taken'
mkdir taken
: > taken/log5
copies 1 'refused Exists' 'taken/log5: is there already' bank taken
is_same "$(ls taken)" log5
name='a copy of a store onto itself'
copies 1 'refused Exists' 'lcrvm.store: is there already' bank bank
is_same "$(sums bank)" "$before"
name='a copy into a folder that is missing'
copies 3 'device fault' 'missing' bank missing
name='a copy of a folder that is missing'
copies 3 'device fault' 'missing' missing none
is_same "$(ls none)" ''

name='a copy of a store that is open'
mkfifo lines
"$program" run --as-found --follow --store bank < lines > replies 2> /dev/null &
run=$!
exec 3> lines
printf 'begin 0 0 r1\n' >&3
until [ -s replies ]; do sleep 0.05; done
copies 3 'device fault' "bank: store in use by process $run" bank none
exec 3>&-
wait $run || :
is_same "$(ls none)" ''

name='a copy of a store with the mark of a fault'
mkdir marked
copies 0 '' '' bank marked
: > marked/fault
copies 3 'device fault' 'recover the store first' marked none
is_same "$(ls none)" ''
name='a copy of a store that lacks a file'
rm marked/fault marked/seg1
copies 3 'device fault' 'seg1' marked none
is_same "$(ls none)" ''
name='a copy of an older folder that lacks a file'
rm marked/lcrvm.store
copies 1 'seg1 is missing' '' marked none
is_same "$(ls none)" ''

name='a copy of which a file cannot be written'
(
    trap '' XFSZ
    ulimit -f 1
    copies 3 'device fault' 'none/' bank none
    echo "$passed $failed" > counted
)
read -r passed failed < counted
is_same "$(ls none)" ''

ends_counted
