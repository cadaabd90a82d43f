#!/bin/sh
# Tries what an opening of the library syncs after a clean close: nothing, as long as each file is what it was then. In
# every other case it has to sync all, as after no close: after a kill, a fault, a change, a copy or a renaming of a
# file, a run of the program in between, and with a record that is another's, torn, or no file. No close may fail since
# no record can be left. The program has to work beside the record.
#
# usage: tests/clean_close.sh [PROGRAM [LIBRARY [HEAP]]]
#   PROGRAM   default: crates/lcrvm/out/lcrvm
#   LIBRARY   default: crates/lc_c/out/liblc_c.a, which `rt lib` makes in crates/lc_c
#   HEAP      what a library of Rattle has its memory from; default: c/liblibc_c.a of the kit
#
# A C compiler `cc` is wanted. It takes some seconds, and works in a folder of its own below TMPDIR. Root tries all of
# it on a file system in memory too (ramfs), where two changes within one tick of the clock have one time.
set -eu
. "$(dirname "$0")/common.sh"

program=$(whole "${1:-$top/crates/lcrvm/out/lcrvm}")
library=$(whole "${2:-$top/crates/lc_c/out/liblc_c.a}")
heap=$(whole "${3:-$(heap_of_kit)}")

make_work
leave() {
    ! mountpoint -q "$work/ticks" 2> /dev/null || umount "$work/ticks"
    rm -rf "$work"
}
trap leave EXIT

command -v cc > /dev/null || { echo 'skipped: clean_close: there is no cc'; exit 0; }
[ -r /proc/sys/kernel/random/boot_id ] || { echo 'skipped: clean_close: the system does not number its boots'; exit 0; }
cc -std=c11 -Wall -Wextra -Werror -O2 -pthread -c "$top/clients/c/embedded.c" -o "$work/embedded.o"
cc -std=c11 -Wall -Wextra -Werror -O2 -pthread -I"$top/include" "$top/tests/clean_close_test.c" "$work/embedded.o" \
    "$library" "$heap" -o "$work/test"
cd "$work"
: > now
case $(stat -c %y now) in
    *.000000000*) echo 'skipped: clean_close: the files have times of whole seconds'; exit 0 ;;
esac

# Makes steps in the store; what its opening prints is kept.
makes() {
    if ./test store "$@" > told 2>&1; then passes; else fails "$name: $*: $(tail -n 1 told)"; fi
}
# The same of a process that is killed.
dies() {
    status=0
    ./test store "$@" kill > told 2>&1 || status=$?
    if [ $status -gt 128 ]; then passes; else fails "$name: $*: status $status: $(tail -n 1 told)"; fi
}
# That opening synced and wrote nothing.
had_nothing() {
    found=$(head -n 1 told)
    if [ "$found" = '0 syncs 0 writes' ]; then passes; else fails "$name: an opening has $found"; fi
}
# It synced the size, the folder and each of three areas, at least.
had_all() {
    found=$(head -n 1 told)
    if [ "${found%% *}" -ge 5 ]; then passes; else fails "$name: an opening has $found"; fi
}
trusts() {
    makes open "$@"
    had_nothing
}
syncs() {
    makes open "$@"
    had_all
}
has_record() {
    if [ -s store/lcrvm.clean ] && [ ! -L store/lcrvm.clean ]; then passes; else fails "$name: no record is left"; fi
}
has_none() {
    if [ ! -s store/lcrvm.clean ] && [ ! -L store/lcrvm.clean ]; then passes; else fails "$name: a record is left"; fi
}
# Waits for the next tick of the system's clock: a change that sets the time of a file's last write is seen after it.
passes_tick() {
    sleep 0.02
}
# A store with one commit, that was closed well.
begins() {
    name=$1
    rm -rf store copy
    makes create open commit close
    has_record
}
# The next opening syncs all, and the one after it nothing.
goes_on() {
    syncs shows 1 close
    has_record
    trusts shows 1 close
}

begins 'a clean close'
trusts shows 1 close
trusts commit close
trusts lazy close
trusts shows 3 close
# The times of files are set back by no more than a tick: between them and those of the last change lies no wait.
name='times that are set back'
makes open wait 200 commit close
for file in log0 seg1; do
    stat -c '%.6Y %.6Z' store/$file > times
    if awk '{ exit !($2 - $1 < 0.1 && $1 <= $2) }' times; then passes; else fails "$name: $file: $(cat times)"; fi
done
name='no close'
dies open
has_none
syncs shows 4 close
name='no close of commits'
dies open commit lazy
syncs shows 5 close
trusts shows 5 close

name='the greatest store'
rm -rf store
makes greatest open commit close
trusts shows 1 close

# ---- What is no clean close.

begins 'a child that closes'
trusts child shows 1 close
trusts child shows 1 close
dies open child
has_none
goes_on
begins 'a store that a sync has failed'
makes open fails loses
has_none
syncs close
begins 'a mark of a fault'
: > store/fault
goes_on
begins 'names that were changed while the store was open'
trusts away seg1 back seg1 close
has_none
goes_on

# ---- Where no record can be left the close is as good.

for limit in 0 100; do
    begins "files of $limit bytes at most"
    trusts limit $limit close
    has_none
    goes_on
done
begins 'a disk that is full'
trusts refuses writes close
has_none
goes_on
begins 'no descriptor'
trusts spent close
has_none
goes_on
begins 'a record that cannot be emptied'
for steps in 'shows 1' 'commit' 'shows 2'; do
    makes refuses truncations open $steps close
    had_all
    has_record
done
syncs shows 2 close
trusts shows 2 close
begins 'times that cannot be set'
trusts refuses times commit close
makes open shows 2 close

begins 'a folder that states no size'
rm store/lcrvm.store
for again in 1 2; do
    makes open shows 1 close
    has_none
    if [ "$(head -n 1 told)" = '4 syncs 0 writes' ]; then passes; else fails "$name: $(head -n 1 told)"; fi
done

# ---- Files that are not what they were.

for file in lcrvm.store log0 seg1 seg2; do
    begins "a touched $file"
    touch store/$file
    goes_on
    begins "a touched $file, with the time that it had"
    touch -r store/$file time
    passes_tick
    touch -r time store/$file
    goes_on
    begins "a $file that was written at once"
    makes open close scribble $file
    goes_on
    begins "a $file that was copied, and put in its place"
    cp -p store/$file store/other
    mv store/other store/$file
    goes_on
    begins "a $file that was copied over itself"
    cp -p store/$file other
    passes_tick
    cp -p other store/$file
    goes_on
    begins "a $file that was moved away and back"
    mv store/$file store/other
    mv store/other store/$file
    goes_on
    begins "a link to $file"
    mv store/$file other
    ln -s ../other store/$file
    goes_on
done
begins 'names that were moved at once'
makes open close away seg1 back seg1
goes_on
for way in 'cp -a' 'cp -al' 'cp -r' 'tar'; do
    begins "a copy by $way"
    case $way in
        tar) mkdir copy && tar -C store -cf - . | tar -C copy -xpf - ;;
        *) $way store copy ;;
    esac
    mv store first
    mv copy store
    goes_on
    rm -rf first
done
begins 'files of two folders'
cp -al store copy
rm copy/lcrvm.clean
makes open shows 1 close
has_record
# Both closes set the times of the files: within one tick they would leave the same ones.
passes_tick
if ./test copy open commit close > told 2>&1; then passes; else fails "$name: $(tail -n 1 told)"; fi
syncs shows 2 close
trusts shows 2 close
rm -rf copy
begins 'a copy that is put back'
cp -a store copy
passes_tick
dies open commit
cp -a copy/. store
syncs shows 1 close
rm -rf copy

# ---- Records that are none.

record=store/lcrvm.clean
begins 'no record'
rm $record
goes_on
begins 'an empty record'
: > $record
goes_on
begins 'a torn record'
truncate -s -1 $record
goes_on
begins 'a record with more'
echo >> $record
goes_on
begins 'garbage'
head -c 100000 /dev/zero > $record
goes_on
# Writes a byte of the record in its place.
puts() {
    printf %s "$1" | dd of=$record bs=1 seek="$2" conv=notrunc 2> /dev/null
}
begins 'another format'
puts 2 7
goes_on
begins 'another boot'
puts x 14
goes_on
begins 'the record of another store'
mv store copy
makes create open commit close
cp copy/lcrvm.clean $record
goes_on
begins 'a record that is a link'
mv $record other
ln -s ../other $record
syncs shows 1 close
syncs shows 1 close
if [ -L $record ] && [ -s other ]; then passes; else fails "$name: it is gone"; fi
begins 'a record that is a folder'
rm $record
mkdir $record
syncs shows 1 close
syncs shows 1 close
begins 'a record that is a pipe'
rm $record
mkfifo $record
syncs shows 1 close
syncs shows 1 close
name='a record beside no store'
rm -rf store
mkdir store
echo 'format 1' > $record
makes create open commit close
trusts shows 1 close

# ---- The program, beside the record.

if [ -x "$program" ]; then
    program() {
        status=0
        "$program" "$@" > said 2>&1 || status=$?
        if [ $status -eq 0 ]; then passes; else fails "$name: $1: status $status: $(tail -n 1 said)"; fi
    }
    begins 'looks by the program'
    for words in 'check store' 'dump store 1 0' 'draw store' 'inspect store/log0'; do
        program $words
    done
    mkdir copy
    program copy store copy
    [ ! -e copy/lcrvm.clean ] || fails "$name: the record is copied"
    has_record
    trusts shows 1 close
    begins 'a recovery by the program'
    program recover store --as-found
    makes open shows 1 close
    begins 'a commit by the program'
    printf 'begin 0 0 1\nrange 0 0 1 0 1\nwrite 0 0 1 0 07\nend 0 0\nflush 0\n' > script
    program run --store store --as-found < script
    syncs shows 7 close
    trusts shows 7 close
    begins 'a new store of the program'
    for file in lcrvm.store log0 seg1 seg2; do rm store/$file; done
    program init store --segments 2 --pages 4 --words 64
    syncs shows 0 close
    trusts shows 0 close
else
    echo "skipped: the program beside the record: no $program"
fi

# ---- The same by ticks.

mkdir ticks
if [ -n "${IN_TICKS:-}" ]; then
    :
elif mount -t ramfs none ticks 2> /dev/null; then
    IN_TICKS=1 TMPDIR="$work/ticks" "$top/tests/clean_close.sh" "$program" "$library" "$heap" > by_ticks 2>&1 || true
    sed '$d; s/^/by ticks: /' by_ticks
    set -- $(tail -n 1 by_ticks | sed 's/ passed, / /; s/ failed//')
    passed=$((passed + $1))
    failed=$((failed + $2))
else
    echo 'skipped: the same by ticks: no ramfs can be mounted'
fi

ends_counted
