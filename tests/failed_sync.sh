#!/bin/sh
# Fails a sync of the built program on a real file system, each sync of a run in turn: the disk under an ext4 file system is gone
# for its part that has the store's files, while the sync is made. Then the disk is back, the store is recovered and has one
# commit more, and the power goes: what the disk has is looked at in another mount. Each acknowledged commit has to be there.
# After a sync that failed the system takes the pages for clean: a read gives the bytes, and they are on no disk.
#
# Once more the run is killed before the sync, and it is the system that writes back and fails. Then the first sync of the next
# process has to tell it.
#
# usage: tests/failed_sync.sh [PROGRAM]     (default: crates/lcrvm/out/lcrvm; root, loop devices, ext4 and `cc` are wanted)
#
# Where these can't be had it says `skipped`, and the status is 0. It takes about a minute, and works in a folder of its own
# below TMPDIR. No process is waited for longer than a minute.
set -eu
. "$(dirname "$0")/common.sh"

program=$(whole "${1:-crates/lcrvm/out/lcrvm}")
bound=60
most=200
PATH=$PATH:/usr/sbin:/sbin

make_work
device=''
leave() {
    ! mountpoint -q "$work/disk" || umount "$work/disk" || umount -l "$work/disk" || true
    [ -z "$device" ] || losetup -d "$device" || true
    device=''
}
trap 'leave; rm -rf "$work"' EXIT
cd "$work"

skip() {
    echo "skipped: $*"
    exit 0
}

# How often the system wrote back with no fault, and how often a recovery told one.
clean=0
told=0

lcrvm() {
    timeout -k 5 "$bound" "$program" "$@"
}

# The image of a disk, mounted.
enter() {
    device=$(losetup -f --show "$1" 2> /dev/null) && mount "$device" disk 2> /dev/null
}

[ "$(id -u)" -eq 0 ] || skip 'this is not root'
for tool in losetup mkfs.ext4 mount umount mountpoint filefrag truncate cc; do
    command -v $tool > /dev/null || skip "there is no $tool"
done
cc -shared -fPIC -O2 -o calls.so "$top/tests/traced_calls.c" -ldl
mkdir disk
truncate -s 16M made
mkfs.ext4 -q -F -b 4096 made 2> /dev/null || skip 'no ext4 can be made'
enter made || skip 'no loop device can be mounted'

# A store with commits that are acknowledged, some on the pages and some in the log alone. Commit K puts the number K in
# both segments.
size='--segments 2 --words 128'
commit() {
    printf 'begin 0 0 1 2\n'
    for s in 1 2; do printf 'range 0 0 %d 0 2\nwrite 0 0 %d 0 %04x\n' $s $s "$1"; done
    printf 'end 0 0\nflush 0\n'
}
pages() {
    for s in 1 2; do for i in 1 2 3 4 5 6; do echo "page 0 $s 0"; done; done
}
reset() {
    for i in 1 2 3 4; do echo 'reset 0'; done
}
{ commit 1; pages; commit 2; } > base.script
{ commit 3; pages; reset; commit 4; commit 5; pages; commit 6; } > run.script
commit 7 > next.script
printf 'begin 0 0 1 2\nread 0 0 1 0 2\nread 0 0 2 0 2\n' > look.script
mkdir disk/store
sync
lcrvm init disk/store $size
lcrvm run --store disk/store $size < base.script > base.out
[ "$(grep -c '^acked' base.out)" -eq 2 ] || { echo 'failed: no commits before' >&2; echo '0 passed, 1 failed'; exit 1; }
sync
# The part of the disk from the first of the store's blocks on, which has no journal and no folder.
first=$(for file in disk/store/*; do filefrag -v "$file"; done | awk '$1 == "0:" { n = $4 + 0; if (least == "" || n < least) least = n } END { print least }')
[ "$first" -gt 1024 ] || skip 'the files lie before the journal'
cut=$((first * 4096))
leave

# What was acknowledged is there, whole: commit K at least.
holds() {
    status=0
    lcrvm recover disk/store $size > recovered 2> errors || status=$?
    [ $status -eq 0 ] || { fails "$1: the recovery has status $status: $(tail -n 1 recovered)"; return; }
    status=0
    lcrvm run --store disk/store $size < look.script > looked 2> errors || status=$?
    [ $status -eq 0 ] || { fails "$1: the look has status $status: $(tail -n 1 looked)"; return; }
    one=$(sed -n 2p looked)
    two=$(sed -n 3p looked)
    [ "$one" = "$two" ] || fails "$1: a part of a commit is there: $one, $two"
    [ $((0x${one#bytes })) -ge "$2" ] || fails "$1: commit $2 was acknowledged, and it is $one"
}

for mode in failed killed; do
    number=1
    lost=0
    while [ $number -le $most ]; do
        name="sync $number $mode"
        cp made image
        enter image || { fails "$name: no disk"; break; }
        rm -f gate
        LD_PRELOAD="$work/calls.so" CALLS_FOLDER=disk/store CALLS_HELD=$number CALLS_GATE="$work/gate" \
            "$program" run --store disk/store $size < run.script > out 2> err &
        running=$!
        turns=0
        while [ ! -e gate ] && kill -0 $running 2> /dev/null && [ $turns -lt $((bound * 100)) ]; do
            sleep 0.01
            turns=$((turns + 1))
        done
        if [ ! -e gate ]; then
            kill -0 $running 2> /dev/null && { fails "$name: the run does not end"; kill -9 $running; }
            status=0
            wait $running || status=$?
            [ $status -eq 0 ] || fails "$name: no sync failed, and the status is $status"
            leave
            break
        fi

        # The end of the disk is gone, and the sync is made, or the system writes back by itself.
        tail -c +$((cut + 1)) image > end
        truncate -s $cut image
        losetup -c "$device"
        status=0
        if [ $mode = failed ]; then
            rm -f gate
            turns=0
            while kill -0 $running 2> /dev/null && [ $turns -lt $((bound * 100)) ]; do
                sleep 0.01
                turns=$((turns + 1))
            done
            ! kill -9 $running 2> /dev/null || fails "$name: the run does not end"
            wait $running || status=$?
        else
            kill -9 $running
            wait $running 2> /dev/null || true
            ! sync -f disk/store 2> /dev/null || clean=$((clean + 1))
        fi
        cat end >> image
        losetup -c "$device"
        acked=$((2 + $(grep -c '^acked' out || true)))
        if [ $mode = failed ]; then
            [ $status -eq 3 ] || fails "$name: a sync failed, and the status is $status"
            grep -q '^lcrvm: disk/store/[a-z]*[0-9]*: Input/output error' err || fails "$name: standard error does not say it: $(cat err)"
        else
            lcrvm recover disk/store $size > recovered 2> errors || status=$?
            [ $status -ne 3 ] || told=$((told + 1))
            [ $status -eq 0 ] || [ $status -eq 3 ] || fails "$name: the recovery has status $status: $(tail -n 1 recovered)"
        fi

        # The store goes on.
        before=$failed
        holds "$name, after it" $acked
        status=0
        lcrvm run --store disk/store $size < next.script > next.out 2> errors || status=$?
        [ $status -eq 0 ] && grep -q '^acked' next.out || fails "$name: the next run has status $status: $(tail -n 1 next.out)"

        # The power goes: the disk has what was written back to it, and nothing else.
        cp image after
        leave
        enter after || { fails "$name: no disk after the power's loss"; break; }
        holds "$name, after the loss of power" 7
        leave
        [ $failed -eq $before ] || lost=$((lost + 1))
        number=$((number + 1))
    done
    [ $number -gt 1 ] || fails 'no sync was held'
    case $mode in
        failed) echo "each of $((number - 1)) syncs failed once: after $lost of them a store was not right" ;;
        killed)
            echo "before each a run was killed once, and the system wrote back: that failed $((number - 1 - clean)) times, which $told" \
                "recoveries told; after $lost of them a store was not right"
            ;;
    esac
done
ends_as_one
