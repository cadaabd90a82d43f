#!/bin/sh
# Recovers stores with more than a thousand pages to write over a terminal, and over none: on a terminal the built program shows how far
# it is, and elsewhere it says nothing of that.
#
# usage: tests/progress.sh [PROGRAM]     (default: crates/lcrvm/out/lcrvm)
#
# It takes a few seconds, and works in a folder of its own below TMPDIR. The terminal is one of script(1), of util-linux.
set -eu
. "$(dirname "$0")/common.sh"

program=$(whole "${1:-crates/lcrvm/out/lcrvm}")

make_work
cd "$work"

size='--nodes 2 --segments 2 --pages 1024 --words 4096'

# Fourteen commits of each of two nodes, of one byte on each of 64 pages: 1792 pages.
awk 'BEGIN {
    for (node = 0; node < 2; node++) {
        segment = 2 - node
        for (k = 0; k < 14; k++) {
            print "begin", node, 0, segment
            for (r = 0; r < 64; r++) print "range", node, 0, segment, 256 * (64 * k + r), 1
            print "end", node, 0
        }
        print "flush", node
    }
}' > changes

mkdir store
"$program" init store $size
"$program" run --store store $size < changes > replies
for copy in told quiet told_run; do cp -r store $copy; done

script -qc "'$program' recover told --as-found" /dev/null > told.out
grep -q 'recovering: 64 of 1792 pages' told.out || fails 'a recovery on a terminal does not show its first pages'
grep -q 'recovering: 1792 of 1792 pages' told.out || fails 'a recovery on a terminal does not show its last page'
grep -q 'recovered' told.out || fails 'a recovery on a terminal did not come to its end'

"$program" recover quiet --as-found > quiet.out 2> quiet.err || fails 'a recovery over no terminal is refused'
[ ! -s quiet.err ] || fails 'a recovery over no terminal says something on standard error'

echo 'flush 0' > line
script -qc "'$program' run --as-found --store told_run < line" /dev/null > run.out
grep -q 'recovering: 1792 of 1792 pages' run.out || fails 'the recovery of a run on a terminal does not show its last page'
grep -q 'nothing' run.out || fails 'a run after a recovery that was shown has no reply'

# Recovered already: no page is to be written.
script -qc "'$program' recover quiet --as-found" /dev/null > again.out
! grep -q 'recovering' again.out || fails 'a recovery without a page to write shows something'

passed=$((7 - failed))
ends_counted
