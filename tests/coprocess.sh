#!/bin/sh
# Runs examples/coprocess.py on the built program: what it prints; a log that is full; more lines than a script has;
# a store in use; a line that is not understood; a run that is over; a call that an exception cut short.
#
# usage: tests/coprocess.sh [PROGRAM]     (default: crates/lcrvm/out/lcrvm; `python3` is wanted)
#
# It takes some seconds, and works in a folder of its own below TMPDIR.
set -eu
. "$(dirname "$0")/common.sh"

program=$(whole "${1:-$top/crates/lcrvm/out/lcrvm}")

make_work
export PYTHONDONTWRITEBYTECODE=1

attempt() {
    name=$1
    shift
    if "$@"; then passes; else fails "$name"; fi
}

# The record of `hello` has 8 words and stands at place 0 of a log that is new, or was emptied by the opening.
cat > "$work/wanted" <<'END'
put: closed 0 8
Refused: refused OutOfSegment
Ended: status -9
get: hello
END
for time in first second; do
    python3 -W error "$top/examples/coprocess.py" "$work/store" "$program" > "$work/printed" 2>&1 || true
    attempt "the example, for the $time time" diff "$work/wanted" "$work/printed"
done

cat > "$work/calls.py" <<'END'
import signal, sys
sys.path.insert(0, sys.argv[1])
from coprocess import Coprocess, Ended, Refused

folder, program, bad = sys.argv[2], sys.argv[3], 0

def same(what, found, wanted):
    global bad
    if found != wanted:
        bad += 1
        print("%s: %r, and not %r" % (what, found, wanted))

def ended(what, wanted, call, *arguments):
    try:
        found = call(*arguments)
    except Ended as reason:
        found = str(reason)
    same(what, found, wanted)

store = Coprocess(folder, program)
for number in range(3000):  # some 500 bytes each; a script has at most 1 MiB, and a log room for some 120 of these records
    data = number.to_bytes(4, "little") * 50
    store.put(1, 8, data)
same("the last put", store.get(1, 8, 200), data)
ended("a second process", "device fault; lcrvm: %s: store in use by process %d; status 3" % (folder, store.process.pid), Coprocess, folder, program)
same("after the second process", store.get(1, 8, 4), data[:4])
try:  # the number of the line hangs on how many went before
    same("a line that is none", store.ask("nonsense"), "Ended")
except Ended as reason:
    number, *said = str(reason).split("; ")
    same("a line that is none", number.split(": ")[1], "not understood")
    same("why it is none", said[0].split(": ")[2:], ["nonsense", "no such line"])
    same("the status", said[-1], "status 2")
ended("after the end", "the run is over", store.get, 1, 0, 1)

# An exception between a line and its reply: the next line never gets the reply to the one before.
store = Coprocess(folder, program)
signal.signal(signal.SIGALRM, lambda *_: 1 / 0)
store.process.send_signal(signal.SIGSTOP)
signal.setitimer(signal.ITIMER_REAL, 0.1)
try:
    same("a stopped program", store.get(1, 8, 4), "ZeroDivisionError")
except ZeroDivisionError:
    pass
store.process.send_signal(signal.SIGCONT)
ended("after an exception", "the run is over", store.get, 1, 8, 4)
store.end()
same("opened again", Coprocess(folder, program).get(1, 8, 4), data[:4])
sys.exit(bad > 0)
END
mkdir "$work/longer"
"$program" init "$work/longer" --words 4096
attempt 'calls' python3 "$work/calls.py" "$top/examples" "$work/longer" "$program"

ends_counted
