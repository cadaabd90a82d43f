#!/bin/sh
# Fails each call on the files of a store in turn, one a run: of a run, a recovery, a recovery after a fault, an init and an
# inspection. The status is 3, standard error names the file and the system's reason, what failed is called no more, a failed
# write or sync leaves its mark, and a recovery after it finds each acknowledged commit, whole. It also fails standard input
# and standard output, and looks how a store whose mark is there is recovered.
#
# usage: tests/faults.sh [PROGRAM]     (default: crates/lcrvm/out/lcrvm; a C compiler `cc` is wanted)
#
# It takes a minute or two, and works in a folder of its own below TMPDIR. A program that does not end within a minute is a failure.
set -eu
. "$(dirname "$0")/common.sh"

program=$(whole "${1:-crates/lcrvm/out/lcrvm}")
bound=60
most=1000

make_work
cc -shared -fPIC -O2 -o "$work/calls.so" "$top/tests/traced_calls.c" -ldl
cd "$work"

lcrvm() {
    timeout -k 5 "$bound" "$program" "$@"
}

# Runs the program with one call failed, of this kind, number and error; `mark` then has the call's kind and path.
failing() {
    rm -f mark
    kind=$1
    number=$2
    error=$3
    shift 3
    status=0
    timeout -k 5 "$bound" env LD_PRELOAD="$work/calls.so" CALLS_FOLDER="$work/at" CALLS_KIND=$kind CALLS_FAILED=$number \
        CALLS_ERROR=$error CALLS_MARK="$work/mark" "$program" "$@" > out 2> err || status=$?
}

size='--nodes 2 --segments 2 --words 256'
files='lcrvm.store log0 log1 seg1 seg2 '
store=$work/at/store

# Commit K puts the number K in two bytes of both segments. One node's commits come first, and after a page write and a
# reset those of the other.
commits() {
    awk -v first="$1" -v last="$2" -v node="$3" 'BEGIN {
        for (k = first; k <= last; k++) {
            print "begin " node " 0 1 2"
            for (s = 1; s <= 2; s++) { printf "range %d 0 %d 0 2\nwrite %d 0 %d 0 %04x\n", node, s, node, s, k }
            print "end " node " 0"; print "flush " node
        }
    }'
}
# In the beginning each node has one segment.
together() {
    printf 'leave 1 1\narrive 0 1\n'
}
{ together; commits 1 3 0; } > base.script
{
    together
    commits 4 5 0
    for s in 1 2; do for i in 1 2 3 4 5 6; do echo "page 0 $s 0"; done; done
    for i in 1 2 3 4; do echo 'reset 0'; done
    commits 6 6 0
    for s in 1 2; do
        printf 'leave 0 %d\n' $s
        for k in 1 2 3; do echo "deliver 0 $k $s 1"; done
        printf 'arrive 1 %d\n' $s
    done
    commits 7 8 1
} > run.script
printf 'begin 1 0 1\nread 1 0 1 0 2\nbegin 0 0 2\nread 0 0 2 0 2\n' > look.script

mkdir at
mkdir at/store
lcrvm init "$store" $size
lcrvm run --store "$store" $size < base.script > base.out
[ "$(grep -c '^acked' base.out)" -eq 3 ] || { echo 'failed: no commits before' >&2; echo '0 passed, 1 failed'; exit 1; }
cp -r at/store base
lcrvm run --store "$store" $size < run.script > whole.out || { echo 'failed: the script is not done' >&2; echo '0 passed, 1 failed'; exit 1; }
[ "$(grep -c '^acked' whole.out)" -eq 5 ] || { echo 'failed: the script is not done' >&2; echo '0 passed, 1 failed'; exit 1; }

# Standard error names what failed, and why, and it is a device fault. Where it is the folder that has the store's own, by
# whatever name, that may be said alone.
told() {
    path=$(sed '2,$d;s/^[a-z]* //' mark)
    named="lcrvm: ${path%.new}: "
    case $path in
        "$store" | "$store"/[a-z]*) ;;
        *)
            named='lcrvm: '
            [ $status -ne 0 ] || status=said
            ;;
    esac
    case $status in
        said) ;;
        3) [ "$(tail -n 1 out)" = 'device fault' ] || fails "$1: it is no device fault on standard output" ;;
        *) fails "$1, of $path: status $status" ;;
    esac
    case $error in 28) reason='No space left on device' ;; *) reason='Input/output error' ;; esac
    # A copy's fault may be said of the file or of the copy.
    sed 's/\.new: /: /' err > said
    grep -F "$named" said | grep -q -F ": $reason" || fails "$1: standard error has not '$path: $reason': $(cat err)"
    case $(sed q mark) in
        pwrite* | sync*) ! grep -q '^again' mark || fails "$1: what failed is called again: $(grep '^again' mark | tail -n 1)" ;;
    esac
}

# A write or sync of an area that failed left an empty file in the folder, and nothing else does.
marked() {
    case $2 in
        pwrite | sync) [ -f at/store/fault ] && [ ! -s at/store/fault ] || fails "$1: no mark is left" ;;
        *) [ ! -e at/store/fault ] || fails "$1: a mark is left, and no write or sync failed" ;;
    esac
}

# A recovery finds what was acknowledged: so many commits at least, and the same in both segments.
recovered() {
    after=0
    lcrvm recover "$store" $size > recovered 2>&1 || after=$?
    [ $after -eq 0 ] || { fails "$1: the recovery after it has status $after: $(tail -n 1 recovered)"; return; }
    after=0
    lcrvm run --store "$store" $size < look.script > looked 2>&1 || after=$?
    [ $after -eq 0 ] || { fails "$1: the look after it has status $after: $(tail -n 1 looked)"; return; }
    one=$(sed -n 2p looked)
    two=$(sed -n 4p looked)
    [ "$one" = "$two" ] || fails "$1: a part of a commit is there: $one, $two"
    [ $((0x${one#bytes })) -ge "$2" ] || fails "$1: $2 commits were acknowledged, and $one are there"
    [ "$(ls at/store | tr '\n' ' ')" = "$files" ] || fails "$1: other files are there: $(ls at/store | tr '\n' ' ')"
}

total=0
for scenario in run recover marked init inspect; do
    counted=''
    for kind in stat open pread pwrite sync rename unlink flock chmod; do
        number=1
        while [ $number -le $most ]; do
            rm -rf at/store
            case $scenario in init) mkdir at/store ;; *) cp -r base at/store ;; esac
            # A copy that a stop left is longer than the file.
            [ $scenario != marked ] || { : > at/store/fault; cat base/seg2 base/log0 > at/store/log0.new; }
            case $number in *[02468]) error=28 ;; *) error=5 ;; esac
            case $scenario in
                run) failing $kind $number $error run --store "$store" $size < run.script ;;
                init) failing $kind $number $error init "$store" $size ;;
                inspect) failing $kind $number $error inspect "$store/log0" ;;
                *) failing $kind $number $error recover "$store" $size ;;
            esac
            name="$scenario, $kind $number with error $error"
            if [ ! -e mark ]; then
                [ $status -eq 0 ] || fails "$name: no call failed, and the status is $status"
                break
            fi
            told "$name"
            acked=$((3 + $(grep -c '^acked' out || true)))
            case $scenario in run | recover) marked "$name" $kind ;; esac
            [ $scenario = init ] || recovered "$name" $acked
            number=$((number + 1))
            total=$((total + 1))
        done
        [ $number -eq 1 ] || counted="$counted $((number - 1)) $kind,"
    done
    echo "$scenario:${counted%,}: each failed once"
done

# Where files are links, what they lead to is copied, with its mode, and the links stay.
rm -rf at/store at/other
cp -r base at/store
mkdir at/other
for file in log0 seg1; do
    mv at/store/$file at/other/its-$file
    chmod 640 at/other/its-$file
    ln -s ../other/its-$file at/store/$file
done
: > at/store/fault
numbers() {
    stat -c %i at/other/its-log0 at/other/its-seg1 at/store/log1 at/store/seg2
}
numbers > before
recovered 'a marked store with links' 3
for file in log0 seg1; do
    [ "$(readlink at/store/$file)" = ../other/its-$file ] || fails "a marked store with links: $file is no link"
    [ "$(stat -c %a at/other/its-$file)" = 640 ] || fails "a marked store with links: its-$file has another mode"
done
[ "$(ls at/other | tr '\n' ' ')" = 'its-log0 its-seg1 ' ] || fails "a marked store with links: other files are there"
numbers > after
[ "$(paste before after | awk '$1 == $2')" = '' ] || fails "a marked store with links: a file is no copy"
rm -rf at/other

rm -rf at/store
cp -r base at/store
status=0
lcrvm run --store "$store" $size < run.script > /dev/full 2> err || status=$?
[ $status -eq 3 ] || fails "a full standard output: status $status"
grep -q '^lcrvm: standard output: No space left on device' err || fails "a full standard output is not named: $(cat err)"
recovered "a full standard output" 3
rm -rf at/store
cp -r base at/store
status=0
lcrvm run --store "$store" $size < "$work" > out 2> err || status=$?
[ $status -eq 3 ] || fails "a folder as standard input: status $status"
grep -q '^lcrvm: standard input: Is a directory' err || fails "a folder as standard input is not named: $(cat err)"
recovered "a folder as standard input" 3

echo "$total calls failed, one a run"
ends_as_one
