#!/bin/sh
# Runs the built program with closed standard descriptors, each choice of them: no file of a store may take the place of one.
# What is printed to a closed standard output ends the run with status 3 and lands in no file; a closed standard input is
# a fault, and no script; what is said on a closed standard error is said nowhere.
#
# usage: tests/descriptors.sh [PROGRAM]     (default: crates/lcrvm/out/lcrvm)
#
# It takes some seconds, and works in a folder of its own below TMPDIR. A program that does not end within a minute is a failure.
set -eu
. "$(dirname "$0")/common.sh"

program=$(whole "${1:-crates/lcrvm/out/lcrvm}")
bound=60

make_work
cd "$work"

fail() {
    fails "$@"
    right=no
}

size='--words 256'
files='lcrvm.store log0 seg1'
areas='log0 seg1'
printf 'begin 0 0 1\nrange 0 0 1 0 4\nwrite 0 0 1 0 a1a2a3a4\nend 0 0\nflush 0\n' > before.script
{
    printf 'begin 0 0 1\nrange 0 0 1 8 4\nwrite 0 0 1 8 b1b2b3b4\nend 0 0\nflush 0\n'
    printf 'log 0\ninspect 0\nshow 0 1 0\npage 0 1 0\n'
} > after.script
printf 'begin 0 0 1\nread 0 0 1 0 4\nread 0 0 1 8 4\n' > look.script

mkdir base
timeout $bound "$program" init base $size
timeout $bound "$program" run --store base $size < before.script > before
grep -q -x 'acked 1' before || { echo 'failed: no commit before' >&2; echo '0 passed, 1 failed'; exit 1; }

# Runs a command with the descriptors closed whose numbers stand in the first word; the second is what is read.
closed() {
    which=$1
    input=$2
    shift 2
    status=0
    timeout $bound sh -c '
        which=$1
        shift
        case $which in *0*) exec <&- ;; esac
        case $which in *2*) exec 2>&- ;; esac
        case $which in *1*) exec >&- ;; esac
        exec "$@"' closed "$which" "$program" "$@" < "$input" > out 2> err || status=$?
}

# The store's files are as long as before, and nothing that the program says is in them.
whole() {
    for file in $files; do
        [ "$(wc -c < base/$file)" = "$(wc -c < store/$file)" ] || fail "$1: $file has another length"
        grep -a -q -E 'ok$|acked|closed|refused|recovered|sequence|step |written|node 0|device fault|lcrvm|understood' store/$file \
            && fail "$1: what is printed is in $file"
    done
    [ "$(ls store)" = "$(ls base)" ] || fail "$1: other files are there"
}

# A later run finds the commit that was acknowledged before, and the other one where that was acknowledged.
holds() {
    look=0
    timeout $bound "$program" run --store store $size < look.script > looked 2> /dev/null || look=$?
    [ $look -eq 0 ] || fail "$1: a later run has status $look: $(tail -n 1 looked)"
    grep -q -x 'bytes a1a2a3a4' looked || fail "$1: the commit before is not there"
    if [ "$2" = acked ]; then
        grep -q -x 'bytes b1b2b3b4' looked || fail "$1: an acknowledged commit is not there"
    fi
}

done_with() {
    if [ $right = yes ]; then passes; else echo "not right: $1" >&2; fi
}

for which in none 0 1 2 01 02 12 012; do
    name="run with $which closed"
    right=yes
    rm -rf store
    cp -r base store
    closed $which after.script run --store store $size
    case $which in
        *0* | *1*) [ $status -eq 3 ] || fail "$name: status $status" ;;
        *) [ $status -eq 0 ] || fail "$name: status $status" ;;
    esac
    grep -q 'understood' out && fail "$name: something else was read as the script"
    whole "$name"
    acked=$(grep -c -x 'acked 1' out || true)
    [ "$acked" -eq 1 ] && holds "$name" acked || holds "$name" other
    done_with "$name"

    name="recover with $which closed"
    right=yes
    rm -rf store
    cp -r base store
    closed $which /dev/null recover store $size
    case $which in
        *1*) [ $status -eq 3 ] || fail "$name: status $status" ;;
        *)
            [ $status -eq 0 ] || fail "$name: status $status"
            grep -q -x recovered out || fail "$name: it is not printed"
            ;;
    esac
    whole "$name"
    holds "$name" other
    done_with "$name"

    name="inspect with $which closed"
    right=yes
    rm -rf store
    cp -r base store
    closed $which /dev/null inspect store/log0
    case $which in
        *1*) [ $status -eq 3 ] || fail "$name: status $status" ;;
        *)
            [ $status -eq 0 ] || fail "$name: status $status"
            grep -q '^0 8 node 0' out || fail "$name: the record is not printed"
            ;;
    esac
    for file in $files; do cmp -s base/$file store/$file || fail "$name: $file is another"; done
    done_with "$name"

    # It prints nothing, so a closed standard output need not be seen.
    name="init with $which closed"
    right=yes
    rm -rf store
    mkdir store
    closed $which /dev/null init store $size
    case $which in
        *1*) [ $status -eq 0 ] || [ $status -eq 3 ] || fail "$name: status $status" ;;
        *) [ $status -eq 0 ] || fail "$name: status $status" ;;
    esac
    whole "$name"
    printf 'format 1\nnodes 1\nsegments 1\npages 1\nwords 256\n' | cmp -s - store/lcrvm.store || fail "$name: lcrvm.store says another size"
    for file in $areas; do
        tr -d '\0' < store/$file | cmp -s - /dev/null || fail "$name: $file is not of zeros"
    done
    done_with "$name"

    # Something is to be said on standard error, and a file of the store is not there.
    name="run without a segment's file with $which closed"
    right=yes
    rm -rf store
    cp -r base store
    rm store/seg1
    closed $which after.script run --store store $size
    [ $status -eq 3 ] || fail "$name: status $status"
    cmp -s base/log0 store/log0 || fail "$name: log0 is another"
    [ "$(ls store | tr '\n' ' ')" = 'lcrvm.store log0 ' ] || fail "$name: other files are there"
    done_with "$name"

    # The same where standard input is a folder, which nobody can read as a script.
    name="run that reads a folder with $which closed"
    right=yes
    rm -rf store
    cp -r base store
    closed $which . run --store store $size
    [ $status -eq 3 ] || fail "$name: status $status"
    whole "$name"
    holds "$name" other
    done_with "$name"
done
[ $failed -eq 0 ] || failed=1
echo "$passed of 48 runs with closed descriptors were right"
[ $failed -eq 0 ] && echo "1 passed, 0 failed" || { echo "0 passed, 1 failed"; exit 1; }
