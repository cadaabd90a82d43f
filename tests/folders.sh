#!/bin/sh
# Tries the built program over folders that are not as a store's should be: files that are missing, left over, no regular files or
# links, sizes that are not the store's, two folders of the same files, and names that are not stable; and runs that end with
# something open. No commit is lost, nothing outside is touched, nothing waits for ever, and standard error says what is wrong.
#
# usage: tests/folders.sh [PROGRAM]     (default: crates/lcrvm/out/lcrvm; a C compiler `cc` is wanted)
#
# It takes some seconds, and works in a folder of its own below TMPDIR. A program that does not end within 20 seconds is a failure.
set -eu
. "$(dirname "$0")/common.sh"

program=$(whole "${1:-crates/lcrvm/out/lcrvm}")
bound=20

make_work
cc -shared -fPIC -O2 -o "$work/calls.so" "$top/tests/traced_calls.c" -ldl
cd "$work"

fail() {
    fails "$name: $*"
}

# Runs the program with nothing to read; `out`, `err` and `status` have how it ended.
lcrvm() {
    status=0
    timeout -k 5 "$bound" "$program" "$@" < "${input:-/dev/null}" > out 2> err || status=$?
}

# Compares how it ended, and looks for a line of standard error.
ends() {
    [ $status -eq "$1" ] || fail "status $status, not $1: $(cat out err | tr '\n' '|')"
    [ "$(tail -n 1 out)" = "$2" ] || fail "printed '$(tail -n 1 out)', not '$2'"
    if [ $# -gt 2 ]; then
        grep -q -x -e "$3" err || fail "standard error has no line '$3': $(tr '\n' '|' < err)"
    else
        [ ! -s err ] || fail "standard error has $(tr '\n' '|' < err)"
    fi
    passes
}

full='--nodes 2 --segments 2'
printf 'begin 1 0 1\nrange 1 0 1 0 1\nwrite 1 0 1 0 11\nend 1 0\nflush 1\n' > commit.script
printf 'begin 1 0 1\nread 1 0 1 0 1\nabort 1 0\n' > look.script

# A store of two nodes whose second has a commit, acknowledged.
new_store() {
    rm -rf store
    mkdir store
    lcrvm init store $full
    [ $status -eq 0 ] || { echo "failed: no store was made: $(cat out err)" >&2; echo '0 passed, 1 failed'; exit 1; }
    input=commit.script
    lcrvm run --store store $full
    input=
    grep -q -x 'acked 1' out || { echo "failed: no commit: $(cat out err)" >&2; echo '0 passed, 1 failed'; exit 1; }
}

# ---- the size that the store's own file says

name='the file of the size'
new_store
printf 'format 1\nnodes 2\nsegments 2\npages 1\nwords 64\n' | cmp -s - store/lcrvm.store || fail "it has $(tr '\n' '|' < store/lcrvm.store)"

# Each file is taken away in turn: nothing opens the store, and nothing is changed.
for file in log0 log1 seg1 seg2; do
    new_store
    rm store/$file
    cksum store/* > before
    for how in "run --store store $full" 'run --store store --as-found' 'recover store --as-found' "recover store $full" 'check store' 'dump store 1 0' 'draw store'; do
        name="$how without $file"
        lcrvm $how
        ends 3 'device fault' "lcrvm: store/$file: No such file or directory.*"
    done
    # The size that the other files tell.
    case $file in
        log1) less='--nodes 1 --segments 2' place=1 ;;
        seg2) less='--nodes 2 --segments 1' place=3 ;;
        *) continue ;;
    esac
    for how in "run --store store $less" "recover store $less" "check store $less"; do
        name="$how without $file"
        lcrvm $how
        ends 1 "refused BadGeometry $place" "lcrvm: store/$file: is missing"
        grep -q -x 'lcrvm: store/lcrvm.store: nodes 2 segments 2 pages 1 words 64' err || fail "the store's size is not said: $(tr '\n' '|' < err)"
    done
    cksum store/* | cmp -s - before || fail 'a file was changed'
done

# The other sizes of a whole store.
for sizes in '1 2 1 64 3' '2 1 1 64 3' '1 1 1 64 2' '2 2 1 65 0' '2 2 2 64 2'; do
    set -- $sizes
    new_store
    name="a run with $1 nodes, $2 segments, $3 pages and $4 words"
    lcrvm run --store store --nodes $1 --segments $2 --pages $3 --words $4
    ends 1 "refused BadGeometry $5" 'lcrvm: store/lcrvm.store: nodes 2 segments 2 pages 1 words 64'
done

# What is no size.
for text in '' 'format 2\nnodes 2\nsegments 2\npages 1\nwords 64\n' 'format 1\nnodes 02\nsegments 2\npages 1\nwords 64\n' \
    'format 1\nnodes 9\nsegments 2\npages 1\nwords 64\n' 'format 1\nnodes 2\nsegments 2\npages 1\nwords 64' \
    'format 1\nnodes 2\nsegments 2\npages 1\nwords 64\n\n' 'format 1\r\nnodes 2\r\nsegments 2\r\npages 1\r\nwords 64\r\n'; do
    new_store
    printf "$text" > store/lcrvm.store
    for how in "run --store store $full" 'run --store store --as-found' 'check store'; do
        name="$how, and the size is '$text'"
        lcrvm $how
        ends 3 'device fault' 'lcrvm: store/lcrvm.store: not the size of a store'
    done
done
new_store
head -c 5000 /dev/zero > store/lcrvm.store
name='a long file in the place of the size'
lcrvm check store
ends 3 'device fault' 'lcrvm: store/lcrvm.store: not the size of a store'

# A store without the file is of the size that its files tell, which is said.
new_store
rm store/lcrvm.store
for how in 'run --store store --as-found' 'recover store --as-found'; do
    name="$how without lcrvm.store"
    input=look.script
    lcrvm $how
    input=
    [ $status -eq 0 ] || fail "status $status: $(cat out err)"
    [ "$(tr '\n' '|' < err)" = 'lcrvm: store: the size is only as found: it has no lcrvm.store|' ] || fail "standard error has $(tr '\n' '|' < err)"
    passes
done

# ---- a new store beside what stands there

for there in log0 log1 log7 seg1 seg2 seg16 fault lcrvm.store log0.new log7.new seg1.new seg16.new; do
    for kind in file folder link; do
        name="init beside $there, a $kind"
        rm -rf store
        mkdir store
        case $kind in
            file) echo old > store/$there ;;
            folder) mkdir store/$there ;;
            link) ln -s nowhere store/$there ;;
        esac
        lcrvm init store
        ends 1 'refused Exists' "lcrvm: store/$there: is there already"
        [ "$(ls -A store)" = "$there" ] || fail "other files are there: $(ls -A store | tr '\n' ' ')"
    done
done

# An init that fails takes away what it made.
for kind in open pwrite sync; do
    number=1
    while [ $number -le 30 ]; do
        name="init, $kind $number fails"
        rm -rf at mark
        mkdir -p at/store
        status=0
        timeout -k 5 $bound env LD_PRELOAD="$work/calls.so" CALLS_FOLDER="$work/at" CALLS_KIND=$kind CALLS_FAILED=$number CALLS_ERROR=28 CALLS_MARK="$work/mark" \
            "$program" init "$work/at/store" $full > out 2> err || status=$?
        [ -e mark ] || break
        # That the folder above could not be synced is said alone.
        if [ $status -ne 0 ]; then
            [ "$(cat out)" = 'device fault' ] && [ $status -eq 3 ] || fail "status $status: $(cat out)"
            [ "$(ls -A at/store)" = '' ] || fail "left are: $(ls -A at/store | tr '\n' ' ')"
            ! grep -q 'left in place' err || fail "it says that something is left: $(cat err)"
        fi
        passes
        number=$((number + 1))
    done
    [ $number -gt 1 ] || fail 'nothing failed'
done
# Where that fails too it is said.
name='init, and nothing can be taken away'
cat > unlink.c <<'C'
#include <errno.h>
int unlink(const char *path) { (void)path; errno = 30; return -1; }
int fsync(int file) { static int calls; (void)file; if (++calls < 3) return 0; errno = 5; return -1; }
C
cc -shared -fPIC -O2 -o unlink.so unlink.c
rm -rf store
mkdir store
status=0
timeout -k 5 $bound env LD_PRELOAD="$work/unlink.so" "$program" init store > out 2> err || status=$?
ends 3 'device fault' 'lcrvm: store/log0: left in place'
grep -q -x 'lcrvm: store/lcrvm.store: left in place' err || fail "lcrvm.store is not said to be left: $(cat err)"

# ---- a copy is made of a file that was not there

marked_store() {
    new_store
    : > store/fault
}

echo precious > outside
for leads in log0 ../outside nowhere; do
    marked_store
    ln -s $leads store/log0.new
    cksum store/log0 store/log1 store/seg1 store/seg2 outside > before
    name="a mark, and log0.new leads to $leads"
    lcrvm run --store store $full
    ends 3 'device fault' 'lcrvm: store/log0.new: a link, and not a regular file'
    cksum store/log0 store/log1 store/seg1 store/seg2 outside | cmp -s - before || fail 'bytes were changed'
    [ ! -e store/nowhere ] || fail 'a file was made where the link leads to'
done
marked_store
ln outside store/log0.new
name='a mark, and log0.new is another file by a second name'
chmod 600 outside
lcrvm run --store store $full
ends 0 ''
[ "$(cat outside)" = precious ] && [ "$(stat -c %a outside)" = 600 ] || fail 'the other file was changed'
marked_store
mkfifo store/log0.new
name='a mark, and log0.new is a pipe'
lcrvm run --store store $full
ends 3 'device fault' 'lcrvm: store/log0.new: a pipe, and not a regular file'
marked_store
mkdir store/log0.new
name='a mark, and log0.new is a folder'
lcrvm run --store store $full
ends 3 'device fault' 'lcrvm: store/log0.new: a folder, and not a regular file'
marked_store
echo older > store/log0.new
name='a mark, and log0.new is left of a copy'
input=look.script
lcrvm run --store store $full
input=
ends 0 ok
[ "$(sed -n 2p out)" = 'bytes 11' ] || fail "the commit is not there: $(tr '\n' '|' < out)"
[ "$(ls store | tr '\n' ' ')" = 'lcrvm.store log0 log1 seg1 seg2 ' ] || fail "other files are there: $(ls store | tr '\n' ' ')"
if [ "$(id -u)" -eq 0 ]; then
    name="a mark, and a user's store"
    marked_store
    chown 12345:23456 store/log0
    chmod 640 store/log0
    lcrvm run --store store $full
    ends 0 ''
    [ "$(stat -c '%u %g %a' store/log0)" = '12345 23456 640' ] || fail "the copy has $(stat -c '%u %g %a' store/log0)"
fi
# A mark is made through no link.
name='a fault, and its mark leads elsewhere'
rm -rf at
mkdir at
new_store
mv store at/store
ln -s ../elsewhere at/store/fault
input=commit.script
status=0
timeout -k 5 $bound env LD_PRELOAD="$work/calls.so" CALLS_FOLDER="$work/at" CALLS_KIND=pwrite CALLS_FAILED=3 CALLS_ERROR=5 CALLS_MARK="$work/mark" \
    "$program" run --store at/store $full < commit.script > out 2> err || status=$?
input=
[ ! -e at/elsewhere ] || fail 'a file was made where the link leads to'
passes

# ---- two folders of the same files

new_store
mkdir -p other
rm -f other/*
ln store/* other/
mkfifo hold
# Starts a run that has the store open until descriptor 3 is closed.
hold_store() {
    rm -f held
    "$program" run --follow --store store $full < hold > held 2>&1 &
    holding=$!
    exec 3> hold
    echo 'begin 0 0 2' >&3
    while [ ! -s held ]; do kill -0 $holding || break; sleep 0.1; done
}
name='two folders of the same files'
hold_store
lcrvm run --store other $full
ends 3 'device fault' "lcrvm: other/log0: store in use by process $holding"
for how in 'check other' 'dump other 1 0' 'draw other'; do
    name="two folders of the same files, $how"
    lcrvm $how
    ends 3 'device fault' "lcrvm: other/log0: store in use by process $holding"
done
name='the same folder by two'
lcrvm run --store store $full
ends 3 'device fault' "lcrvm: store: store in use by process $holding"
exec 3>&-
wait $holding || fail "the first run ended with $?"
name='two folders, one behind the other'
input=look.script
lcrvm run --store other $full
input=
ends 0 ok
[ "$(sed -n 2p out)" = 'bytes 11' ] || fail "the commit is not there: $(tr '\n' '|' < out)"
# Behind a mark the files are others, and locked too.
name='two folders of the same files behind a mark'
new_store
: > store/fault
hold_store
rm -rf other
mkdir other
ln store/* other/
lcrvm run --store other $full
ends 3 'device fault' "lcrvm: other/log0: store in use by process $holding"
exec 3>&-
wait $holding || fail "the first run ended with $?"
# Who looks lets others look.
name='two that look'
new_store
rm -rf other
mkdir other
ln store/* other/
lcrvm check store
first=$status
lcrvm check other
[ $first -eq 0 ] && [ $status -eq 0 ] || fail "statuses $first and $status"
passes

# ---- names that are not stable

name='the names of a store that was copied'
rm -rf at
mkdir at
new_store
cp -r store at/store
rm -f trace
CALLS_FOLDER="$work/at" CALLS_TRACE="$work/trace" LD_PRELOAD="$work/calls.so" timeout -k 5 $bound "$program" run --store "$work/at/store" $full < look.script > out 2> err || fail "status $?: $(cat out err)"
# The trace has `open DESCRIPTOR FLAGS PATH`, `close DESCRIPTOR`, `sync DESCRIPTOR ERROR` and `print LENGTH`.
LC_ALL=C awk -v folder="$work/at/store" '
    $1 == "open" { path[$2] = $4 }
    $1 == "close" { delete path[$2] }
    $1 == "sync" && path[$2] == folder && $3 == 0 { synced = 1 }
    $1 == "print" { exit !synced }
    END { exit !synced }' trace || fail 'the folder is not synced in front of the first reply'
passes

# ---- what is no folder, and no file

name='init in no folder'
lcrvm init ''
ends 3 'device fault' "lcrvm: '': the empty text names no folder.*"
name='a run in no folder'
lcrvm run --store ''
ends 3 'device fault' "lcrvm: '': the empty text names no folder.*"
name='init in a file'
: > file
lcrvm init file
ends 3 'device fault' 'lcrvm: file.*: Not a directory.*'
for kind in folder pipe; do
    new_store
    rm store/log0
    case $kind in folder) mkdir store/log0 ;; pipe) mkfifo store/log0 ;; esac
    for how in "run --store store $full" 'check store' "recover store --as-found"; do
        name="$how with a $kind in the place of a log"
        lcrvm $how
        ends 3 'device fault' "lcrvm: store/log0: a $kind, and not a regular file"
    done
done
# Who may only read may look.
if [ "$(id -u)" -eq 0 ] && command -v setpriv > /dev/null; then
    new_store
    chmod 755 . store
    chmod 644 store/*
    cp "$program" reader-program
    chmod 755 reader-program
    for how in 'check store' 'dump store 1 0' 'draw store'; do
        name="$how by who may only read"
        status=0
        timeout -k 5 $bound setpriv --reuid 65534 --regid 65534 --clear-groups ./reader-program $how > out 2> err || status=$?
        [ $status -eq 0 ] || fail "status $status: $(tail -n 1 out) $(cat err)"
        passes
    done
fi

# ---- a run that ends with something open

new_store
printf 'begin 0 0 2\nrange 0 0 2 0 1\nend 0 0\nbegin 0 0 2\n' > open.script
printf 'begin 0 0 2\nrange 0 0 2 0 1\nend 0 0\nbegin 0 0 2\nnonsense\n' > wrong.script
for how in '' '--follow'; do
    name="a run $how that ends with a commit and a transaction open"
    input=open.script
    lcrvm run $how --store store $full
    ends 0 'ok' 'lcrvm: 1 commits not flushed, 1 transactions open'
    name="a run $how that ends so at a line that is not understood"
    input=wrong.script
    lcrvm run $how --store store $full
    ends 2 'line 5: not understood' 'lcrvm: 1 commits not flushed, 1 transactions open'
    name="a run $how that leaves nothing open"
    printf 'begin 0 0 2\nrange 0 0 2 0 1\nend 0 0\nflush 0\n' > closed.script
    input=closed.script
    lcrvm run $how --store store $full
    input=
    [ $status -eq 0 ] && [ ! -s err ] || fail "status $status: $(cat err)"
    passes
done

ends_counted
