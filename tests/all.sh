#!/bin/sh
# Runs the scripts of this folder over what was built, side by side, each with a limit of its own, and the looks at the
# documents. What each said is shown where it failed; the last line counts them: 'N passed, M failed, K
# skipped'. A script that lacks a tool, for all of it or for a part, or has to be root, is skipped, by name, and never
# passed.
#
# usage: tests/all.sh [-j N] [NAME..]     (default: a script for each processor; all)
#
# The program, the library and the tests have to be built:
#   make prove   (cd crates/lc_tests_store && rt test)   (cd crates/names && rt run -- --help)
# LCRVM, LC_C, LC_TESTS_STORE and NAMES may name them elsewhere. `make`, `cc` and `python3` are wanted. Some scripts take
# more cuts, kills or seeds by an argument of their own: see their first lines.
set -eu
. "$(dirname "$0")/common.sh"

export LCRVM="${LCRVM:-$top/crates/lcrvm/out/lcrvm}"
export LC_C="${LC_C:-$top/crates/lc_c/out/liblc_c.a}"
export NAMES="${NAMES:-$top/crates/names/out/names}"
export LC_TESTS_STORE="${LC_TESTS_STORE:-$top/crates/lc_tests_store/out/lc_tests_store_tests}"
lanes=$(nproc)
if [ "${1:-}" = -j ]; then
    lanes=$2
    shift 2
fi

# The longest first: how many seconds each may take, its name, and the command.
rows='
900 embedded tests/embedded.sh $LCRVM $LC_C
900 power tests/power.sh $LCRVM 1 500 $LC_C
900 threads tests/threads.sh $LC_C
900 refused_growths tests/refused_growths.sh
600 python tests/python.sh $LC_C
600 faults tests/faults.sh $LCRVM
600 objects tests/objects.sh $LC_C 20
600 names tests/names.sh $NAMES $LCRVM
600 files tests/files.sh $LCRVM
600 wrappers tests/wrappers.sh $LCRVM $LC_C
600 install tests/install.sh $LCRVM $LC_C
600 socket tests/socket.sh $NAMES $LCRVM
300 clean_close tests/clean_close.sh $LCRVM $LC_C
300 processes tests/processes.sh $LCRVM 40
300 failed_sync tests/failed_sync.sh $LCRVM
300 progress tests/progress.sh $LCRVM
300 folders tests/folders.sh $LCRVM
300 descriptors tests/descriptors.sh $LCRVM
300 coprocess tests/coprocess.sh $LCRVM
300 copies tests/copies.sh $LCRVM
300 measures tests/measures.sh $LC_C
300 checks tests/checks.sh $LCRVM
300 guide tests/guide.sh $LCRVM $LC_C
300 outsiders tests/outsiders.sh
300 tools tests/tools.sh
60 words tests/words.sh $LCRVM
60 runs tests/runs.sh $LCRVM
60 examples tests/examples.sh $LCRVM
60 document_names python3 tests/document_names.py
60 reference python3 tools/reference.py --check
60 lengths python3 tests/lengths.py
60 statements python3 tests/statements.py
60 dead_names python3 tests/dead_names.py
60 layers python3 tests/layers.py
60 edits tests/edits.sh --fits
'

make_work
export work
cd "$top"

# One row: what it says, and its status, which is 124 after its limit.
cat > "$work/row" <<'ROW'
read -r limit name command <<LINE
$1
LINE
begun=$(date +%s)
status=0
eval "timeout -k 5 $limit $command" > "$work/$name.out" 2>&1 < /dev/null || status=$?
echo "$status $(($(date +%s) - begun))" > "$work/$name.end"
ROW

wanted=" $* "
names=''
echo "$rows" | while read -r limit name command; do
    [ -n "$name" ] || continue
    case $wanted in '  ' | *" $name "*) echo "$limit $name $command" ;; esac
done > "$work/rows"
[ -s "$work/rows" ] || { echo "no such script:$wanted"; echo '0 passed, 1 failed, 0 skipped'; exit 1; }
xargs -d '\n' -n 1 -P "$lanes" sh "$work/row" < "$work/rows"

skipped=0
while read -r limit name command; do
    read -r status seconds < "$work/$name.end"
    last=$(tail -n 1 "$work/$name.out")
    if [ "$status" -eq 0 ] && grep -q '^skipped: ' "$work/$name.out"; then
        skipped=$((skipped + 1))
        echo "$name: $(grep '^skipped: ' "$work/$name.out")"
    elif [ "$status" -eq 0 ]; then
        passes
        echo "$name: $last ($seconds s)"
    else
        failed=$((failed + 1))
        [ "$status" -ne 124 ] || last="not at its end after $limit seconds: $last"
        echo "$name: FAILED, status $status ($seconds s): $last"
        tail -n 40 "$work/$name.out" | sed "s/^/$name | /"
    fi
done < "$work/rows"
echo "$passed passed, $failed failed, $skipped skipped"
[ $failed -eq 0 ]
