#!/bin/sh
# Puts a thousand objects into the object store of examples/objects.py, and kills it in its midst, again and again: each time every
# acknowledged change is there, whole, and the one that was under way is there whole or not at all.
#
# usage: tests/objects.sh [LC_C [KILLS [OBJECTS [SEED]]]]     (default: $LC_C, or crates/lc_c/out/liblc_c.a; 20, 1000, 1)
#
# It works in a folder of its own below TMPDIR. What does not end within ten minutes is a failure.
set -eu
. "$(dirname "$0")/common.sh"

kills=${2:-20}
objects=${3:-1000}
seed=${4:-1}
bound=600

make_work
export PYTHONDONTWRITEBYTECODE=1

status=0
"$top/tests/python_package.sh" "$work/package" ${1:+"$1"} || status=$?
[ $status -ne 77 ] || exit 0
[ $status -eq 0 ] || { echo '0 passed, 1 failed'; exit 1; }

cd "$work"
echo "seed $seed"
if timeout -k 5 $bound package/environment/bin/python "$top/tests/killed_objects.py" "$seed" "$kills" "$objects"; then
    echo "1 passed, 0 failed"
else
    echo "0 passed, 1 failed"
    exit 1
fi
