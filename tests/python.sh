#!/bin/sh
# Installs the Python package into a fresh environment, and tries it there (tests/python_test.py).
#
# usage: tests/python.sh [LC_C [TEST..]]     (default: $LC_C, or crates/lc_c/out/liblc_c.a; all tests)
#
# It works in a folder of its own below TMPDIR. What does not end within ten minutes is a failure.
set -eu
. "$(dirname "$0")/common.sh"

make_work
export PYTHONDONTWRITEBYTECODE=1

status=0
"$top/tests/python_package.sh" "$work/package" ${1:+"$1"} || status=$?
[ $status -ne 77 ] || exit 0
[ $status -eq 0 ] || { echo '0 passed, 1 failed'; exit 1; }
[ $# -eq 0 ] || shift

cd "$work"
timeout -k 5 600 package/environment/bin/python "$top/tests/python_test.py" "$@" > said 2>&1 || status=$?
[ $status -eq 0 ] || cat said
ran=$(sed -n 's/^Ran \([0-9]*\) tests\{0,1\} in .*/\1/p' said)
if [ $status -eq 0 ]; then
    echo "$ran passed, 0 failed"
else
    echo "of ${ran:-0} tests some failed"
    exit 1
fi
