#!/bin/sh
# Runs the code blocks of README.md and docs/GUIDE.md as they stand (tests/guide.py): sessions, and programs in Python and C. Those
# in Rattle are compared with the files of examples/rattle. A block that fails is named with its file and line.
#
# usage: tests/guide.sh [PROGRAM [LIBRARY [HEAP]]]
#   PROGRAM   default: crates/lcrvm/out/lcrvm
#   LIBRARY   default: crates/lc_c/out/liblc_c.a, which `rt lib` makes in crates/lc_c
#   HEAP      what a library of Rattle has its memory from; default: c/liblibc_c.a of the kit
#
# `make`, a C compiler `cc`, `pkg-config` and `python3` with its headers are wanted. It takes half a minute, below TMPDIR.
set -eu
. "$(dirname "$0")/common.sh"

program=$(whole "${1:-$top/crates/lcrvm/out/lcrvm}")
library=$(whole "${2:-$top/crates/lc_c/out/liblc_c.a}")
heap=$(whole "${3:-$(heap_of_kit)}")

make_work
unset PREFIX BINDIR LIBDIR INCLUDEDIR MANDIR DOCDIR COMPLETIONDIR DESTDIR MAKEFLAGS MAKELEVEL CFLAGS CPPFLAGS LDFLAGS
export PYTHONDONTWRITEBYTECODE=1

for tool in make cc python3; do
    command -v $tool > "$work/said" || { echo "skipped: guide: no $tool"; exit 0; }
done
mkdir "$work/top" "$work/blocks"
(cd "$top" && cp -R Makefile packaging clients include man completion LICENSE-* "$work/top")
make -s -C "$work/top" install PROGRAM="$program" STORE="$library" HEAP="$heap" PREFIX="$work/prefix" LDCONFIG=true \
    > "$work/said" 2>&1 ||
    { cat "$work/said"; echo '0 passed, 1 failed'; exit 1; }

python=$work/package/environment/bin/python
status=0
HEAP="$heap" LCRVM="$program" "$top/tests/python_package.sh" "$work/package" "$library" > "$work/said" 2>&1 || status=$?
[ $status -ne 77 ] || { cat "$work/said"; python=-; }
[ $status -eq 0 ] || [ $status -eq 77 ] || { cat "$work/said"; echo '0 passed, 1 failed'; exit 1; }
python3 "$top/tests/guide.py" "$work/blocks" "$work/prefix" "$python"
