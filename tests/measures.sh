#!/bin/sh
# Builds what measures the library beside work by hand, and beside SQLite and LMDB where these are there, and runs each for short:
# all that do the same changes have to have the same bytes then. No time is looked at.
#
# usage: tests/measures.sh [LIBRARY [HEAP]]
#   LIBRARY   default: crates/lc_c/out/liblc_c.a, which `rt lib` makes in crates/lc_c
#   HEAP      what a library of Rattle has its memory from; default: c/liblibc_c.a of the kit
#
# A C compiler `cc` is wanted. It takes some seconds, and works in a folder of its own below TMPDIR.
set -eu
. "$(dirname "$0")/common.sh"

library=${1:-$top/crates/lc_c/out/liblc_c.a}
heap=${2:-$(heap_of_kit)}
make_work

command -v cc > /dev/null || { echo 'skipped: measures: there is no cc'; exit 0; }

# The library of a header, if both are there.
linked() {
    printf '#include <%s>\nint main(void) { return 0; }\n' "$1" > "$work/has.c"
    if cc "$work/has.c" "$2" -o "$work/has" 2> /dev/null; then echo "$2"; fi
}

# A header without its library is as if it were not there.
sqlite=$(linked sqlite3.h -lsqlite3)
lmdb=$(linked lmdb.h -llmdb)
[ -n "$sqlite" ] || sqlite=-DWITHOUT_SQLITE
[ -n "$lmdb" ] || lmdb=-DWITHOUT_LMDB

# Builds a program with these words, runs it, and looks for this as its last line.
ends() {
    name=$1 last=$2
    shift 2
    cc -std=c11 -Wall -Wextra -Werror -O2 -pthread -I"$top/include" "$top/clients/c/$name.c" "$top/clients/c/embedded.c" \
        "$library" "$heap" "$@" -o "$work/$name"
    if (cd "$work" && "./$name" --short) > "$work/said" 2>&1 && grep -qxF "$last" "$work/said"; then
        passes
    else
        fails "$name:"
        cat "$work/said"
    fi
}
ends bench 'both have the same bytes'
ends peers 'all have the same bytes' "$sqlite" "$lmdb"

ends_counted
