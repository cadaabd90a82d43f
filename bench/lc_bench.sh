#!/bin/sh
# Makes the crate lc_bench, whose sources lie as text in bench/lc_bench, in a folder outside of this repository, beside
# copies of its crates, proves it and runs it. The gate does not know it.
#
# usage: bench/lc_bench.sh FOLDER [--try] [WORD..]     (WORD..: the program's; without one it prints what it measures)
#
# FOLDER is made where it is not there, and kept: the next proof there takes what did not change. A proof takes some
# ten processor minutes beside what `rt` has kept of the crates below, and an hour more if that is nothing. --try
# runs it without a proof, in a minute, and slower. Without a word, what it prints is compared with
# bench/lc_bench/stdout.
set -eu

top=$(cd "$(dirname "$0")/.." && pwd)
[ $# -gt 0 ] || { sed -n 's/^# usage: /usage: /p' "$0" >&2; exit 2; }
command -v rt > /dev/null || { echo 'bench: the command rt of the Rattle kit is wanted on the path' >&2; exit 1; }
mkdir -p "$1"
room=$(cd "$1" && pwd)
shift
case $room/ in "$top"/*) echo "bench: $room lies in the repository" >&2; exit 2 ;; esac
tries=false
if [ "${1:-}" = --try ]; then
    tries=true
    shift
fi

# The crates below are copies, each with the library that was proved of it, if there is one, by hard links.
mkdir -p "$room/crates/lc_bench"
find "$room/crates" -mindepth 1 -maxdepth 1 ! -name lc_bench -exec rm -rf {} +
rm -rf "$room/crates/lc_bench/src" "$room/crates/lc_bench/proofs"
cp "$top/HANDLES" "$room/HANDLES"
{
    cat "$top/crates.txt"
    cat "$top/bench/lc_bench/crates.line"
} > "$room/crates.txt"
for crate in "$top"/crates/*; do
    copy=$room/crates/$(basename "$crate")
    mkdir -p "$copy/out"
    for part in src specs proofs; do
        [ ! -d "$crate/$part" ] || cp -R "$crate/$part" "$copy/$part"
    done
    [ ! -d "$crate/out/rlib" ] || cp -Rl "$crate/out/rlib" "$copy/out/rlib" 2> /dev/null || cp -R "$crate/out/rlib" "$copy/out"
done
(cd "$top/bench/lc_bench" && find src proofs -name '*.txt') | while read -r text; do
    mkdir -p "$room/crates/lc_bench/$(dirname "$text")"
    cp "$top/bench/lc_bench/$text" "$room/crates/lc_bench/${text%.txt}"
done

cd "$room/crates/lc_bench"
if $tries; then
    exec rt try -- "$@"
fi
if [ $# -gt 0 ]; then
    exec rt run -- "$@"
fi
rt run > "$room/names"
cat "$room/names"
cmp "$room/names" "$top/bench/lc_bench/stdout"
