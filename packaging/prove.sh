#!/bin/sh
# Proves and builds a crate. What the checker said last, and the checksum of what was built, is kept in
# build/proved/CRATE.
#
# usage: packaging/prove.sh CRATE FILE run|lib [ARGUMENT..]     (FILE: what rt makes, from the top of the repository)
set -eu

cd "$(dirname "$0")/.."
crate=$1
file=$2
shift 2
mkdir -p build/proved
kept=$PWD/build/proved/$crate

# Whether what is kept is of the file as it stands.
is_kept() {
    [ -f "$kept" ] && [ -f "$file" ] && [ "$(tail -n 1 "$kept")" = "$(sha256sum "$file" | cut -d ' ' -f 1)" ]
}

# Of a program that need not be built anew rt has nothing to say: without its stamp it checks it once more.
is_kept || rm -f "$kept" "crates/$crate/out/$crate.stamp"

{
    status=0
    (cd "crates/$crate" && rt "$@" 2>&1) || status=$?
    echo $status > "$kept.status"
} | tee "$kept.log"
status=$(cat "$kept.status")
rm "$kept.status"
[ "$status" -eq 0 ] || exit "$status"

if ! grep -q '^logic=proved ' "$kept.log"; then
    is_kept && grep -q '^rt: nothing has changed since the last proved build' "$kept.log" && exit
    echo "$crate: no line of the checker says that it is proved" >&2
    exit 1
fi
{
    rt version
    grep "^crate $crate: " "$kept.log" | tail -n 1
    grep '^logic=proved ' "$kept.log" | tail -n 1
    sha256sum "$file" | cut -d ' ' -f 1
} > "$kept.new"
mv "$kept.new" "$kept"
