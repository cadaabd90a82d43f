#!/usr/bin/env bash
# Tries by public names what would lose commits of a running node. In tests/outsiders/*.rt.txt, a crate kept as text, the compiler
# has to refuse what stands between a line `// refused: TEXT` and the line `// to here`, with that text, and nothing else. Without
# these lines all of it has to compile: else the refusals would show nothing.
#
# usage: tests/outsiders.sh     (half a minute of one processor; proves nothing)
#
# The command `rt` is wanted. It works on a copy of the sources below TMPDIR. The last line is 'N passed, M failed'.
set -euo pipefail
. "$(dirname "$0")/common.sh"
command -v rt > /dev/null || { echo 'skipped: there is no rt'; exit 0; }

make_work
for crate in "$top"/crates/*/; do
    to=$work/crates/$(basename "$crate")
    mkdir -p "$to"
    for part in src specs; do
        [ ! -d "$crate/$part" ] || cp -r "$crate/$part" "$to"
    done
done
cp "$top/HANDLES" "$work"
{ cat "$top/crates.txt"; echo 'outsiders: lc_disk lc_page lc_range lc_token lc_node lc_cluster'; } > "$work/crates.txt"
mkdir -p "$work/crates/outsiders/src"
cd "$work/crates/outsiders"
for text in "$top"/tests/outsiders/*.rt.txt; do
    cp "$text" "src/$(basename "$text" .txt)"
done

# Each part that must be refused: its file, first and last line, and text.
awk '
    FNR == 1 { if (text != "") print "open: " file > "/dev/stderr"; text = "" }
    /^ *\/\/ refused: / { file = FILENAME; first = FNR; text = $0; sub(/^ *\/\/ refused: /, "", text) }
    /^ *\/\/ to here$/ { print file "|" first "|" FNR "|" text; text = "" }
' src/*.rt > "$work/parts"

status=0
rt try --test --seconds 10 > "$work/refused" 2>&1 || status=$?
sed -i '/^ *\/\/ refused: /,/^ *\/\/ to here$/d' src/*.rt
compiles=0
rt try --test --seconds 10 > "$work/control" 2>&1 || compiles=$?

# What the compiler said, as FILE|LINE|TEXT.
sed -n 's/^\(.*\.rt\):\([0-9]*\):[0-9]*: error\[[^]]*\]: /\1|\2|/p' "$work/refused" > "$work/errors"
while IFS='|' read -r file first last text; do
    if awk -F '|' -v file="$file" -v first="$first" -v last="$last" -v text="$text" '
        $1 == file && $2 >= first && $2 <= last && index($3, text) { found = 1 }
        END { exit !found }' "$work/errors"; then
        passes
    else
        fails "tests/outsiders/$(basename "$file").txt:$first: is not refused with the text: $text"
    fi
done < "$work/parts"
while IFS='|' read -r file line text; do
    if ! awk -F '|' -v file="$file" -v line="$line" '
        $1 == file && line >= $2 && line <= $3 { found = 1 }
        END { exit !found }' "$work/parts"; then
        fails "$file:$line: is refused, and should not be: $text"
    fi
done < "$work/errors"
[ "$status" -eq 1 ] || { fails "with these lines the status is $status, where 1 is wanted:"; tail -n 5 "$work/refused"; }
if [ "$compiles" -eq 0 ] && grep -q '^test result: ok. 1 passed' "$work/control"; then
    passes
else
    fails "without these lines it does not compile (status $compiles):"
    tail -n 20 "$work/control"
fi
ends_counted
