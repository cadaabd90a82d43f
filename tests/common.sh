# What the scripts of this folder share. Each of them reads it first: . "$(dirname "$0")/common.sh"
# shellcheck shell=sh

top=$(cd "$(dirname "$0")/.." && pwd)
passed=0
failed=0

# Makes `work`, a folder of the script's own below TMPDIR, which is removed at the end and on signals.
make_work() {
    work=$(mktemp -d "${TMPDIR:-/tmp}/lcrvm-$(basename "$0" .sh).XXXXXX")
    trap 'rm -rf "$work"' EXIT
    trap 'exit 1' HUP INT TERM
}

# Prints a path made whole. A name without a folder that is no file here stays as it is: PATH may find it.
whole() {
    case $1 in
        /*) echo "$1" ;;
        */*) echo "$PWD/$1" ;;
        *) if [ -f "$1" ]; then echo "$PWD/$1"; else echo "$1"; fi ;;
    esac
}

# Prints what a library of Rattle has its memory from: a library of the kit.
heap_of_kit() {
    echo "$(dirname "$(rt doc | head -n 1)")/c/liblibc_c.a"
}

passes() {
    passed=$((passed + 1))
}

# Counts a failure, and says what it is.
fails() {
    failed=$((failed + 1))
    echo "failed: $*" >&2
}

# Prints the last line of a script, and has its status.
ends_counted() {
    echo "$passed passed, $failed failed"
    [ "$failed" -eq 0 ]
}

# The same of a script that is one test.
ends_as_one() {
    if [ "$failed" -eq 0 ]; then
        echo '1 passed, 0 failed'
    else
        echo "$failed times it was not right"
        echo '0 passed, 1 failed'
        return 1
    fi
}
