#!/bin/sh
# Looks at the sources for C, Python and the shell, and at the manual pages, by the tools that their users have: compilers with all
# warnings that a careful program turns on, cppcheck, shellcheck, mypy and mandoc. What is not there is named, as skipped.
#
# usage: tests/tools.sh
#
# It takes half a minute, below TMPDIR. The gate depends on none of the tools.
set -eu
. "$(dirname "$0")/common.sh"

make_work
cd "$top"

# Runs a tool that has to find nothing; the first word says what is looked at.
looks() {
    name=$1
    shift
    if ! command -v "$1" > "$work/said"; then
        echo "skipped: $name: no $1"
    elif "$@" > "$work/said" 2>&1; then
        passes
    else
        fails "$name"
        head -n 20 "$work/said"
    fi
}

warnings='-Wall -Wextra -Wpedantic -Wconversion -Wshadow -Werror -fsyntax-only -Iinclude'
cat > "$work/user.c" <<'END'
#include <lcrvm.h>
int main(void)
{
    struct lcrvm_options options = {.size = sizeof options, .threads = 2};
    struct lcrvm_fault fault = {.size = sizeof fault};
    return lcrvm_create("", &options, &fault) == LCRVM_OK;
}
END
cat > "$work/user.cpp" <<'END'
#include <lcrvm.h>
int main() {
    lcrvm_fault fault{};
    fault.size = sizeof fault;
    return lcrvm_create("", nullptr, &fault) == LCRVM_OK;
}
END
echo '#include <lcrvm.hpp>' > "$work/wrapper.cpp"
for compiler in gcc clang; do
    for source in clients/c/embedded.c "$work/user.c"; do
        # shellcheck disable=SC2086
        looks "$source, by $compiler" $compiler -std=c11 $warnings "$source"
    done
done
for compiler in g++ clang++; do
    for standard in 11 14 17 20; do
        # shellcheck disable=SC2086
        looks "lcrvm.h as C++$standard, by $compiler" $compiler -std=c++$standard $warnings "$work/user.cpp"
    done
    # shellcheck disable=SC2086
    looks "lcrvm.hpp, by $compiler" $compiler -std=c++17 $warnings "$work/wrapper.cpp"
done

looks 'clients/c, by cppcheck' cppcheck -q --error-exitcode=1 --enable=warning,portability,performance -Iinclude \
    --suppress=missingIncludeSystem clients/c/embedded.c
looks 'the scripts, by shellcheck' shellcheck -x -S error tests/*.sh packaging/*.sh .ci/run
for page in man/lcrvm.1 man/lcrvm.3; do
    looks "$page, by mandoc" mandoc -T lint -W warning "$page"
done

# ---- Types that a program of a user meets.

cat > "$work/user.py" <<'END'
import lcrvm
from lcrvm import Busy, Geometry, Store


def add(store: Store, amount: int) -> int:
    with store.transaction(1, timeout=1.0) as t:
        total = int.from_bytes(t[1, 0:8], "little") + amount
        t[1, 0:8] = total.to_bytes(8, "little")
        t.write(1, 8, bytearray(4))
    return total


def tell(path: str) -> str:
    try:
        with lcrvm.open(path, create=True, geometry=Geometry(segments=2), wait=0.5) as store:
            counted: lcrvm.Stats = store.stats()
            return f"{add(store, 1)} {counted.commits}"
    except Busy as error:
        return f"busy: {error.segment}"
    except lcrvm.DeviceFault as error:
        return f"{error.filename}: {error.errno}"
END
cat > "$work/wrong.py" <<'END'
import lcrvm

with lcrvm.open("x") as store, store.transaction(1) as t:
    t[1, 0:1] = "text"
END
export MYPYPATH="$top/clients/python" MYPY_CACHE_DIR="$work/mypy"
looks 'a program, by mypy' mypy --strict "$work/user.py"
looks 'the package, by mypy' mypy --strict -p lcrvm
if command -v mypy > "$work/said"; then
    if mypy --strict "$work/wrong.py" > "$work/said" 2>&1; then
        fails 'mypy takes a text for bytes'
    elif grep -q 'wrong.py:4: error: Incompatible types' "$work/said"; then
        passes
    else
        fails 'mypy on a text for bytes'
        head -n 5 "$work/said"
    fi
fi

ends_counted
