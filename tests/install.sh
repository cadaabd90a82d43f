#!/bin/sh
# Builds the library by the Makefile, in a copy of what it needs, and tries what is built, installed and packed:
#   - the names that both libraries show, against include/lcrvm.h, as two compilers build them;
#   - that nothing is built twice, and all anew that hangs on what was changed;
#   - the files that install puts down, and that uninstall takes away;
#   - a C program, that of lcrvm(3), by pkg-config, shared and static;
#   - the manual pages, and the completion for bash, against the header and what the program says of itself;
#   - the wheel of `make python`: its tag, its metadata, the program within, and that there is no source distribution;
#   - the archive of `make dist`, from which all is installed without the kit, and its PROOF.
#
# usage: tests/install.sh [PROGRAM [LIBRARY [HEAP]]]
#   PROGRAM   default: crates/lcrvm/out/lcrvm
#   LIBRARY   default: crates/lc_c/out/liblc_c.a, which `rt lib` makes in crates/lc_c
#   HEAP      what a library of Rattle has its memory from; default: c/liblibc_c.a of the kit
#
# `make`, a C compiler `cc` with its linker, and `python3` are wanted. What else is not there is named, as skipped.
# What `make prove` would have kept of the files that are given is made up here. It takes half a minute, below TMPDIR.
set -eu
. "$(dirname "$0")/common.sh"

program=$(whole "${1:-$top/crates/lcrvm/out/lcrvm}")
library=$(whole "${2:-$top/crates/lc_c/out/liblc_c.a}")
heap=$(whole "${3:-$(heap_of_kit)}")

make_work
unset PREFIX BINDIR LIBDIR INCLUDEDIR MANDIR DOCDIR COMPLETIONDIR DESTDIR MAKEFLAGS MAKELEVEL CFLAGS CPPFLAGS LDFLAGS
export PYTHONDONTWRITEBYTECODE=1 LC_ALL=C

attempt() {
    name=$1
    shift
    if "$@" > "$work/said" 2>&1; then passes; else fails "$name"; tail -n 20 "$work/said"; fi
}
# Whether two files of lines are the same; what is only in the first has a <, what is only in the second a >.
same() {
    if diff "$2" "$3" > "$work/difference"; then passes; else fails "$1"; grep '^[<>]' "$work/difference"; fi
}
is_there() {
    command -v "$1" > "$work/said" && return
    echo "skipped: $2: no $1"
    return 1
}

mkdir "$work/top" "$work/proved"
(cd "$top" && cp -r Makefile packaging clients include man completion LICENSE-* README.md CHANGELOG.md "$work/top")
mkdir "$work/top/docs"
cp "$top/docs/GUIDE.md" "$work/top/docs"
rm -rf "$work"/top/clients/python/scripts "$work"/top/clients/python/lcrvm/*.so "$work"/top/clients/python/lcrvm/*.so.*
[ ! -e "$top/.git" ] || export GIT_DIR="$(cd "$top" && git rev-parse --absolute-git-dir)"
cd "$work/top"
version=$(sed -n 's/^__version__ = "\(.*\)"$/\1/p' clients/python/lcrvm/__init__.py)
attempt 'the version of the header' grep -q "^#define LCRVM_VERSION \"$version\"" include/lcrvm.h
# The linker's cache of this system stays as it is: how often it would be renewed is counted.
printf '#!/bin/sh\necho renewed >> %s\n' "$work/renewed" > "$work/ldconfig"
chmod +x "$work/ldconfig"
export LDCONFIG="$work/ldconfig"
renewed() {
    wanted=0
    [ "$(id -u)" -ne 0 ] || wanted=$2
    found=$(cat "$work/renewed" 2> /dev/null | wc -l)
    if [ "$found" -eq "$wanted" ]; then passes; else fails "$1: ldconfig has run $found times, and not $wanted"; fi
    rm -f "$work/renewed"
}
build() {
    make -s PROGRAM="$program" STORE="$library" HEAP="$heap" PROVED="$work/proved" "$@"
}

# ---- The names that are shown, by each compiler.

cc -E -P -x c include/lcrvm.h | tr '\n' ' ' | grep -o 'lcrvm_[a-z_]* *(' | tr -d ' (' | sort -u > "$work/declared"
[ -s "$work/declared" ] || fails 'no call is declared'
for compiler in gcc clang; do
    is_there $compiler "building by $compiler" || continue
    attempt "make, by $compiler" build CC=$compiler CFLAGS='-O2 -Werror'
    nm -D --defined-only build/liblcrvm.so.0 | awk '$2 != "A" { sub(/@@.*/, "", $NF); print $NF }' | sort > "$work/shown"
    same "the names of the shared library, by $compiler" "$work/declared" "$work/shown"
    nm -g --defined-only build/liblcrvm.a | awk 'NF == 3 {print $3}' | sort > "$work/shown"
    same "the names of the archive, by $compiler" "$work/declared" "$work/shown"
    readelf -dlW build/liblcrvm.so.0 > "$work/elf"
    for word in 'soname: \[liblcrvm.so.0\]' BIND_NOW GNU_RELRO 'GNU_STACK .* RW '; do
        attempt "$word, by $compiler" grep -q "$word" "$work/elf"
    done
    readelf -VW build/liblcrvm.so.0 > "$work/elf"
    attempt "the version of the names, by $compiler" grep -q 'Name: LCRVM_0$' "$work/elf"
    touch "$work/marker"
    build CC=$compiler CFLAGS='-O2 -Werror'
    find build -newer "$work/marker" -type f > "$work/anew"
    same "what is built twice, by $compiler" /dev/null "$work/anew"
done
build CC=cc
nm -D --undefined-only build/liblcrvm.so.0 > "$work/elf"
for word in __stack_chk_fail '__[a-z]*_chk'; do
    attempt "$word, which the library calls by default" grep -q " $word@" "$work/elf"
done
for changed in clients/c/lcrvm.map include/lcrvm.h; do
    touch "$changed" "$work/marker"
    build CC=cc
    for built in liblcrvm.so.$version liblcrvm.a; do
        attempt "$built is not older than $changed" test build/$built -nt "$work/marker"
    done
done

# ---- Files put down and taken away.

cat > "$work/wanted" <<END
./usr/bin/lcrvm
./usr/include/lcrvm.h
./usr/include/lcrvm.hpp
./usr/lib/liblcrvm.a
./usr/lib/liblcrvm.so
./usr/lib/liblcrvm.so.0
./usr/lib/liblcrvm.so.$version
./usr/lib/pkgconfig/lcrvm.pc
./usr/share/bash-completion/completions/lcrvm
./usr/share/doc/lcrvm/LICENSE-APACHE
./usr/share/doc/lcrvm/LICENSE-MIT
./usr/share/man/man1/lcrvm.1
./usr/share/man/man3/lcrvm.3
END
sed 's|.*|./usr/share/man/man3/&.3|' "$work/declared" >> "$work/wanted"
LC_ALL=C sort -o "$work/wanted" "$work/wanted"
files_of() {
    (cd "$1" && find . ! -type d | sort)
}
mkdir "$work/root"
attempt 'make install, to a DESTDIR' build install PREFIX=/usr DESTDIR="$work/root"
files_of "$work/root" > "$work/found"
same 'the files of an installation' "$work/wanted" "$work/found"
attempt 'make install, once more' build install PREFIX=/usr DESTDIR="$work/root"
attempt 'make install-strip' build install-strip PREFIX=/usr DESTDIR="$work/root"
for file in bin/lcrvm lib/liblcrvm.so.0; do
    nm "$work/root/usr/$file" > "$work/symbols" 2>&1 || true
    attempt "no symbols in $file" grep -q 'no symbols' "$work/symbols"
done
attempt 'the symbols of the archive for C' sh -c "nm '$work/root/usr/lib/liblcrvm.a' | grep -q lcrvm_open"
attempt 'the stripped program' test "$("$work/root/usr/bin/lcrvm" --version)" = "lcrvm $version"
attempt 'lcrvm_begin(3)' test "$(readlink "$work/root/usr/share/man/man3/lcrvm_begin.3")" = lcrvm.3
attempt 'the paths of lcrvm.pc' grep -q '^libdir=/usr/lib$' "$work/root/usr/lib/pkgconfig/lcrvm.pc"
touch "$work/root/usr/lib/liblcrvm.so.0.0.9"
attempt 'make uninstall' build uninstall PREFIX=/usr DESTDIR="$work/root"
files_of "$work/root" > "$work/found"
same 'what uninstall leaves' /dev/null "$work/found"
renewed 'a DESTDIR' 0
attempt 'make install, with folders of its own' build install PREFIX="$work/root/a" LIBDIR="$work/root/b" \
    BINDIR="$work/root/c" MANDIR="$work/root/d"
for file in a/include/lcrvm.h b/liblcrvm.so.0 b/pkgconfig/lcrvm.pc c/lcrvm d/man1/lcrvm.1 d/man3/lcrvm.3; do
    attempt "$file" test -f "$work/root/$file"
done

# ---- A C program, by pkg-config: the one of the manual page, which counts its runs.

prefix=$work/prefix
renewed 'an installation with folders of its own' 1
attempt 'make install, to a PREFIX' build install PREFIX="$prefix"
renewed 'an installation to a PREFIX' 1
attempt 'make install, with no ldconfig' build install PREFIX="$prefix" LDCONFIG="$work/none"
sed -n '/^#include <lcrvm.h>$/,/^\.fi$/p' man/lcrvm.3 | sed '/^\.fi$/d; s/\\e/\\/g' > "$work/counter.c"
counts() {
    rm -rf "$work/counting"
    mkdir "$work/counting"
    for run in 1 2 3; do
        counted=$(cd "$work/counting" && "$@") || return 1
        [ "$counted" = $run ] || { echo "run $run counted $counted"; return 1; }
    done
}
if is_there pkg-config 'a C program by pkg-config'; then
    export PKG_CONFIG_PATH="$prefix/lib/pkgconfig"
    attempt 'the version of lcrvm.pc' test "$(pkg-config --modversion lcrvm)" = "$version"
    attempt 'a shared program' cc -Wall -Wextra -Werror "$work/counter.c" $(pkg-config --cflags --libs lcrvm) \
        -o "$work/shared"
    attempt 'a static program' cc -static -Wall -Wextra -Werror "$work/counter.c" \
        $(pkg-config --cflags --libs --static lcrvm) -o "$work/static"
    readelf -d "$work/shared" > "$work/elf"
    attempt 'what the shared program needs' grep -q 'Shared library: \[liblcrvm.so.0\]' "$work/elf"
    attempt 'the shared program' counts env LD_LIBRARY_PATH="$prefix/lib" "$work/shared"
    attempt 'the static program' counts "$work/static"
    attempt 'make uninstall, and then no library' build uninstall PREFIX="$prefix"
    renewed 'make uninstall' 1
    attempt 'a program whose library is gone' sh -c "! LD_LIBRARY_PATH='$prefix/lib' '$work/shared'"
fi

# ---- The manual pages.

for page in man/lcrvm.1 man/lcrvm.3; do
    is_there groff "the form of $page" || continue
    groff -man -ww -b -z -Tutf8 $page > "$work/found" 2>&1 || true
    same "$page, by groff" /dev/null "$work/found"
    ! is_there man "$page by man" || attempt "$page, by man" man -P cat -l $page
done
cat > "$work/compare.py" <<'END'
import re, sys
a_call = r"(?:const )?(?:enum|struct|char) [^;{}()]*\([^;]*\);"
calls = lambda text: {re.sub(r"\s+", " ", call) for call in re.findall(a_call, text)}
header = re.sub(r"/\*.*?\*/", "", open("include/lcrvm.h").read(), flags=re.S)
page = open("man/lcrvm.3").read()
synopsis = page[page.index(".SH SYNOPSIS"):page.index(".SH DESCRIPTION")]
lines = [re.findall(r'"[^"]*"|\S+', line[4:]) for line in synopsis.split("\n") if line.startswith(".BI ")]
shown = "\n".join("".join(part.strip('"') for part in line) for line in lines)
wrong = calls(header) ^ calls(shown)
unnamed = [word for word in re.findall(r"LCRVM_[A-Z_]+(?= =)", header) if word not in page]
named = page[page.index(".SH NAME"):page.index(".SH LIBRARY")]
missing = [name for name in re.findall(r"\b(lcrvm_\w+)\(", header) if not re.search(name + r"\b", named)]
sys.exit("\n".join([*wrong, *unnamed, *missing]) or 0)
END
attempt 'lcrvm.3 and the header' python3 "$work/compare.py"

# The commands of the example, and what it says that they print.
sed -n '/^\.RS$/,/^\.RE$/p' man/lcrvm.1 | sed '/^\./d; s/\\e/\\/g; s/\\-/-/g' > "$work/example"
sed -n 's/^\$ //p; /^ /p' "$work/example" > "$work/commands"
sed '/^\$ /d; /^ /d' "$work/example" > "$work/wanted"
mkdir "$work/by_hand" "$work/path"
ln -s "$program" "$work/path/lcrvm"
(cd "$work/by_hand" && PATH="$work/path:$PATH" sh -e "$work/commands") > "$work/found" 2>&1 || fails 'the example of lcrvm.1'
same 'what the example of lcrvm.1 prints' "$work/wanted" "$work/found"

# ---- What the program says of itself, against the manual page and the completion.

options_of() {
    "$program" "$@" --help | grep -o -- '^ *\(-[a-zA-Z], \)\?--[a-z-]*' | grep -o -- '--[a-z-]*' | sort -u
}
sed 's/\\-/-/g' man/lcrvm.1 > "$work/page"
"$program" --help | sed -n '/^Commands:/,/^Options:/s/^  \([a-z]*\) .*/\1/p' | sort > "$work/commands"
for command in $(cat "$work/commands"); do
    attempt "$command in lcrvm.1" grep -q "^\.B $command$" "$work/page"
    [ "$command" = help ] || options_of "$command" > "$work/options"
    for option in $(cat "$work/options"); do
        attempt "$option of $command in lcrvm.1" grep -q -e "[ .]$option\b" "$work/page"
    done
done
if is_there bash 'the completion'; then
    cat > "$work/complete.bash" <<'END'
source completion/lcrvm.bash
COMP_WORDS=(lcrvm "$@")
COMP_CWORD=$#
_lcrvm
printf '%s\n' "${COMPREPLY[@]}" | sort -u
END
    completed() {
        bash "$work/complete.bash" "$@" > "$work/found" 2>&1
    }
    completed ''
    same 'the commands that are completed' "$work/commands" "$work/found"
    for command in $(cat "$work/commands"); do
        [ "$command" != help ] || continue
        options_of "$command" > "$work/options"
        completed "$command" --
        same "the options of $command that are completed" "$work/options" "$work/found"
    done
    options_of > "$work/options"
    completed --
    same 'the options that are completed' "$work/options" "$work/found"
    echo packaging > "$work/folder"
    for words in 'run --store pack' 'check pack' 'init --nodes 2 pack'; do
        completed $words
        same "the folder of $words" "$work/folder" "$work/found"
    done
    attempt 'the completion as bash has it' bash -c 'source completion/lcrvm.bash && complete -p lcrvm'
fi

# ---- The wheel. Its tag names the newest version of glibc that a binary within wants.

headers="import os, sys, sysconfig; sys.exit(not os.path.exists(sysconfig.get_paths()['include'] + '/Python.h'))"
if ! python3 -c "$headers"; then
    echo 'skipped: the wheel: no headers of Python'
else
    attempt 'make python' build python
    mkdir "$work/wheel"
    attempt 'what is in the wheel' python3 -m zipfile -e build/wheel/*.whl "$work/wheel"
    find "$work/wheel" -name '*.so*' -o -path '*/scripts/*' | xargs readelf -VW > "$work/elf"
    newest=$(grep -o 'GLIBC_2\.[0-9]*' "$work/elf" | cut -d . -f 2 | sort -n | tail -n 1)
    tag=cp38-abi3-manylinux_2_${newest}_$(uname -m)
    attempt "the tag of the wheel, for glibc 2.$newest" test -f "build/wheel/lcrvm-$version-$tag.whl"
    attempt 'the program of the wheel' cmp "$program" "$work/wheel/lcrvm-$version.data/scripts/lcrvm"
    backend() {
        (cd clients/python && python3 -c "import build_backend; $1")
    }
    PROJECT_URL=https://example.org/lcrvm/ backend 'print(build_backend._metadata().decode())' > "$work/metadata"
    for line in 'Project-URL: Source, https://example.org/lcrvm$' '](https://example.org/lcrvm/docs/GUIDE.md)'; do
        attempt "$line in the metadata" grep -q "$line" "$work/metadata"
    done
    ! backend 'build_backend.build_sdist(".")' > "$work/why" 2>&1 || fails 'a source distribution is made'
    attempt 'why none is made' grep -q 'UnsupportedOperation: there is no source distribution' "$work/why"
fi

# ---- The archive of all.

for crate in "lcrvm $program" "lc_c $library"; do
    file=${crate#* }
    crate=${crate%% *}
    {
        echo 'kit of this test'
        echo "crate $crate: modules loaded=0 checked=0"
        echo 'logic=proved functions=0'
        sha256sum "$file" | cut -d ' ' -f 1
    } > "$work/proved/$crate"
done
archive=build/lcrvm-$version.tar.gz
if ! python3 -c "$headers"; then
    echo 'skipped: the archive of make dist: no headers of Python'
else
    attempt 'make dist' build dist
fi
if [ -f $archive ]; then
    cp $archive "$work/first.tar.gz"
    build clean
    attempt 'make dist, once more, by another umask' sh -c 'umask 077 && "$@"' build_dist make -s PROGRAM="$program" \
        STORE="$library" HEAP="$heap" PROVED="$work/proved" dist
    attempt 'two archives of the same files' cmp "$work/first.tar.gz" $archive
    mkdir "$work/unpacked"
    tar -xzf $archive -C "$work/unpacked"
    (
        # No folder of the path has the kit's command.
        path=
        for folder in $(echo "$PATH" | tr : ' '); do [ -x "$folder/rt" ] || path=$path:$folder; done
        export PATH="${path#:}"
        unset GIT_DIR PKG_CONFIG_PATH
        ! command -v rt || fails 'rt is on the path'
        cd "$work/unpacked/lcrvm-$version"
        attempt 'make install, from the archive' make -s install PREFIX="$work/other"
        attempt 'the installed program' test "$("$work/other/bin/lcrvm" --version)" = "lcrvm $version"
        attempt 'a program over it' cc "$work/counter.c" -I"$work/other/include" -L"$work/other/lib" -llcrvm \
            -o "$work/over"
        attempt 'that program' counts env LD_LIBRARY_PATH="$work/other/lib" "$work/over"
        grep -E '^[0-9a-f]{64}  ' PROOF > "$work/sums"
        attempt 'the checksums of PROOF' sha256sum --quiet -c "$work/sums"
        find . -type f ! -name PROOF | sed 's|^\./||' | sort > "$work/wanted"
        cut -c 67- "$work/sums" | sort > "$work/found"
        same 'the files of PROOF' "$work/wanted" "$work/found"
        for line in '^commit: ' '^kit: kit of this test$' '^crate lcrvm: ' '^crate lc_c: ' '^logic=proved '; do
            attempt "$line in PROOF" grep -q "$line" PROOF
        done
        if ! python3 -m venv "$work/venv" > "$work/said" 2>&1 || [ ! -x "$work/venv/bin/pip" ]; then
            echo "skipped: pip install from the archive: no venv with pip"
        else
            attempt 'pip install' "$work/venv/bin/pip" install -q --no-index --disable-pip-version-check ./*.whl
            cat > "$work/package.py" <<'END'
import sys, lcrvm
from importlib.metadata import files, metadata
assert lcrvm.__version__ == sys.argv[2], lcrvm.__version__
said = metadata("lcrvm")
text = said.get_payload() or said["Description"]
assert said["License-Expression"] == "MIT OR Apache-2.0", said
assert said["Description-Content-Type"] == "text/markdown" and text.startswith("# lcrvm\n"), text[:200]
assert "](docs/" not in text and "](LICENSE" not in text, "a link that leads nowhere"
assert {"Operating System :: POSIX :: Linux", "Typing :: Typed"} <= set(said.get_all("Classifier")), said
assert {"LICENSE-MIT", "LICENSE-APACHE"} <= {it.name for it in files("lcrvm")}, files("lcrvm")
with lcrvm.open(sys.argv[1], create=True) as store:
    with store.transaction(1) as t:
        t[1, 3:8] = b"hello"
with lcrvm.open(sys.argv[1]) as store, store.transaction(reading=[1]) as t:
    assert bytes(t[1, 3:8]) == b"hello", bytes(t[1, 3:8])
END
            attempt 'the installed package' "$work/venv/bin/python" -I "$work/package.py" "$work/by_python" "$version"
            attempt 'the store of the package, by the program' "$work/other/bin/lcrvm" check "$work/by_python"
            attempt 'the program of the package' test "$("$work/venv/bin/lcrvm" --version)" = "lcrvm $version"
            attempt 'its store, by that program' "$work/venv/bin/lcrvm" check "$work/by_python"
            attempt 'pip uninstall' "$work/venv/bin/pip" uninstall -q -y lcrvm
            attempt 'no program after it' test ! -e "$work/venv/bin/lcrvm"
        fi
        attempt 'make uninstall, from the archive' make -s uninstall PREFIX="$work/other"
        files_of "$work/other" > "$work/found"
        same 'what that uninstall leaves' /dev/null "$work/found"
        echo "$passed $failed" > "$work/counts"
    ) || fails 'the archive'
    read -r passed failed < "$work/counts"

    # What was not proved is not packed.
    echo 'int more;' > "$work/more.c"
    cc -c "$work/more.c" -o "$work/more.o"
    cp "$library" "$work/other.a"
    ar rs "$work/other.a" "$work/more.o"
    ! build dist STORE="$work/other.a" > "$work/why" 2>&1 || fails 'a library that was not proved is packed'
    attempt 'why it is not packed' grep -q 'other.a is not what was proved' "$work/why"
    rm "$work/proved/lcrvm"
    ! build dist > "$work/why" 2>&1 || fails 'a program without a proof is packed'
    attempt 'why that is not packed' grep -q 'proved/lcrvm is missing' "$work/why"
fi

ends_counted
