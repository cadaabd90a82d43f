#!/bin/sh
# Packs build/lcrvm-VERSION.tar.gz, from which all is installed without the kit: what stands in build/, the headers, the
# manual pages, the guide, the list of changes, the completion, the licenses, a Makefile, and the file PROOF.
#
# usage: packaging/dist.sh VERSION PROVED PROGRAM STORE HEAP
#   PROVED    the folder in which `make prove` keeps what the checker said
#
# The program and the archive of the store have to be those that were proved, by their checksums.
set -eu
umask 022 # the modes of what is packed are these, whoever packs it

cd "$(dirname "$0")/.."
version=$1
proved=$2
program=$3
store=$4
heap=$5
name=lcrvm-$version

fail() {
    echo "dist: $1" >&2
    exit 1
}

# Whether a file is the one that was proved as this crate.
is_proved() {
    [ -f "$proved/$1" ] || fail "$proved/$1 is missing: make prove keeps what the checker said"
    [ "$(tail -n 1 "$proved/$1")" = "$(sum_of "$2")" ] || fail "$2 is not what was proved: make prove"
}

sum_of() {
    sha256sum "$1" | cut -d ' ' -f 1
}

is_proved lcrvm "$program"
is_proved lc_c "$store"
cmp -s "$program" build/lcrvm || fail "build/lcrvm is not $program: make"
says=$(build/lcrvm --version)
[ "$says" = "lcrvm $version" ] || fail "build/lcrvm says $says, and not lcrvm $version"

folder=build/dist/$name
rm -rf build/dist
mkdir -p "$folder/include" "$folder/man" "$folder/completion"
install -m 755 build/lcrvm "$folder/lcrvm"
install -m 644 "build/liblcrvm.so.$version" build/liblcrvm.a build/wheel/*.whl "$folder"
install -m 644 include/lcrvm.h include/lcrvm.hpp "$folder/include"
install -m 644 man/lcrvm.1 man/lcrvm.3 "$folder/man"
install -m 644 completion/lcrvm.bash "$folder/completion/lcrvm.bash"
install -m 644 LICENSE-MIT LICENSE-APACHE CHANGELOG.md docs/GUIDE.md "$folder"
{
    echo '# make install      with PREFIX=/usr/local, DESTDIR, and BINDIR, LIBDIR, INCLUDEDIR, MANDIR, DOCDIR, COMPLETIONDIR'
    echo '# make uninstall    takes away what install has put there'
    echo '#'
    echo '# pip installs the package for Python: pip install ./*.whl. PROOF says what was proved, and of which files.'
    echo
    echo "VERSION := $version"
    echo 'built := .'
    echo
    echo '.PHONY: all'
    echo 'all: ; @echo "All is built: make install"'
    echo
    sed '1,/^$/d' packaging/install.mk
} > "$folder/Makefile"

commit=$(git rev-parse HEAD 2> /dev/null) || commit='none, since this is no checkout'
time=$(git log -1 --format=%ct 2> /dev/null) || time=0
[ -z "$(git status --porcelain 2> /dev/null)" ] || commit="$commit, and changes that are in no commit"
{
    echo "$name"
    echo "commit: $commit"
    echo "kit: $(head -n 1 "$proved/lc_c")"
    for crate in lcrvm lc_c; do
        echo
        echo "What the checker said last of the crate $crate, and the sha256 of what it built then:"
        tail -n +2 "$proved/$crate"
    done
    echo
    echo 'The sha256 of the heap that the library is linked with:'
    sum_of "$heap"
    echo
    echo 'The sha256 of each file here, which this checks: grep -E "^[0-9a-f]{64}  " PROOF | sha256sum -c'
    (cd "$folder" && find . -type f | LC_ALL=C sort | sed 's|^\./||' | while read -r file; do sha256sum "$file"; done)
} > build/dist/PROOF
mv build/dist/PROOF "$folder/PROOF"

# The same files give the same bytes.
tar --sort=name --owner=0 --group=0 --numeric-owner --mtime="@$time" -C build/dist -cf - "$name" |
    gzip -n9 > "build/dist/$name.tar.gz"
mv "build/dist/$name.tar.gz" "build/$name.tar.gz"
