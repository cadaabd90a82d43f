#!/bin/sh
# Makes the Python package of this repository, and installs it into a fresh environment of Python in a new folder.
#
# usage: tests/python_package.sh FOLDER [LC_C]     (default: $LC_C, or crates/lc_c/out/liblc_c.a)
#
# It works on a copy below FOLDER, so that scripts may do this side by side. The program within is $LCRVM, or
# crates/lcrvm/out/lcrvm, or a stand-in if none is built. If a tool is missing it says so and ends with status 77.
set -eu
. "$(dirname "$0")/common.sh"

folder=$1
store=$(whole "${2:-${LC_C:-$top/crates/lc_c/out/liblc_c.a}}")
program=$(whole "${LCRVM:-$top/crates/lcrvm/out/lcrvm}")
[ -f "$program" ] || program=/bin/sh

lacks() {
    echo "skipped: python package: $1"
    exit 77
}
command -v python3 > /dev/null || lacks 'no python3'
command -v make > /dev/null || lacks 'no make'
command -v "${CC:-cc}" > /dev/null || lacks "no C compiler ${CC:-cc}"
python3 -c 'import ensurepip, venv' 2> /dev/null || lacks 'this Python has no venv with pip'
python3 -c 'import os, sys, sysconfig
sys.exit(not os.path.exists(os.path.join(sysconfig.get_paths()["include"], "Python.h")))' || lacks 'no headers of Python'

mkdir -p "$folder/tree"
cd "$top"
cp -R Makefile packaging include clients README.md LICENSE-* "$folder/tree"
cd "$folder"
make -s -C tree python STORE="$store" PROGRAM="$program"
python3 -m venv environment
environment/bin/pip --disable-pip-version-check uninstall -q -y setuptools 2> pip.err || true
environment/bin/pip --disable-pip-version-check install -q --no-index ./tree/clients/python
