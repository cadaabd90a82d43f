#!/usr/bin/env bash
# Tries wrong bodies that the prover has to refuse. In five crates six at most stand in crates/NAME/must-fail/, where the gate
# tries them; all others stand in crates/NAME/by-hand/wrong_bodies.edits, and are tried here.
#
# usage: tests/edits.sh --fits            looks that each edit can be applied (seconds; proves nothing)
#        tests/edits.sh --together [-j N] [--until HH:MM] [NAME..]  tries those by hand, of these crates or of all, as many in one
#                                         check as stand in different functions, N crates side by side, and begins no check after
#                                         that time. It prints of each how it is refused, and at the end which are not
#        tests/edits.sh --bare NAME EDIT  prints what an edit leaves open where no answer that is written by hand is in the way
#
# It works on a copy of the sources and of the libraries built in crates/*/out/rlib (some 2 GB), so that nothing which is built is
# proved again, and changes nothing in the repository. Build them first, by `rt all check`.
set -euo pipefail
. "$(dirname "$0")/common.sh"
exec python3 "$top/tests/edits.py" "$top" "$@"
