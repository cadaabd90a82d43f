#!/bin/sh
# Builds examples/socket.c, and tries it before the server `names`: eight clients at once over a Unix domain socket, and
# a ninth, which waits. The server is killed again and again, and each change that a client has read a reply to is
# there. And clients that go away, that read nothing or send half a line, a signal, and a socket that is left.
#
# usage: tests/socket.sh [NAMES [PROGRAM [KILLS [SEED]]]]
#        (default: $NAMES, or crates/names/out/names; $LCRVM, or crates/lcrvm/out/lcrvm; 100; 1)
#
# It takes a minute or two, and works in a folder of its own below TMPDIR. `cc` and `python3` are wanted.
set -eu
. "$(dirname "$0")/common.sh"

names=$(whole "${1:-${NAMES:-$top/crates/names/out/names}}")
program=$(whole "${2:-${LCRVM:-$top/crates/lcrvm/out/lcrvm}}")
kills=${3:-100}
seed=${4:-1}

make_work
export PYTHONDONTWRITEBYTECODE=1
cd "$work"

${CC:-cc} -std=c11 -D_POSIX_C_SOURCE=200809L -Wall -Wextra -Wpedantic -Werror -O2 ${CFLAGS:-} \
    -o names_socket "$top/examples/socket.c"
for store in tried killed; do
    mkdir $store
    "$program" init $store --threads 8 --pages 16 --words 4096
done

attempt() {
    if "$@"; then passes; else fails "$2"; fi
}
attempt python3 "$top/tests/socket_test.py" ./names_socket "$names" tried
echo "seed $seed"
attempt python3 "$top/tests/killed_names.py" "$seed" "$kills" "$names" killed ./names_socket
ends_counted
