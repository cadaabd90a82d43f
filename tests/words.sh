#!/bin/sh
# Runs the built program with the words of each row of tests/words.txt, which says what a row wants: the fault that is
# said, what is printed, the help, and the size of the store that is made, used or found. Each row that fails is named.
#
# usage: tests/words.sh [PROGRAM]     (default: crates/lcrvm/out/lcrvm)
#
# It takes some seconds, and works in a folder of its own below TMPDIR. It wants Python 3.8 or later.
set -eu
. "$(dirname "$0")/common.sh"

program=$(whole "${1:-$top/crates/lcrvm/out/lcrvm}")
make_work
cd "$work"

python3 - "$program" "$top/tests/words.txt" <<'PYTHON'
import os
import shlex
import shutil
import subprocess
import sys

PROGRAM, TABLE = sys.argv[1:]
FILED = ["nodes", "segments", "pages", "words"]
MOST = {"nodes": 8, "segments": 16, "pages": 1024, "words": 4096}


class Missed(Exception):
    pass


def same(what, found, wanted):
    if found != wanted:
        raise Missed("%s: %r, where %r is wanted" % (what, found, wanted))


def run(words, script=""):
    done = subprocess.run([PROGRAM, *words], input=script, capture_output=True, text=True)
    return done.returncode, done.stdout.splitlines(), done.stderr.splitlines()


def first(lines):
    return lines[0] if lines else ""


def init(folder, size):
    os.mkdir(folder)
    options = ["--%s=%d" % (name, size[name]) for name in FILED]
    same("a store that is made first", run(["init", folder, *options]), (0, [], []))


# The folder that a run is on, if it is on one.
def store_of(words):
    return words[words.index("--store") + 1] if "--store" in words else None


# The lengths of the files of logs, or of segments.
def lengths(folder, kind):
    return [os.stat(os.path.join(folder, name)).st_size for name in os.listdir(folder) if name.startswith(kind)]


# The words have this fault.
def fault(wanted, words, text):
    status, printed, said = run(words)
    same("the status", status, 2)
    same("what is printed", printed, [])
    same("the first line on standard error", first(said), "command line not understood")
    same("why", first(said[1:]), text)


# The first line that is printed, with the store `bank` there, and a log file under two names.
def prints(wanted, words, text):
    init("bank", {"nodes": 1, "segments": 1, "pages": 1, "words": 64})
    script = "begin 0 0 1\nrange 0 0 1 3 5\nend 0 0\n" * 2 + "flush 0\n"
    same("a store that is used first", run(["run", "--store", "bank"], script)[0], 0)
    for name in "log", "--reverse":
        shutil.copy("bank/log0", name)
    status, printed, _ = run(words, "begin 0 0 1\n")
    same("the status", status, int(wanted[0]))
    same("the first line", first(printed), text)


# Where each line is run before the next is read, a script has any length.
def manner(wanted, words, text):
    numbered = ["line 1"] if wanted[1] == "numbers" else []
    same("one line", run(words, "begin 0 0 1\n"), (0, numbered + ["ok"], []))
    long = "begin 0 0 1\n" + ("#" * 1023 + "\n") * 1024
    follows = (0, numbered + ["ok"], [])
    same("a long script", run(words, long), follows if wanted[0] == "follows" else (2, ["script too long"], []))


# The script that just a store of this size answers so: whatever is one above its numbers is refused.
def sized_script(nodes, threads, segments, pages, words):
    at, home = segments % nodes, 1 % nodes
    lines = [
        ("begin %d 0" % nodes, "refused Unknown"),
        ("begin %d %d" % (nodes - 1, threads), "refused Unknown"),
        ("begin %d %d" % (nodes - 1, threads - 1), "ok"),
        ("abort %d %d" % (nodes - 1, threads - 1), "ok"),
        ("begin %d 0 %d" % (at, segments + 1), "refused Unknown"),
        ("begin %d 0 %d" % (at, segments), "ok"),
        ("range %d 0 %d %d 1" % (at, segments, 256 * pages), "refused OutOfSegment"),
        ("range %d 0 %d %d 1" % (at, segments, 256 * pages - 1), "ok"),
        ("abort %d 0" % at, "ok"),
    ]
    place = 0
    # Records of 8 to 39 words fill the log, with no place left.
    while place < words:
        left = words - place
        need = left if left <= 39 else min(39, left - 8)
        lines += [
            ("begin %d 0 1" % home, "ok"),
            ("range %d 0 1 0 %d" % (home, 8 * (need - 7)), "ok"),
            ("end %d 0" % home, "closed %d %d" % (place, need)),
        ]
        place += need
    return lines + [
        ("begin %d 0 1" % home, "ok"),
        ("range %d 0 1 0 1" % home, "ok"),
        ("end %d 0" % home, "refused Full %d 8" % words),
    ]


# A run on a store of this size; one in a folder is made first.
def size(wanted, words, text):
    numbers = [int(number) for number in wanted]
    folder = store_of(words)
    if folder:
        init(folder, dict(zip(FILED, numbers[:1] + numbers[2:])))
    lines = sized_script(*numbers)
    status, printed, _ = run(words, "".join(line + "\n" for line, _ in lines))
    same("the status", status, 1)
    for (line, reply), found in zip(lines, printed):
        same(line, found, reply)
    same("how many replies", len(printed), len(lines))


# The folder that is made has the files of this size.
def made(wanted, words, text):
    folder, (nodes, segments, pages, log_words) = wanted[0], map(int, wanted[1:])
    if folder == "other":
        init("bank", {"nodes": 1, "segments": 1, "pages": 1, "words": 64})
    os.mkdir(folder)
    same("the status and what is said", run(words), (0, [], []))
    same("the logs", lengths(folder, "log"), [8 * (log_words + 1)] * nodes)
    same("the segments", lengths(folder, "seg"), [544 * pages] * segments)


# A store of this size is taken. One with another number is taken just where any is.
def fits(wanted, words, text):
    least = {"nodes": 1, "segments": 1, "pages": 1, "words": 64}
    size = {name: least[name] if number == "any" else int(number) for name, number in zip(FILED, wanted)}
    folder = store_of(words) or "bank"
    init(folder, size)
    status, printed, said = run(words)
    same("the status and what is said", (status, said), (0, []))
    same("the first line", first(printed), text)
    for name, number in zip(FILED, wanted):
        shutil.rmtree(folder)
        other = size[name] - 1 if size[name] == MOST[name] else size[name] + 1
        init(folder, {**size, name: other})
        status, printed, _ = run(words)
        # With fewer nodes or segments a file is missing.
        lacks = other < size[name] and name in ("nodes", "segments")
        refusal, code = ("device fault", 3) if lacks else ("BadGeometry", 1)
        with_other = "with %d %s" % (other, name)
        same("the status " + with_other, status, 0 if number == "any" else code)
        same("%s %s" % (refusal, with_other), refusal in "".join(printed), number != "any")


# The help has this text, however it is asked for.
def help(wanted, words, text):
    for asked in [words + ["--help"], ["help"] + words, words + ["-h"]]:
        status, printed, said = run(asked)
        same("the status and what is said at %s" % asked, (status, said), (0, []))
        if text.replace("\\n", "\n") not in "\n".join(printed):
            raise Missed("%s does not print %r" % (asked, text))


KINDS = {kind.__name__: kind for kind in (fault, prints, manner, size, made, fits, help)}
passed = failed = 0
for number, line in enumerate(open(TABLE).read().splitlines(), 1):
    if not line or line.startswith("#"):
        continue
    wanted, words, text = (line + " | " * (2 - line.count(" | "))).split(" | ", 2)
    kind, *wanted = wanted.split()
    folder = str(number)
    os.mkdir(folder)
    os.chdir(folder)
    try:
        KINDS[kind](wanted, shlex.split(words), text)
        passed += 1
    except Missed as missed:
        failed += 1
        print("failed: line %d of tests/words.txt: %s: %s" % (number, line, missed))
    os.chdir("..")
    shutil.rmtree(folder)
print("%d passed, %d failed" % (passed, failed))
sys.exit(failed > 0)
PYTHON
