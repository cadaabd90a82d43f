#!/bin/sh
# Checks stores by the built program, in lines and as JSON, of all kinds: the object has just the values of the lines, with the same
# status and the same standard error, and Python's json takes it.
#
# usage: tests/checks.sh [PROGRAM]     (default: crates/lcrvm/out/lcrvm)
#
# It takes some seconds, and works in a folder of its own below TMPDIR. It wants Python 3.8 or later.
set -eu
. "$(dirname "$0")/common.sh"

program=$(whole "${1:-crates/lcrvm/out/lcrvm}")
make_work
cd "$work"

python3 - "$program" <<'PYTHON'
import json
import os
import pathlib
import re
import shutil
import subprocess
import sys

PROGRAM = sys.argv[1]
WORD = 8
KEYS = ["size", "misfit", "logs", "segments", "refused", "ok"]
MISFIT = re.compile(r"((?:log|seg)\d+) (is missing|has a length of no store|has another length than the first)")
FIELDS = {"BadGeometry": ["area"], "OutOfSegment": ["area"], "Twice": ["segment", "sequence"], "Gap": ["segment", "sequence"], "NoMemory": []}
passed = failed = 0


def same(what, found, wanted):
    global passed, failed
    if found == wanted:
        passed += 1
    else:
        failed += 1
        print("%s: %r, and not %r" % (what, found, wanted))


def run(*words, script=None):
    return subprocess.run([PROGRAM, *words], input=script, capture_output=True, text=True)


def pairs(found):
    keys = [key for key, _ in found]
    same("the keys", sorted(keys), sorted(set(keys)))
    if "ok" in keys:
        same("the order of the keys", keys, KEYS)
    return dict(found)


# The object that these lines and this status tell.
def of_lines(lines, status):
    told = dict.fromkeys(KEYS)
    told.update(logs=[], segments=[], ok=status == 0)
    behind, sequences, ends = {}, {}, 0
    for line in lines:
        words = line.split(" ")
        if words[0] == "nodes":
            told["size"] = dict(zip(words[::2], map(int, words[1::2])))
        elif MISFIT.fullmatch(line):
            told["misfit"] = dict(zip(("file", "why"), MISFIT.fullmatch(line).groups()))
        elif words[0] == "log":
            told["logs"].append({"node": int(words[1]), "records": int(words[3]), "words": int(words[5])})
        elif words[0] == "segment" and words[2] == "behind":
            behind[int(words[1])] = [int(page) for page in words[3:] if page != "none"]
        elif words[0] == "segment":
            sequences[int(words[1])] = int(words[3])
        elif line == "recovered":
            ends += 1
        elif line == "device fault":
            told["refused"] = {"why": "DeviceFault"}
        elif words[0] == "refused":
            told["refused"] = dict(zip(["why"] + FIELDS[words[1]], [words[1]] + [int(word) for word in words[2:]]))
        else:
            same("a line", line, "one that is known")
    same("the segments of two kinds of lines", list(behind), list(sequences))
    same("the line that it is recovered", ends, int(status == 0))
    told["segments"] = [{"segment": s, "sequence": q, "behind": behind[s]} for s, q in sequences.items()]
    return told


def check(name, *words, refused=None):
    plain, told = run("check", *words), run("check", *words, "--json")
    same("%s, the status" % name, told.returncode, plain.returncode)
    same("%s, standard error" % name, told.stderr, plain.stderr)
    same("%s, the lines" % name, told.stdout.count("\n"), 1)
    same("%s, spaces" % name, " " in re.sub('"[^"]*"', "", told.stdout), False)
    try:
        found = json.loads(told.stdout, object_pairs_hook=pairs)
    except ValueError as reason:
        found = str(reason)
    same(name, found, of_lines(plain.stdout.splitlines(), plain.returncode))
    if refused is not None:
        same("%s, why" % name, (found["refused"] or {}).get("why"), refused)
    return found


def make(folder, *size, script=None):
    shutil.rmtree(folder, ignore_errors=True)
    os.mkdir(folder)
    same("init", run("init", folder, *size).returncode, 0)
    if script is not None:
        same("run", run("run", "--store", folder, "--as-found", script=script).returncode, 0)
    return pathlib.Path(folder)


def commit(node, segment, offset, length=1):
    return "begin %d 0 %d\nrange %d 0 %d %d %d\nend %d 0\n" % (node, segment, node, segment, offset, length, node)


make("new")
same("a new store", check("a new store", "new"), {
    "size": {"nodes": 1, "segments": 1, "pages": 1, "words": 64}, "misfit": None,
    "logs": [{"node": 0, "records": 0, "words": 0}], "segments": [{"segment": 1, "sequence": 0, "behind": []}],
    "refused": None, "ok": True})
size = ["--nodes", "3", "--segments", "5", "--pages", "40", "--words", "256"]
script = commit(0, 3, 0) + commit(0, 3, 256 * 7, 300) + commit(0, 3, 256 * 39) + commit(1, 1, 5) + commit(1, 4, 0, 20) + commit(2, 2, 256)
store = make("full", *size, script=script + "flush 0\nflush 1\nflush 2\n")
found = check("a store of many commits", "full")
same("the pages of segment 3", found["segments"][2], {"segment": 3, "sequence": 3, "behind": [0, 7, 8, 39]})
check("its size by its files", "full", "--as-found", "--threads", "2")
check("a size that is given", "full", *size)
check("other pages", "full", "--as-found", "--pages", "39", refused="BadGeometry")
check("other nodes", "full", "--as-found", "--nodes", "8", refused="DeviceFault")
check("fewer nodes", "full", "--as-found", "--nodes", "1", refused="BadGeometry")
(store / "fault").touch()
check("a store with the mark of a fault", "full")
(store / "fault").unlink()

store = make("records", script=commit(0, 1, 0) + commit(0, 1, 8) + "flush 0\n")
log = (store / "log0").read_bytes()
first, second, rest = log[:8 * WORD], log[8 * WORD:16 * WORD], log[16 * WORD:]
(store / "log0").write_bytes(second + bytes(8 * WORD) + rest)
check("a number that is missing", "records", refused="Gap")
(store / "log0").write_bytes(first + first + rest)
check("a number that stands twice", "records", refused="Twice")
other = make("nodes", "--nodes", "2")
(other / "log1").write_bytes(log)
check("a record of another node", "nodes", refused="BadGeometry")
two = make("two", "--segments", "2", script=commit(0, 2, 0) + "flush 0\n")
one = make("one")
(one / "log0").write_bytes((two / "log0").read_bytes())
check("a record of no segment", "one", refused="OutOfSegment")

for name, spoil in {
    "log1": lambda folder: (folder / "log1").unlink(),
    "seg2": lambda folder: (folder / "seg2").write_bytes(bytes(5)),
    "log0": lambda folder: (folder / "log0").write_bytes(b""),
}.items():
    for stated in True, False:
        folder = make("spoiled", *size)
        spoil(folder)
        if not stated:
            (folder / "lcrvm.store").unlink()
        for words in [], ["--as-found"], size, ["--nodes", "1"]:
            check("%s does not fit, %s, %s" % (name, stated, " ".join(words)), "spoiled", *words)
(make("sizes") / "lcrvm.store").write_text("format 9\n")
check("a size that is none", "sizes", refused="DeviceFault")
os.mkdir("empty")
check("an empty folder", "empty")
check("no folder", "nothing", refused="DeviceFault")
check("a file", "new/log0", refused="DeviceFault")
check("the empty word", "", refused="DeviceFault")

holder = subprocess.Popen([PROGRAM, "run", "--follow", "--store", "new"], stdin=subprocess.PIPE, stdout=subprocess.PIPE)
holder.stdin.write(b"begin 0 0 1\n")
holder.stdin.flush()
holder.stdout.readline()
check("a store in use", "new", refused="DeviceFault")
same("who has it", run("check", "new", "--json").stderr, "lcrvm: new: store in use by process %d\n" % holder.pid)
holder.communicate()

with open("/dev/full", "w") as full:
    same("an object that cannot be written", subprocess.run([PROGRAM, "check", "new", "--json"], stdout=full, stderr=subprocess.PIPE).returncode, 3)
twice = run("check", "new", "--json", "--json")
same("the option given twice", (twice.returncode, twice.stdout), (2, ""))
print("%d passed, %d failed" % (passed, failed))
sys.exit(failed > 0)
PYTHON
