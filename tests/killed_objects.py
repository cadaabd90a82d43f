#!/usr/bin/env python3
"""Kills the object store of examples/objects.py in the midst of its work; tests/objects.sh starts it.

usage: tests/killed_objects.py SEED KILLS OBJECTS

A worker does the changes that it is told and says of each when it is acknowledged. It is killed after a random number
of changes, and a random moment later, or while it opens the store. Each time all objects are read: they are those of
the acknowledged changes, byte for byte, and the change that was under way is there whole or not at all. After the last
kill the objects that are left to do are put, and the command line shows them. It works in the folder where it runs.
"""
from __future__ import annotations

import os
import random
import signal
import subprocess
import sys
from typing import Dict, List, NamedTuple, Optional, Tuple

HERE = os.path.dirname(os.path.abspath(__file__))
EXAMPLE = os.path.join(HERE, "..", "examples", "objects.py")
sys.path.insert(0, os.path.dirname(EXAMPLE))
import objects as example  # noqa: E402
from kills import Moments, fail  # noqa: E402

lcrvm = example.lcrvm

FOLDER = "store"
# Changes of a worker that is killed, at most, and how many more it is told. So many fill the log more than once.
CHANGES, SPARE = 100, 200
# Of a hundred: changes that delete an object, and that do so where all are there; those that put one again; long ones.
DELETED, DELETED_FROM_ALL, REPLACED, LONG = 10, 60, 15, 1
SHORT_BYTES, LONG_BYTES = 300, 20_000
MOMENTS = Moments(while_opening=10, opening=0.15, soon=0.005)


class Change(NamedTuple):
    """An object that is put, with these bytes, or deleted."""

    name: str
    data: Optional[bytes]


def content(name: str, version: int, length: int) -> bytes:
    """The bytes of a version of an object."""
    return random.Random(f"{name} {version}").getrandbits(8 * length + 8).to_bytes(length + 1, "little")[:length]


def line_of(name: str, version: int, length: int) -> str:
    return f"put {name} {version} {length}\n"


def change_of(line: str) -> Change:
    what, name, *numbers = line.split()
    return Change(name, content(name, *map(int, numbers)) if what == "put" else None)


class Plan:
    """Chooses changes, up to so many objects. No version of an object is as another."""

    def __init__(self, chance: random.Random, count: int) -> None:
        self._chance = chance
        self._count = count
        self._made = 0

    def line(self, there: List[str]) -> str:
        """The next change, where these objects are there."""
        share = self._chance.randrange(100)
        deleted = DELETED if len(there) < self._count else DELETED_FROM_ALL
        if there and share < deleted:
            return f"delete {self._chance.choice(there)}\n"
        if there and (share < deleted + REPLACED or len(there) >= self._count):
            name = self._chance.choice(there)
        else:
            name = f"object-{self._made}"
        self._made += 1
        long = self._chance.randrange(100) < LONG
        length = LONG_BYTES if long else min(example.OBJECT_BYTES, int(self._chance.expovariate(1 / SHORT_BYTES)))
        return line_of(name, self._made, length)

    def lines(self, there: Dict[str, bytes], count: int) -> List[str]:
        known = dict.fromkeys(there)
        chosen = []
        for _ in range(count):
            line = self.line(list(known))
            name = line.split()[1]
            known.pop(name, None)
            if line.startswith("put"):
                known[name] = None
            chosen.append(line)
        return chosen


def work() -> None:
    """Does the changes of standard input, and says `open` and, of each change, `done` when it is acknowledged."""
    changes = [change_of(line) for line in sys.stdin]
    with example.open_store(FOLDER) as store:
        objects = example.Objects(store)
        os.write(sys.stdout.fileno(), b"open\n")
        for change in changes:
            if change.data is None:
                objects.delete(change.name)
            else:
                objects.put(change.name, change.data)
            os.write(sys.stdout.fileno(), b"done\n")


def run_worker(lines: List[str], chance: Optional[random.Random]) -> Tuple[int, bool]:
    """Runs a worker on these changes, and kills it where there is a chance to.

    How many changes were acknowledged, and whether it was killed.
    """
    words = [sys.executable, os.path.abspath(__file__), "--work"]
    worker = subprocess.Popen(words, stdin=subprocess.PIPE, stdout=subprocess.PIPE)
    assert worker.stdin is not None and worker.stdout is not None
    worker.stdin.write("".join(lines).encode())
    worker.stdin.close()
    replies: List[bytes] = []

    def hear() -> None:
        for _ in range(1 + chance.randrange(CHANGES)):
            replies.append(worker.stdout.readline())

    if chance is not None:
        MOMENTS.kill(chance, hear, worker.kill)
    replies += worker.stdout.readlines()
    said = replies.count(b"done\n")
    status = worker.wait()
    worker.stdout.close()
    if status != -signal.SIGKILL and (status != 0 or said != len(lines)):
        fail(f"a worker ended with status {status}")
    return said, status != 0


def applied(there: Dict[str, bytes], changes: List[Change]) -> Dict[str, bytes]:
    """The objects after these changes."""
    changed = dict(there)
    for name, data in changes:
        changed.pop(name, None)
        if data is not None:
            changed[name] = data
    return changed


def found() -> Tuple[Dict[str, bytes], bool]:
    """All objects of the store, and whether its map is that of these objects."""
    with example.open_store(FOLDER) as store:
        objects = example.Objects(store)
        return {name: objects.get(name) for name in objects.names()}, objects.is_consistent()


def check(wanted: List[Dict[str, bytes]], what: str) -> Dict[str, bytes]:
    """The objects that are there, which have to be one of these."""
    there, consistent = found()
    if there not in wanted:
        wrong = [name for name in sorted({*there, *wanted[0]}) if there.get(name) != wanted[0].get(name)]
        fail(f"{what}: other objects are there than were acknowledged: {' '.join(wrong[:10])}")
    if not consistent:
        fail(f"{what}: the map is not that of the objects")
    return there


def show(there: Dict[str, bytes]) -> None:
    """Looks at the objects by the command line."""

    def told(*words: str, given: bytes = b"") -> Tuple[int, bytes]:
        command = [sys.executable, EXAMPLE, FOLDER, *words]
        done = subprocess.run(command, input=given, stdout=subprocess.PIPE, stderr=subprocess.DEVNULL)
        return done.returncode, done.stdout

    listed = "".join(f"{len(there[name])} {name}\n" for name in sorted(there)).encode()
    name = max(there, key=lambda it: len(there[it]))
    wanted = [
        (told("list"), (0, listed)),
        (told("get", name), (0, there[name])),
        (told("put", "a name", given=b"x" * 65), (0, b"")),
        (told("get", "a name"), (0, b"x" * 65)),
        (told("put", "a name"), (0, b"")),
        (told("get", "a name"), (0, b"")),
        (told("delete", "a name"), (0, b"")),
        (told("get", "a name"), (1, b"")),
        (told("delete", "a name"), (1, b"")),
        (told("put", "n" * 48), (1, b"")),
        (told("put", "long", given=bytes(example.OBJECT_BYTES + 1)), (1, b"")),
        (told("put", "long", given=bytes(example.OBJECT_BYTES)), (0, b"")),
        (told("delete", "long"), (0, b"")),
        (told("list"), (0, listed)),
        (told("look"), (2, b"")),
    ]
    for number, (is_so, should) in enumerate(wanted):
        if is_so != should:
            fail(f"command {number}: status {is_so[0]}")


def main(seed: int, kills: int, count: int) -> None:
    chance = random.Random(seed)
    plan = Plan(chance, count)
    lcrvm.create(FOLDER, example.GEOMETRY)
    there: Dict[str, bytes] = {}
    killed, acknowledged, whole, none = 0, 0, 0, 0
    while killed < kills:
        lines = plan.lines(there, CHANGES + SPARE)
        changes = [change_of(line) for line in lines]
        said, was_killed = run_worker(lines, chance)
        killed += was_killed
        before, after = applied(there, changes[:said]), applied(there, changes[: said + 1])
        there = check([before, after], f"kill {killed}")
        acknowledged += said
        whole += was_killed and there == after
        none += was_killed and there == before
    print(f"{kills} kills, {acknowledged} changes acknowledged, {len(there)} objects")
    print(f"of the changes that were under way {whole} are there, and {none} are not")
    while len(there) < count:
        lines = plan.lines(there, count - len(there))
        run_worker(lines, None)
        there = check([applied(there, [change_of(line) for line in lines])], "without a kill")
    show(there)
    check([there], "after the command line")
    print(f"{len(there)} objects of {sum(map(len, there.values()))} bytes are there")


if __name__ == "__main__":
    if sys.argv[1] == "--work":
        work()
    else:
        main(*map(int, sys.argv[1:]))
