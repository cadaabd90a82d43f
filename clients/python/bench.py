#!/usr/bin/env python3
"""Measures the package beside sqlite3, in one process: prints a table, and judges nothing.

usage: python3 -I clients/python/bench.py [FOLDER]     (default: a new folder below TMPDIR)

Both do the same work in turn, in rounds, and the table has the medians of the rounds. Each commit changes its bytes,
since sqlite3 writes none that are as before. The time is that of the processor, of Python and library together; a line
that says wall has that of the clock. sqlite3 has a log of its own (WAL), and syncs nothing unless commits are durable:
FOLDER says on which disk. -I has Python take the package that is installed, not the sources beside this file.
"""
from __future__ import annotations

import itertools
import os
import sqlite3
import statistics
import sys
import tempfile
import time
from typing import Callable, List, Tuple

import lcrvm

ROUNDS = 15
LAZY, READS, DURABLE, LONG, OPENINGS = 2000, 2000, 60, 300, 30
PAGE = bytes(range(256))
LARGE = PAGE * 64
LONG_BYTES = 30_000
MICRO, MILLI = 1e6, 1e3

Clock = Callable[[], float]
Work = Callable[[], object]


def seconds_of(work: Work, count: int, clock: Clock) -> float:
    """Returns how long each of `count` calls of `work` takes, in seconds of `clock`."""
    begun = clock()
    for _ in range(count):
        work()
    return (clock() - begun) / count


def side_by_side(ours: Work, theirs: Work, count: int, clock: Clock) -> Tuple[float, float]:
    """Returns the medians of rounds of `ours` and `theirs` in turn, without the first round."""
    rounds = [(seconds_of(ours, count, clock), seconds_of(theirs, count, clock)) for _ in range(ROUNDS + 1)][1:]
    return statistics.median(our for our, _ in rounds), statistics.median(their for _, their in rounds)


def table_of(path: str, synchronous: str) -> sqlite3.Connection:
    connection = sqlite3.connect(path, isolation_level=None)
    connection.execute("PRAGMA journal_mode=WAL")
    connection.execute(f"PRAGMA synchronous={synchronous}")
    connection.execute("CREATE TABLE IF NOT EXISTS cells (id INTEGER PRIMARY KEY, bytes BLOB)")
    for number, value in ((1, b"hello"), (2, LARGE)):
        connection.execute("INSERT OR REPLACE INTO cells VALUES (?, ?)", (number, value))
    return connection


def said(what: str, unit: str, ours: float, theirs: float, scale: float) -> None:
    print(f"{what:<44} {ours * scale:9.2f} {theirs * scale:9.2f} {ours / theirs:7.2f}  {unit}")


def beside_sqlite(store: lcrvm.Store, folder: str) -> None:
    lazily, durably = table_of(os.path.join(folder, "off.db"), "OFF"), table_of(os.path.join(folder, "full.db"), "FULL")
    update = "UPDATE cells SET bytes = ? WHERE id = 1"
    values = itertools.cycle([b"hello", b"there"])

    def our_commit(durable: bool) -> Work:
        def work() -> None:
            with store.transaction(1, durable=durable) as t:
                t[1, 3:8] = next(values)

        return work

    def their_commit(connection: sqlite3.Connection) -> Work:
        return lambda: connection.execute(update, (next(values),))

    def our_read() -> None:
        with store.transaction(reading=[2]) as t:
            t.read(2, 0, 16384)

    def our_abort() -> None:
        t = store.transaction(1).begin()
        t[1, 3:8] = next(values)
        t.abort()

    def their_abort() -> None:
        lazily.execute("BEGIN IMMEDIATE")
        lazily.execute(update, (next(values),))
        lazily.execute("ROLLBACK")

    print(f"{'':<44} {'lcrvm':>9} {'sqlite3':>9} {'ratio':>7}")
    pair = side_by_side(our_commit(False), their_commit(lazily), LAZY, time.process_time)
    said("lazy commit of 5 bytes", "us", *pair, MICRO)
    pair = side_by_side(our_abort, their_abort, LAZY, time.process_time)
    said("abort of 5 bytes", "us", *pair, MICRO)
    pair = side_by_side(
        our_read, lambda: lazily.execute("SELECT bytes FROM cells WHERE id = 2").fetchone(), READS, time.process_time
    )
    said("read of 16 KiB", "us", *pair, MICRO)
    pair = side_by_side(our_commit(True), their_commit(durably), DURABLE, time.monotonic)
    said("durable commit of 5 bytes, wall", "us", *pair, MICRO)
    lazily.close()
    durably.close()


def long_commits(store: lcrvm.Store) -> None:
    data = bytes(LONG_BYTES)
    times: List[float] = []
    for number in range(LONG):
        begun = time.process_time()
        with store.transaction(3, durable=False) as t:
            t.write(3, 0, data)
        times.append(time.process_time() - begun)
    middle, worst = statistics.median(times), max(times)
    said_of = f"median {middle * MICRO:.0f} us, worst {worst * MICRO:.0f} us, {worst / middle:.1f} times it"
    print(f"commit of {LONG_BYTES} bytes: {said_of}")


def openings(path: str) -> None:
    """Times a reopening after commits and a clean close."""
    times: List[float] = []
    for _ in range(OPENINGS):
        with lcrvm.open(path) as store:
            for _ in range(400):
                with store.transaction(1, durable=False) as t:
                    t[1, 3:8] = b"hello"
        begun = time.monotonic()
        store = lcrvm.open(path)
        times.append(time.monotonic() - begun)
        store.close()
    said_of = f"median {statistics.median(times) * MILLI:.2f} ms, worst {max(times) * MILLI:.2f} ms"
    print(f"reopening after 400 commits and a clean close: {said_of}")


def main(folder: str) -> None:
    with tempfile.TemporaryDirectory(prefix="lcrvm-bench-", dir=folder) as room:
        print(f"Python {sys.version.split()[0]}, sqlite3 {sqlite3.sqlite_version}, medians of {ROUNDS} rounds in turn")
        with lcrvm.open(os.path.join(room, "store"), create=True) as store:
            with store.transaction(2) as t:
                t[2, :] = LARGE
            beside_sqlite(store, room)
        large = lcrvm.Geometry(segments=4, pages=256)
        with lcrvm.open(os.path.join(room, "large"), create=True, geometry=large) as store:
            long_commits(store)
        openings(os.path.join(room, "store"))


if __name__ == "__main__":
    main(sys.argv[1] if len(sys.argv) > 1 else tempfile.gettempdir())
