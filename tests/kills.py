"""What killed_names.py and killed_objects.py share: the moment at which a process is killed, and how a test ends.

A process is killed while it opens its store, or after a random part of its work and a random moment later.
"""
from __future__ import annotations

import random
import subprocess
import time
from typing import Callable, List, NamedTuple, NoReturn

# Seconds: how long a program may take for anything.
PATIENCE = 30.0


class Moments(NamedTuple):
    """When kills fall: of a hundred so many while the store is opened; the latest seconds after a start and a reply."""

    while_opening: int
    opening: float
    soon: float

    def kill(self, chance: random.Random, work: Callable[[], None], kill: Callable[[], None]) -> bool:
        """Kills a process that was started, and answers whether it did a part of its work before."""
        works = chance.randrange(100) >= self.while_opening
        if works:
            work()
        time.sleep(chance.random() * (self.soon if works else self.opening))
        kill()
        return works


def children(process: subprocess.Popen) -> List[int]:
    """The processes that a process has started. It may still have to start the first."""
    limit = time.monotonic() + PATIENCE
    while time.monotonic() < limit and process.poll() is None:
        with open(f"/proc/{process.pid}/task/{process.pid}/children") as listed:
            started = [int(child) for child in listed.read().split()]
        if started:
            return started
        time.sleep(0.001)
    fail("no server was started")


def fail(why: str) -> NoReturn:
    raise SystemExit(f"failed: {why}")
