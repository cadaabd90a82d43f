"""Transactions on bytes that outlive a crash.

    with lcrvm.open("store", create=True) as store:  # made if there is none
        with store.transaction(1) as t:  # locks segment 1; durable after it
            t[1, 3:8] = b"hello"
        with store.transaction(reading=[1]) as t:
            print(t[1, 3:8])

help(lcrvm.Store) and help(lcrvm.Transaction) list the calls. Geometry is a
store's size; Commit, Delivered, Delivery and Stats are results. The module
lcrvm.errors has the exceptions, and lcrvm has each one too, as lcrvm.Busy.
Calls may come from any thread; one thread at a time uses a transaction.
"""
from __future__ import annotations

import atexit
import enum
import os
import time
from typing import NamedTuple, Optional, Union

from . import _lcrvm, errors
from ._lcrvm import Store as Store, Transaction as Transaction
from .errors import *  # noqa: F403

__version__ = "0.1.0"
# help(lcrvm) prints what is named here, whole; the classes have a help of their own.
__all__ = ["open", "create"]

Path = Union[str, bytes, "os.PathLike[str]", "os.PathLike[bytes]"]


class Geometry(NamedTuple):
    """The size of a store.

    Segments are 1 to 16, pages of a segment 1 to 1024 of 256 bytes each, words of a log 64 to 4096 of 8 bytes each,
    and nodes 1 to 8.
    """

    segments: int = 4
    pages: int = 64
    words: int = 4096
    nodes: int = 1

    @property
    def segment_bytes(self) -> int:
        """The bytes of a segment."""
        return 256 * self.pages


class Commit(NamedTuple):
    """The place of a commit's record in its node's log, and its length, both in words of 8 bytes."""

    place: int
    words: int


class Delivery(enum.Enum):
    """The outcome of a delivery."""

    APPLIED = 0
    HELD_BACK = 1
    IGNORED = 2


class Delivered(NamedTuple):
    """The outcome of a delivery; if the record was applied, also the number of its segment then."""

    delivery: Delivery
    applied: Optional[int]


class Stats(NamedTuple):
    """The counts of a node since the store was opened.

    `open` transactions and `log_words`, the words of its log that records have, are as they are now. `flushed` is how
    many records the `flushes` made durable: several commits share one. `waits` counts the begins that waited for other
    transactions, and `longest_wait` is the longest, in seconds.
    """

    open: int
    log_words: int
    commits: int
    flushes: int
    flushed: int
    truncations: int
    waits: int
    longest_wait: float


_lcrvm.use(errors.error_of, Geometry, Commit, Delivered, Delivery, Stats)
atexit.register(_lcrvm.end_all)


def create(path: Path, geometry: Optional[Geometry] = None) -> None:
    """Makes a store of zeros, and the folder `path` if that is missing.

    Raises Exists, StoreInUse, DeviceFault, or Unknown for a `geometry` that
    is out of range; then nothing is made.
    """
    _lcrvm.create(path, geometry or Geometry())


def open(path: Path, create: bool = False, *, geometry: Optional[Geometry] = None, durable: bool = True,
         timeout: float = 5.0, wait: float = 0.0) -> Store:
    """Opens the store in the folder `path`, with each acknowledged commit.

    `create` makes it if there is none. `geometry` is the wanted size, by
    default the size that the store states. Transactions take `durable` and
    `timeout`, how many seconds a begin waits for locks, if they say nothing
    else. `wait` is how many seconds to wait if the store is open elsewhere.
    Raises NoStore, StoreInUse, DeviceFault, BadGeometry, Gap or Twice.
    """
    until = time.monotonic() + wait
    while True:
        try:
            return _open_now(path, create, geometry, durable, timeout)
        except errors.StoreInUse:
            if time.monotonic() >= until:
                raise
        time.sleep(0.01)


def _open_now(path: Path, create: bool, geometry: Optional[Geometry], durable: bool, timeout: float) -> Store:
    folder = os.fsdecode(path)
    if create and not any(os.path.lexists(os.path.join(folder, name)) for name in ("lcrvm.store", "log0")):
        try:
            _lcrvm.create(path, geometry or Geometry())
        except (errors.Exists, errors.StoreInUse):
            pass  # another process makes it now, or what is there is damaged: the opening tells
    return Store(path, geometry, durable, timeout)
