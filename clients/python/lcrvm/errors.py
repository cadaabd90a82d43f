"""The exceptions: one class for each answer of the library, with its fields.

Each is an Error. After a Refused the store goes on as before. Some are also
exceptions of Python: Exists is a FileExistsError, NoStore a FileNotFoundError,
StoreInUse a BlockingIOError, DeviceFault an OSError, NoMemory a MemoryError,
and Closed a ValueError. A number that is negative or has more than 32 bits is
a ValueError.
"""
from __future__ import annotations

import errno
import os
import threading
from typing import Any, ClassVar, Dict, Optional, Tuple, Type

__all__ = [
    "Error", "Refused", "Down", "Unknown", "Halted", "OutOfTurn", "Busy", "NotHere", "NotLocked", "EmptyRange",
    "OutOfSegment", "NoRange", "TooManyRanges", "SequenceSpent", "TooLong", "Sealed", "Full", "Held", "Writing",
    "Unflushed", "Behind", "Uncommitted", "NotNewer", "Unclean", "RoundsSpent", "DeviceFault", "BadGeometry", "Twice",
    "Gap", "ReadOnly", "NoMemory", "StoreInUse", "NoStore", "Exists", "Misuse", "Forked", "Closed",
]  # fmt: skip

_kinds: Dict[int, Type[Error]] = {}
_system = {65: errno.EAGAIN, 66: errno.ENOENT, 67: errno.EEXIST}


class Error(Exception):
    """A call did nothing, or not all. `text` has the system's words, with the names of files; often it is empty."""

    code: ClassVar[int] = 0
    fields: ClassVar[Tuple[str, ...]] = ()
    says: ClassVar[str] = "the library gave an answer that this version does not know"

    def __init_subclass__(cls, code: int = 0, says: str = "") -> None:
        if code:
            cls.code, cls.says = code, says
            cls.fields = tuple(vars(cls).get("__annotations__", ()))
            _kinds[code] = cls

    def __init__(self, text: str = "", **values: Optional[int]) -> None:
        self.text, self.values = text, values
        for name in self.fields:
            setattr(self, name, values.get(name))
        super().__init__(f"{text}: {self._sentence()}" if text else self._sentence())
        number = values.get("error") or _system.get(self.code)
        if isinstance(self, OSError) and number:
            # OSError declares these three with types of its own.
            setattr(self, "errno", number)
            setattr(self, "strerror", os.strerror(number))
            setattr(self, "filename", _file_of(text, os.strerror(number)))

    def __str__(self) -> str:
        return str(self.args[0])

    def _sentence(self) -> str:
        return self.says.format(**{name: getattr(self, name) for name in self.fields})

    def __reduce__(self) -> Tuple[Any, ...]:
        return _made, (type(self), self.text, self.values)


def _file_of(text: str, reason: str) -> Optional[str]:
    """Returns the file that the first line of `text` names, before `reason` or before the first colon."""
    line = text.partition("\n")[0]
    end = line.find(f": {reason}")
    if end < 0:
        end = line.find(": ")
    return line[:end] if end > 0 else None


def _made(kind: Type[Error], text: str, values: Dict[str, Optional[int]]) -> Error:
    return kind(text, **values)


class Refused(Error):
    """The store refused the call: nothing has changed, and the store goes on."""


class Down(Refused, code=1, says="the store is down: close it and open it again"):
    """The store is down."""


class Unknown(Refused, code=2, says="a number is outside the store, or no record has it: see store.geometry"):
    """A number is outside the geometry, or no record has it. `text` names the number."""


class Halted(Refused, code=3, says="a device of the node has failed: close the store and open it again"):
    """A device of the node has failed."""


class OutOfTurn(Refused, code=4, says="begin and end each transaction once, and let a token leave before it arrives"):
    """A transaction is open already, or none is; so it is with tokens."""


class Busy(Refused, code=5):
    """Another transaction has the segment, or all threads of the node are taken: then `segment` is 0.

    `thread` is the identifier of the Python thread that has it (threading.get_ident), or None if it is unknown.
    """

    segment: int
    thread: Optional[int]

    def _sentence(self) -> str:
        what = f"segment {self.segment} is locked" if self.segment else "the store is used by other threads"
        if self.thread == threading.get_ident():
            return f"{what} by this thread, which would wait for itself: end its other transaction first"
        names = [thread.name for thread in threading.enumerate() if thread.ident == self.thread]
        who = f" by the thread {names[0]}" if names and self.segment else ""
        return f"{what}{who}: end transactions sooner, lock all segments at once, or wait longer by timeout="


class NotHere(Refused, code=6, says="the token of segment {segment} is at another node: bring it to this one"):
    """The segment's token is not at the node."""
    segment: int


class NotLocked(Refused, code=7, says="the transaction did not lock this segment: name it in store.transaction"):
    """The transaction did not lock the segment."""


class EmptyRange(Refused, code=8, says="a range has one byte at least: leave an empty one out"):
    """The range has no bytes."""


class OutOfSegment(Refused, code=9):
    """The bytes reach past the segment; with an area, a record in that file does so, and the store is not opened."""
    area: Optional[int]

    def _sentence(self) -> str:
        if self.area is not None:
            return f"a record in area {self.area} reaches past its segment: take a copy of the files"
        return "the bytes reach past the segment: it has store.geometry.segment_bytes"


class NoRange(Refused, code=10, says="some byte was not set: call set_range for all of them first"):
    """Some byte was not set."""


class TooManyRanges(Refused, code=11, says="a transaction has 64 ranges at most: set fewer and longer ones"):
    """More than 64 ranges would stand."""


class SequenceSpent(Refused, code=12, says="segment {segment} has had its last number: copy its bytes to a new store"):
    """The segment has had its last number."""
    segment: int


class TooLong(Refused, code=13, says="{words} words are more than 4,096: change fewer bytes in one transaction"):
    """The record would have so many words, and 4,096 are the most."""
    words: int


class Sealed(Refused, code=14, says="the log is being emptied: try again"):
    """The log is being emptied."""


class Full(Refused, code=15, says="the log has no room for {need} words: change fewer bytes, or have a longer log"):
    """The log has no room for `need` words from `tail` on, and it could not be emptied."""
    tail: int
    need: int


class Held(Refused, code=16, says="a transaction holds the segment: end it first"):
    """A transaction holds the segment."""


class Writing(Refused, code=17, says="a page of the segment is being written: try again"):
    """A page of the segment is being written."""


class Unflushed(Refused, code=18, says="a commit of the node is not durable: call store.flush first"):
    """A record of the node is not stable."""


class Behind(Refused, code=19, says="the node has applied {applied} of {sequence} records: deliver the others first"):
    """The node has not applied all that the token has counted."""
    applied: int
    sequence: int


class Uncommitted(Refused, code=20, says="an open transaction has changed a page that is to be written: end it first"):
    """A transaction that is not over has a range on the page."""


class NotNewer(Refused, code=21, says="the page on the device is as new: nothing is to be written"):
    """The page on the device has all of the segment's numbers."""


class Unclean(Refused, code=22, says="record {sequence} of segment {segment} is not on a page: bring its token here"):
    """A record of the log may not be on the pages."""
    segment: int
    sequence: int


class RoundsSpent(Refused, code=23, says="the log has had its last round: copy the bytes to a new store"):
    """The log has had its last round."""


class DeviceFault(Error, OSError, code=24, says="mend what failed; close the store if it was open, and open it again"):
    """A file failed, or could not be made or opened. An open store is over, and each later call raises the same.

    `errno` and `strerror` are the system's, and `filename` is the file's, below the store's folder.
    """

    error: int


class BadGeometry(Refused, code=25, says="the store has another size, from area {area} on: open it without a geometry"):
    """An area has another length than the geometry says, or a record in it is of another node."""
    area: int


class Twice(Refused, code=26, says="two records of segment {segment} have number {sequence}: take a copy of the files"):
    """Two records have the same number, so the store is not opened."""
    segment: int
    sequence: int


class Gap(Refused, code=27, says="record {sequence} of segment {segment} is missing: take a copy of the files"):
    """A record's number is missing, so the store is not opened."""
    segment: int
    sequence: int


class ReadOnly(Refused, code=28, says="segment {segment} is locked for reading alone: name it without reading="):
    """The segment is locked for reading alone."""
    segment: int


class NoMemory(Error, MemoryError, code=64, says="there is no memory for this call: free some and try again"):
    """There is no memory for this call; the store goes on."""


class StoreInUse(Error, BlockingIOError, code=65, says="the store is open already: close it there, or use that one"):
    """The store is open already, in this process or another."""


class NoStore(Error, FileNotFoundError, code=66, says="there is no store as found: give its path, or create=True"):
    """The folder has no store as found."""


class Exists(Error, FileExistsError, code=67, says="the name is taken: open what is there, or take another folder"):
    """A store cannot be made: something stands under a name that a store has."""


class Misuse(Error, code=68, says="the library was called without an argument: that is a fault of this package"):
    """An argument is missing: Python never gives this answer."""


class Forked(Error, code=69, says="the store is of the parent process: open it after the fork, in one process alone"):
    """The parent of this process opened the store."""


class Closed(Error, ValueError, code=100, says="the store is closed: open it again"):
    """The store was closed."""


_numbers = ("segment", "sequence", "applied", "area", "words", "tail", "need", "thread", "error")


def error_of(code: int, text: str, *values: Optional[int]) -> Error:
    """Makes the exception of the answer `code`, with those of `values` that its class has."""
    kind, given = _kinds.get(code, Error), dict(zip(_numbers, values))
    return kind(text, **{name: given[name] for name in kind.fields})
