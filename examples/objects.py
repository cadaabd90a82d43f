#!/usr/bin/env python3
"""An object store in recoverable bytes, over the Python package: objects of up to 28 KiB under names of up to 47 bytes.

usage: examples/objects.py FOLDER make              makes an empty store in a new folder
       examples/objects.py FOLDER put NAME < FILE   puts an object, over one of the same name if there is one
       examples/objects.py FOLDER get NAME > FILE
       examples/objects.py FOLDER delete NAME
       examples/objects.py FOLDER list              prints a line for each object: its length in bytes and its name

It needs the package lcrvm, as `pip install` has it. Status 1 where there is no such object, no room, or no store; 2
where the command line is not understood.

Each change is one transaction over map, index and data, and is durable when it is answered. The store is one of
lcrvm, of one node:

    segment 1   bytes 0 to 2047: the map, a bit for each chunk, the lowest bit of a byte first, set where an object has
                the chunk; from byte 2048 on: the index, 4,064 entries of 64 bytes
    segment 2   chunks 0 to 4095, of 64 bytes each
    ..
    segment 5   chunks 12288 to 16383

An entry has, in little-endian numbers:

    byte 0            the length of the name in bytes; 0 in an entry that is free
    bytes 1 to 47     the name in UTF-8, filled up with zeros
    bytes 48 to 51    the length of the object in bytes
    bytes 52 to 55    its first chunk; the others follow, in the same segment
    bytes 56 to 63    zeros
"""
from __future__ import annotations

import struct
import sys
import time
from typing import Dict, List, NamedTuple, Optional

import lcrvm

DIRECTORY = 1
FIRST_DATA = 2
DATA_SEGMENTS = 4
GEOMETRY = lcrvm.Geometry(segments=1 + DATA_SEGMENTS, pages=1024, words=4096)

CHUNK_BYTES = 64
CHUNKS_OF_SEGMENT = GEOMETRY.segment_bytes // CHUNK_BYTES
CHUNKS = DATA_SEGMENTS * CHUNKS_OF_SEGMENT
MAP_BYTES = CHUNKS // 8
ENTRY = struct.Struct("<B47sII8x")
ENTRIES = (GEOMETRY.segment_bytes - MAP_BYTES) // ENTRY.size
NAME_BYTES = 47
# A record has 4,096 words at most. This many bytes of an object leave room for its entry, for the bits of the chunks
# that it had and has, and for the record's own words.
OBJECT_BYTES = 28_672

# Seconds in which a process that has the store open, or was killed, ends.
PATIENCE = 10.0


class NoObject(Exception):
    """There is no object of this name."""


class NoRoom(Exception):
    """There is no run of free chunks that is long enough, or no free entry."""


class Extent(NamedTuple):
    """Where an object is: its entry, its length in bytes, and its first chunk."""

    entry: int
    length: int
    first: int

    @property
    def end(self) -> int:
        """The chunk after its last."""
        return self.first + -(-self.length // CHUNK_BYTES)

    @property
    def segment(self) -> int:
        return FIRST_DATA + self.first // CHUNKS_OF_SEGMENT

    @property
    def offset(self) -> int:
        """Where it begins in its segment."""
        return self.first % CHUNKS_OF_SEGMENT * CHUNK_BYTES


class Objects:
    """The objects of a store that is open. Map and index are kept in memory, as the last commit left them."""

    def __init__(self, store: lcrvm.Store) -> None:
        self._store = store
        with store.transaction(reading=[DIRECTORY]) as transaction:
            directory = transaction[DIRECTORY, :]
        # A byte for each chunk, 1 where it is taken.
        self._taken = bytearray(byte >> bit & 1 for byte in directory[:MAP_BYTES] for bit in range(8))
        self._extents: Dict[str, Extent] = {}
        self._free: List[int] = []
        entries = directory[MAP_BYTES : MAP_BYTES + ENTRIES * ENTRY.size]
        for entry, (length_of_name, name, length, first) in enumerate(ENTRY.iter_unpack(entries)):
            if length_of_name == 0:
                self._free.append(entry)
            else:
                self._extents[name[:length_of_name].decode("utf-8")] = Extent(entry, length, first)
        self._free.reverse()

    def names(self) -> List[str]:
        """The names of all objects, in order."""
        return sorted(self._extents)

    def length(self, name: str) -> int:
        """How many bytes the object has."""
        return self._extent(name).length

    def get(self, name: str) -> bytes:
        """The object's bytes."""
        extent = self._extent(name)
        with self._store.transaction(reading=[extent.segment]) as transaction:
            return transaction.read(extent.segment, extent.offset, extent.length)

    def put(self, name: str, data: bytes) -> None:
        """Puts an object, in place of the one of this name if there is one. It is durable when this returns."""
        encoded = name.encode("utf-8")
        if not 1 <= len(encoded) <= NAME_BYTES or len(data) > OBJECT_BYTES:
            raise ValueError(f"a name has 1 to {NAME_BYTES} bytes, and an object at most {OBJECT_BYTES}")
        old = self._extents.get(name)
        taken = self._without(old)
        if old is None and not self._free:
            raise NoRoom("no entry is free")
        new = Extent(old.entry if old is not None else self._free[-1], len(data), find_run(taken, len(data)))
        fill(taken, new, 1)
        with self._store.transaction(DIRECTORY, new.segment) as transaction:
            change_map(transaction, taken, old)
            change_map(transaction, taken, new)
            entry = ENTRY.pack(len(encoded), encoded, new.length, new.first)
            transaction.write(DIRECTORY, offset_of(new.entry), entry)
            transaction.write(new.segment, new.offset, data)
        self._taken = taken
        self._extents[name] = new
        if old is None:
            self._free.pop()

    def delete(self, name: str) -> None:
        """Deletes an object. That is durable when this returns."""
        old = self._extent(name)
        taken = self._without(old)
        with self._store.transaction(DIRECTORY) as transaction:
            change_map(transaction, taken, old)
            transaction.write(DIRECTORY, offset_of(old.entry), bytes(ENTRY.size))
        self._taken = taken
        del self._extents[name]
        self._free.append(old.entry)

    def is_consistent(self) -> bool:
        """Whether the map has just the chunks of the objects, and no two objects share one."""
        taken = bytearray(CHUNKS)
        for extent in self._extents.values():
            if any(taken[extent.first : extent.end]):
                return False
            fill(taken, extent, 1)
        return taken == self._taken

    def _extent(self, name: str) -> Extent:
        if name not in self._extents:
            raise NoObject(name)
        return self._extents[name]

    def _without(self, old: Optional[Extent]) -> bytearray:
        taken = self._taken[:]
        if old is not None:
            fill(taken, old, 0)
        return taken


def fill(taken: bytearray, extent: Extent, value: int) -> None:
    """Says of the extent's chunks that they are taken, or free."""
    taken[extent.first : extent.end] = bytes([value]) * (extent.end - extent.first)


def find_run(taken: bytearray, length: int) -> int:
    """The first chunk of the first free run, inside a segment, that has room for so many bytes."""
    wanted = bytes(-(-length // CHUNK_BYTES))
    for start in range(0, CHUNKS, CHUNKS_OF_SEGMENT):
        found = taken.find(wanted, start, start + CHUNKS_OF_SEGMENT)
        if found >= 0:
            return found
    raise NoRoom(f"no run of {len(wanted)} chunks is free")


def offset_of(entry: int) -> int:
    return MAP_BYTES + entry * ENTRY.size


def change_map(transaction: lcrvm.Transaction, taken: bytearray, extent: Optional[Extent]) -> None:
    """Writes the bytes of the map that have the extent's chunks."""
    if extent is None or extent.length == 0:
        return
    low, high = extent.first // 8, (extent.end + 7) // 8
    bits = bytes(sum(taken[8 * byte + bit] << bit for bit in range(8)) for byte in range(low, high))
    transaction.write(DIRECTORY, low, bits)


def open_store(folder: str) -> lcrvm.Store:
    """Opens the store; where it is in use, it is tried again for a while."""
    end = time.monotonic() + PATIENCE
    while True:
        try:
            return lcrvm.open(folder, geometry=GEOMETRY)
        except lcrvm.StoreInUse:
            if time.monotonic() > end:
                raise
            time.sleep(0.01)


def command(folder: str, what: str, names: List[str]) -> None:
    if what == "make":
        lcrvm.create(folder, GEOMETRY)
        return
    with open_store(folder) as store:
        objects = Objects(store)
        if what == "put":
            objects.put(names[0], sys.stdin.buffer.read())
        elif what == "get":
            sys.stdout.buffer.write(objects.get(names[0]))
        elif what == "delete":
            objects.delete(names[0])
        else:
            for name in objects.names():
                print(objects.length(name), name)


def main(words: List[str]) -> int:
    counts = {"make": 2, "put": 3, "get": 3, "delete": 3, "list": 2}
    if len(words) < 2 or counts.get(words[1]) != len(words):
        print(__doc__, file=sys.stderr)
        return 2
    try:
        command(words[0], words[1], words[2:])
    except (NoObject, NoRoom, ValueError, OSError, lcrvm.Error) as error:
        print(f"objects: {type(error).__name__}: {error}", file=sys.stderr)
        return 1
    return 0


if __name__ == "__main__":
    sys.exit(main(sys.argv[1:]))
