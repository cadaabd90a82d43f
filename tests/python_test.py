#!/usr/bin/env python3
"""Tries the Python package as it is installed; tests/python.sh starts it.

usage: tests/python_test.py [TEST..]
"""
from __future__ import annotations

import contextlib
import ctypes
import errno
import gc
import multiprocessing
import os
import pickle
import pydoc
import random
import resource
import shutil
import signal
import statistics
import struct
import subprocess
import sys
import tempfile
import threading
import time
import unittest
import warnings
import weakref
from typing import Any, Callable, Dict, Iterator, List, Optional, Tuple, Type

import lcrvm

SMALL = lcrvm.Geometry(segments=2, pages=4, words=256)
TWO_NODES = lcrvm.Geometry(segments=2, pages=2, words=64, nodes=2)
NUMBER = struct.Struct("<Q")
# How often an interrupt comes, and how often a process is killed.
INTERRUPTS, LEFT_ALONE = 3000, 20
KILLS = 20
# Python before 3.10 may leave a `with` by an interrupt without a call of __exit__.
HAS_HOLE = sys.version_info < (3, 10)


class Interrupt(BaseException):
    """What the tests raise in the midst of whatever runs."""


class Index:
    """A number that is no int."""

    def __index__(self) -> int:
        return 1


def add(t: lcrvm.Transaction, segment: int = 1, amount: int = 1) -> int:
    """Adds to the number at the begin of a segment, and returns it."""
    number: int = NUMBER.unpack(t[segment, 0:8])[0] + amount
    t[segment, 0:8] = NUMBER.pack(number)
    return number


def number_of(store: lcrvm.Store, segment: int = 1) -> int:
    with store.transaction(reading=[segment], timeout=0) as t:
        return int(NUMBER.unpack(t[segment, 0:8])[0])


class Case(unittest.TestCase):
    def setUp(self) -> None:
        room = tempfile.TemporaryDirectory(prefix="lcrvm-python-")
        self.addCleanup(room.cleanup)
        self.room = room.name
        self.folder = os.path.join(room.name, "store")

    def opened(self, geometry: lcrvm.Geometry = SMALL, **options: Any) -> lcrvm.Store:
        store = lcrvm.open(self.folder, create=True, geometry=geometry, **options)
        self.addCleanup(store.close)
        return store

    @contextlib.contextmanager
    def raises(self, kind: Type[lcrvm.Error], **fields: object) -> Iterator[None]:
        with self.assertRaises(kind) as raised:
            yield
        self.assertIs(type(raised.exception), kind)
        for name, value in fields.items():
            self.assertEqual(getattr(raised.exception, name), value, name)
        self.assertGreater(len(str(raised.exception)), 20)

    def python(self, program: str, *words: str) -> "subprocess.Popen[str]":
        """Starts another interpreter, with the folder as its first argument."""
        source = f"import lcrvm, os, struct, sys, threading, time\n{program}"
        command = [sys.executable, "-c", source, self.folder, *words]
        process = subprocess.Popen(command, stdin=subprocess.PIPE, stdout=subprocess.PIPE, text=True)
        self.addCleanup(process.communicate)
        self.addCleanup(process.kill)
        return process

    def number(self, segment: int = 1) -> int:
        """The number that is stored, when nobody has the store open."""
        with lcrvm.open(self.folder) as store:
            return number_of(store, segment)


class Calls(Case):
    def test_a_commit_is_read_and_survives(self) -> None:
        with self.opened() as store:
            with store.transaction(1) as t:
                t[1, 3:8] = b"hello"
                self.assertEqual(t[1, 2:9], b"\0hello\0")
            with store.transaction(reading=[1]) as t:
                self.assertEqual(t.read(1, 3, 5), b"hello")
        self.assertTrue(store.closed)
        with lcrvm.open(self.folder) as store:
            self.assertEqual(store.geometry, SMALL)
            self.assertEqual(store.path, self.folder)
            with store.transaction(reading=[1]) as t:
                self.assertEqual(t[1, 3:8], b"hello")

    def test_the_default_geometry(self) -> None:
        lcrvm.create(self.folder)
        with lcrvm.open(self.folder) as store:
            self.assertEqual(store.geometry, lcrvm.Geometry(segments=4, pages=64, words=4096, nodes=1))
            self.assertEqual(store.geometry.segment_bytes, 16384)

    def test_create_does_not_touch_what_is_there(self) -> None:
        with self.opened() as store, store.transaction(1) as t:
            add(t)
        for create in (True, False):
            with lcrvm.open(self.folder, create=create) as store:
                self.assertEqual(number_of(store), 1)

    def test_paths(self) -> None:
        for path in (self.folder + "1", os.fsencode(self.folder + "2"), self.folder + "3-\u00e9-\udcff"):
            with lcrvm.open(path, create=True, geometry=SMALL) as store:
                self.assertEqual(store.path, os.fsdecode(path))
        with self.assertRaises(ValueError):
            lcrvm.open("a\0b", create=True)
        with self.assertRaises(TypeError):
            lcrvm.open(7)  # type: ignore[arg-type]

    def test_an_exception_aborts(self) -> None:
        store = self.opened()
        with self.assertRaises(ZeroDivisionError):
            with store.transaction(1) as t:
                add(t)
                raise ZeroDivisionError
        self.assertEqual(t.state, "aborted")
        self.assertEqual(number_of(store), 0)

    def test_commit_and_abort(self) -> None:
        store = self.opened()
        t = store.transaction(1)
        self.assertEqual(t.state, "new")
        self.assertIs(t.begin(), t)
        self.assertEqual(t.state, "open")
        t.write(1, 0, b"x" * 5)
        first = t.commit()
        self.assertIsInstance(first, lcrvm.Commit)
        assert first is not None
        self.assertEqual(first.place, 0)
        self.assertEqual(t.state, "committed")
        self.assertIsNone(store.transaction(1).begin().commit())
        with t:
            t.write(1, 0, b"y")
            second = t.commit()
        assert second is not None
        self.assertEqual(second.place, first.words)
        with t:
            t.write(1, 0, b"z")
            t.abort()
            t.abort()
        with store.transaction(1) as t:
            self.assertEqual(t[1, 0:5], b"yxxxx")

    def test_what_counts_the_calls(self) -> None:
        store = self.opened()
        self.assertEqual(store.flush(), 0)
        with store.transaction(1, durable=False) as t:
            add(t)
        self.assertEqual(store.flush(node=0), 1)
        self.assertEqual(store.truncate(), 1)
        self.assertEqual(store.trim(), 0)

    def test_a_full_log_is_emptied(self) -> None:
        store = self.opened()
        for _ in range(300):
            with store.transaction(1, durable=False) as t:
                add(t)
        self.assertEqual(number_of(store), 300)
        store.close()
        self.assertEqual(self.number(), 300)

    def test_tokens_and_records_go_from_node_to_node(self) -> None:
        # At first the token of segment 1 is at node 1, and that of segment 2 at node 0.
        store = self.opened(TWO_NODES)
        with store.transaction(1, node=1, durable=False) as t:
            t[1, 0:3] = b"one"
        with self.raises(lcrvm.Unflushed):
            store.leave(1, 1)
        with store.transaction(1, node=1) as t:
            t[1, 0:3] = b"two"
        self.assertEqual(store.flush(1), 2)
        store.leave(node=1, segment=1)
        with self.raises(lcrvm.NotHere, segment=1):
            store.transaction(1, node=1).begin()
        with self.raises(lcrvm.Behind, applied=0, sequence=2):
            store.arrive(0, 1)
        self.assertEqual(store.deliver(1, 2, 1, 0), lcrvm.Delivered(lcrvm.Delivery.HELD_BACK, None))
        self.assertEqual(store.deliver(1, 1, 1, to=0), lcrvm.Delivered(lcrvm.Delivery.APPLIED, 2))
        self.assertEqual(store.deliver(1, 1, 1, 0), lcrvm.Delivered(lcrvm.Delivery.IGNORED, None))
        self.assertEqual(store.trim(1), 2)
        with self.raises(lcrvm.Unknown):
            store.deliver(1, 2**64 - 1, 1, 0)
        store.arrive(0, 1)
        with store.transaction(1, 2) as t:
            self.assertEqual(t[1, 0:3], b"two")
        with self.raises(lcrvm.Unclean, segment=1, sequence=1):
            store.truncate(1)

    def test_stats(self) -> None:
        store = self.opened(lcrvm.Geometry(segments=2, pages=4, words=256))
        zeros = lcrvm.Stats(open=0, log_words=0, commits=0, flushes=0, flushed=0, truncations=0, waits=0, longest_wait=0)
        self.assertEqual(store.stats(), zeros)
        for _ in range(3):
            with store.transaction(1, durable=False) as t:
                add(t)
        # A record of one range of 8 bytes has 8 words.
        self.assertEqual(store.stats(), zeros._replace(log_words=24, commits=3))
        with store.transaction(1) as t:
            add(t)
            self.assertEqual(store.stats(0).open, 1)
        self.assertEqual(store.stats(), zeros._replace(log_words=32, commits=4, flushes=1, flushed=4))
        store.truncate()
        self.assertEqual(store.stats(), zeros._replace(commits=4, flushes=1, flushed=4, truncations=1))
        with store.transaction(2):
            thread = threading.Thread(target=lambda: store.transaction(2, timeout=60).begin().abort())
            thread.start()
            time.sleep(0.3)
        thread.join()
        stats = store.stats()
        self.assertEqual((stats.open, stats.waits), (0, 1))
        self.assertTrue(0.05 < stats.longest_wait < 30, stats)
        with self.raises(lcrvm.Unknown, text="node 1: the store has 0 to 0"):
            store.stats(1)

    @unittest.skipIf(sys.version_info < (3, 9), "types by a spec have weak references from Python 3.9 on")
    def test_weak_references(self) -> None:
        store = self.opened()
        t = store.transaction(1)
        weak = [weakref.ref(store), weakref.ref(t)]
        self.assertEqual([weak[0](), weak[1]()], [store, t])
        del t
        gc.collect()
        self.assertIsNone(weak[1]())
        self.assertIs(weak[0](), store)

    def test_what_only_reads_waits_for_no_device(self) -> None:
        store = self.opened()
        with store.transaction(1, durable=False) as t:
            add(t)
        with store.transaction(reading=[1]) as t:
            self.assertEqual(int(NUMBER.unpack(t[1, 0:8])[0]), 1)
        self.assertEqual(store.stats().flushes, 0)
        with store.transaction(reading=[1], durable=True):
            pass
        self.assertEqual(store.stats().flushes, 1)

    def test_faults_of_the_system_are_those_of_python(self) -> None:
        with self.assertRaises(OSError) as raised:
            lcrvm.create(os.path.join(self.folder, "below"), SMALL)
        error = raised.exception
        self.assertIsInstance(error, lcrvm.DeviceFault)
        self.assertEqual((error.errno, error.strerror), (errno.ENOENT, os.strerror(errno.ENOENT)))
        self.assertTrue(str(error.filename).endswith("store/below"), error.filename)
        self.assertTrue(str(error).startswith(str(error.filename)), str(error))
        self.assertEqual(str(pickle.loads(pickle.dumps(error))), str(error))
        with self.assertRaises(FileNotFoundError) as missing:
            lcrvm.open(self.folder, geometry=SMALL)
        self.assertEqual(missing.exception.errno, errno.ENOENT)

    def test_an_opening_waits(self) -> None:
        self.opened().close()
        process = self.python("""if True:
            store = lcrvm.open(sys.argv[1])
            print("open", flush=True)
            sys.stdin.readline()
            time.sleep(0.2)
            store.close()
            """)
        assert process.stdin is not None and process.stdout is not None
        self.assertEqual(process.stdout.readline(), "open\n")
        begun = time.monotonic()
        with self.assertRaises(lcrvm.StoreInUse):
            lcrvm.open(self.folder, wait=0.1)
        self.assertGreaterEqual(time.monotonic() - begun, 0.1)
        process.stdin.write("\n")
        process.stdin.flush()
        begun = time.monotonic()
        lcrvm.open(self.folder, wait=60).close()
        self.assertTrue(0.1 < time.monotonic() - begun < 30, "an opening has not waited")

    def test_a_copy_has_what_is_committed(self) -> None:
        store = self.opened()
        with store.transaction(1, durable=False) as t:
            add(t)
        with store.transaction(2) as t:
            add(t, 2)
            store.copy(os.path.join(self.room, "copy"))
            with self.raises(lcrvm.Exists):
                store.copy(os.path.join(self.room, "copy"))
            store.copy(os.path.join(self.room, "larger"), lcrvm.Geometry(segments=5, pages=70))
            with self.raises(lcrvm.Unknown):
                store.copy(os.path.join(self.room, "smaller"), geometry=lcrvm.Geometry(segments=1))
        with lcrvm.open(os.path.join(self.room, "copy")) as copy:
            self.assertEqual((number_of(copy, 1), number_of(copy, 2)), (1, 0))
        with lcrvm.open(os.path.join(self.room, "larger")) as larger:
            self.assertEqual((number_of(larger, 1), number_of(larger, 5)), (1, 0))
            self.assertEqual(larger.geometry[:2], (5, 70))
        self.assertEqual((number_of(store, 1), number_of(store, 2)), (1, 1))

    def test_a_file_whose_name_has_a_colon(self) -> None:
        path = os.path.join(self.room, "a: b", "c")
        with self.assertRaises(lcrvm.DeviceFault) as raised:
            lcrvm.create(path)
        self.assertEqual(str(raised.exception.filename)[-6:], "a: b/c")

    def test_the_help_has_two_screens(self) -> None:
        text = pydoc.plain(pydoc.render_doc(lcrvm)).replace(lcrvm.__file__, "FILE").rstrip()
        # Python 3.13 gives each parameter a line of its own.
        most = 48 if sys.version_info < (3, 13) else 56
        self.assertLessEqual(sum(max(1, -(-len(line) // 80)) for line in text.splitlines()), most, text)
        for name in ("open(", "create(", "lcrvm.Store", "lcrvm.Transaction", "lcrvm.errors"):
            self.assertIn(name, text)

    def test_all_names_are_there(self) -> None:
        results = ["Store", "Transaction", "Geometry", "Commit", "Delivered", "Delivery", "Stats"]
        for name in [*lcrvm.__all__, *lcrvm.errors.__all__, *results]:
            self.assertTrue(hasattr(lcrvm, name), name)
            self.assertTrue(getattr(lcrvm, name).__doc__, name)
        for kind in (lcrvm.Store, lcrvm.Transaction):
            for name, it in vars(kind).items():
                self.assertTrue(name.startswith("_") or it.__doc__, name)


class Errors(Case):
    def test_names_and_numbers_are_those_of_the_library(self) -> None:
        library = ctypes.CDLL(os.path.join(os.path.dirname(lcrvm.__file__), "liblcrvm.so.0"))
        library.lcrvm_status_text.restype = ctypes.c_char_p
        kinds = {kind.code: kind for kind in map(lcrvm.__dict__.get, lcrvm.errors.__all__) if kind.code}
        for code in [*range(1, 24), *range(25, 29)]:
            self.assertEqual(kinds[code].__name__, library.lcrvm_status_text(code).decode())
            self.assertTrue(issubclass(kinds[code], lcrvm.Refused))
        self.assertEqual(set(kinds), {*range(1, 29), *range(64, 70), 100})

    def test_each_has_a_sentence_and_survives_a_pickle(self) -> None:
        for name in lcrvm.errors.__all__:
            kind = getattr(lcrvm, name)
            error = kind("a text", **dict.fromkeys(kind.fields, 7))
            self.assertTrue(str(error).startswith("a text: "), name)
            self.assertNotIn("{", str(error))
            again = pickle.loads(pickle.dumps(error))
            self.assertIs(type(again), kind)
            self.assertEqual((str(again), vars(again)), (str(error), vars(error)))

    def test_those_that_python_knows(self) -> None:
        with self.assertRaises(FileNotFoundError):
            lcrvm.open(self.folder)
        os.mkdir(self.folder)
        with self.assertRaises(FileNotFoundError):
            lcrvm.open(self.folder)
        lcrvm.create(self.folder, SMALL)
        with self.assertRaises(FileExistsError):
            lcrvm.create(self.folder, SMALL)
        store = self.opened()
        with self.assertRaises(BlockingIOError):
            lcrvm.open(self.folder)
        store.close()
        with self.assertRaises(ValueError):
            store.flush()
        with self.assertRaises(OSError):
            lcrvm.create(os.path.join(self.room, "no", "folder"))

    def test_a_number_outside_the_store(self) -> None:
        store = self.opened()
        for begin in (
            lambda: store.transaction(3).begin(),
            lambda: store.transaction(0).begin(),
            lambda: store.transaction(1, reading=[3]).begin(),
            lambda: store.transaction(1, node=1).begin(),
            lambda: store.transaction(1, node=2**16).begin(),
            lambda: store.transaction(2**32 - 1).begin(),
            lambda: store.flush(1),
            lambda: store.leave(0, 3),
        ):
            with self.raises(lcrvm.Unknown):
                begin()
        for geometry in (lcrvm.Geometry(segments=0), lcrvm.Geometry(words=2**32 - 1), lcrvm.Geometry(nodes=9)):
            with self.raises(lcrvm.Unknown):
                lcrvm.create(self.folder + "1", geometry)
            self.assertFalse(os.path.exists(self.folder + "1"))

    def test_what_is_out_of_turn(self) -> None:
        store = self.opened()
        t = store.transaction(1)
        calls: List[Callable[[], object]] = [
            lambda: t.read(1, 0, 1),
            lambda: t.read(1, 0, 0),
            lambda: t.write(1, 0, b"x"),
            lambda: t.write(1, 0, b""),
            lambda: t.set_range(1, 0, 1),
            lambda: t.view(1, 0, 1),
            lambda: t[1, 0:1],
            t.commit,
        ]
        for _ in range(2):
            for call in calls:
                with self.raises(lcrvm.OutOfTurn):
                    call()
            with t:
                with self.raises(lcrvm.OutOfTurn):
                    t.begin()
        with self.raises(lcrvm.OutOfTurn):
            store.arrive(0, 1)

    def test_what_a_transaction_may_not_do(self) -> None:
        store = self.opened(lcrvm.Geometry(segments=3, pages=2, words=4096))
        with store.transaction(1) as t:
            add(t)
        with store.transaction(1, reading=[2]) as t:
            with self.raises(lcrvm.NotLocked):
                t.read(3, 0, 1)
            with self.raises(lcrvm.NotLocked):
                t.write(3, 0, b"x")
            for call in (t.set_range, t.view):
                with self.raises(lcrvm.ReadOnly, segment=2):
                    call(2, 0, 1)
            with self.raises(lcrvm.ReadOnly, segment=2):
                t[2, 0:1] = b"x"
            with self.raises(lcrvm.EmptyRange):
                t.set_range(1, 0, 0)
            with self.raises(lcrvm.Held):
                store.leave(0, 1)
            for far in (
                lambda: t.read(1, 0, 513),
                lambda: t.read(1, 2**32 - 1, 2**32 - 1),
                lambda: t.write(1, 511, b"xx"),
                lambda: t.set_range(1, 512, 1),
                lambda: t.view(1, 511, 2),
                lambda: t.read_into(1, 500, bytearray(13)),
            ):
                with self.raises(lcrvm.OutOfSegment, area=None):
                    far()
            for offset in range(0, 128, 2):
                t.write(1, offset, b"x")
            with self.raises(lcrvm.TooManyRanges):
                t.write(1, 128, b"x")
            store.truncate()

    def test_a_record_that_is_too_long(self) -> None:
        store = self.opened(lcrvm.Geometry(pages=256))
        with self.raises(lcrvm.TooLong):
            with store.transaction(1) as t:
                t.write(1, 0, bytes(40_000))
        self.assertEqual(t.state, "aborted")
        t = store.transaction(1).begin()
        t.write(1, 0, bytes(40_000))
        with self.raises(lcrvm.TooLong):
            t.commit()
        self.assertEqual(t.state, "aborted")
        store.transaction(1, timeout=0).begin().abort()

    def test_a_log_that_cannot_hold_a_record(self) -> None:
        store = self.opened(lcrvm.Geometry(segments=1, pages=4, words=64))
        with self.assertRaises(lcrvm.Full) as raised:
            with store.transaction(1) as t:
                t.write(1, 0, b"x" * 1000)
        self.assertGreater(raised.exception.need, 64)
        self.assertIn(str(raised.exception.need), str(raised.exception))
        self.assertEqual(number_of(store), 0)

    def test_another_geometry(self) -> None:
        self.opened().close()
        with self.assertRaises(lcrvm.BadGeometry) as raised:
            lcrvm.open(self.folder, geometry=SMALL._replace(pages=5))
        self.assertIn(f"area {raised.exception.area}", str(raised.exception))

    def test_a_file_that_fails_ends_the_store(self) -> None:
        self.opened().close()
        process = self.python("""if True:
            import errno, resource
            store = lcrvm.open(sys.argv[1])
            t = store.transaction(1).begin()
            t.write(1, 0, b"x")
            resource.setrlimit(resource.RLIMIT_FSIZE, (0, resource.RLIM_INFINITY))
            errors = []
            for call in (t.commit, store.flush, store.transaction(1).begin, store.close):
                try:
                    call()
                    errors.append("nothing")
                except OSError as error:
                    errors.append(type(error).__name__)
                    assert error.text, error
                    assert error.errno == errno.EFBIG and error.strerror == os.strerror(errno.EFBIG), error.errno
                    assert error.filename == "log0", error.filename
            print(t.state, *errors, store.closed)
            resource.setrlimit(resource.RLIMIT_FSIZE, (resource.RLIM_INFINITY, resource.RLIM_INFINITY))
            lcrvm.open(sys.argv[1]).close()
            """)
        self.assertEqual(process.communicate()[0], "unknown" + " DeviceFault" * 4 + " True\n")
        self.assertEqual(process.returncode, 0)
        self.assertIn(self.number(), (0, ord("x")))

    def test_a_store_that_is_over_is_closed_beside_others(self) -> None:
        self.opened().close()
        process = self.python("""if True:
            import resource
            store = lcrvm.open(sys.argv[1], timeout=1)
            ready, done = threading.Event(), threading.Event()
            states = []
            def work():
                with store.transaction(2) as t:
                    t[2, 0:1] = b"x"
                    ready.set()
                    done.wait()
                    t.abort()
                    states.append(t.state)
            thread = threading.Thread(target=work)
            thread.start()
            ready.wait()
            t = store.transaction(1).begin()
            t[1, 0:1] = b"y"
            resource.setrlimit(resource.RLIMIT_FSIZE, (0, resource.RLIM_INFINITY))
            try:
                t.commit()
            except lcrvm.DeviceFault:
                states.append(t.state)
            resource.setrlimit(resource.RLIMIT_FSIZE, (resource.RLIM_INFINITY, resource.RLIM_INFINITY))
            done.set()
            thread.join()
            try:
                store.close()
            except lcrvm.DeviceFault:
                states.append("closed" if store.closed else "open")
            lcrvm.open(sys.argv[1]).close()
            print(*states)
            """)
        self.assertEqual(process.communicate()[0], "unknown aborted closed\n")

    def test_no_memory(self) -> None:
        self.opened(lcrvm.Geometry(pages=1024, segments=16)).close()
        process = self.python("""if True:
            import resource
            with open("/proc/self/statm") as file:
                size = int(file.read().split()[0]) * os.sysconf("SC_PAGE_SIZE")
            resource.setrlimit(resource.RLIMIT_AS, (size + 4_000_000, resource.RLIM_INFINITY))
            try:
                lcrvm.open(sys.argv[1])
            except MemoryError as error:
                print(type(error).__name__)
            """)
        self.assertEqual(process.communicate()[0], "NoMemory\n")


class Damage(Case):
    """Files that no store leaves so: a file of another store, or of an older copy, has come among them."""

    def left(self, name: str, geometry: lcrvm.Geometry, commit: Callable[[lcrvm.Store], None]) -> str:
        """A folder as a kill leaves it, after commits: the records are in the logs."""
        made, left = os.path.join(self.room, "made " + name), os.path.join(self.room, name)
        with lcrvm.open(made, create=True, geometry=geometry) as store:
            commit(store)
            shutil.copytree(made, left)
        return left

    def refuses(self, folder: str, kind: Type[lcrvm.Error], **fields: object) -> None:
        """It is refused each time, and no file is changed by it."""
        before = self.bytes_of(folder)
        for _ in range(2):
            with self.raises(kind, **fields):
                lcrvm.open(folder)
        self.assertEqual(self.bytes_of(folder), before, f"{kind.__name__}: a file was changed")

    @staticmethod
    def bytes_of(folder: str) -> Dict[str, bytes]:
        found = {}
        for name in os.listdir(folder):
            with open(os.path.join(folder, name), "rb") as file:
                found[name] = file.read()
        return found

    @staticmethod
    def put(store: lcrvm.Store, node: int, segment: int = 1, offset: int = 0) -> None:
        with store.transaction(segment, node=node) as t:
            t.write(segment, offset, b"put")

    @staticmethod
    def move(store: lcrvm.Store, node: int, to: int, segment: int = 1) -> None:
        store.leave(node, segment)
        store.arrive(to, segment)

    def put_and_move(self, store: lcrvm.Store) -> None:
        """Record 1 of segment 1 at node 1, and record 2 at node 0."""
        self.put(store, 1)
        store.leave(1, 1)
        store.deliver(1, 1, 1, 0)
        store.arrive(0, 1)
        self.put(store, 0)

    def move_and_put(self, store: lcrvm.Store) -> None:
        """Record 1 of segment 1 at node 0."""
        self.move(store, 1, 0)
        self.put(store, 0)

    def test_a_record_that_is_missing(self) -> None:
        folder = self.left("lost", TWO_NODES, self.put_and_move)
        log = os.path.join(folder, "log1")
        size = os.path.getsize(log)
        with open(log, "wb") as file:
            file.write(bytes(size))
        self.refuses(folder, lcrvm.Gap, segment=1, sequence=1)

    def test_two_records_of_one_number(self) -> None:
        folder = self.left("one", TWO_NODES, lambda store: self.put(store, 1))
        other = self.left("other", TWO_NODES, self.move_and_put)
        shutil.copy(os.path.join(other, "log0"), folder)
        self.refuses(folder, lcrvm.Twice, segment=1, sequence=1)

    def test_a_log_of_another_node(self) -> None:
        folder = self.left("swapped", TWO_NODES, lambda store: self.put(store, 1))
        shutil.copy(os.path.join(folder, "log1"), os.path.join(folder, "log0"))
        self.refuses(folder, lcrvm.BadGeometry, area=0)

    def test_a_log_of_a_store_with_more_pages(self) -> None:
        one_page = lcrvm.Geometry(segments=1, pages=1, words=64)
        longer = self.left("longer", one_page._replace(pages=2), lambda store: self.put(store, 0, offset=500))
        folder = self.left("shorter", one_page, lambda store: self.put(store, 0))
        shutil.copy(os.path.join(longer, "log0"), folder)
        self.refuses(folder, lcrvm.OutOfSegment, area=0)

    def test_a_segment_that_has_had_its_last_number(self) -> None:
        self.opened().close()
        with open(os.path.join(self.folder, "seg1"), "r+b") as file:
            file.write(b"\xa5" + bytes(7) + NUMBER.pack(2**60))
        store = self.opened()
        with self.raises(lcrvm.SequenceSpent, segment=1):
            self.put(store, 0)
        self.put(store, 0, segment=2)
        self.assertEqual(number_of(store, 1), 0, "the refused commit is seen")

    def test_a_folder_without_a_store(self) -> None:
        with self.raises(lcrvm.NoStore):
            lcrvm.open(self.folder)
        self.assertFalse(os.path.exists(self.folder), "an opening has made the folder")
        self.opened().close()
        os.remove(os.path.join(self.folder, "lcrvm.store"))
        for name in ("seg2", "seg1"):
            os.remove(os.path.join(self.folder, name))
        with self.raises(lcrvm.NoStore, text="seg1 is missing"):
            lcrvm.open(self.folder)

    def test_a_log_that_waits_for_another_node(self) -> None:
        """The token of segment 1 has gone, so the records of node 1 stay in its log: it is full in the end."""
        store = self.opened(lcrvm.Geometry(segments=3, pages=1, words=64, nodes=2))
        self.put(store, 1)
        store.leave(1, 1)
        store.deliver(1, 1, 1, 0)
        store.arrive(0, 1)
        with self.assertRaises(lcrvm.Full) as raised:
            for _ in range(64):
                self.put(store, 1, segment=3)
        self.assertGreater(raised.exception.tail + raised.exception.need, 64, "there was room")
        with self.raises(lcrvm.Unclean, segment=1, sequence=1):
            store.truncate(1)
        self.put(store, 0)
        store.leave(0, 1)
        store.deliver(0, 1, 1, 1)
        store.arrive(1, 1)
        self.put(store, 1, segment=3)


class Arguments(Case):
    def test_integers(self) -> None:
        store = self.opened()
        with store.transaction(1) as t:
            calls: List[Callable[[Any], object]] = [
                lambda it: store.transaction(it),
                lambda it: store.transaction(reading=[it]),
                lambda it: store.transaction(node=it),
                lambda it: t.read(it, 0, 1),
                lambda it: t.read(1, it, 1),
                lambda it: t.read(1, 0, it),
                lambda it: t.write(it, 0, b"x"),
                lambda it: t.write(1, it, b"x"),
                lambda it: t.set_range(it, 0, 1),
                lambda it: t.set_range(1, it, 1),
                lambda it: t.set_range(1, 0, it),
                lambda it: t.read_into(it, 0, bytearray(1)),
                lambda it: t.read_into(1, it, bytearray(1)),
                lambda it: t[it, 0:1],
                lambda it: store.flush(it),
                lambda it: store.truncate(it),
                lambda it: store.trim(it),
                lambda it: store.leave(it, 1),
                lambda it: store.leave(0, it),
                lambda it: store.arrive(it, 1),
                lambda it: store.arrive(0, it),
                lambda it: store.deliver(it, 1, 1, 1),
                lambda it: store.deliver(0, 1, it, 1),
                lambda it: store.deliver(0, 1, 1, it),
            ]
            for number, call in enumerate(calls):
                for wrong in (-1, 2**32, 2**32 + 1, -(2**32), 2**64, 10**30):
                    with self.assertRaises(ValueError, msg=f"{number} {wrong}"):
                        call(wrong)
                for none in (1.0, "1", None, b"1"):
                    with self.assertRaises(TypeError, msg=f"{number} {none!r}"):
                        call(none)
            for wide in (-1, 2**64):
                with self.assertRaises(ValueError):
                    store.deliver(0, wide, 1, 1)
            for size in ((-1, 1, 64, 1), (1, 2**32, 64, 1)):
                with self.assertRaises(ValueError):
                    lcrvm.create(self.folder + "1", lcrvm.Geometry(*size))
            t.write(Index(), True, b"x")  # type: ignore[arg-type]
            self.assertEqual(t.read(True, False, 2), b"\0x")
        self.assertEqual(store.flush(False), 1)

    def test_timeouts(self) -> None:
        store = self.opened()
        for wrong in (-1, -0.001, float("nan")):
            with self.assertRaises(ValueError):
                store.transaction(1, timeout=wrong)
            with self.assertRaises(ValueError):
                lcrvm.open(self.folder, timeout=wrong)
        with self.assertRaises(TypeError):
            store.transaction(1, timeout="1")  # type: ignore[arg-type]
        for good in (0, 1, 0.5, 1e300, float("inf")):
            store.transaction(1, timeout=good).begin().abort()

    def test_segments(self) -> None:
        store = self.opened()
        with self.assertRaises(ValueError):
            store.transaction(*range(17))
        with self.assertRaises(TypeError):
            store.transaction(reading=1)  # type: ignore[arg-type]
        with store.transaction(reading=(it for it in (1, 2))) as t:
            self.assertEqual(t[2, 0:2], b"\0\0")
        with self.assertRaises(TypeError):
            lcrvm.Transaction()

    def test_slices(self) -> None:
        store = self.opened()
        size = SMALL.segment_bytes
        with store.transaction(1) as t:
            t[1, :] = bytes(range(256)) * 4
            content = bytes(range(256)) * 4
            for part in (slice(3, 8), slice(None, 4), slice(-4, None), slice(5, 5), slice(9, 3), slice(0, size + 9)):
                self.assertEqual(t[1, part], content[part], part)
            t[1, -2:] = b"ab"
            t[1, 5:5] = b""
            self.assertEqual(t[1, size - 3 :], b"\xfdab")
            for part, data in ((slice(0, 2), b"x"), (slice(0, 2), b"xyz"), (slice(size - 1, size + 1), b"ab")):
                with self.assertRaises(ValueError):
                    t[1, part] = data
            with self.assertRaises(ValueError):
                t[1, 0:8:2]
            for key in (1, (1, 2), slice(0, 1), (1, slice(0, 1), 2), (1, slice(0.0, 1))):
                with self.assertRaises(TypeError):
                    t[key]  # type: ignore[index]
            with self.assertRaises(TypeError):
                del t[1, 0:1]  # type: ignore[attr-defined]

    def test_buffers(self) -> None:
        store = self.opened()
        with store.transaction(1) as t:
            for data in (b"abcd", bytearray(b"abcd"), memoryview(b"abcd"), memoryview(b"a_b_c_d_")[::2]):
                t[1, 0:4] = bytes(4)
                t[1, 0:4] = data
                self.assertEqual(t[1, 0:4], b"abcd")
            numbers = memoryview(bytearray(16)).cast("I")
            numbers[0] = 0x01020304
            t.write(1, 0, numbers)
            self.assertEqual(t[1, 0:4], b"\4\3\2\1")
            for wrong in ("abcd", [1, 2, 3, 4], 4, None):
                with self.assertRaises(TypeError):
                    t.write(1, 0, wrong)
            t.write(1, 0, b"abcdefgh")
            into = bytearray(4)
            t.read_into(1, 1, into)
            self.assertEqual(into, b"bcde")
            wide = memoryview(bytearray(8)).cast("I")
            t.read_into(segment=1, offset=0, buffer=wide)
            self.assertEqual(wide.tobytes(), b"abcdefgh")
            t.read_into(1, 0, bytearray())
            for wrong in (b"1234", "1234", 4, memoryview(bytearray(8))[::2]):
                with self.assertRaises(TypeError):
                    t.read_into(1, 0, wrong)

    def test_views(self) -> None:
        store = self.opened()
        with store.transaction(1) as t:
            t[1, 0:16] = b"0123456789abcdef"
            view, other = t.view(1, 4, 4), t.view(1, 8, 4)
            self.assertEqual(view.tobytes(), b"4567")
            view[0:2] = b"xy"
            other[3] = ord("!")
            self.assertEqual(t[1, 2:13], b"23xy6789a!c")
            t[1, 6:10] = b"WORD"
            self.assertEqual((view.tobytes(), other.tobytes()), (b"xyWO", b"RDa!"))
            struct.pack_into("<H", view, 2, 0x4241)
            for offset in (0, 7, 11, 6):
                with self.assertRaises(ValueError):
                    t.view(1, offset, 6)
            with self.assertRaises(lcrvm.EmptyRange):
                t.view(1, 4, 0)
            part = view[1:3]
        with self.assertRaises(ValueError):
            view[0] = 1
        part[0] = 7
        with store.transaction(1) as t:
            self.assertEqual(t[1, 0:16], b"0123xyABRDa!cdef")
            view = t.view(1, 0, 2)
            view[0] = ord("?")
            t.abort()
        self.assertEqual(number_of(store), NUMBER.unpack(b"0123xyAB")[0])

    def test_the_bytes_of_a_view_stay_where_they_are(self) -> None:
        store = self.opened()
        with store.transaction(1) as t:
            view = t.view(1, 0, 8)
            array = view.obj
            view.release()
            with self.assertRaises(BufferError):
                array.clear()  # type: ignore[attr-defined]
            array[0:2] = b"ab"  # type: ignore[index]
        with store.transaction(1) as t:
            self.assertEqual(t[1, 0:8], b"ab" + bytes(6))


class Threads(Case):
    def run_all(self, count: int, work: Callable[[int], None]) -> None:
        """Runs threads to their end, and raises what one of them raised."""
        raised: List[BaseException] = []

        def guarded(number: int) -> None:
            try:
                work(number)
            except BaseException as error:
                raised.append(error)

        threads = [threading.Thread(target=guarded, args=(number,)) for number in range(count)]
        for thread in threads:
            thread.start()
        for thread in threads:
            thread.join(60)
        self.assertFalse(any(thread.is_alive() for thread in threads))
        if raised:
            raise raised[0]

    def test_no_addition_is_lost(self) -> None:
        store = self.opened(timeout=60.0)

        def work(number: int) -> None:
            for turn in range(100):
                with store.transaction(1 + number % 2, durable=turn % 10 == 0) as t:
                    add(t, 1 + number % 2)

        self.run_all(16, work)
        self.assertEqual((number_of(store, 1), number_of(store, 2)), (800, 800))
        store.close()
        self.assertEqual((self.number(1), self.number(2)), (800, 800))

    def test_a_begin_waits_and_lets_others_run(self) -> None:
        store = self.opened()
        t = store.transaction(1).begin()
        order: List[str] = []

        def work() -> None:
            with store.transaction(1) as t:
                order.append("second")

        thread = threading.Thread(target=work)
        thread.start()
        time.sleep(0.05)
        order.append("first")
        t.commit()
        thread.join(10)
        self.assertEqual(order, ["first", "second"])

    def test_busy_says_who_has_it(self) -> None:
        store = self.opened(lcrvm.Geometry(segments=3, pages=1, words=64))
        ready, done = threading.Event(), threading.Event()

        def work() -> None:
            with store.transaction(1, reading=[2]):
                ready.set()
                done.wait(10)

        thread = threading.Thread(target=work, name="the holder")
        thread.start()
        ready.wait(10)
        try:
            for begin in (store.transaction(1, timeout=0.02), store.transaction(3, 1, timeout=0)):
                with self.raises(lcrvm.Busy, segment=1, thread=thread.ident):
                    begin.begin()
            with self.assertRaisesRegex(lcrvm.Busy, "segment 2 .*the holder"):
                store.transaction(2, timeout=0).begin()
            store.transaction(reading=[2], timeout=0).begin().abort()
        finally:
            done.set()
            thread.join(10)

    def test_who_would_wait_for_itself_is_told_at_once(self) -> None:
        store = self.opened(timeout=60.0)
        begun = time.monotonic()
        with store.transaction(1):
            with self.raises(lcrvm.Busy, segment=1, thread=threading.get_ident()):
                store.transaction(1).begin()
        open_ones = [store.transaction().begin() for _ in range(16)]
        with self.raises(lcrvm.Busy, segment=0):
            store.transaction().begin()
        for t in open_ones:
            t.abort()
        self.assertLess(time.monotonic() - begun, 10)

    def test_one_thread_at_a_time_is_within_a_transaction(self) -> None:
        store = self.opened()
        first, second = store.transaction(1).begin(), store.transaction(1)
        thread = threading.Thread(target=second.begin)
        thread.start()
        time.sleep(0.05)
        for call in (second.begin, second.commit, second.abort, lambda: second.read(1, 0, 1)):
            with self.raises(lcrvm.OutOfTurn):
                call()
        first.abort()
        thread.join(10)
        self.assertEqual(second.state, "open")
        second.abort()

    def test_a_call_beside_a_commit(self) -> None:
        store = self.opened()
        t = store.transaction(1)
        stop: List[bool] = []
        said: Dict[str, str] = {}

        def work() -> None:
            while not stop:
                try:
                    t.read(1, 0, 8)
                except lcrvm.Error as error:
                    said[error.text] = type(error).__name__

        thread = threading.Thread(target=work)
        thread.start()
        for _ in range(50):
            with t:
                add(t)
        stop.append(True)
        thread.join(10)
        self.assertEqual(set(said.values()), {"OutOfTurn"}, said)
        self.assertIn("another thread is within a call of this transaction", said)

    def test_close_waits_for_others(self) -> None:
        store = self.opened(timeout=1)
        ready, done = threading.Event(), threading.Event()

        def work() -> None:
            with store.transaction(2) as t:
                ready.set()
                done.wait(10)
                add(t, 2)

        thread = threading.Thread(target=work)
        thread.start()
        ready.wait(10)
        with self.raises(lcrvm.Busy, segment=2, thread=thread.ident):
            store.close()
        self.assertFalse(store.closed)
        threading.Timer(0.02, done.set).start()
        store.close()
        thread.join(10)
        self.assertEqual(self.number(2), 1)

    def test_close_aborts_what_its_thread_has_open(self) -> None:
        store = self.opened()
        with self.raises(lcrvm.Closed):
            with store.transaction(1) as t:
                add(t)
                store.close()
        self.assertEqual(t.state, "aborted")
        store.close()
        for call in (store.flush, store.__enter__, lambda: store.transaction(1), t.begin, lambda: store.copy("x")):
            with self.raises(lcrvm.Closed):
                call()
        t.abort()
        self.assertEqual(self.number(), 0)

    def test_threads_that_close_at_once(self) -> None:
        for _ in range(20):
            store = self.opened()
            with store.transaction(1, durable=False) as t:
                add(t)

            def work(_: int) -> None:
                store.close()
                lcrvm.open(self.folder, timeout=0).close() if _ == 0 else None

            with contextlib.suppress(lcrvm.StoreInUse):
                self.run_all(4, lambda _: store.close())
            self.assertTrue(store.closed)
        self.assertEqual(self.number(), 20)


class Interrupts(Case):
    """An exception that comes at any moment: what was committed is counted once, and no lock remains."""

    def setUp(self) -> None:
        super().setUp()
        self.hits = 0
        interval = sys.getswitchinterval()
        self.addCleanup(sys.setswitchinterval, interval)

    @contextlib.contextmanager
    def alarms(self) -> Iterator[Callable[[float], None]]:
        """A call that has a signal's handler raise once, so many seconds later; 0 takes it back."""
        armed = [False]

        def interrupt(*_: object) -> None:
            if armed[0]:
                armed[0] = False
                raise Interrupt

        def alarm(seconds: float) -> None:
            armed[0] = seconds > 0
            signal.setitimer(signal.ITIMER_REAL, seconds)

        before = signal.signal(signal.SIGALRM, interrupt)
        try:
            yield alarm
        finally:
            alarm(0)
            signal.signal(signal.SIGALRM, before)

    def attempts(
        self, store: lcrvm.Store, work: Callable[[List[lcrvm.Transaction]], None], count: int = INTERRUPTS
    ) -> int:
        """Has work done again and again, and interrupts it; how many transactions were committed.

        The first turns are left alone, and tell how long one takes.
        """
        committed = 0
        chance = random.Random(1)
        times: List[float] = []
        with self.alarms() as alarm:
            for turn in range(count):
                made: List[lcrvm.Transaction] = []
                begun = time.monotonic()
                try:
                    if turn >= LEFT_ALONE:
                        alarm(chance.uniform(1e-6, 1.5 * statistics.median(times)))
                    work(made)
                    times = [*times[-LEFT_ALONE:], time.monotonic() - begun]
                    alarm(0)
                except Interrupt:
                    self.hits += 1
                committed += sum(t.state == "committed" for t in made)
                for t in made:
                    if t.state == "open" and HAS_HOLE:
                        t.abort()
                    self.assertIn(t.state, ("new", "committed", "aborted"), turn)
                made.clear()
                self.assertEqual(number_of(store), committed, turn)
        self.assertGreater(self.hits, 0)
        return committed

    def test_a_with_statement(self) -> None:
        store = self.opened(lcrvm.Geometry())

        def work(made: List[lcrvm.Transaction]) -> None:
            made.append(store.transaction(1, durable=False))
            with made[0] as t:
                add(t)

        committed = self.attempts(store, work)
        self.assertGreater(committed, 0)
        store.close()
        self.assertEqual(self.number(), committed)

    def test_durable_commits(self) -> None:
        store = self.opened(lcrvm.Geometry())

        def work(made: List[lcrvm.Transaction]) -> None:
            made.append(store.transaction(1))
            with made[0] as t:
                view = t.view(1, 0, 8)
                view[:] = NUMBER.pack(NUMBER.unpack(view)[0] + 1)

        committed = self.attempts(store, work, INTERRUPTS // 5)
        self.assertGreater(committed, 0)
        store.close()
        self.assertEqual(self.number(), committed)

    def test_begin_commit_and_abort(self) -> None:
        store = self.opened(lcrvm.Geometry())

        def work(made: List[lcrvm.Transaction]) -> None:
            for amount in (1, 5):
                made.append(store.transaction(1, durable=False))
                try:
                    made[-1].begin()
                    add(made[-1], 1, amount)
                    if amount == 1:
                        made[-1].commit()
                    else:
                        made[-1].abort()
                except Interrupt:
                    while made[-1].state == "open":
                        with contextlib.suppress(Interrupt):
                            made[-1].abort()
                    raise

        self.attempts(store, work)

    def test_dropped_transactions(self) -> None:
        store = self.opened(lcrvm.Geometry())

        def work(made: List[lcrvm.Transaction]) -> None:
            t = store.transaction(1).begin()
            add(t)
            del t
            t = store.transaction(1).begin()

        with warnings.catch_warnings():
            warnings.simplefilter("ignore")
            hook, sys.unraisablehook = sys.unraisablehook, lambda _: None
            try:
                self.assertEqual(self.attempts(store, work), 0)
            finally:
                sys.unraisablehook = hook

    def test_an_exception_from_another_thread(self) -> None:
        store = self.opened(lcrvm.Geometry())
        made: List[lcrvm.Transaction] = []
        stop: List[bool] = []

        def turns() -> None:
            while not stop:
                try:
                    made.append(store.transaction(1, durable=False))
                    with made[-1] as t:
                        add(t)
                except (Interrupt, lcrvm.Busy) as error:
                    self.hits += isinstance(error, Interrupt)
                    for t in made[-2:] if HAS_HOLE else []:
                        t.abort()

        def again(call: Callable[[], None]) -> None:
            while not stop:
                try:
                    call()
                except Interrupt:
                    pass

        sys.setswitchinterval(1e-6)
        thread = threading.Thread(target=lambda: again(lambda: again(turns)))
        thread.start()
        while not made:
            time.sleep(0.001)
        end = time.monotonic() + 20
        while self.hits < INTERRUPTS // 3 and time.monotonic() < end:
            ctypes.pythonapi.PyThreadState_SetAsyncExc(ctypes.c_ulong(thread.ident or 0), ctypes.py_object(Interrupt))
            time.sleep(1e-4)
        time.sleep(0.1)
        stop.append(True)
        thread.join(30)
        self.assertFalse(thread.is_alive())
        self.assertGreater(self.hits, 0)
        self.assertEqual([t for t in made if t.state == "open"], [])
        committed = sum(t.state == "committed" for t in made)
        self.assertEqual(number_of(store), committed)
        store.close()
        self.assertEqual(self.number(), committed)

    def test_an_interrupt_ends_a_wait(self) -> None:
        store = self.opened(timeout=60.0)
        ready, done = threading.Event(), threading.Event()

        def work() -> None:
            with store.transaction(1) as t:
                ready.set()
                done.wait(30)
                add(t)

        thread = threading.Thread(target=work)
        thread.start()
        ready.wait(10)
        waiting = store.transaction(1)
        with self.alarms() as alarm:
            for seconds in (0.05, 0.8):
                begun = time.monotonic()
                alarm(seconds)
                with self.assertRaises(Interrupt):
                    waiting.begin()
                self.assertLess(time.monotonic() - begun, seconds + 0.6)
            alarm(0.05)
            with self.assertRaises(Interrupt):
                store.close()
        self.assertEqual(waiting.state, "new")
        done.set()
        thread.join(10)
        self.assertEqual(number_of(store), 1)

    def test_stores_that_are_opened_and_closed(self) -> None:
        self.opened().close()
        counted = 0
        hook, sys.unraisablehook = sys.unraisablehook, lambda _: None
        self.addCleanup(setattr, sys, "unraisablehook", hook)
        chance = random.Random(1)
        with self.alarms() as alarm, warnings.catch_warnings():
            warnings.simplefilter("ignore")
            for _ in range(INTERRUPTS // 10):
                t: Optional[lcrvm.Transaction] = None
                store: Optional[lcrvm.Store] = None
                try:
                    alarm(chance.uniform(1e-6, 3e-3))
                    store = lcrvm.open(self.folder)
                    with store:
                        t = store.transaction(1, durable=False)
                        with t:
                            add(t)
                    alarm(0)
                except Interrupt:
                    self.hits += 1
                if t is not None:
                    counted += t.state == "committed"
                t = store = None
                self.assertEqual(self.number(), counted)
        self.assertGreater(self.hits, 0)


class Processes(Case):
    def test_a_child_is_told(self) -> None:
        store = self.opened()
        t = store.transaction(1).begin()
        add(t)

        def child() -> int:
            calls: List[Callable[[], object]] = [
                store.flush,
                store.truncate,
                store.__enter__,
                t.commit,
                t.begin,
                lambda: t[1, 0:1],
                lambda: t.write(1, 0, b"x"),
                lambda: store.copy("x"),
                lambda: store.transaction(2),
                lambda: store.leave(0, 1),
            ]
            for number, call in enumerate(calls):
                try:
                    call()
                    return 1 + number
                except lcrvm.Forked:
                    pass
            t.abort()
            store.close()
            return 0 if store.closed else 99

        self.assertEqual(self.forked(child), 0)
        t.commit()
        store.close()
        self.assertEqual(self.number(), 1)

    def forked(self, child: Callable[[], int]) -> int:
        """The status of a child that does this."""
        process = os.fork()
        if process == 0:
            status = 100
            try:
                status = child()
            finally:
                os._exit(status)
        return os.WEXITSTATUS(os.waitpid(process, 0)[1])

    def test_a_child_that_drops_and_collects(self) -> None:
        store = self.opened()
        t = store.transaction(1).begin()
        add(t)

        def child() -> int:
            nonlocal store, t
            with warnings.catch_warnings(record=True) as caught:
                warnings.simplefilter("always")
                del t
                del store
                gc.collect()
            with lcrvm.open(self.folder + "2", create=True) as own, own.transaction(1) as mine:
                add(mine)
            try:
                lcrvm.open(self.folder)
                return 1
            except lcrvm.StoreInUse:
                return len(caught) * 10

        self.assertEqual(self.forked(child), 0)
        t.commit()
        self.assertEqual(number_of(store), 1)

    def test_forks_beside_threads(self) -> None:
        store = self.opened(timeout=60.0)
        stop = threading.Event()
        counts = [0, 0]

        def work(segment: int) -> None:
            while not stop.is_set():
                with store.transaction(segment) as t:
                    add(t, segment)
                counts[segment - 1] += 1

        def child() -> int:
            try:
                store.flush()
            except lcrvm.Forked:
                store.close()
                return 0
            return 1

        threads = [threading.Thread(target=work, args=(segment,)) for segment in (1, 2)]
        for thread in threads:
            thread.start()
        with warnings.catch_warnings():
            warnings.simplefilter("ignore", DeprecationWarning)
            statuses = {self.forked(child) for _ in range(50)}
        stop.set()
        for thread in threads:
            thread.join(10)
        self.assertEqual(statuses, {0})
        store.close()
        self.assertEqual([self.number(1), self.number(2)], counts)

    def test_multiprocessing(self) -> None:
        store = self.opened()
        with warnings.catch_warnings():
            warnings.simplefilter("ignore", DeprecationWarning)
            with multiprocessing.get_context("fork").Pool(2) as pool:
                self.assertEqual(set(pool.map(child_says, [0] * 8)), {"nothing"})
                global shared
                shared = store
            try:
                with multiprocessing.get_context("fork").Pool(2) as pool:
                    self.assertEqual(set(pool.map(child_says, [0] * 8)), {"Forked"})
                    with self.raises(lcrvm.Forked):
                        pool.apply(child_raises)
            finally:
                shared = None
        with store.transaction(1) as t:
            add(t)
        with self.assertRaises(TypeError):
            pickle.dumps(store)

    def test_a_store_that_another_process_has(self) -> None:
        self.opened().close()
        process = self.python("""if True:
            store = lcrvm.open(sys.argv[1])
            print("open", flush=True)
            sys.stdin.read()
            """)
        assert process.stdout is not None
        self.assertEqual(process.stdout.readline(), "open\n")
        with self.raises(lcrvm.StoreInUse):
            lcrvm.open(self.folder)
        with self.raises(lcrvm.StoreInUse):
            lcrvm.open(self.folder, create=True)
        with self.assertRaises((lcrvm.StoreInUse, lcrvm.Exists)):
            lcrvm.create(self.folder)
        process.kill()
        process.wait()
        self.assertEqual(self.number(), 0)

    def test_a_store_whose_parent_is_killed_while_its_child_lives(self) -> None:
        self.opened().close()
        process = self.python("""if True:
            store = lcrvm.open(sys.argv[1])
            child = os.fork()
            if child == 0:
                os.close(1)
                time.sleep(30)
                os._exit(0)
            print(child, flush=True)
            time.sleep(30)
            """)
        assert process.stdout is not None
        child = int(process.stdout.readline())
        try:
            process.kill()
            process.wait()
            end = time.monotonic() + 10  # the child gives its descriptors back as soon as it runs
            while time.monotonic() < end:
                with contextlib.suppress(lcrvm.StoreInUse):
                    self.assertEqual(self.number(), 0)
                    break
                time.sleep(0.01)
            else:
                self.fail("the store of a killed parent is in use")
        finally:
            os.kill(child, signal.SIGKILL)

    def test_kills_lose_nothing_that_was_acknowledged(self) -> None:
        self.opened(SMALL._replace(words=128)).close()
        chance = random.Random(1)
        before = 0
        for kill in range(KILLS):
            process = self.python("""if True:
                def work():
                    while True:
                        with store.transaction(1) as t:
                            number = struct.unpack("<Q", t[1, 0:8])[0] + 1
                            t[1, 0:8] = struct.pack("<Q", number)
                            t[1, 100 + number % 200 : 108 + number % 200] = struct.pack("<Q", number)
                        os.write(1, b"%d\\n" % number)
                store = lcrvm.open(sys.argv[1])
                for _ in range(3):
                    threading.Thread(target=work).start()
                """)
            assert process.stdout is not None
            first = int(process.stdout.readline())
            time.sleep(chance.uniform(0, 0.05))
            process.kill()
            # (not by communicate, which passes over what readline has read ahead)
            said = [int(line) for line in process.stdout.read().split("\n")[:-1]]
            acknowledged = max([before, first, *said])
            before = self.number()
            self.assertIn(before, range(acknowledged, acknowledged + 4), kill)
            with lcrvm.open(self.folder) as store, store.transaction(reading=[1]) as t:
                at = 100 + before % 200
                self.assertEqual(NUMBER.unpack(t[1, at : at + 8])[0], before)


shared: Optional[lcrvm.Store] = None


def child_says(_: int) -> str:
    try:
        if shared is None:
            return "nothing"
        shared.flush()
        return "flushed"
    except lcrvm.Error as error:
        return type(error).__name__


def child_raises() -> None:
    assert shared is not None
    shared.flush()


ADD = """
def add(t, segment=1):
    number = struct.unpack("<Q", t[segment, 0:8])[0] + 1
    t[segment, 0:8] = struct.pack("<Q", number)
    return number
store = lcrvm.open(sys.argv[1], durable=False)
def lazily(segment=1):
    with store.transaction(segment) as t:
        return add(t, segment)
"""


class Descriptors(Case):
    def test_no_program_that_is_started_has_them(self) -> None:
        store = self.opened()
        names = {os.path.realpath(os.path.join(self.folder, name)) for name in [".", *os.listdir(self.folder)]}
        numbers = os.listdir("/proc/self/fd")
        found = [int(number) for number in numbers if os.path.realpath(f"/proc/self/fd/{number}") in names]
        self.assertGreater(len(found), 0)
        self.assertEqual([number for number in found if os.get_inheritable(number)], [])
        store.close()

    def test_a_descriptor_that_is_closed(self) -> None:
        self.opened().close()
        process = self.python("""if True:
            store = lcrvm.open(sys.argv[1])
            os.closerange(3, 100)
            try:
                with store.transaction(1) as t:
                    t[1, 0:4] = b"lost"
            except lcrvm.DeviceFault as error:
                print("log0: Bad file descriptor" in str(error), t.state)
            try:
                store.close()
            except lcrvm.DeviceFault:
                print(store.closed)
            """)
        self.assertEqual(process.communicate()[0], "True unknown\nTrue\n")
        self.assertEqual(self.number(), 0)

    def test_a_relative_path_is_that_of_the_opening(self) -> None:
        here = os.getcwd()
        self.addCleanup(os.chdir, here)
        os.chdir(self.room)
        with lcrvm.open("store", create=True, geometry=SMALL) as store:
            os.chdir(here)
            with store.transaction(1) as t:
                add(t)
        self.assertEqual(self.number(), 1)


class Ends(Case):
    """What becomes of lazy commits where nobody closes the store."""

    def ended(self, program: str, status: int = 0) -> str:
        self.opened().close()
        process = self.python(ADD + program)
        said = process.communicate()[0]
        self.assertEqual(process.returncode, status)
        return said

    def test_the_end_of_the_interpreter(self) -> None:
        for program, status in (
            ("lazily()", 0),
            ("lazily(); t = store.transaction(1).begin(); add(t)", 0),
            ("lazily(); keep = [store]; keep.append(keep); del store", 0),
            ("lazily(); os.fork() or sys.exit(7); os.wait()", 0),
            ("lazily(); sys.exit(3)", 3),
            ("import atexit; atexit.register(lazily)", 0),
            ("threading.Thread(target=lambda: (time.sleep(0.1), lazily())).start()", 0),
            ("sys.stderr = None; lazily(); raise ValueError", 1),
        ):
            with self.subTest(program):
                before = self.number() if os.path.exists(self.folder) else 0
                self.ended(program, status)
                self.assertEqual(self.number(), before + 1)

    def test_daemon_threads(self) -> None:
        said = self.ended("""if True:
            def work(segment):
                while True:
                    number = lazily(segment)
                    os.write(1, b"%d %d\\n" % (segment, number))
            for segment in (1, 2):
                threading.Thread(target=work, args=(segment,), daemon=True).start()
            time.sleep(0.2)
            sys.stderr.close()
            """)
        last: Dict[int, int] = {}
        for line in said.split("\n")[:-1]:
            segment, number = map(int, line.split())
            last[segment] = number
        self.assertEqual(set(last), {1, 2})
        for segment, number in last.items():
            self.assertIn(self.number(segment), (number, number + 1))

    def test_a_daemon_thread_that_waits_or_holds(self) -> None:
        begun = time.monotonic()
        self.ended("""if True:
            def hold(ready):
                t = store.transaction(1).begin()
                add(t)
                ready.set()
                time.sleep(60)
            def wait():
                try:
                    store.transaction(1, timeout=60).begin()
                except lcrvm.Closed:
                    pass
            lazily(2)
            ready = threading.Event()
            threading.Thread(target=hold, args=(ready,), daemon=True).start()
            ready.wait()
            threading.Thread(target=wait, daemon=True).start()
            time.sleep(0.1)
            """)
        self.assertLess(time.monotonic() - begun, 30)
        self.assertEqual((self.number(1), self.number(2)), (0, 1))

    def test_a_dropped_store(self) -> None:
        store = lcrvm.open(self.folder, create=True, durable=False)
        for _ in range(3):
            with store.transaction(1) as t:
                add(t)
        del t
        with self.assertWarnsRegex(ResourceWarning, "store.*dropped"):
            del store
            gc.collect()
        self.assertEqual(self.number(), 3)

    def test_a_dropped_transaction(self) -> None:
        store = self.opened()
        t = store.transaction(1).begin()
        add(t)
        with self.assertWarnsRegex(ResourceWarning, "transaction.*dropped"):
            del t
            gc.collect()
        with store.transaction(1, timeout=0) as t:
            self.assertEqual(t[1, 0:8], bytes(8))

    def test_warnings_that_are_errors(self) -> None:
        process = subprocess.run(
            [sys.executable, "-W", "error", "-c", "import lcrvm, sys\n"
             "store = lcrvm.open(sys.argv[1], create=True)\n"
             "t = store.transaction(1).begin()\n"
             "del t\n"
             "store.transaction(1, timeout=0).begin().abort()\n"
             "print('on')", self.folder], stdout=subprocess.PIPE, stderr=subprocess.PIPE, text=True)
        self.assertEqual((process.returncode, process.stdout), (0, "on\n"))
        self.assertIn("ResourceWarning", process.stderr)

    def test_nothing_is_kept(self) -> None:
        store = self.opened(lcrvm.Geometry(), timeout=0)
        into = bytearray(100)

        def turn() -> None:
            with store.transaction(1, reading=[2], durable=False) as t:
                t[1, 0:1000] = bytearray(1000)
                t.view(1, 2000, 1000)[0] = 1
                t.read_into(1, 0, into)
                for call in (
                    lambda: t.read(3, 0, 1000),
                    lambda: t.read(1, -1, 1),
                    lambda: t.read(1, 2**40, 1),
                    lambda: t.read(1, 0, 2**30),
                    lambda: t.write(2, 0, b"x"),
                    lambda: t.write(1, 0, "x"),
                    lambda: t.view(1, 2100, 1),
                    lambda: t.view(1, 0, 0),
                    lambda: t.read_into(1, 0, b"x"),
                    lambda: t[1, 0:8:2],
                    lambda: store.transaction(1).begin(),
                    lambda: store.transaction(*range(20)),
                    lambda: store.transaction(1, timeout=-1),
                    lambda: store.leave(0, 1),
                    lambda: store.deliver(0, 2**50, 1, 1),
                    lambda: store.copy(self.folder),
                    lambda: lcrvm.open(self.folder),
                    lambda: lcrvm.create(self.folder, lcrvm.Geometry(segments=-1)),
                    lambda: repr((store, t, store.geometry, store.path, t.state)),
                ):
                    with contextlib.suppress(lcrvm.Error, ValueError, TypeError):
                        call()
            t.begin().commit()
            t.begin().abort()
            store.flush()

        def rounds(count: int) -> Tuple[int, int]:
            for _ in range(count):
                turn()
            gc.collect()
            return sys.getallocatedblocks(), resource.getrusage(resource.RUSAGE_SELF).ru_maxrss

        blocks, kilobytes = rounds(100)
        more_blocks, more_kilobytes = rounds(500)
        self.assertLess(more_blocks - blocks, 400)
        self.assertLess(more_kilobytes - kilobytes, 4096)

    def test_stores_leave_nothing(self) -> None:
        def rounds(count: int) -> Tuple[int, int, int]:
            for _ in range(count):
                with lcrvm.open(self.folder, create=True) as store:
                    with store.transaction(1, durable=False) as t:
                        add(t)
            gc.collect()
            usage = resource.getrusage(resource.RUSAGE_SELF).ru_maxrss
            return sys.getallocatedblocks(), usage, len(os.listdir("/proc/self/fd"))

        blocks, kilobytes, descriptors = rounds(20)
        more_blocks, more_kilobytes, more_descriptors = rounds(100)
        self.assertLess(more_blocks - blocks, 80)
        self.assertLess(more_kilobytes - kilobytes, 4096)
        self.assertEqual(more_descriptors, descriptors)
        self.assertEqual(self.number(), 120)


if __name__ == "__main__":
    unittest.main()
