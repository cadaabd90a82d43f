"""Cuts the power of the built program anywhere, and looks that what was acknowledged is there.

usage: python3 tests/power.py PROGRAM SHIM [--cuts N] [--seed SEED] [--jobs N] [--stories plain|failing] [--without-syncs KIND]
                               [--opening OPENING]

SHIM is tests/traced_calls.c, built. A story is a new store, and random scripts that run on it one after another, with
recoveries between; SHIM writes down each call and each printed line, in order. A cut takes the calls up to some place. A byte
that was written and not synced since is then one that stood there, one that was written, or any; a name that was made,
renamed or removed and whose folder was not synced since is as before or as then. Files are laid down so, `recover` is run
on them, and the pages are read here, from docs/FORMATS.md alone. They must be those of a list of transactions that has each
acknowledged one, of each node and of each segment the first so many, and none that was not closed: what each wrote is known
from the script. Some of the recoveries are cut again, and so are runs after them.

In a failing story one sync or one write of a run fails. Where a sync failed, the bytes that were written until then are what a
read gives, but no later sync makes them stable: the system takes their pages for clean. Of a write half is made.

With --without-syncs the syncs of a kind do not count, or `all` of them, and a cut has to lose something: the status is 0 where
one does. The kind is told by what was written to the file last: of a log, a `group`, its `gate`, or the zero of a `reset`; of a
segment, the zero that has to `close` a slot, what has to `fill` it, or the gate that has to `open` it. Or it is the `first` of a
process on the file, by which what an earlier process has written becomes stable.

With --opening a recovery is an opening by the library: OPENING is tests/opening_test.c, built, which opens the folder and ends
without a close. Then --without-syncs leaves out the syncs of openings alone.
"""
import argparse
import multiprocessing
import os
import random
import shutil
import signal
import subprocess
import sys
import tempfile

NODES, THREADS, SEGMENTS, PAGES, WORDS = 3, 2, 3, 2, 512
SIZE = [
    "--nodes", str(NODES), "--threads", str(THREADS), "--segments", str(SEGMENTS), "--pages", str(PAGES), "--words", str(WORDS),
]
PAGE = 256
SLOT = 272
GATE = 0xA5
LAST_SEQUENCE = 1 << 60
ABORTED = 0xEE
NAMES = ["lcrvm.store"] + [f"log{n}" for n in range(NODES)] + [f"seg{s}" for s in range(1, SEGMENTS + 1)]
WAIT = 60


class Lost(Exception):
    """What a recovery gave is not what it has to give."""


# ---- a disk


SYNCS = ["group", "gate", "reset", "close", "fill", "open", "first"]


class Inode:
    """A file's bytes: those that are stable, those that a read gives, and what was written since the last sync."""

    def __init__(self, data=b"", name=""):
        self.name = name
        self.last = b""
        self.is_new = True
        self.stable = bytearray(data)
        self.now = bytearray(data)
        self.lengths = []
        self.writes = []
        # Positions whose sync failed, with what may have got there. No sync makes them stable until they are written again.
        self.given_up = {}

    def write(self, at, data):
        if len(self.now) < at + len(data):
            self.now.extend(bytes(at + len(data) - len(self.now)))
            self.lengths.append(len(self.now))
        self.now[at : at + len(data)] = data
        self.writes.append((at, bytes(data)))
        self.last = data

    def sync_kind(self):
        of_log = self.name.startswith("log")
        if len(self.last) != 1:
            return "group" if of_log else "fill"
        if self.last[0] == GATE:
            return "gate" if of_log else "open"
        return "reset" if of_log else "close"

    def truncate(self, length):
        self.now[length:] = b""
        self.now.extend(bytes(length - len(self.now)))
        self.lengths.append(length)

    def sync(self):
        length = len(self.now)
        self.stable[length:] = b""
        self.stable.extend(bytes(length - len(self.stable)))
        for at, data in self.writes:
            end = min(at + len(data), length)
            self.stable[at:end] = self.now[at:end]
            if self.given_up:
                for k in range(at, end):
                    self.given_up.pop(k, None)
        self.writes, self.lengths = [], []

    def fail(self):
        for at, data in self.writes:
            for k, byte in enumerate(data, at):
                self.given_up.setdefault(k, []).append(byte)
        self.writes = []

    def is_stable(self):
        return not self.writes and not self.lengths and not self.given_up

    def image(self, choose):
        """What may stand there after a cut."""
        length = choose.one_of([len(self.stable)] + self.lengths)
        image = bytearray(self.stable[:length])
        image.extend(bytes(length - len(image)))
        for at, data in self.writes:
            choose.lay(image, at, data)
        for k, given in self.given_up.items():
            if k < length:
                image[k] = choose.byte([self.stable[k] if k < len(self.stable) else 0] + given)
        return bytes(image)


class Choice:
    """How a cut chooses: all bytes as before, all as written, by writes, by bytes, by sectors, or any bytes at all."""

    KINDS = ["old", "new", "writes", "bytes", "bytes", "sectors", "foreign", "mixed", "mixed"]

    def __init__(self, rng):
        self.rng = rng
        self.kind = rng.choice(self.KINDS)
        self.share = rng.random()

    def foreign(self):
        return self.rng.choice([0, GATE, self.rng.randrange(256)])

    def one_of(self, values):
        if self.kind == "old":
            return values[0]
        if self.kind == "new":
            return values[-1]
        return self.rng.choice(values)

    def byte(self, values):
        if self.kind == "foreign" or self.kind == "mixed" and self.rng.random() < 0.2:
            return self.foreign()
        return self.one_of(values)

    def lay(self, image, at, data):
        rng, share = self.rng, self.share
        end = min(at + len(data), len(image))
        if self.kind == "new" or self.kind == "writes" and rng.random() < share:
            image[at:end] = data[: end - at]
        elif self.kind == "sectors":
            kept = {sector: rng.random() < share for sector in range(at // 64, end // 64 + 1)}
            for k in range(at, end):
                if kept[k // 64]:
                    image[k] = data[k - at]
        elif self.kind == "bytes":
            for k in range(at, end):
                if rng.random() < share:
                    image[k] = data[k - at]
        elif self.kind == "foreign":
            for k in range(at, end):
                image[k] = self.foreign()
        elif self.kind == "mixed":
            for k in range(at, end):
                luck = rng.random()
                if luck < 0.2:
                    image[k] = self.foreign()
                elif luck < 0.2 + 0.8 * share:
                    image[k] = data[k - at]


class Disk:
    """The files of a store's folder, and their names."""

    def __init__(self, folder, files=None):
        self.folder = os.path.normpath(folder)
        self.now = {name: Inode(data, name) for name, data in (files or {}).items()}
        self.stable = dict(self.now)
        self.changes = []
        self.parent_synced = files is not None
        self.open = {}

    def begin(self):
        """Another process."""
        self.open = {}
        for inode in self.now.values():
            inode.is_new = True

    @staticmethod
    def is_left_out(what, without):
        if without is None or without == "all":
            return without == "all"
        if not isinstance(what, Inode):
            return False
        first, what.is_new = what.is_new, False
        return first if without == "first" else what.sync_kind() == without

    def do(self, call, without=None):
        kind = call[0]
        if kind == "open":
            _, file, flags, path = call
            path = os.path.normpath(path)
            if path in (self.folder, os.path.dirname(self.folder)):
                self.open[file] = path
                return
            name = os.path.basename(path)
            if name not in self.now:
                self.now[name] = Inode(name=name)
                self.changes.append(("make", name, self.now[name]))
            inode = self.now[name]
            if flags & os.O_TRUNC and inode.now:
                inode.truncate(0)
            self.open[file] = inode
        elif kind == "close":
            self.open.pop(call[1], None)
        elif kind == "write":
            self.open[call[1]].write(call[2], call[3])
        elif kind == "truncate":
            self.open[call[1]].truncate(call[2])
        elif kind == "sync":
            what = self.open[call[1]]
            if self.is_left_out(what, without):
                return
            if isinstance(what, Inode):
                what.fail() if call[2] else what.sync()
            elif call[2] == 0 and what == self.folder:
                self.stable = dict(self.now)
                self.changes = []
                self.parent_synced = False
            elif call[2] == 0:
                self.parent_synced = True
        elif kind == "rename":
            source, target = (os.path.basename(path) for path in call[1:])
            self.now[target] = self.now.pop(source)
            self.changes.append(("rename", source, target))
        elif kind == "unlink":
            name = os.path.basename(call[1])
            del self.now[name]
            self.changes.append(("unlink", name))

    def image(self, rng):
        """The files that may stand there after a cut."""
        choose = Choice(rng)
        names = dict(self.stable)
        share = choose.one_of([0, 0.3, 0.7, 1])
        for change in self.changes:
            if rng.random() >= share:
                continue
            if change[0] == "make":
                names[change[1]] = change[2]
            elif change[1] in names:
                inode = names.pop(change[1])
                if change[0] == "rename":
                    names[change[2]] = inode
        return {name: inode.image(choose) for name, inode in names.items()}


def read_trace(path):
    """The calls that the shim wrote down."""
    with open(path, "rb") as file:
        data = file.read()
    calls, at = [], 0
    while at < len(data):
        end = data.index(b"\n", at)
        words = data[at:end].decode().split(" ")
        at = end + 1
        kind = words[0]
        if kind in ("write", "print"):
            length = int(words[-1])
            numbers = [int(word) for word in words[1:-1]]
            calls.append((kind, *numbers, data[at : at + length]))
            at += length
        elif kind == "open":
            calls.append((kind, int(words[1]), int(words[2]), words[3]))
        elif kind in ("rename", "unlink"):
            calls.append((kind, *words[1:]))
        else:
            calls.append((kind, *(int(word) for word in words[1:])))
    return calls


# ---- what was done


class Transaction:
    def __init__(self, node):
        self.node = node
        self.segments = set()
        self.writes = []
        self.closed = False


class History:
    """What the scripts did since the last recovery: by their lines and the replies to these."""

    def __init__(self):
        self.base = {s: bytes(PAGES * PAGE) for s in range(1, SEGMENTS + 1)}
        self.numbers = {s: 0 for s in range(1, SEGMENTS + 1)}
        self.forget()

    def forget(self):
        # In the order in which they got their places: that of the nodes' records, and of each segment.
        self.reserved = []
        self.acknowledged = [0] * NODES
        self.running = {}

    def settle(self, kept):
        """A recovery is over, and kept these."""
        self.base, self.numbers = self.folded(kept)
        self.forget()

    def reply(self, line, answer):
        words = line.split()
        kind = words[0]
        if kind in ("begin", "range", "write", "abort", "reserve", "end", "close"):
            seat = (int(words[1]), int(words[2]))
        first = answer.split(" ")[0]
        if kind == "begin" and first == "ok":
            self.running[seat] = Transaction(seat[0])
        elif kind == "range" and first == "ok":
            self.running[seat].segments.add(int(words[3]))
        elif kind == "write" and first == "ok":
            self.running[seat].writes.append((int(words[3]), int(words[4]), bytes.fromhex(words[5])))
        elif kind == "abort" and first == "ok":
            del self.running[seat]
        elif kind in ("reserve", "end") and first == "ended":
            del self.running[seat]
        elif kind == "reserve" and first == "reserved":
            self.reserved.append(self.running[seat])
        elif kind == "close" and first == "ok":
            self.running.pop(seat).closed = True
        elif kind == "end" and first == "closed":
            transaction = self.running.pop(seat)
            transaction.closed = True
            self.reserved.append(transaction)
        elif kind in ("flush", "step") and first == "acked":
            self.acknowledged[int(words[1])] = int(answer.split(" ")[1])

    def folded(self, kept):
        content = {s: bytearray(data) for s, data in self.base.items()}
        numbers = dict(self.numbers)
        for transaction in kept:
            for s, at, data in transaction.writes:
                content[s][at : at + len(data)] = data
            for s in transaction.segments:
                numbers[s] += 1
        return {s: bytes(data) for s, data in content.items()}, numbers

    def may_keep(self):
        """Each list of transactions that a recovery may give now."""
        by_node = [[t for t in self.reserved if t.node == n] for n in range(NODES)]
        for n in range(NODES):
            closed = 0
            while closed < len(by_node[n]) and by_node[n][closed].closed:
                closed += 1
            by_node[n] = by_node[n][:closed]
        counts = [[]]
        for n in range(NODES):
            counts = [some + [k] for some in counts for k in range(self.acknowledged[n], len(by_node[n]) + 1)]
        for some in counts:
            kept = {id(t) for n in range(NODES) for t in by_node[n][: some[n]]}
            lost = set()
            fits = True
            for t in self.reserved:
                if id(t) not in kept:
                    lost |= t.segments
                elif t.segments & lost:
                    fits = False
            if fits:
                yield [t for t in self.reserved if id(t) in kept]

    def kept(self, content, numbers):
        """The transactions of which this is the content."""
        for kept in self.may_keep():
            if self.folded(kept) == (content, numbers):
                return kept
        acknowledged = [t for n in range(NODES) for t in [t for t in self.reserved if t.node == n][: self.acknowledged[n]]]
        _, least = self.folded(acknowledged)
        wrong = [s for s in content if ABORTED in content[s]]
        told = f"no list of transactions has these bytes; the segments' numbers are {numbers}, and at least {least} are acknowledged"
        raise Lost(told + (f"; segments {wrong} have bytes of an aborted transaction" if wrong else ""))


# ---- scripts


def script(rng, number, lines):
    """A random script. Transaction K puts the number K in a place of its own and in one that all have, in each segment."""
    text = []
    owner = {s: s % NODES for s in range(1, SEGMENTS + 1)}
    # Of each segment, the records with a lock on it; of each node, how many it has and which of each segment it was sent.
    records = {s: [] for s in owner}
    made = [0] * NODES
    sent = {(n, s): 0 for n in range(NODES) for s in owner}
    long_open = {}

    def owned(n):
        return [s for s in owner if owner[s] == n and s not in long_open]

    def transaction(n, t, segments, value):
        text.append(f"abort {n} {t}")
        text.append(f"begin {n} {t} " + " ".join(map(str, segments)))
        cell = 4 + 4 * (number[0] % 126)
        for s in segments:
            for at in (0, cell, rng.choice([252, 254, 2 * PAGE - 4])):
                text.append(f"range {n} {t} {s} {at} 4")
                text.append(f"write {n} {t} {s} {at} {value.hex()}")

    def count(n, segments):
        made[n] += 1
        for s in segments:
            records[s].append((n, made[n]))

    def commit(n):
        segments = [s for s in owned(n) if rng.random() < 0.6] or owned(n)[:1]
        if not segments:
            return
        number[0] += 1
        value = bytes([1 + number[0] % 100, 1 + number[0] // 100, 0x11 * n + 1, 0x77])
        t = rng.randrange(THREADS - 1)
        transaction(n, t, segments, value)
        if rng.random() < 0.2:
            text.append(f"reserve {n} {t}")
            if rng.random() < 0.5:
                text.append(f"step {n}")
            text.append(f"close {n} {t}")
        else:
            text.append(f"end {n} {t}")
        count(n, segments)

    def abort(n):
        if owned(n):
            transaction(n, 0, owned(n), bytes([ABORTED] * 4))
            text.append(f"abort {n} 0")

    def send(m, s):
        for n, k in records[s][sent[m, s] :]:
            if n != m:
                text.append(f"deliver {n} {k} {s} {m}")
        sent[m, s] = len(records[s])

    def move(s, m):
        n = owner[s]
        text.append(f"flush {n}")
        text.append(f"leave {n} {s}")
        send(m, s)
        text.append(f"arrive {m} {s}")
        owner[s] = m

    def page(n, calls=6):
        for s in owned(n):
            for p in range(PAGES):
                if rng.random() < 0.8:
                    text.extend([f"page {n} {s} {p}"] * calls)

    while len(text) < lines:
        n = rng.randrange(NODES)
        luck = rng.random()
        if luck < 0.4:
            commit(rng.choice([owner[s] for s in owner]))
        elif luck < 0.46:
            abort(rng.choice([owner[s] for s in owner]))
        elif luck < 0.62:
            text.append(f"flush {n}")
        elif luck < 0.68:
            text.extend([f"step {n}"] * rng.randrange(1, 4))
        elif luck < 0.78:
            free = [s for s in owner if s not in long_open]
            s = rng.choice(free)
            if owner[s] != n:
                move(s, n)
        elif luck < 0.82:
            s = rng.choice(list(owner))
            if owner[s] != n:
                text.append(f"flush {owner[s]}")
                send(n, s)
            text.append(f"trim {rng.randrange(NODES)}")
        elif luck < 0.86:
            m = rng.choice([owner[s] for s in owner])
            text.append(f"flush {m}")
            page(m, rng.choice([6, 6, 6, rng.randrange(1, 6)]))
        elif luck < 0.94:
            for m in range(NODES):
                text.append(f"flush {m}")
            for s in owner:
                for m in range(NODES):
                    if m != owner[s]:
                        send(m, s)
            for m in set(owner.values()):
                page(m)
            for m in range(NODES):
                text.append(f"trim {m}")
                text.extend([f"reset {m}"] * rng.choice([4, 4, 4, rng.randrange(1, 4)]))
        elif len(long_open) < 1:
            s = rng.choice(list(owner))
            long_open[s] = owner[s]
            transaction(owner[s], THREADS - 1, [s], bytes([ABORTED] * 4))
        else:
            s, m = long_open.popitem()
            text.append(f"abort {m} {THREADS - 1}")

    # It ends in the midst of something, most of the time.
    m = rng.choice([owner[s] for s in owner])
    commit(m)
    luck = rng.random()
    if luck < 0.25:
        text.extend([f"step {m}"] * rng.randrange(1, 4))
    elif luck < 0.75:
        text.append(f"flush {m}")
        page(m, rng.choice([5, 5, rng.randrange(1, 5)]))
    return text


# ---- processes


def run(program, shim, folder, words, lines=None, trace=None, failing=None):
    """Runs the program on a store's folder, and answers its status and what it printed. Its syncs are not made: which bytes a
    cut leaves is chosen here."""
    environment = dict(os.environ, LD_PRELOAD=shim, CALLS_FOLDER=os.path.dirname(folder), CALLS_IDLE="1")
    if trace is not None:
        environment.update(CALLS_TRACE=trace)
        if failing is not None:
            environment.update(CALLS_KIND=failing[0], CALLS_FAILED=str(failing[1]), CALLS_ERROR="5", CALLS_HALF="1")
    text = "".join(line + "\n" for line in lines or []).encode()
    done = subprocess.run([program, *words], input=text, capture_output=True, env=environment, timeout=WAIT, check=False)
    return done.returncode, done.stdout.decode()


def recover(program, shim, folder, trace=None):
    opening = os.environ.get("POWER_OPENING")
    if opening:
        return run(opening, shim, folder, [folder], trace=trace)
    return run(program, shim, folder, ["recover", folder, *SIZE], trace=trace)


def run_script(program, shim, folder, lines, trace=None, failing=None):
    return run(program, shim, folder, ["run", "--store", folder, *SIZE], lines, trace, failing)


def pages_of(folder):
    """The content of each segment, as its pages have it, and its greatest sequence."""
    content, numbers = {}, {}
    for s in range(1, SEGMENTS + 1):
        with open(f"{folder}/seg{s}", "rb") as file:
            area = file.read()
        pages, greatest = [], 0
        for p in range(PAGES):
            best, data = None, bytes(PAGE)
            for at in (2 * SLOT * p, 2 * SLOT * p + SLOT):
                slot = area[at : at + SLOT]
                sequence = int.from_bytes(slot[8:16], "little")
                if slot[0] == GATE and not any(slot[1:8]) and sequence <= LAST_SEQUENCE and (best is None or sequence > best):
                    best, data = sequence, slot[16:]
            pages.append(data)
            greatest = max(greatest, best or 0)
        content[s], numbers[s] = b"".join(pages), greatest
    return content, numbers


def files_of(folder):
    files = {}
    for name in os.listdir(folder):
        with open(f"{folder}/{name}", "rb") as file:
            files[name] = file.read()
    return files


def lay_down(folder, files):
    shutil.rmtree(folder, ignore_errors=True)
    os.mkdir(folder)
    for name, data in files.items():
        with open(f"{folder}/{name}", "wb") as file:
            file.write(data)


def recovered(program, shim, folder, history, trace=None):
    """Recovers a folder, and answers the transactions that are there."""
    status, printed = recover(program, shim, folder, trace)
    if status != 0:
        raise Lost(f"recover ended with status {status}: {printed.strip()}")
    content, numbers = pages_of(folder)
    said = "" if os.environ.get("POWER_OPENING") else "".join(f"segment {s} sequence {numbers[s]}\n" for s in numbers)
    said += "recovered\n"
    if printed != said:
        raise Lost(f"recover printed {printed!r}, and the pages say {said!r}")
    return history.kept(content, numbers)


def shows(program, shim, folder, history, kept):
    """What a run reads is what the pages have."""
    content, _ = history.folded(kept)
    lines = [line for s in content for line in (f"begin {s % NODES} 0 r{s}", f"read {s % NODES} 0 {s} 0 {PAGES * PAGE}", f"abort {s % NODES} 0")]
    status, printed = run_script(program, shim, folder, lines)
    if status != 0 or printed.split("\n")[1::3] != [f"bytes {data.hex()}" for data in content.values()]:
        raise Lost(f"a run of status {status} reads other bytes")


# ---- stories


class Process:
    """A run or a recovery: its script's lines, its calls, and which transactions of the time before its recovery kept."""

    def __init__(self, lines, calls, kept):
        self.lines = lines
        self.calls = calls
        self.kept = kept


class Player:
    """Goes through processes call by call, on a disk and in a history."""

    def __init__(self, disk, history, without=None):
        self.disk, self.history, self.without = disk, history, without
        self.kept = None

    def begin(self, process):
        self.disk.begin()
        self.kept = process.kept
        self.lines = None if process.lines is None else list(process.lines)
        self.text = b""
        # Of a run no sync is left out where the openings are looked at.
        self.left_out = None if self.lines is not None and os.environ.get("POWER_OPENING") else self.without

    def do(self, call):
        if call[0] != "print":
            self.disk.do(call, self.left_out)
            return
        self.text += call[1]
        while b"\n" in self.text:
            line, self.text = self.text.split(b"\n", 1)
            if self.lines is None:
                if line == b"recovered":
                    self.recovered()
                continue
            if line == b"device fault" and self.kept is not None:
                # It may have come in the recovery.
                continue
            self.recovered()
            if self.lines:
                self.history.reply(self.lines.pop(0), line.decode())

    def recovered(self):
        if self.kept is not None:
            self.history.settle(self.kept)
            self.kept = None


def traced(program, shim, folder, work, history, lines=None, failing=None):
    """Runs a script, or a recovery, on a folder that is there, and plays it. The folder is as the process left it."""
    copy = f"{work}/copy/store"
    os.makedirs(copy, exist_ok=True)
    lay_down(copy, files_of(folder))
    kept = recovered(program, shim, copy, history)
    trace = f"{work}/trace"
    if os.path.exists(trace):
        os.remove(trace)
    if lines is None:
        status, printed = recover(program, shim, folder, trace)
    else:
        status, printed = run_script(program, shim, folder, lines, trace, failing)
    wanted = (0, 1) if failing is None else (0, 1, 3)
    if status not in wanted or "not understood" in printed:
        raise Lost(f"a process ended with status {status}: {printed[-200:]}")
    return Process(lines, read_trace(trace), kept)


def tell(program, shim, work, seed, failing):
    """Makes a story: the store's files after `init`, and the processes."""
    rng = random.Random(f"story {seed}")
    folder = f"{work}/told/store"
    os.makedirs(folder)
    trace = f"{work}/trace"
    status, _ = run(program, shim, folder, ["init", folder, *SIZE], trace=trace)
    if status != 0:
        raise Lost(f"init ended with status {status}")
    disk = Disk(folder, {})
    disk.parent_synced = False
    for call in read_trace(trace):
        disk.do(call)
    os.remove(trace)
    left = [name for name in disk.now if not disk.now[name].is_stable()]
    left += ["the folder"] if disk.changes or set(disk.stable) != set(NAMES) else []
    left += ["the folder's own name"] if not disk.parent_synced else []
    files = files_of(folder)
    history = History()
    player = Player(Disk(folder, files), history)
    processes, number = [], [0]
    for turn in range(4):
        lines = None
        if rng.random() < 0.7:
            lines = script(rng, number, rng.randrange(60, 260))
        fails = None
        if failing and lines is not None and turn < 3:
            fails = (rng.choice(["sync", "sync", "pwrite"]), rng.randrange(1, 40))
        process = traced(program, shim, folder, work, history, lines, fails)
        processes.append(process)
        player.begin(process)
        for call in process.calls:
            player.do(call)
        if fails is not None and rng.random() < 0.7:
            process = traced(program, shim, folder, work, history)
            processes.append(process)
            player.begin(process)
            for call in process.calls:
                player.do(call)
    shutil.rmtree(f"{work}/told")
    return files, processes, left


def look(program, shim, work, player, rng, depth):
    """Cuts here: lays down what may be left, recovers it and looks. Some recoveries are cut again, and runs after them.
    Answers how many cuts that were."""
    folder = f"{work}/cut/store"
    os.makedirs(f"{work}/cut", exist_ok=True)
    files = player.disk.image(rng)
    lay_down(folder, files)
    history = player.history
    again = depth > 0 and rng.random() < 0.3
    trace = f"{work}/again"
    if os.path.exists(trace):
        os.remove(trace)
    kept = recovered(program, shim, folder, history, trace if again else None)
    if not again:
        if rng.random() < 0.1:
            shows(program, shim, folder, history, kept)
        return 1
    # The recovery goes wrong in its midst, and is made again; or a run goes on after it.
    processes = [Process(None, read_trace(trace), kept)]
    if rng.random() < 0.5:
        behind = History()
        behind.base, behind.numbers = history.folded(kept)
        lines = script(rng, [500 + rng.randrange(3000)], rng.randrange(20, 60))
        processes.append(traced(program, shim, folder, work, behind, lines))
    next_history = History()
    next_history.base, next_history.numbers = history.base, history.numbers
    next_history.reserved, next_history.acknowledged = history.reserved, history.acknowledged
    next_player = Player(Disk(folder, files), next_history, player.without)
    calls = sum(len(process.calls) for process in processes)
    place = rng.randrange(calls + 1)
    for process in processes:
        next_player.begin(process)
        for call in process.calls:
            if place == 0:
                break
            next_player.do(call)
            place -= 1
        if place == 0:
            break
    return 1 + look(program, shim, work, next_player, rng, depth - 1)


def cut_story(task):
    """Tells one story and cuts it at so many places."""
    program, shim, seed, failing, cuts, without = task
    work = tempfile.mkdtemp(prefix="story.", dir=os.environ["POWER_WORK"])
    made, lost, left, calls, kinds = 0, [], [], 0, {}
    try:
        files, processes, left = tell(program, shim, work, seed, failing)
        all_calls = [call for process in processes for call in process.calls]
        calls = len(all_calls)
        rng = random.Random(f"cuts {seed}")
        # Of the printed lines, those that acknowledge something.
        telling = [at for at, call in enumerate(all_calls, 1) if call[0] != "print" or b"acked" in call[1]]
        places = sorted(rng.choice(telling) for _ in range(cuts))
        player = Player(Disk(f"{work}/told/store", files), History(), without)
        at = 0

        def cut_here():
            nonlocal made
            while places and places[0] == at and not (without and lost):
                places.pop(0)
                try:
                    made += look(program, shim, work, player, rng, 2)
                except Lost as fault:
                    made += 1
                    lost.append(f"story {seed}, cut after call {at}: {fault}")

        for process in processes:
            # Between two processes nothing is cut that the next one's first call does not show as well.
            player.begin(process)
            cut_here()
            for call in process.calls:
                player.do(call)
                at += 1
                kinds[call[0]] = kinds.get(call[0], 0) + 1
                cut_here()
    except Lost as fault:
        lost.append(f"story {seed}, as it was told: {fault}")
    except subprocess.TimeoutExpired:
        lost.append(f"story {seed}: a process did not end")
    finally:
        shutil.rmtree(work, ignore_errors=True)
    return made, lost, left, calls, kinds


def main():
    parser = argparse.ArgumentParser()
    parser.add_argument("program")
    parser.add_argument("shim")
    parser.add_argument("--cuts", type=int, default=5000)
    parser.add_argument("--seed", type=int, default=1)
    parser.add_argument("--jobs", type=int, default=2)
    parser.add_argument("--stories", choices=["plain", "failing"], default="plain")
    parser.add_argument("--without-syncs", choices=["all"] + SYNCS)
    parser.add_argument("--opening")
    asked = parser.parse_args()
    if asked.opening:
        os.environ["POWER_OPENING"] = asked.opening
    each = 100
    tasks = [
        (asked.program, asked.shim, asked.seed * 10000 + k, asked.stories == "failing", each, asked.without_syncs)
        for k in range((asked.cuts + each - 1) // each)
    ]
    made, calls, lost, left, kinds = 0, 0, [], [], {}
    # Whoever is told to end takes its processes and folders with it; those processes end at once.
    signal.signal(signal.SIGTERM, lambda *_: sys.exit(1))
    with multiprocessing.Pool(asked.jobs, signal.signal, (signal.SIGTERM, signal.SIG_DFL)) as pool:
        for some, faults, stays, several, counts in pool.imap_unordered(cut_story, tasks):
            made += some
            calls += several
            lost += faults
            left += stays
            for kind, number in counts.items():
                kinds[kind] = kinds.get(kind, 0) + number
            if lost and asked.without_syncs:
                pool.terminate()
                break
    if asked.without_syncs:
        print(f"without the syncs {asked.without_syncs}: {'' if lost else 'none of '}{made} cuts until something was lost{': ' + lost[0] if lost else ''}")
        sys.exit(0 if lost else 1)
    told = ", ".join(f"{number} {kind}" for kind, number in sorted(kinds.items()))
    print(f"{made} cuts of {len(tasks)} {asked.stories} stories with {calls} calls ({told}): {len(lost)} lost something")
    for fault in lost[:10]:
        print(f"  {fault}", file=sys.stderr)
    if left:
        print(f"  after init these are not stable: {', '.join(sorted(set(left)))}", file=sys.stderr)
    sys.exit(1 if lost or left else 0)


main()
