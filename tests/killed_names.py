#!/usr/bin/env python3
"""Kills the server `names` in the midst of its work; tests/names.sh and tests/socket.sh start it.

usage: tests/killed_names.py SEED KILLS NAMES FOLDER [SOCKET_PROGRAM]

FOLDER has a new store of the size that `names --help` says. Eight clients ask at once: over the two pipes of NAMES, or,
where a SOCKET_PROGRAM is named, over the connections that it takes for NAMES. The server is killed after a random
number of replies and a random moment later, or while it opens the store. The next one has of each client what was
replied to, and of the one request that may have been under way all or nothing. What a list showed of another client is
there too. After the last kill the input ends, and all is there once more.
"""
from __future__ import annotations

import os
import random
import re
import selectors
import signal
import socket
import subprocess
import sys
import time
from typing import Dict, Iterator, List, NamedTuple, Optional, Tuple

from kills import PATIENCE, Moments, children, fail

CLIENTS = 8
# Names that a client has at most: with those of all others there is room in the table, which has 64.
MOST_NAMES = 7
# Requests of a client in a run, at most, and in a long one: that fills the queues of 64 lines, and the log twice.
MOST_REQUESTS, LONG_REQUESTS = 40, 160
# Of a hundred: long runs.
LONG = 5
MOMENTS = Moments(while_opening=8, opening=0.02, soon=0.004)

Names = Dict[str, str]


class Request(NamedTuple):
    """What is asked, what is replied (None: a list), and what the client's names are behind it."""

    text: str
    reply: Optional[str]
    names: Names


class Client:
    """What one client asked in this run, and how much of it was replied to."""

    def __init__(self, number: int, names: Names) -> None:
        self.number = number
        self.first = names
        self.asked: List[Request] = []
        self.replied = 0
        self._shown: List[str] = []

    def names(self, count: int) -> Names:
        """Its names behind so many of its requests."""
        return self.asked[count - 1].names if count else self.first

    def ask(self, chance: random.Random, serial: int) -> str:
        """Chooses the next request. No name is given twice."""
        names = dict(self.names(len(self.asked)))
        new = f"c{self.number}-{serial}"
        old = chance.choice(sorted(names)) if names else "nobody"
        attributes = f"{chance.getrandbits(4 * 31):x}"[: chance.randrange(1, 32)]
        known = old in names
        what = chance.choice(["create", "create", "rename", "remove", "find", "again", "list", "nonsense"])
        if what == "create" and len(names) >= MOST_NAMES:
            what = "remove"
        reply: Optional[str] = "refused NoName"
        if what == "create":
            text, reply = f"create {new} {attributes}", "created"
            names[new] = attributes
        elif what == "rename":
            text = f"rename {old} {new}"
            if known:
                reply = "renamed"
                names[new] = names.pop(old)
        elif what == "remove":
            text = f"remove {old}"
            if known:
                reply = "removed"
                del names[old]
        elif what == "again" and known:
            text, reply = f"create {old} {attributes}", "refused Exists"
        elif what in ("find", "again"):
            text = f"find {old}"
            if known:
                reply = f"attributes {names[old]}"
        elif what == "list":
            text, reply = "list", None
        else:
            text, reply = f"create {new} {attributes} more", "line K: not understood"
        self.asked.append(Request(text, reply, names))
        return text

    def hear(self, line: str) -> Optional[List[str]]:
        """Takes a line of a reply. Where it ends a list, the names that were listed."""
        if self.replied == len(self.asked):
            fail(f"client {self.number} asked nothing, and is told: {line}")
        request = self.asked[self.replied]
        if request.reply is not None:
            if re.sub("line [0-9]+:", "line K:", line) != request.reply:
                fail(f"client {self.number}: {request.text}: {line}, and not {request.reply}")
            self.replied += 1
            return None
        if line.startswith("name "):
            self._shown.append(line.split()[1])
            return None
        shown, self._shown = self._shown, []
        if line != f"listed {len(shown)}":
            fail(f"client {self.number}: a list ends so: {line}")
        self.replied += 1
        mine = {name for name in shown if owner(name) == self.number}
        if mine != set(request.names):
            fail(f"client {self.number}: listed {sorted(mine)}, and not {sorted(request.names)}")
        return shown


def owner(name: str) -> int:
    return int(name[1:].split("-")[0])


def of_each(names: Names) -> List[Names]:
    """The names of each client."""
    return [{name: names[name] for name in names if owner(name) == number} for number in range(CLIENTS)]


class Server:
    """A run of the server, and how clients reach it."""

    def __init__(self, program: str, folder: str, relay: Optional[str]) -> None:
        self._connections: List[socket.socket] = []
        self._selector = selectors.DefaultSelector()
        self._parts: Dict[int, bytes] = {}
        if relay is None:
            self._process = subprocess.Popen([program, folder], stdin=subprocess.PIPE, stdout=subprocess.PIPE)
            assert self._process.stdout is not None
            self._selector.register(self._process.stdout, selectors.EVENT_READ, None)
            return
        path = folder + ".socket"
        self._process = subprocess.Popen([relay, program, folder, path], stderr=subprocess.DEVNULL)
        for number in range(CLIENTS):
            connection = connect(path, self._process)
            self._connections.append(connection)
            self._selector.register(connection, selectors.EVENT_READ, number)

    def send(self, lines: List[Tuple[int, str]]) -> None:
        """Sends lines, each of a client."""
        if not self._connections:
            assert self._process.stdin is not None
            write(self._process.stdin.fileno(), "".join(f"{client} {text}\n" for client, text in lines))
            return
        for number, connection in enumerate(self._connections):
            write(connection.fileno(), "".join(f"{text}\n" for client, text in lines if client == number))

    def lines(self) -> Iterator[Tuple[int, str]]:
        """The lines that come, each with the client that is told, up to the end of all. A part of a line is none."""
        while self._selector.get_map():
            ready = self._selector.select(PATIENCE)
            if not ready:
                fail("nothing came for too long")
            for key, _ in ready:
                got = read(key.fd)
                if not got:
                    self._selector.unregister(key.fileobj)
                *whole, part = (self._parts.get(key.fd, b"") + got).split(b"\n")
                self._parts[key.fd] = part
                for line in whole:
                    text = line.decode()
                    if key.data is None:
                        number, _, text = text.partition(" ")
                        yield int(number), text
                    else:
                        yield key.data, text

    def kill(self) -> None:
        """Kills the server itself."""
        if not self._connections:
            self._process.kill()
            return
        for child in children(self._process):
            os.kill(child, signal.SIGKILL)

    def end_input(self) -> None:
        if self._process.stdin is not None:
            self._process.stdin.close()
        for connection in self._connections:
            connection.shutdown(socket.SHUT_WR)

    def wait(self) -> int:
        """Its status at its end. What is over sockets is ended here."""
        status = self._process.wait(PATIENCE)
        for end in (self._process.stdin, self._process.stdout, *self._connections):
            if end is not None:
                end.close()
        return status

    def terminate(self) -> None:
        self._process.terminate()


def connect(path: str, process: subprocess.Popen) -> socket.socket:
    """Connects to a socket that a process may still have to make."""
    limit = time.monotonic() + PATIENCE
    while time.monotonic() < limit and process.poll() is None:
        connection = socket.socket(socket.AF_UNIX)
        try:
            connection.connect(path)
            return connection
        except OSError:
            connection.close()
            time.sleep(0.001)
    fail("no connection")


def write(descriptor: int, text: str) -> None:
    """Writes all; what a server that is gone does not take is lost."""
    data = text.encode()
    try:
        while data:
            data = data[os.write(descriptor, data) :]
    except (BrokenPipeError, ConnectionResetError):
        pass


def read(descriptor: int) -> bytes:
    try:
        return os.read(descriptor, 1 << 16)
    except ConnectionResetError:
        return b""


def table(server: Server) -> Names:
    """All names with their attributes, each asked for when the one before is told."""
    replies = server.lines()

    def asked(text: str) -> str:
        server.send([(0, text)])
        return next(replies)[1]

    names = []
    line = asked("list")
    while line.startswith("name "):
        names.append(line.split()[1])
        line = next(replies)[1]
    if line != f"listed {len(names)}":
        fail(f"a list ends so: {line}")
    there = {}
    for name in names:
        what, _, attributes = asked(f"find {name}").partition(" ")
        if what != "attributes":
            fail(f"{name} is listed, and not found")
        there[name] = attributes
    return there


class Story:
    """The runs of the server, and what is known of its table."""

    def __init__(self, seed: int, program: str, folder: str, relay: Optional[str]) -> None:
        self.chance = random.Random(seed)
        self.start = lambda: Server(program, folder, relay)
        self.clients = [Client(number, {}) for number in range(CLIENTS)]
        self.shown: List[List[str]] = []
        self.serial = 0
        self.changes = self.after_replies = self.kept = self.lost = 0

    def hear(self, client: int, line: str) -> int:
        """Takes a line of a reply; how many replies are whole by it."""
        one = self.clients[client]
        before = one.replied
        shown = one.hear(line)
        if shown is not None:
            self.shown.append(shown)
        return one.replied - before

    def requests(self) -> List[Tuple[int, str]]:
        """Random requests of all clients, in a random order."""
        most = LONG_REQUESTS if self.chance.randrange(100) < LONG else MOST_REQUESTS
        order = [number for number in range(CLIENTS) for _ in range(self.chance.randrange(most))]
        self.chance.shuffle(order)
        lines = []
        for number in order:
            self.serial += 1
            lines.append((number, self.clients[number].ask(self.chance, self.serial)))
        return lines

    def check(self, server: Server) -> None:
        """The table is what it has to be behind the last run. A new run begins here."""
        there = of_each(table(server))
        final = []
        for client, names in zip(self.clients, there):
            count = client.replied
            if count < len(client.asked) and client.names(count + 1) != client.names(count):
                is_there = client.names(count + 1) == names
                self.kept += is_there
                self.lost += not is_there
                count += is_there
            if client.names(count) != names:
                wanted = client.names(count)
                fail(f"client {client.number} has {names}, and behind all that was replied to {wanted}")
            final.append(count)
        for shown in self.shown:
            for client, count in zip(self.clients, final):
                names = {name for name in shown if owner(name) == client.number}
                if all(set(client.names(at)) != names for at in range(count + 1)):
                    fail(f"a list showed of client {client.number} what is not there: {sorted(names)}")
        self.clients = [Client(number, names) for number, names in enumerate(there)]
        self.shown = []

    def acknowledged(self) -> int:
        """How many changes of this run were replied to."""
        return sum(
            client.names(at) != client.names(at + 1) for client in self.clients for at in range(client.replied)
        )

    def kill_one(self) -> None:
        server = self.start()
        replies = server.lines()

        def work() -> None:
            self.check(server)
            lines = self.requests()
            server.send(lines)
            left = self.chance.randrange(len(lines) + 1)
            while left > 0:
                left -= self.hear(*next(replies))

        worked = MOMENTS.kill(self.chance, work, server.kill)
        # It goes on with what was read already: a new one would lose the lines that came with the last that was heard.
        for client, line in replies:
            self.hear(client, line)
        server.wait()
        if worked:
            changes = self.acknowledged()
            self.changes += changes
            self.after_replies += changes > 0

    def end(self) -> None:
        """A run that is not killed, and the look at what it left."""
        server = self.start()
        self.check(server)
        lines = self.requests()
        server.send(lines)
        server.end_input()
        for client, line in server.lines():
            self.hear(client, line)
        server.terminate()
        server.wait()
        if any(client.replied < len(client.asked) for client in self.clients):
            fail("a request was not replied to")
        server = self.start()
        self.check(server)
        server.kill()
        server.wait()


def main(seed: int, kills: int, program: str, folder: str, relay: Optional[str] = None) -> None:
    begun = time.monotonic()
    story = Story(seed, program, folder, relay)
    for number in range(kills):
        try:
            story.kill_one()
        except StopIteration:
            fail(f"run {number}: it ended by itself")
    story.end()
    seconds = time.monotonic() - begun
    print(f"{kills} kills, {story.after_replies} of them behind changes that were replied to, {seconds:.0f} seconds")
    print(f"{story.changes} changes replied to, and each is there")
    print(f"of the changes that were under way {story.kept} are there, and {story.lost} are not")


if __name__ == "__main__":
    main(int(sys.argv[1]), int(sys.argv[2]), *sys.argv[3:])
