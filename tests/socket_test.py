#!/usr/bin/env python3
"""Tries examples/socket.c before the server `names`; tests/socket.sh starts it.

usage: tests/socket_test.py SOCKET_PROGRAM NAMES FOLDER

FOLDER has a new store of the size that `names --help` says.
"""
from __future__ import annotations

import os
import signal
import socket
import subprocess
import sys
import time
import unittest
from typing import List

CLIENTS = 8
PATIENCE = 30.0
SHORT = 0.3


class Connection:
    """A client of the socket."""

    def __init__(self, path: str) -> None:
        self.socket = socket.socket(socket.AF_UNIX)
        try:
            self.socket.connect(path)
        except OSError:
            self.socket.close()
            raise
        self.socket.settimeout(PATIENCE)
        self._reader = self.socket.makefile("r", newline="\n")

    def send(self, text: str) -> None:
        self.socket.sendall(text.encode())

    def line(self) -> str:
        """The next line; empty at the end."""
        return self._reader.readline()

    def ask(self, text: str) -> str:
        self.send(text + "\n")
        return self.line().rstrip("\n")

    def says_nothing(self) -> bool:
        self.socket.settimeout(SHORT)
        try:
            self.socket.recv(1, socket.MSG_PEEK)
            return False
        except socket.timeout:
            return True
        finally:
            self.socket.settimeout(PATIENCE)

    def close(self) -> None:
        self._reader.close()
        self.socket.close()


class SocketTest(unittest.TestCase):
    program, names, folder = "", "", ""

    def setUp(self) -> None:
        self.path = self.folder + ".socket"
        self.connections: List[Connection] = []
        self.start()

    def tearDown(self) -> None:
        for connection in self.connections:
            connection.close()
        if self.process.poll() is None:
            self.process.terminate()
        self.process.wait(PATIENCE)

    def start(self) -> None:
        self.process = subprocess.Popen([self.program, self.names, self.folder, self.path])
        limit = time.monotonic() + PATIENCE
        while time.monotonic() < limit:
            try:
                Connection(self.path).close()
                return
            except OSError:
                time.sleep(0.01)
        self.fail("nobody listens")

    def connect(self) -> Connection:
        connection = Connection(self.path)
        self.connections.append(connection)
        return connection

    def server(self) -> int:
        with open(f"/proc/{self.process.pid}/task/{self.process.pid}/children") as children:
            return int(children.read().split()[0])

    def test_replies(self) -> None:
        one, other = self.connect(), self.connect()
        self.assertEqual(one.ask("create alpha first"), "created")
        self.assertEqual(other.ask("find alpha"), "attributes first")
        self.assertEqual(other.ask("list"), "name alpha")
        self.assertEqual(other.line(), "listed 1\n")
        self.assertIn("not understood", one.ask("nonsense"))
        self.assertIn("not understood", one.ask(""))
        self.assertIn("not understood", one.ask("x" * 100_000))
        self.assertEqual(one.ask("remove alpha"), "removed")

    def test_a_client_that_sends_no_more_gets_its_replies(self) -> None:
        one = self.connect()
        one.send("create beta\nfind beta\nremove beta\nremove be")
        one.socket.shutdown(socket.SHUT_WR)
        self.assertEqual([one.line() for _ in range(4)], ["created\n", "attributes \n", "removed\n", ""])

    def test_a_ninth_waits(self) -> None:
        eight = [self.connect() for _ in range(CLIENTS)]
        for connection in eight:
            self.assertEqual(connection.ask("find nobody"), "refused NoName")
        ninth = self.connect()
        ninth.send("find nobody\n")
        self.assertTrue(ninth.says_nothing())
        eight[3].close()
        self.assertEqual(ninth.line(), "refused NoName\n")

    def test_clients_that_go_away(self) -> None:
        for _ in range(100):
            connection = Connection(self.path)
            connection.send("create gone\nlist\nremove gone\nlist\nfind go")
            connection.close()
        one = self.connect()
        self.assertEqual(one.ask("find nobody"), "refused NoName")

    def test_a_client_that_reads_nothing(self) -> None:
        slow, other = self.connect(), self.connect()
        for number in range(32):
            self.assertEqual(other.ask(f"create slow-{number} {'x' * 31}"), "created")
        slow.socket.settimeout(SHORT)
        sent = 0
        try:
            while True:
                sent += slow.socket.send(b"list\n")
        except socket.timeout:
            pass
        self.assertEqual(other.ask("find nobody"), "refused NoName")
        slow.socket.settimeout(PATIENCE)
        slow.socket.shutdown(socket.SHUT_WR)
        count = 0
        while True:
            line = slow.line()
            if not line:
                break
            count += line == "listed 32\n"
        self.assertEqual(count, sent // len("list\n"))
        for number in range(32):
            self.assertEqual(other.ask(f"remove slow-{number}"), "removed")

    def test_a_signal(self) -> None:
        one = self.connect()
        self.assertEqual(one.ask("find nobody"), "refused NoName")
        self.process.send_signal(signal.SIGTERM)
        self.assertEqual(self.process.wait(PATIENCE), 0)
        self.assertEqual(one.line(), "")
        self.assertFalse(os.path.exists(self.path))

    def test_a_killed_server(self) -> None:
        one = self.connect()
        self.assertEqual(one.ask("find nobody"), "refused NoName")
        os.kill(self.server(), signal.SIGKILL)
        self.assertEqual(self.process.wait(PATIENCE), 1)
        self.assertEqual(one.line(), "")

    def test_a_socket_that_is_left(self) -> None:
        server = self.server()
        self.process.kill()
        self.process.wait(PATIENCE)
        self.assertTrue(os.path.exists(self.path))
        # Its server finds the end of its input.
        limit = time.monotonic() + PATIENCE
        while os.path.exists(f"/proc/{server}") and time.monotonic() < limit:
            time.sleep(0.01)
        self.start()
        self.assertEqual(self.connect().ask("find nobody"), "refused NoName")

    def test_a_socket_in_use(self) -> None:
        second = [self.program, self.names, self.folder, self.path]
        self.assertEqual(subprocess.run(second, stderr=subprocess.DEVNULL, timeout=PATIENCE).returncode, 1)
        self.assertEqual(self.connect().ask("find nobody"), "refused NoName")

    def test_a_file_in_the_place_of_the_socket(self) -> None:
        with open("file", "w") as file:
            file.write("text")
        words = [self.program, self.names, self.folder, "file"]
        self.assertEqual(subprocess.run(words, stderr=subprocess.DEVNULL, timeout=PATIENCE).returncode, 1)
        with open("file") as file:
            self.assertEqual(file.read(), "text")

    def test_wrong_arguments(self) -> None:
        words = [self.program, self.names]
        self.assertEqual(subprocess.run(words, stderr=subprocess.DEVNULL, timeout=PATIENCE).returncode, 2)


if __name__ == "__main__":
    SocketTest.program, SocketTest.names, SocketTest.folder = sys.argv[1:4]
    unittest.main(argv=sys.argv[:1])
