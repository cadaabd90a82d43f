#!/usr/bin/env python3
"""A store in a process beside this one: the lines of a script and their replies, over two pipes.

This is the border for a program that is not to be trusted with the store's memory, and for a
language that cannot call a library of C. Whoever can has it simpler and faster by the package
lcrvm. The lines and the replies are in docs/FORMATS.md.

usage: examples/coprocess.py FOLDER [PROGRAM]     (PROGRAM: lcrvm, as the path has it)
"""
import os
import subprocess
import sys

LAST_REPLIES = ("device fault", "script too long", "refused NoMemory")


class Refused(Exception):
    """The store refused a line. Nothing has changed, and the next line may come."""


class Ended(Exception):
    """The program has ended. What was flushed is there when it is started again."""


class Coprocess:
    """A run of the program on the store in a folder, which it recovers first."""

    def __init__(self, folder, program="lcrvm"):
        command = [program, "run", "--follow", "--store", folder, "--as-found"]
        self.over = False
        self.process = subprocess.Popen(command, stdin=subprocess.PIPE, stdout=subprocess.PIPE,
                                        stderr=subprocess.PIPE)
        try:
            self.ask("flush", 0)  # its reply says that the store is open
        except Refused as refused:
            raise self.end(str(refused)) from None

    def ask(self, *words):
        """Sends one line, waits for its reply, and hands out the reply's words."""
        if self.over:
            raise Ended("the run is over")
        self.over = True  # so it stays where an exception comes before the reply
        line = " ".join(map(str, words)) + "\n"
        try:
            self.process.stdin.write(line.encode("ascii"))
            self.process.stdin.flush()
        except BrokenPipeError:
            pass  # what the program said last can still be read
        reply = self.process.stdout.readline().decode("ascii")
        text = reply.rstrip("\n")
        if reply == text or text in LAST_REPLIES or text.endswith(": not understood"):
            raise self.end(text)
        self.over = False
        if text.startswith("refused "):
            raise Refused(text)
        return text.split(" ")

    def end(self, text=""):
        """Ends the run, and says how it ended. A commit that was not flushed may be lost."""
        self.over = True
        said = self.process.communicate()[1].decode(errors="replace").strip()
        status = "status %d" % self.process.returncode
        return Ended("; ".join(part for part in (text, said, status) if part))

    def transaction(self, locks, *lines):
        """These lines of one transaction of node 0 and thread 0; hands out the last reply."""
        self.ask("begin", 0, 0, locks)
        try:
            return [self.ask(line[0], 0, 0, *line[1:]) for line in lines][-1]
        except Refused:
            self.ask("abort", 0, 0)
            raise

    def put(self, segment, offset, data):
        """Changes these bytes and makes them stable; a log that is full is emptied first."""
        place = segment, offset
        lines = ("range", *place, len(data)), ("write", *place, data.hex()), ("end",)
        try:
            reply = self.transaction(segment, *lines)
        except Refused as refused:
            if not str(refused).startswith("refused Full "):
                raise
            self.ask("truncate", 0)
            reply = self.transaction(segment, *lines)
        self.ask("flush", 0)
        return reply

    def get(self, segment, offset, length):
        reply = self.transaction("r%d" % segment, ("read", segment, offset, length))
        self.ask("abort", 0, 0)
        return bytes.fromhex(reply[1])


def main(folder, program="lcrvm"):
    if not os.path.exists(os.path.join(folder, "lcrvm.store")):
        os.makedirs(folder, exist_ok=True)
        subprocess.run([program, "init", folder], check=True)
    store = Coprocess(folder, program)
    print("put:", *store.put(1, 3, b"hello"))
    for offset in (254, 3):
        try:
            store.put(1, offset, b"HELLO")
        except (Refused, Ended) as reason:
            print(type(reason).__name__, reason, sep=": ")
        store.process.kill()
    store = Coprocess(folder, program)
    print("get:", store.get(1, 3, 5).decode())
    store.end()


if __name__ == "__main__":
    main(*sys.argv[1:])
