"""Stores of many keys in random order, made without a server, and a client that sends much at once and waits for it."""

import os
import shutil
import socket
import tempfile
import time

from servers import Failure, Listening, Ssikvd, connect
from ssikvd_harness.frames import BEGIN, COMMIT, frame
from ssikvd_harness.log_format import SECTOR, write_log

KEY_BYTES, VALUE_BYTES, COMMIT_WRITES = 16, 100, 64


def scattered(number):
    """The key of this number: numbers that rise give keys in random order."""
    return b"%016x" % (number * 0x9E3779B97F4A7C15 % (1 << 64))


def before_all(number):
    """The key of this number, below every scattered one: numbers that rise give keys that fall."""
    return b"!%015d" % (10**14 - number)


def value_of(key):
    return key.ljust(VALUE_BYTES, b"x")


def sets(keys):
    return b"".join(frame(b"SET", key, value_of(key)) for key in keys)


class Client:
    """A session of the server."""

    def __init__(self, address):
        self.socket = connect(address, 300)
        self.socket.setsockopt(socket.IPPROTO_TCP, socket.TCP_NODELAY, 1)
        self.buffer = b""

    def line(self):
        while b"\r\n" not in self.buffer:
            self.more()
        line, self.buffer = self.buffer.split(b"\r\n", 1)
        return line

    def more(self):
        received = self.socket.recv(1 << 20)
        if not received:
            raise Failure("the server closed the connection")
        self.buffer += received

    def reply(self):
        """One whole reply: bytes, None, or a list of them."""
        line = self.line()
        kind, rest = line[:1], line[1:]
        if kind == b"-":
            raise Failure(f"refused: {rest.decode()}")
        if kind == b"*":
            return [self.reply() for _ in range(int(rest))]
        if kind != b"$":
            return rest
        if rest == b"-1":
            return None
        while len(self.buffer) < int(rest) + 2:
            self.more()
        value, self.buffer = self.buffer[: int(rest)], self.buffer[int(rest) + 2 :]
        return value

    def ask(self, request):
        self.socket.sendall(request)
        return self.reply()

    def ask_lines(self, requests, lines):
        """Sends requests at once whose replies have so many lines in all, and waits for these."""
        self.socket.sendall(requests)
        while True:
            lines -= self.buffer.count(b"\r\n")
            if b"-" in self.buffer and (self.buffer.startswith(b"-") or b"\n-" in self.buffer):
                raise Failure(f"refused: {self.buffer[:200]!r}")
            if lines < 0:
                raise Failure(f"{-lines} lines more than expected")
            if not lines:
                break
            # What ends between the two bytes of a line's end waits for the second.
            self.buffer = b"\r" if self.buffer.endswith(b"\r") else b""
            self.more()
        self.buffer = b""

    def timed(self, request):
        """Seconds until the reply to one request."""
        begun = time.perf_counter()
        self.ask(request)
        return time.perf_counter() - begun

    def commit(self, keys):
        """A whole transaction that sets these keys, pipelined but for its COMMIT, whose seconds it gives."""
        self.ask_lines(BEGIN + sets(keys), 1 + len(keys))
        return self.timed(COMMIT)


class Store(Ssikvd):
    """A server over a data file of so many scattered keys."""

    def __init__(self, options, keys, commits, environment=None):
        self.folder = tempfile.mkdtemp(prefix="ssikvd-store-", dir=options.folder)
        self.data = os.path.join(self.folder, "data")
        self.keys = keys
        words = [options.program, "serve", "--data", self.data, "--listen", "127.0.0.1:0"]
        try:
            write_log(self.data, records(keys), free_sectors=commits * sectors_of(COMMIT_WRITES) + 64)
            self.begun = time.perf_counter()
            Listening.__init__(self, words, env=environment)
            self.opened = time.perf_counter() - self.begun
        except BaseException:
            shutil.rmtree(self.folder)
            raise

    def processor_seconds(self):
        """The CPU time of the server, by the scheduler's own count."""
        with open(f"/proc/{self.process.pid}/schedstat") as stat:
            return int(stat.read().split()[0]) / 1e9


def sectors_of(writes):
    """The sectors of a record of so many writes, with its gate."""
    return 2 + (48 + writes * (7 + KEY_BYTES + VALUE_BYTES)) // SECTOR


def records(keys):
    """The records of a log of so many scattered keys."""
    for start in range(0, keys, COMMIT_WRITES):
        yield sorted((key, value_of(key)) for key in map(scattered, range(start, min(keys, start + COMMIT_WRITES))))


def map_keys(key_of, start, count=COMMIT_WRITES):
    return [key_of(number) for number in range(start, start + count)]


def parts_of(pairs):
    """The pairs as those of commits of 64."""
    return (pairs[at:at + COMMIT_WRITES] for at in range(0, len(pairs), COMMIT_WRITES))


def small_commits(commits, keys, value_bytes):
    """So many commits, each of one key."""
    keys_in_turn = (b"k%08d" % (index * 7919 % keys) for index in range(commits))
    return ([(key, key.ljust(value_bytes, b"x"))] for key in keys_in_turn)
