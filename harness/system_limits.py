"""`serve` where the system gives it little: few descriptors, and little memory, which an old transaction uses up.

With few descriptors, connections beyond them wait, and each is served soon after a descriptor is free, though no other client sends anything;
the server doesn't end and doesn't spin.

While a transaction is open, what the transactions that commit meanwhile have read is kept, and nothing bounds how many they are: this is outside the
memory bound of the other harness. The address space is bounded here, so that memory is refused: the connection that met it is closed, sessions that
need none are served, and soon after the old transaction has ended there is memory again.

Under a limit on the size of files SIGXFSZ ends the server at the commit that would pass it, and `create` on the way; where the signal is ignored,
the store stops, or `create` says so. Each commit that was answered is in the file, which is served again without the limit.

With a pipe that is full and that nobody reads, each line that `serve` writes to it waits: until the pipe is read nobody is served, a server that
would end doesn't, and no commit that was answered is lost. A pipe with room takes both lines though nobody reads it. Where the pipe is set not to
block, a refused first line ends the server, and `store stopped` is lost.
"""
import contextlib
import errno
import os
import resource
import select
import signal
import subprocess
import time

from ssikvd_harness.arguments import is_long, run_harness
from ssikvd_harness.cases import Harness
from ssikvd_harness.connection import Connection
from ssikvd_harness.deviations import expect
from ssikvd_harness.failing_calls import ALL, DEVICE, POLL, Refusals
from ssikvd_harness.frames import ABORT, BEGIN, COMMIT, OK, PING, PONG, frame, refusal
from ssikvd_harness.limits import KEY_MAX, MARKS_MAX
from ssikvd_harness.log_format import SECTOR
from ssikvd_harness.server import FILE_FAULT, STORE_STOPPED, Server, check, create, folder, free_port, run
from ssikvd_harness.settings import PATIENCE, PROGRAM

DESCRIPTORS, CONNECTIONS = 24, 40
WAIT = 0.5    # for how long nothing comes that must not come
MIB = 1 << 20


def with_limit(kind, amount):
    return lambda: resource.setrlimit(kind, (amount, amount))


# Descriptors

def served(clients, count):
    """Those of the clients, each of which has asked once, that are served: so many are expected, and no more."""
    found = []
    while ready := select.select([c.socket for c in clients if c not in found], [], [], PATIENCE if len(found) < count else WAIT)[0]:
        found += [client for client in clients if client.socket in ready]
    for client in found:
        expect(client.reply() == PONG, "a connection that waited was closed")
    return found


def asking(server):
    client = Connection(server.port)
    client.send(PING)
    return client


def spent_while_waiting(server):
    """The CPU time that the server takes for a second in which nothing comes."""
    before = server.processor_seconds()
    time.sleep(1.0)
    spent = server.processor_seconds() - before
    expect(spent < 0.1, f"it spent {spent:.2f} seconds of a second in which nothing came")
    return spent


def soon_served(clients):
    """The first of the clients to be served, none of which sends anything more, and after how many seconds."""
    began = time.monotonic()
    ready, _, _ = select.select([client.socket for client in clients], [], [], PATIENCE)
    expect(ready, "no connection that waits is served")
    seconds = time.monotonic() - began
    found = [client for client in clients if client.socket in ready]
    expect(all(client.reply() == PONG for client in found), "a connection that waited was closed")
    return found, seconds


def one_after_another(waiting, open_clients):
    """Open connections close, one at a time, and each lets in one that waits; the longest that one of these waited."""
    longest = 0.0
    while waiting:
        open_clients.pop(0).close()
        found, seconds = soon_served(waiting)
        expect(len(found) == 1, f"after one had closed {len(found)} more are served")
        waiting.remove(found[0])
        open_clients.append(found[0])
        longest = max(longest, seconds)
    return longest


def few_descriptors(server):
    with asking(server) as client:
        expect(client.reply() == PONG, "a client is not served")
        free = DESCRIPTORS - server.descriptors() + 1
    clients = [asking(server) for _ in range(CONNECTIONS)]
    first = served(clients, free)
    expect(len(first) == free, f"{len(first)} of {CONNECTIONS} connections are served, expected {free}")
    spent = spent_while_waiting(server)
    waiting = [client for client in clients if client not in first]
    longest = one_after_another(waiting, list(first))
    for client in clients:
        client.close()
    _, fresh = soon_served([asking(server)])
    return (f"{len(first)} of {CONNECTIONS} served at once, {spent:.2f} seconds of CPU time in a second in which nothing came; "
            f"each time one had closed, one more was served within {longest:.3f} seconds; after all had closed, a new one within {fresh:.3f}")


# An old transaction

def marking_transaction(number):
    """A transaction that marks all it may, and commits."""
    bounds = [b"%08d.%03d" % (number, i) + b"l" * (KEY_MAX - 12) for i in range(MARKS_MAX)]
    return BEGIN + b"".join(frame("RANGE", lo, lo[:-1] + b"m", "1") for lo in bounds) + COMMIT


def commits(client, number):
    """Was it committed? False where the connection was closed."""
    client.send(marking_transaction(number))
    replies = [client.reply() for _ in range(MARKS_MAX + 2)]
    if None in replies:
        return False
    expect(replies[:-1] == [OK] + [b"*0\r\n"] * MARKS_MAX and replies[-1][:1] == b":", f"a commit was answered {replies[-1]!r}")
    return True


def memory_is_back(server):
    """After how many seconds a transaction commits that marks all it may; the connection of one that is refused memory is closed."""
    began = time.monotonic()
    while time.monotonic() < began + PATIENCE:
        with Connection(server.port) as client:
            if commits(client, 0):
                return time.monotonic() - began
        time.sleep(0.01)
    expect(False, f"there is no memory {PATIENCE} seconds after the old transaction has ended")


def old_transaction(server):
    old, other, reader = (Connection(server.port) for _ in range(3))
    expect(old.ask(BEGIN) == OK and old.ask(frame("GET", "a")) == b"$-1\r\n", "no transaction")
    at_first = server.memory("VmRSS")
    number = 0
    while commits(other, number):
        number += 1
        expect(number < 100_000, "memory was never refused")
    each = (server.memory("VmRSS") - at_first) // max(number, 1)
    expect(server.is_alive(), f"the server ended: {server.error_text()!r}")
    expect(old.ask(frame("GET", "a")) == b"$-1\r\n" and reader.ask(PING) == PONG, "a session that needs no memory is not served")
    expect(old.ask(ABORT) == OK, "the old transaction doesn't end")
    seconds = memory_is_back(server)
    with Connection(server.port) as fresh:
        for again in range(20):
            expect(commits(fresh, again), "memory is refused again after the old transaction has ended")
    for client in (old, other, reader):
        client.close()
    return f"{number} commits meanwhile, {each:,} bytes each, until memory was refused; after its end a commit again within {seconds:.3f} seconds"


def scene(tally, place, name, play, limit):
    """A server of its own under a limit of the system."""
    data = os.path.join(place, name)
    create(data, 4_096)
    with tally.run(name), Server(data, limit=limit) as server:
        expect(server.is_listening(), f"no server: {server.error_text()!r}")
        print(f"  {name}: {play(server)}", flush=True)
        expect(server.is_alive() and server.error_text() == b"", f"it ended, or wrote {server.error_text()!r}")


# A limit on the size of files

LIMITED, WHOLE = 64, 256    # sectors


def with_file_limit(is_ignored):
    """A limit on the size of files, with the signal of it ignored or not."""
    def change():
        signal.signal(signal.SIGXFSZ, signal.SIG_IGN if is_ignored else signal.SIG_DFL)
        resource.setrlimit(resource.RLIMIT_FSIZE, (SECTOR * LIMITED, SECTOR * LIMITED))

    return change


def commit_one(client, number):
    """The reply to a COMMIT of one key; None where the connection was closed."""
    client.send(BEGIN + frame("SET", "%04d" % number, "v" * 600) + COMMIT)
    return [client.reply() for _ in range(3)][-1]


def commits_until_refused(client):
    """How many commits are answered, and what the next one is."""
    for number in range(1, LIMITED):
        reply = commit_one(client, number)
        if reply != b":%d\r\n" % number:
            return number - 1, reply
    expect(False, f"{LIMITED} commits pass a limit of {LIMITED} sectors")


def file_limit_of_serve(place, is_ignored):
    data = os.path.join(place, "data")
    create(data, WHOLE)
    with Server(data, limit=with_file_limit(is_ignored)) as server:
        with Connection(server.port) as client:
            count, reply = commits_until_refused(client)
            expect(reply == (refusal("STORE fault") if is_ignored else None), f"the commit that passes the limit was answered {reply!r}")
            expect(not is_ignored or client.ask(PING) == PONG, "a stopped store answers no PING")
        if not is_ignored:
            expect(server.status() == -signal.SIGXFSZ, f"it ended with {server.status()}")
        expect(server.error_text() == (STORE_STOPPED if is_ignored else b""), f"it wrote {server.error_text()!r}")
    expect(check(data)[:2] == (count, count), f"of {count} commits check finds {check(data)}")
    with Server(data) as server, Connection(server.port) as client:
        expect(commit_one(client, count + 1) == b":1\r\n", "the file isn't served on without the limit")
    expect(check(data)[:2] == (count + 1, count + 1), f"of {count + 1} commits check finds {check(data)}")


def file_limit_of_create(place, is_ignored):
    data = os.path.join(place, "data")
    words = [PROGRAM, "create", "--data", data, "--sectors", str(WHOLE)]
    ran = subprocess.run(words, capture_output=True, timeout=PATIENCE, preexec_fn=with_file_limit(is_ignored), check=False)
    due = (3, FILE_FAULT) if is_ignored else (-signal.SIGXFSZ, b"")
    expect((ran.returncode, ran.stderr) == due, f"create ended with {ran.returncode} {ran.stderr!r}")
    expect(os.path.exists(data) != is_ignored, f"it left {os.listdir(place)}")
    if not is_ignored:
        found = run(["check", "--data", data])
        expect(found == (3, b"", b"ssikvd: not a log\n"), f"check of what it left answered {found}")


# A full pipe



class Pipe:
    """A pipe, filled or not, which nobody reads until it is asked to."""

    def __init__(self, is_full):
        self.end, self.start = os.pipe()
        os.set_blocking(self.end, False)
        os.set_blocking(self.start, False)
        self.filled = sum(iter(self._fill, 0)) if is_full else 0
        os.set_blocking(self.start, True)

    def _fill(self):
        try:
            return os.write(self.start, bytes(4_096))
        except BlockingIOError:
            return 0

    def line(self):
        """What was written behind the filling, once it is all read and as long as nothing more comes."""
        came, end = b"", time.monotonic() + PATIENCE
        while len(came) <= self.filled and time.monotonic() < end or select.select([self.end], [], [], WAIT / 5)[0]:
            with contextlib.suppress(BlockingIOError):
                came += os.read(self.end, 1 << 16)
        return came[self.filled:]

    def close(self):
        os.close(self.end)
        os.close(self.start)


class Piped:
    """A server, of which one standard stream is a pipe and the other goes nowhere."""

    def __init__(self, place, stream, is_full=True, is_blocking=True):
        self.data, self.port, self.refusals, self.pipe = os.path.join(place, "data"), free_port(), Refusals(place), Pipe(is_full)
        create(self.data, 512)
        os.set_blocking(self.pipe.start, is_blocking)
        words = [PROGRAM, "serve", "--data", self.data, "--listen", f"127.0.0.1:{self.port}"]
        both = {"stdout": subprocess.DEVNULL, "stderr": subprocess.DEVNULL, stream: self.pipe.start}
        self.process = subprocess.Popen(words, stdin=subprocess.DEVNULL, env=self.refusals.environment(), **both)

    def connected(self):
        """A connection, for which it may have to be waited until the port is there."""
        end = time.monotonic() + PATIENCE
        while True:
            try:
                return Connection(self.port)
            except ConnectionRefusedError:
                expect(time.monotonic() < end and self.process.poll() is None, f"the port isn't there; status {self.process.poll()}")
                time.sleep(0.01)

    @staticmethod
    def is_served(client, seconds=PATIENCE):
        """Is a PING answered in this time?"""
        client.send(PING)
        return bool(select.select([client.socket], [], [], seconds)[0]) and client.reply() == PONG

    def stop_the_store(self, client):
        """A commit, and one in which the data file fails."""
        for number, due in enumerate((b":1\r\n", refusal("STORE fault"))):
            if number:
                self.refusals.of(DEVICE).fail(self.refusals.of(DEVICE).made + 1, ALL, errno.EIO)
            replies = [client.ask(request) for request in (BEGIN, frame("SET", "a", str(number)), COMMIT)]
            expect(replies == [OK, OK, due], f"a commit was answered {replies}")

    def __enter__(self):
        return self

    def __exit__(self, *_):
        self.process.kill()
        self.process.wait()
        self.pipe.close()


def expect_line(server, due):
    line = server.pipe.line()
    expect(line == due, f"behind the filling of the pipe came {line!r}")


def full_output(place):
    """The port is there, and nobody is served until the first line is taken."""
    with Piped(place, "stdout") as server, server.connected() as client:
        expect(not server.is_served(client, WAIT), "a client is served though the first line has no room")
        expect_line(server, b"listening 127.0.0.1:%d\n" % server.port)
        expect(client.reply() == PONG and server.is_served(client), "nobody is served though the line was taken")


def full_errors_of_a_stopped_store(place):
    """The COMMIT that met the fault is answered; then nobody is served until the line is taken."""
    with Piped(place, "stderr") as server, server.connected() as client:
        server.stop_the_store(client)
        expect(not server.is_served(client, WAIT), "a client is served though the line has no room")
        expect_line(server, STORE_STOPPED)
        expect(client.reply() == PONG and client.ask(BEGIN) == refusal("STORE stopped"), "nobody is served though the line was taken")
    expect(check(server.data)[0] == 1, "the commit that was answered is not there")


def full_errors_of_an_end(place):
    """A server that has met a fault of the poll ends once its line is taken."""
    with Piped(place, "stderr") as server, server.connected() as client:
        expect(server.is_served(client), "a client is not served")
        server.refusals.of(POLL).fail(server.refusals.of(POLL).made + 1, ALL, errno.EBADF)
        client.send(PING)
        time.sleep(WAIT)
        expect(server.process.poll() is None, "it ended though its line has no room")
        expect_line(server, b"ssikvd: poll fault\n")
        expect(server.process.wait(PATIENCE) == 3, f"it ended with {server.process.returncode}")


def pipe_with_room(place):
    """Nobody reads, and all are served, also after the store has stopped."""
    for stream, line in (("stdout", b"listening 127.0.0.1:%d\n"), ("stderr", STORE_STOPPED)):
        with folder() as own, Piped(own, stream, is_full=False) as server, server.connected() as client:
            server.stop_the_store(client)
            expect(server.is_served(client), "a client is not served")
            expect_line(server, line % server.port if b"%d" in line else line)


def pipe_that_does_not_block(place):
    """The first line, refused, is a fault of the output; `store stopped` is lost, and all are served."""
    with Piped(place, "stdout", is_blocking=False) as server:
        expect(server.process.wait(PATIENCE) == 3, f"it ended with {server.process.returncode}")
    with folder() as own, Piped(own, "stderr", is_blocking=False) as server, server.connected() as client:
        server.stop_the_store(client)
        expect(server.is_served(client) and client.ask(BEGIN) == refusal("STORE stopped"), "a client is not served")


PIPES = (full_output, full_errors_of_a_stopped_store, full_errors_of_an_end, pipe_with_room, pipe_that_does_not_block)


class SystemLimits(Harness):
    NAME = "limits of the system"

    def test_of_serve(self):
        with folder() as place:
            scene(self.tally, place, "few descriptors", few_descriptors, with_limit(resource.RLIMIT_NOFILE, DESCRIPTORS))
            memory = (256 if is_long() else 64) * MIB
            scene(self.tally, place, "an old transaction", old_transaction, with_limit(resource.RLIMIT_AS, memory))

    def test_of_files(self):
        for play in (file_limit_of_serve, file_limit_of_create):
            for is_ignored in (False, True):
                with folder() as place, self.tally.run(
                        f"{play.__name__.replace('_', ' ')}, the signal {'ignored' if is_ignored else 'as it is'}"):
                    play(place, is_ignored)

    def test_pipes(self):
        for play in PIPES:
            with folder() as place, self.tally.run(play.__name__.replace("_", " ")):
                play(place)


if __name__ == "__main__":
    run_harness()
