"""One call of `serve` fails, while the worked examples run over its connections.

A server is started with its n-th call of one kind failing, n = 1, 2, 3 .. until a run meets no failure: memory, the device (reads, writes
and syncs of the data file), reads and writes of sockets, accepts. Some calls move one byte in place of failing. Before it listens, memory
and the device may end it with status 3. From then on it goes on, and

- the connection that met a refusal of memory is closed, which aborts its transaction; so is, each time, the one whose socket failed, was
  interrupted, or moved nothing;
- the COMMIT in which the device failed is answered `-STORE fault`, and later ones `-STORE stopped`;
- each other reply is the model's; a new session is served; and the data file is byte for byte the log of the commits that
  were answered a number or, after a fault of the device, opens with them and at most the one more.

`quick` takes every seventh n, and each n of the device and of accepts.
"""
import errno
import os
import select
from dataclasses import dataclass

from ssikvd_harness.arguments import is_long, run_harness
from ssikvd_harness.cases import Harness
from ssikvd_harness.connection import Connection
from ssikvd_harness.deviations import expect
from ssikvd_harness.failing_calls import ACCEPT, ALL, DEVICE, MEMORY, NOTHING, RECEIVE, SEND, Refusals
from ssikvd_harness.frames import PONG, frame
from ssikvd_harness.log_format import apply, log_image
from ssikvd_harness.model import Store
from ssikvd_harness.rows import ROWS, request_of
from ssikvd_harness.server import DEVICE_FAULT, FILE_FAULT, OUT_OF_MEMORY, STORE_STOPPED, Server, check, create, folder
from ssikvd_harness.settings import PATIENCE

SECTORS = 512
STEP_OF_QUICK = 7
CALLS_MAX, ERRORS_MAX = 10_000, 10


@dataclass(frozen=True)
class Failure:
    """Calls of a kind that fail with an error, or move one byte where it is 0: the n-th alone, or all from it on."""

    name: str
    kind: int
    error: int
    is_lasting: bool = False

    def stops_the_store(self):
        return self.kind == DEVICE and self.error == errno.EIO

    def closes(self):
        """Is the connection of such a call closed?"""
        return self.kind in (RECEIVE, SEND) and self.error != 0

    def step(self):
        return 1 if is_long() or self.kind in (DEVICE, ACCEPT) else STEP_OF_QUICK


FAILURES = (
    Failure("the n-th allocation refused", MEMORY, errno.ENOMEM),
    Failure("the n-th and all later allocations refused", MEMORY, errno.ENOMEM, True),
    Failure("the n-th call of the device failing", DEVICE, errno.EIO),
    Failure("the n-th call of the device moving one byte, which is made up for", DEVICE, 0),
    Failure("the n-th call of the device interrupted, which is made up for", DEVICE, errno.EINTR),
    Failure("the n-th read of a socket failing", RECEIVE, errno.ECONNRESET),
    Failure("the n-th read of a socket moving one byte", RECEIVE, 0),
    Failure("the n-th read of a socket interrupted", RECEIVE, errno.EINTR),
    Failure("the n-th read of a socket giving none", RECEIVE, NOTHING),
    Failure("the n-th write of a socket failing", SEND, errno.EPIPE),
    Failure("the n-th write of a socket interrupted", SEND, errno.EINTR),
    Failure("the n-th write of a socket taking none", SEND, NOTHING),
    Failure("the n-th write of a socket moving one byte", SEND, 0),
    Failure("the n-th accept failing", ACCEPT, errno.ECONNABORTED),
)


class Counts:
    """How the runs ended."""

    def __init__(self):
        self.before, self.closed, self.stopped, self.went_on = 0, 0, 0, 0

    def text(self):
        return (f"{self.before} ended before listening, {self.closed} connections closed, {self.stopped} stores stopped, "
                f"{self.went_on} went on")


class Clients:
    """The connections of an example, by label, with the model of what they are answered."""

    def __init__(self, server, failure, calls):
        self.server, self.failure, self.calls, self.store = server, failure, calls, Store(SECTORS)
        self.connections, self.closed, self.failed_before = {}, 0, 0

    def _was_closed(self, label):
        """A connection was closed, which only a call that failed since the reply before explains."""
        expect(self.failure.kind in (MEMORY, RECEIVE, SEND) and self.failure.error, f"{label}: closed")
        expect(self.calls.failed > self.failed_before, f"{label}: closed without a failure")
        self.closed += 1
        self.store.leave(label)
        self.connections[label].close()
        self.connections[label] = None

    def ask(self, label, parts):
        """The server's reply is the model's, or the connection was closed."""
        reply = self.connections[label].ask(frame(*parts))
        expect(self.server.is_alive(), f"the server ended with {self.server.process.returncode}: {self.server.error_text()!r}")
        has_failed = self.calls.failed > self.failed_before
        is_executed = reply is not None or self.failure.kind == SEND
        due = self.store.request(label, parts, has_failed and self.failure.stops_the_store()) if is_executed else None
        if reply is None:
            self._was_closed(label)
        else:
            expect(reply == due, f"{label} {b' '.join(parts)!r}: {reply!r}, expected {due!r}")
        if reply is None or self.failure.kind != RECEIVE:  # a read may also have failed behind the reply
            self.failed_before = self.calls.failed

    def _is_let_in(self, label):
        """A connection whose accept failed is let in, though no other client comes."""
        connection = self.connections[label]
        connection.send(frame("PING"))
        expect(select.select([connection.socket], [], [], PATIENCE)[0], f"{label} is not let in")
        expect(connection.reply() == PONG, f"{label} is not served")

    def play(self, line):
        """One line of an example. Those of a closed connection are passed over."""
        label, parts = request_of(line)
        if label not in self.connections:
            self.connections[label] = Connection(self.server.port)
            if self.failure.kind == ACCEPT:
                self._is_let_in(label)
            self.ask(label, [b"PING"])
        if self.connections[label]:
            self.ask(label, parts)

    def probe(self):
        """With all calls passed on, the open sessions and a new one are served, and the new one finds the model's map."""
        for label in [label for label, connection in self.connections.items() if connection]:
            self.ask(label, [b"PING"])
        self.connections["new"] = Connection(self.server.port)
        for parts in ([b"BEGIN"], [b"RANGE", b"a", b"", b"128"], [b"COMMIT"]):
            self.ask("new", parts)

    def close(self):
        for connection in self.connections.values():
            if connection:
                connection.close()


def expect_ended(server, calls, failure, n):
    """It ended before it listened, as memory and the device allow. The first call of the device is the sync of the file's directory."""
    text = {MEMORY: OUT_OF_MEMORY, DEVICE: FILE_FAULT if n == 1 else DEVICE_FAULT}.get(failure.kind)
    ended = (server.status(), server.line, server.error_text())
    expect(calls.failed and ended == (3, b"", text), f"before listening it ended with {ended}")


def expect_file(data, store):
    """The data file is the log of what was committed, and after a fault it may hold the one more."""
    if not store.is_stopped:
        with open(data, "rb") as file:
            expect(file.read() == log_image(store.log, SECTORS), "the data file is not the log of what was committed")
        return
    more = dict(store.contents)
    apply(more, store.last_fault)
    records, _, _, _ = check(data)
    expect(records - len(store.log) in (0, 1), f"{records} records are found, {len(store.log)} were acknowledged")
    with Server(data) as server, Connection(server.port) as client:
        found = Store(SECTORS)
        found.contents = more if records > len(store.log) else store.contents
        for parts in ([b"BEGIN"], [b"RANGE", b"a", b"", b"128"]):
            expect(client.ask(frame(*parts)) == found.request("reader", parts), "the map that was opened is another one")


def one_run(row, n, failure, counts):
    """An example over a server whose n-th call fails. Was there one?"""
    with folder() as place:
        data = os.path.join(place, "data")
        create(data, SECTORS)
        refusals = Refusals(place)
        calls = refusals.of(failure.kind)
        calls.fail(n, ALL if failure.is_lasting else n, failure.error)
        with Server(data, refusals.environment()) as server:
            if not server.is_listening():
                expect_ended(server, calls, failure, n)
                counts.before += 1
                return True
            clients = Clients(server, failure, calls)
            for line, _ in row:
                clients.play(line)
            calls.pass_on()
            clients.probe()
            has_met = calls.failed > 0
            closed = clients.closed if failure.closes() else calls.failed
            expect(closed == calls.failed, f"{calls.failed} calls failed, and {closed} connections were closed")
            due = STORE_STOPPED if clients.store.is_stopped else b""
            expect(server.error_text() == due, f"it wrote {server.error_text()!r}")
            clients.close()
        expect_file(data, clients.store)
    counts.closed += clients.closed
    counts.stopped += clients.store.is_stopped
    counts.went_on += has_met and not (clients.closed or clients.store.is_stopped)
    return has_met


def run_in_turn(tally, counts, name, row, failure):
    """The example with the n-th call failing, for rising n until none was."""
    at_first = tally.count()
    for n in range(1, CALLS_MAX, failure.step()):
        has_met = True
        with tally.run(f"{name} at call {n}"):
            has_met = one_run(row, n, failure, counts)
        if not has_met or tally.count() - at_first >= ERRORS_MAX:
            return
    raise SystemExit(f"{name}: {CALLS_MAX} calls are too many for it")


class ServerCalls(Harness):
    def test_server_calls(self):
        for failure in FAILURES:
            tally, counts = self.begin(f"serve, {failure.name}"), Counts()
            for name, row in ROWS.items():
                run_in_turn(tally, counts, name, row, failure)
            tally.more = "; " + counts.text()


if __name__ == "__main__":
    run_harness()
