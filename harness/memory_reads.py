"""Reads while every request for memory is refused.

A session reads keys and ranges, which marks them and makes its output large enough. Then all allocations are refused, and it reads them again: each
reply is the model's, and none has allocated. What does need memory closes its connection, and no other; a reply beyond the bytes that an output keeps
needs it each time, since the room was freed.
"""

from ssikvd_harness.arguments import run_harness
from ssikvd_harness.cases import Harness
from ssikvd_harness.connection import Connection
from ssikvd_harness.deviations import expect
from ssikvd_harness.failing_calls import MEMORY, refusing_server
from ssikvd_harness.frames import frame
from ssikvd_harness.limits import KEY_MAX, LARGEST_REPLY, VALUE_MAX
from ssikvd_harness.model import Store
from ssikvd_harness.session import Session

SECTORS = 8_192
KEYS = [b"%03d" % i + b"k" * (KEY_MAX - 3) for i in range(100)]
VALUE = b"v" * 8
LARGE_KEYS = [b"L%03d" % i + b"k" * (KEY_MAX - 4) for i in range(128)]
LARGE_VALUE = b"v" * VALUE_MAX
LARGE_RANGE = [b"RANGE", b"L", b"M", b"128"]
# What an output keeps of its room once all was sent. Room grows by doubling: that of all small pairs, and of a large value, stays below.
OUTPUT_KEPT = 65_536
ROUNDS = 3

FIRST = [
    [b"BEGIN"],
    [b"SET", b"own", b"mine"],
    [b"DEL", KEYS[0]],
    [b"GET", b"absent"],
    [b"GET", KEYS[1]],
    [b"RANGE", b"0", b"1", b"128"],
    [b"RANGE", b"001", b"1", b"128"],
    # A reply that reaches another limit asks for another mark.
    [b"RANGE", b"001", b"1", b"7"],
    [b"RANGE", b"own", b"owo", b"1"],
    [b"GET", LARGE_KEYS[0]],
]

AGAIN = [
    [b"GET", b"own"],
    [b"GET", KEYS[0]],
    [b"GET", b"absent"],
    [b"GET", KEYS[1]],
    [b"RANGE", b"0", b"1", b"128"],
    [b"RANGE", b"001", b"1", b"128"],
    [b"RANGE", b"001", b"1", b"7"],
    [b"GET", LARGE_KEYS[0]],
    [b"RANGE", b"own", b"owo", b"1"],
    [b"RANGE", b"b", b"a", b"5"],
    [b"RANGE", b"b", b"b", b"5"],
    [b"PING"],
    [b"BEGIN"],
    [b"GET", b""],
    [b"GET"],
    [b"FOO"],
    [b"RANGE", b"a", b"b", b"129"],
    [b"DEL", b"own", b"x"],
]


def fill(server, store):
    """128 pairs that one reply holds, of the room that an output keeps, and 128 of the largest."""
    session = Session(server, store, "fill")
    for keys, value in ((KEYS, VALUE), (LARGE_KEYS, LARGE_VALUE)):
        for half in (keys[:64], keys[64:]):
            for parts in ([b"BEGIN"], *([b"SET", key, value] for key in half), [b"COMMIT"]):
                session.ask(parts)
    session.ask([b"BEGIN"])
    reply = session.ask([b"RANGE", b"0", b"1", b"128"])
    expect(VALUE_MAX < len(reply) <= OUTPUT_KEPT // 2, f"the reply of all small pairs has {len(reply)} bytes")
    session.ask([b"ABORT"])
    session.connection.close()


def read_largest(server, store):
    """A session whose mark of the largest range is there, and whose output freed what that reply took."""
    session = Session(server, store, "largest")
    session.ask([b"BEGIN"])
    reply = session.ask(LARGE_RANGE)
    expect(len(reply) == LARGEST_REPLY, f"the largest reply has {len(reply)} bytes")
    return session


def starve(server, allocations, store, tally):
    """What needs memory closes its own connection, and what needs none is served."""
    starved, open_reader, fresh = (Session(server, store, name) for name in ("starved", "reader", "fresh"))
    for parts in ([b"BEGIN"], [b"SET", b"kept", b"1"]):
        starved.ask(parts)
        open_reader.ask(parts)
    fresh.ask([b"PING"])
    largest = read_largest(server, store)
    allocations.fail_all()
    with tally.run("a SET that needs memory"):
        expect(starved.connection.ask(frame("SET", "new", "2")) is None, "it was answered")
        store.leave("starved")
    with tally.run("the largest reply, whose room was freed"):
        expect(largest.connection.ask(frame(*LARGE_RANGE)) is None, "it was answered")
        store.leave("largest")
    with tally.run("a connection that needs memory"), Connection(server.port) as refused:
        expect(refused.ask(frame("PING")) is None, "it was served")
    with tally.run("an open session and one without a transaction"):
        for parts in ([b"GET", b"kept"], [b"ABORT"], [b"GET", b"kept"]):
            open_reader.ask(parts)
        fresh.ask([b"PING"])
    allocations.pass_on()
    with tally.run("with memory again"):
        for session in (open_reader, fresh, Session(server, store, "new")):
            for parts in ([b"BEGIN"], [b"GET", b"kept"], [b"COMMIT"]):
                session.ask(parts)


class MemoryReads(Harness):
    NAME = "reads with all memory refused"

    def test_memory_reads(self):
        tally, store = self.tally, Store(SECTORS)
        with refusing_server(SECTORS) as (server, refusals):
            allocations = refusals.of(MEMORY)
            with tally.run("filling the map"):
                fill(server, store)
            reader = Session(server, store, "marked")
            with tally.run("the first reads"):
                for parts in FIRST:
                    reader.ask(parts)
            calls = allocations.made
            allocations.fail_all()
            for turn in range(ROUNDS):
                for parts in AGAIN:
                    with tally.run(f"{parts[:1]} in round {turn}"):
                        reader.ask(parts)
            with tally.run("ABORT"):
                reader.ask([b"ABORT"])
            with tally.run("the allocations that were asked for"):
                expect(allocations.made == calls, f"{allocations.made - calls} allocations")
            allocations.pass_on()
            starve(server, allocations, store, tally)
            with tally.run("the server"):
                expect(server.is_alive() and server.error_text() == b"", "it ended, or wrote an error")


if __name__ == "__main__":
    run_harness()
