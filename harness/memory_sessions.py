"""What the sessions keep, counted by a preloaded library: many read the largest reply one after another, and then send all that an inbox takes.

A session keeps an inbox, a stream, an output of 536 bytes and 65,536 for longer replies, however large its replies were. A reply that isn't read is held
whole, so while one is, the count must be above that bound: otherwise it would say nothing.
"""
import time

from ssikvd_harness.arguments import is_long, run_harness
from ssikvd_harness.cases import Harness
from ssikvd_harness.connection import Connection
from ssikvd_harness.deviations import expect
from ssikvd_harness.failing_calls import MEMORY, refusing_server
from ssikvd_harness.frames import ABORT, BEGIN, COMMIT, PING, frame
from ssikvd_harness.limits import BUFFERED_MAX, INBOX_MAX, KEY_MAX, OUTPUT_ROOM, VALUE_MAX

SECTORS = 16_384
COUNT = 120
PAIRS = 128
# What is kept for longer replies, and what the table, the session and the allocator take besides.
OUTPUT_KEPT, REST = 65_536, 2_048
# More than all that a session keeps, and less than the largest reply.
LARGE = 1 << 20
# A large reply leaves in parts, over several turns.
MANY_TURNS = 30
LARGEST_RANGE = frame("RANGE", b"l", b"m", b"%d" % PAIRS)
OK = b"+OK\r\n"


def fill(port):
    """The pairs of the largest reply."""
    with Connection(port) as client:
        for start in range(0, PAIRS, 64):
            expect(client.ask(BEGIN) == OK, "BEGIN was refused")
            for number in range(start, start + 64):
                key = b"l%03d" % number + b"k" * (KEY_MAX - 4)
                expect(client.ask(frame("SET", key, b"v" * VALUE_MAX)) == OK, "SET was refused")
            expect(client.ask(COMMIT)[:1] == b":", "COMMIT was refused")


def held(refusals, client, turns=3):
    """What the process holds, once it has done all that came before: these turns of the loop at least have passed then."""
    for _ in range(turns):
        expect(client.ask(PING) == b"+PONG\r\n", "PING was not answered")
        time.sleep(0.02)
    return refusals.held()


def bound(count):
    """What this many sessions may keep that have nothing pending."""
    return count * (INBOX_MAX + BUFFERED_MAX + OUTPUT_ROOM + OUTPUT_KEPT + REST)


def read_largest(client):
    client.send(BEGIN + LARGEST_RANGE + ABORT)
    sizes = [len(client.reply() or b"") for _ in range(3)]
    expect(sizes[0] == sizes[2] == len(OK) and sizes[1] > PAIRS * VALUE_MAX, f"replies of {sizes} bytes")


def fill_inbox(client):
    """Requests that come in at once, as many as an inbox takes, of the largest kind."""
    sets = [frame("SET", b"w%03d" % number, b"w" * VALUE_MAX) for number in range(INBOX_MAX // (VALUE_MAX + 64) + 1)]
    client.send(BEGIN + b"".join(sets) + ABORT)
    expect(all(client.reply() == OK for _ in range(len(sets) + 2)), "a request was refused")


def sessions_keep_little(tally, server, refusals, count):
    with Connection(server.port) as client:
        first, clients = held(refusals, client), []
        for scene, play in (("the largest reply", read_largest), ("a full inbox", fill_inbox)):
            with tally.run(f"{count} sessions after {scene}"):
                clients = clients or [Connection(server.port) for _ in range(count)]
                for it in clients:
                    play(it)
                kept = held(refusals, client) - first
                print(f"  memory: {kept // count:,} bytes are kept by each of {count} sessions after {scene}, of {bound(1):,}")
                expect(kept <= bound(count), f"{kept:,} bytes are held, which is above {bound(count):,}")
        for it in clients:
            it.close()
        with tally.run(f"{count} sessions left"):
            kept = held(refusals, client) - first
            expect(kept < 65_536, f"{kept:,} bytes are held still")


def unread_reply_is_counted(tally, server, refusals):
    """A client with a small window reads nothing, so what the system doesn't take of its reply is held."""
    with Connection(server.port) as client, Connection(server.port, receive_buffer=4_096) as late, tally.run("a reply that isn't read"):
        first = held(refusals, client)
        late.send(BEGIN + LARGEST_RANGE * 8)
        kept = held(refusals, client, MANY_TURNS) - first
        expect(kept > bound(1), f"only {kept:,} bytes are held for it")


def sending_asks_for_none(tally, server, refusals):
    """From when the last reply waits until all of it was sent, no memory is allocated, and its buffer is freed."""
    allocations = refusals.of(MEMORY)
    with Connection(server.port) as client, Connection(server.port, receive_buffer=4_096) as late, tally.run("a reply that is read late"):
        late.send(BEGIN)
        first, count = held(refusals, client), 0
        while refusals.held() - first < LARGE and count < 8:
            late.send(LARGEST_RANGE)
            held(refusals, client, MANY_TURNS)
            count += 1
        waiting, asked = refusals.held(), allocations.made
        expect(waiting - first >= LARGE, "no reply waits")
        sizes = [len(late.reply() or b"") for _ in range(1 + count)]
        expect(min(sizes[1:]) > PAIRS * VALUE_MAX, f"replies of {sizes} bytes")
        asked_since = allocations.made - asked
        expect(waiting - held(refusals, client, MANY_TURNS) >= LARGE, "the buffer of a reply that was sent is held still")
        expect(asked_since == 0, f"memory was asked for {asked_since} times while a reply was sent")


class MemorySessions(Harness):
    NAME = "what sessions keep"

    def test_memory_sessions(self):
        with refusing_server(SECTORS) as (server, refusals):
            fill(server.port)
            for _ in range(3 if is_long() else 1):
                sessions_keep_little(self.tally, server, refusals, COUNT)
            unread_reply_is_counted(self.tally, server, refusals)
            sending_asks_for_none(self.tally, server, refusals)
            expect(server.is_alive() and server.error_text() == b"", "the server ended, or wrote an error")


if __name__ == "__main__":
    run_harness()
