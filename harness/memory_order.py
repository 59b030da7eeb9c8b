"""When memory is allocated: never between the first write of an append and the reply to its COMMIT, nor where bytes come in, where a reply has left,
or where a session leaves.

A preloaded library writes down, in their order, the calls on the data file, what is received and sent, and each call that allocates. So a COMMIT that
is appended can't run out of memory any more, and a request that is answered has taken what it takes before its first byte leaves.

Commits are made while an old transaction is open, so that what they wrote and read is merged; replies are short and long, and come whole and in
pieces.
"""

from ssikvd_harness.arguments import run_harness
from ssikvd_harness.cases import Harness
from ssikvd_harness.connection import Connection
from ssikvd_harness.deviations import expect, is_refused
from ssikvd_harness.frames import ABORT, BEGIN, COMMIT, PING, frame
from ssikvd_harness.server import Server, folder, fresh
from ssikvd_harness.settings import TRACER
from ssikvd_harness.tracing import MEMORY, RECEIVE, SEND, WRITE_AT, Call, Trace

SECTORS = 16_384
COMMITS, KEYS_EACH = 150, 12
PAIRS = 128
OK = b"+OK\r\n"


def judge_appends(calls):
    """The appends of which a reply left, none of which allocated before that."""
    appends, is_open = 0, False
    for call in calls:
        is_open = is_open or call.kind == WRITE_AT
        expect(not is_open or call.kind != MEMORY, f"{call.result} bytes of memory are allocated after the first write of an append")
        if is_open and call.kind == SEND:
            appends, is_open = appends + 1, False
    return appends


def judge_replies(calls):
    """The replies, after whose first byte nothing was allocated until more was received."""
    replies, is_leaving = 0, False
    for call in calls:
        replies += call.kind == SEND and not is_leaving
        is_leaving = call.kind == SEND or is_leaving and call.kind != RECEIVE
        expect(not is_leaving or call.kind != MEMORY, f"{call.result} bytes of memory are allocated once a reply has left")
    return replies


def judge_pieces(calls):
    """What was received, where no request is whole: nothing was allocated."""
    expect(not any(call.kind == MEMORY for call in calls), "memory is allocated where bytes come in, or where a session leaves")
    return sum(call.kind == RECEIVE and call.result > 0 for call in calls)


def write_beside_an_old_one(client, old):
    """Commits of keys that rise and fall, with reads, so that runs of both kinds are merged."""
    expect(old.ask(BEGIN) == OK and old.ask(frame("GET", b"k")) == b"$-1\r\n", "the old transaction was refused")
    for number in range(COMMITS):
        keys = [b"%05d" % (it * 7_919 % 99_991) for it in range(number * KEYS_EACH, (number + 1) * KEYS_EACH)]
        value = b"v" * (100 if number % 3 else 3_000)
        requests = [BEGIN, *(frame("GET", key) for key in keys[:6]), *(frame("SET", key, value) for key in keys), COMMIT]
        replies = [client.ask(request) for request in requests]
        expect(replies[0] == OK and replies[-1][:1] == b":", f"a transaction was answered {replies}")
    expect(old.ask(ABORT) == OK, "ABORT was refused")


def read_much(client):
    """Replies of some bytes, of more than a session keeps for them, and of more than is held before the socket, up to some 130,000."""
    expect(client.ask(BEGIN) == OK, "BEGIN was refused")
    for limit in (1, 4, 40, PAIRS, 1):
        reply = client.ask(frame("RANGE", b"0", b"", b"%d" % limit))
        expect(reply.startswith(b"*%d\r\n" % (2 * limit)), f"RANGE was answered {reply[:60]!r}")
    expect(client.ask(ABORT) == OK, "ABORT was refused")
    # a reply comes before the call that sent it is written down: that of ABORT is by the next one
    expect(client.ask(PING) == b"+PONG\r\n", "PING was refused")


def traced(trace, act):
    """The calls that the server makes meanwhile."""
    before = len(trace.calls())
    act()
    return trace.calls()[before:]


def come_in_pieces(client):
    """A request but for its last byte, in three pieces, each of which has come in before the next leaves."""
    request = frame("SET", b"k", b"v" * 2_000)
    for piece in (request[:10], request[10:1_000], request[1_000:-1]):
        client.send(piece)
        expect(client.ask_nothing(), "a reply came to a part of a request")


class Pieces(Connection):
    """A connection, with another client whose replies show that what was sent before has come in."""

    def __init__(self, port):
        super().__init__(port)
        self.beside = Connection(port)

    def ask_nothing(self):
        """Has what was sent come in, and no reply? The other client's request is served in a later turn, or in this one after it."""
        return self.beside.ask(PING) == self.beside.ask(PING) == b"+PONG\r\n" and not self.came

    def close(self):
        super().close()
        self.beside.close()


def show_that_they_fail(tally, calls):
    """Each judge sees one more allocation."""
    memory = Call(MEMORY, -1, 0, 536, b"")
    for judge, kind in ((judge_appends, WRITE_AT), (judge_replies, SEND), (judge_pieces, RECEIVE)):
        with tally.run(f"{judge.__name__} with a call more"):
            at = next(place for place, call in enumerate(calls) if call.kind == kind)
            expect(is_refused(judge, [*calls[:at + 1], memory, *calls[at + 1:]]), "a call more isn't seen")


class MemoryOrder(Harness):
    NAME = "memory_order"
    NEEDS = (TRACER,)

    def test_memory_order(self):
        tally = self.tally
        with folder() as place:
            data, trace = fresh(place, SECTORS), Trace(place, traces_memory=True)
            with Server(data, trace.environment()) as server, Connection(server.port) as client, Connection(server.port) as old:
                with tally.run("appends"):
                    appends = judge_appends(traced(trace, lambda: write_beside_an_old_one(client, old)))
                    expect(appends == COMMITS, f"{appends} appends were seen, of {COMMITS}")
                with tally.run("replies"):
                    replies = traced(trace, lambda: read_much(client))
                    expect(judge_replies(replies) >= 7, "too few replies were seen")
                with Pieces(server.port) as pieces, tally.run("pieces and leaving"):
                    expect(pieces.beside.ask(PING) == b"+PONG\r\n", "PING was refused")
                    come = traced(trace, lambda: come_in_pieces(pieces))
                    expect(judge_pieces(come) >= 9, "too few pieces were seen")
                    left = traced(trace, lambda: (pieces.socket.close(), pieces.beside.ask(PING), pieces.beside.ask(PING)))
                    judge_pieces(left)
                    expect(any(call.kind == RECEIVE and call.result == 0 for call in left), "nobody is seen to leave")
                show_that_they_fail(tally, trace.calls())
                expect(server.is_alive() and server.error_text() == b"", "the server ended, or wrote an error")


if __name__ == "__main__":
    run_harness()
