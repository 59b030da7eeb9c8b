"""What commits leave: a client writes keys again and again without a pause, so that no turn waits.

Each COMMIT replaces a version, which nobody sees. The memory of the process must not grow with how many came, not even while they come: a server that
frees such versions only at the end of its turns falls behind. During an old transaction a version of each key is kept. A preloaded library must count
these, and that they are freed after its end, also while further commits come. What is kept besides grows with the keys that are written meanwhile,
and not with how often: of many commits of a few keys no more than of some.

During an old transaction, what commits have read is merged in steps. How often memory is allocated is counted too: a merge that freed room with each
of its moves, and not with its last, would allocate more than twice as often.
"""

from ssikvd_harness.arguments import run_harness
from ssikvd_harness.cases import Harness
from ssikvd_harness.connection import Connection
from ssikvd_harness.deviations import expect
from ssikvd_harness.failing_calls import MEMORY, refusing_server
from ssikvd_harness.frames import ABORT, BEGIN, COMMIT, PING, frame
from ssikvd_harness.server import Server, fresh
from ssikvd_harness.tools import in_memory

SECTORS = 65_536
VALUE_BYTES = 1_000
# A turn serves 64 requests of a session. So many are sent at once, and so many such pieces ahead of what was read.
TRANSACTIONS, AHEAD = 21, 4
PIECES, KEYS = 200, 840
# By how much the process may grow while commits come, and how many bytes more than before may be held once an old transaction has ended: those of the
# versions that the last COMMITs replaced.
GROWTH, BOUND = 1 << 20, 16_384
# So many pieces of commits of so few keys during an old transaction, after as many, may add so many bytes to what is held: a third of what a key, its
# number and its flag would take for each commit.
AGAIN, FEW, AGAIN_BOUND = 200, 10, 65_536
# In the long form: so many commits of one key with a short value, and how many bytes they may add to the process.
MILLION, MILLION_BOUND = 1_000_000, 10_000_000
# And so many keys, all of which are written again so often, so many in a transaction: more than one run of written keys holds. After so many times the
# process may grow by so many bytes: a fifth of what a key, its number and its flag take each time.
MANY, TIMES, SETTLED, IN_ONE, MANY_BOUND = 400_000, 5, 3, 64, 4_000_000
# So many transactions of so many reads, and how often each may ask for memory.
READERS, READS, CALLS = 400, 60, 180
OK = b"+OK\r\n"


def piece(number, count=KEYS, value=VALUE_BYTES):
    """The requests of some transactions, each of which writes one of so many keys, after those of the pieces before."""
    keys = [b"key %d" % (it % count) for it in range(number * TRANSACTIONS, (number + 1) * TRANSACTIONS)]
    return b"".join(BEGIN + frame("SET", key, b"v" * value) + COMMIT for key in keys)


def read_piece(client):
    for _ in range(TRANSACTIONS):
        replies = [client.reply() for _ in range(3)]
        expect(replies[:2] == [OK, OK] and replies[2][:1] == b":", f"a transaction was answered {replies}")


def write_again(client, count, pieces, keys=KEYS, value=VALUE_BYTES):
    """The most that was counted while this many pieces were written, from when the first replies came."""
    most = 0
    for number in range(pieces):
        client.send(piece(number, keys, value))
        if number >= AHEAD:
            read_piece(client)
            most = max(most, count())
    for _ in range(min(AHEAD, pieces)):
        read_piece(client)
    return most


def commits_leave_nothing(tally, server):
    with Connection(server.port) as client, tally.run(f"{PIECES * TRANSACTIONS:,} commits"):
        write_again(client, lambda: 0, KEYS // TRANSACTIONS)
        first = server.memory("VmRSS")
        more = write_again(client, lambda: server.memory("VmRSS"), PIECES) - first
        print(f"  memory: the process grew by {more:,} bytes while {PIECES * TRANSACTIONS:,} commits came, of {GROWTH:,}")
        expect(more <= GROWTH, f"the process grew by {more:,} bytes while commits came")


def an_old_one_is_counted(tally, port, held):
    """While an old transaction is open a version of each key is kept, and commits after its end free these faster than they add any."""
    pieces = KEYS // TRANSACTIONS
    with Connection(port) as client, Connection(port) as old, tally.run("during an old transaction"):
        expect(client.ask(PING) == old.ask(PING) == b"+PONG\r\n", "a PING was not answered")
        # Both are sessions by now, each with the memory for its inbox.
        first = held()
        expect(old.ask(BEGIN) == OK, "BEGIN was refused")
        kept = write_again(client, held, pieces) - first
        print(f"  memory: {kept:,} bytes more are held during an old transaction, of at least {BOUND:,}")
        expect(kept > BOUND, f"only {kept:,} bytes more are held during it")
        expect(old.ask(ABORT) == OK, "ABORT was refused")
        # A COMMIT looks at what two of them replaced, and adds what it replaces itself.
        write_again(client, held, 2 * pieces)
        more = write_again(client, held, AHEAD + 2) - first
        print(f"  memory: {more:,} bytes more are held after its end, of {BOUND:,}")
        expect(more <= BOUND, f"{more:,} bytes more are held after its end")


def a_few_keys_keep_little(tally, port, held):
    """While an old transaction is open, what is kept of the commits of a few keys doesn't grow with how many come."""
    with Connection(port) as client, Connection(port) as old, tally.run("a few keys during an old transaction"):
        expect(old.ask(BEGIN) == OK, "BEGIN was refused")
        write_again(client, held, AGAIN, FEW)
        first = held()
        write_again(client, held, AGAIN, FEW)
        more = held() - first
        print(f"  memory: {more:,} bytes more are held after {AGAIN * TRANSACTIONS:,} more commits of {FEW} keys, of {AGAIN_BOUND:,}")
        expect(more <= AGAIN_BOUND, f"{more:,} bytes more are held after more commits of the same keys")
        expect(old.ask(ABORT) == OK, "ABORT was refused")


def readings_ask_rarely(tally, port, allocations):
    """The keys fall, so that the earlier of two runs is the first of which nothing is left."""
    with Connection(port) as client, Connection(port) as old, tally.run("reads during an old transaction"):
        expect(old.ask(BEGIN) == OK and old.ask(frame("GET", b"k")) == b"$-1\r\n", "the old transaction was refused")
        first = allocations.made
        for start in range(READERS * READS, 0, -READS):
            client.send(BEGIN + b"".join(frame("GET", b"%08d" % (start + number)) for number in range(READS)) + COMMIT)
            replies = [client.reply() for _ in range(READS + 2)]
            expect(replies[0] == OK and replies[-1][:1] == b":", f"a transaction was answered {replies}")
        calls = (allocations.made - first) // READERS
        print(f"  memory: {calls} allocations by each transaction of {READS} reads during an old one, of {CALLS}")
        expect(calls <= CALLS, f"each transaction makes {calls} allocations")


def a_million_keep_little(tally):
    """A transaction that was left open, and a million commits of one key."""
    with in_memory() as place, Server(fresh(place, 2 * MILLION + 1_000)) as server, tally.run(f"{MILLION:,} commits of one key"):
        with Connection(server.port) as client, Connection(server.port) as old:
            expect(old.ask(BEGIN) == OK, "BEGIN was refused")
            write_again(client, lambda: 0, AGAIN, 1, 1)
            first = server.memory("VmRSS")
            write_again(client, lambda: 0, MILLION // TRANSACTIONS - AGAIN, 1, 1)
            more = server.memory("VmRSS") - first
        print(f"  memory: the process grew by {more:,} bytes with {MILLION:,} commits of one key during an old transaction, of {MILLION_BOUND:,}")
        expect(more <= MILLION_BOUND, f"the process grew by {more:,} bytes")


def write_all(client, count):
    """So many keys are written, in transactions of the most writes, of which some are ahead of what was read."""
    firsts = range(0, count, IN_ONE)
    for number in range(len(firsts) + AHEAD):
        if number < len(firsts):
            keys = range(firsts[number], min(firsts[number] + IN_ONE, count))
            client.send(BEGIN + b"".join(frame("SET", b"%08d" % key, b"v") for key in keys) + COMMIT)
        if number >= AHEAD:
            requests = min(IN_ONE, count - firsts[number - AHEAD]) + 2
            replies = [client.reply() for _ in range(requests)]
            expect(replies[:-1] == [OK] * (requests - 1) and replies[-1][:1] == b":", f"a transaction was answered {replies}")


def many_keys_keep_little(tally):
    """A transaction that was left open, and many keys that are written again and again."""
    with in_memory() as place, Server(fresh(place, 8 * TIMES * MANY // IN_ONE)) as server, tally.run(f"{MANY:,} keys, {TIMES} times"):
        with Connection(server.port) as client, Connection(server.port) as old:
            write_all(client, MANY)
            expect(old.ask(BEGIN) == OK, "BEGIN was refused")
            taken = []
            for _ in range(TIMES):
                write_all(client, MANY)
                taken.append(server.memory("VmRSS"))
        more = max(taken[SETTLED:]) - taken[SETTLED - 1]
        print(f"  memory: the process grew by {more:,} bytes while {MANY:,} keys were written {TIMES - SETTLED} times more, of {MANY_BOUND:,}")
        expect(more <= MANY_BOUND, f"the process grew by {more:,} bytes")


class MemoryCommits(Harness):
    NAME = "what commits leave"
    PARTS_OF_LONG = (a_million_keep_little, many_keys_keep_little)

    def test_memory_commits(self):
        with refusing_server(SECTORS) as (server, refusals):
            commits_leave_nothing(self.tally, server)
            an_old_one_is_counted(self.tally, server.port, refusals.held)
            a_few_keys_keep_little(self.tally, server.port, refusals.held)
            readings_ask_rarely(self.tally, server.port, refusals.of(MEMORY))
            expect(server.is_alive() and server.error_text() == b"", "the server ended, or wrote an error")


if __name__ == "__main__":
    run_harness()
