"""Every command over a socket, inside a transaction and outside one, and the largest transactions.

Each reply is that of the model: for each name in several spellings, each number of parts, and keys, bounds, values and limits at and beyond their
limits. Then transactions of the most and largest writes, of the most and largest marks, and of both are committed, and a sweep over the lengths of
values and the numbers of writes and marks. Nothing in it is refused memory, and after it the data file is byte for byte the log of what was
committed, and `check` counts it.

Finally, sessions leave without a word, with old transactions for whose sake versions and records are kept: then the memory that the process holds is
again what it was.
"""
import os
import time

from ssikvd_harness.arguments import is_long, run_harness
from ssikvd_harness.cases import Harness
from ssikvd_harness.connection import Connection
from ssikvd_harness.deviations import expect
from ssikvd_harness.failing_calls import Refusals
from ssikvd_harness.frames import BEGIN, COMMIT, OK, PING, bulk, frame, pairs, refusal
from ssikvd_harness.limits import KEY_MAX, MARKS_MAX, OPEN_MAX, VALUE_MAX, WRITES_MAX
from ssikvd_harness.log_format import SECTOR, log_image, sectors_used
from ssikvd_harness.model import Store
from ssikvd_harness.server import Server, check, create, folder, fresh

SECTORS = 65_536
KEY, VALUE = b"k" * KEY_MAX, b"v" * VALUE_MAX
KEPT_VALUE = 300

NAMES = ("BEGIN", "begin", "Begin", "GET", "get", "SET", "sEt", "DEL", "del", "RANGE", "rangE", "COMMIT", "commit", "ABORT", "abort", "PING",
         "ping", "MULTI", "ECHO", "GETS", "GE", "", "PING ", " PING", "\0")
KEYS = (b"", b"a", b"\0", b"\xff", b"a b\r\n", KEY, KEY + b"k")
VALUES = (b"", b"1", b"\r\n", bytes(range(256)), VALUE)
LIMITS = (b"1", b"2", b"128", b"0", b"129", b"01", b"+1", b"-1", b"", b"1a", b" 1", b"1000", b"999999999999999999999", b"\xb2")


def requests():
    """Requests of each form."""
    for name in NAMES:
        for count in range(4):
            yield [name.encode(), *[b"a", b"b", b"1"][:count]]
    for key in KEYS:
        yield [b"GET", key]
        yield [b"DEL", key]
        for value in VALUES:
            yield [b"SET", key, value]
            yield [b"GET", key]
        for hi in KEYS:
            yield [b"RANGE", key, hi, b"128"]
    for limit in LIMITS:
        yield [b"RANGE", b"a", b"", limit]
        yield [b"RANGE", b"", b"", limit]


ENDING = (b"COMMIT", b"ABORT", b"BEGIN")


def every_form(tally, server):
    """Each request outside a transaction; each inside one of its own, after writes and reads; and all of them in one."""
    store = Store(SECTORS)
    log = []

    def ask(client, session, parts):
        found, due = client.ask(frame(*parts)), store.request(session, parts)
        expect(found == due, f"{b' '.join(p[:12] for p in parts)!r} was answered {(found or b'closed')[:60]!r}, expected {due[:60]!r}")

    with Connection(server.port) as client:
        for number, parts in enumerate(requests()):
            with tally.run(f"outside a transaction, {number}"):
                ask(client, "outside", parts)
                if "outside" in store.open:
                    ask(client, "outside", [b"ABORT"])
        for number, parts in enumerate(requests()):
            with tally.run(f"inside a transaction, {number}"):
                for before in ([b"BEGIN"], [b"SET", b"a", b"1"], [b"DEL", b"b"], [b"RANGE", b"a", b"c", b"5"], parts):
                    ask(client, "inside", before)
                if "inside" in store.open:
                    ask(client, "inside", [b"GET", b"a"])
                    ask(client, "inside", [b"ABORT"])
        with tally.run("all inside one transaction"):
            ask(client, "all", [b"BEGIN"])
            for parts in requests():
                if parts[0].upper() not in ENDING:
                    ask(client, "all", parts)
            ask(client, "all", [b"COMMIT"])
    log += store.log
    return log, len(store.records)


# Large transactions, and a sweep

def largest_writes():
    return [(b"%02d" % i + KEY[2:], VALUE) for i in range(WRITES_MAX)]


def mark_requests(count, size=KEY_MAX):
    """Reads of this many ranges, which find nothing, whose bounds have this length."""
    for i in range(count):
        lo = b"~%03d" % i + b"l" * (size - 4)
        yield frame("RANGE", lo, lo[:-1] + b"m" if size > 4 else lo + b"m", "1"), pairs([])


def write_requests(writes):
    for key, value in writes:
        yield (frame("DEL", key) if value is None else frame("SET", key, value)), OK


class Committer:
    """Commits one transaction after another, and knows the log and the number."""

    def __init__(self, server, log, number):
        self.connection, self.log, self.number = Connection(server.port), list(log), number

    def commit(self, writes, marks=0, size=KEY_MAX):
        self.number += 1
        asked = [(BEGIN, OK), *mark_requests(marks, size), *write_requests(writes), (COMMIT, b":%d\r\n" % self.number)]
        self.connection.send(b"".join(request for request, _ in asked))
        for request, due in asked:
            found = self.connection.reply()
            expect(found == due, f"{request[:40]!r} was answered {(found or b'closed')[:60]!r}, expected {due!r}")
        if writes:
            self.log.append(sorted(writes))


def value_lengths():
    """Lengths of values: steps, all around the multiples of 512, and all at which a record of one write fills its sectors."""
    ends = {SECTOR * i - 44 - 4 - 2 - 1 - 1 - 4 for i in range(1, 9)}
    around = {size + more for size in ({SECTOR * i for i in range(9)} | ends) for more in range(-2, 3)}
    steps = set(range(0, VALUE_MAX + 1, 13 if is_long() else 331))
    return sorted(size for size in around | steps | {VALUE_MAX} if 0 <= size <= VALUE_MAX)


def large_ones(tally, committer):
    with tally.run("the most and largest writes"):
        committer.commit(largest_writes())
    with tally.run("the most and largest marks"):
        committer.commit([], MARKS_MAX)
    with tally.run("the most and largest of both"):
        committer.commit(largest_writes(), MARKS_MAX)
    with tally.run("one more than the most"):
        one_more(committer)


def one_more(committer):
    """The 65th write and the 257th mark are refused, and the transaction is committed without them."""
    client = committer.connection
    for request, due in (
            (BEGIN, OK), *mark_requests(MARKS_MAX), (frame("GET", "one more"), refusal("FULL marks")), *write_requests(largest_writes()),
            (frame("SET", "one more", "1"), refusal("FULL writes"))):
        found = client.ask(request)
        expect(found == due, f"{request[:40]!r} was answered {(found or b'closed')[:60]!r}, expected {due!r}")
    committer.number += 1
    found = client.ask(COMMIT)
    expect(found == b":%d\r\n" % committer.number, f"COMMIT was answered {found!r}")
    committer.log.append(largest_writes())


def sweep(tally, committer):
    for size in value_lengths():
        with tally.run(f"a value of {size} bytes"):
            committer.commit([(b"s", bytes([size % 256]) * size)])
    for count in range(1, WRITES_MAX + 1):
        with tally.run(f"{count} writes"):
            committer.commit([(b"%02d" % i, None if i % 5 == 4 else b"w" * (count * 7 % 60)) for i in range(count)])
    for count in range(0, MARKS_MAX + 1, 1 if is_long() else 17):
        with tally.run(f"{count} marks"):
            committer.commit([(b"m", b"%d" % count)] * (count % 2), count, 5 + count % 252)
    for size in range(1, KEY_MAX + 1, 1 if is_long() else 15):
        with tally.run(f"a key of {size} bytes"):
            committer.commit([(b"z" * size, b"")])


def judge_file(tally, data, log):
    contents = {}
    for writes in log:
        contents.update(writes)
    with tally.run("the counts of the log"):
        due = (len(log), sum(value is not None for value in contents.values()), sectors_used(log), SECTORS)
        found = check(data)
        expect(found == due, f"check counts {found}, expected {due}")
    with tally.run("the data file"), open(data, "rb") as file:
        expect(file.read() == log_image(log, SECTORS), "it is not the log of what was committed")


# Sessions that leave

def held_by(refusals, client):
    """What the process holds, once it has done all that came before."""
    for _ in range(3):
        expect(client.ask(PING) is not None, "PING was not answered")
        time.sleep(0.02)
    return refusals.held()


def old_transactions(server, count):
    """Sessions that begin a transaction each, and another one that overwrites all between; and one that only reads meanwhile."""
    olds = []
    with Connection(server.port) as writer:
        for number in range(count):
            old = Connection(server.port)
            expect(old.ask(BEGIN) == OK and old.ask(frame("GET", "w")) == bulk(None), "no old transaction")
            olds.append(old)
            writes = [(b"%02d" % i, b"%03d" % number + bytes(KEPT_VALUE - 3)) for i in range(WRITES_MAX)]
            asked = [(BEGIN, OK), *mark_requests(64), *write_requests(writes)]
            writer.send(b"".join(request for request, _ in asked) + COMMIT)
            expect(all(writer.reply() == due for _, due in asked), "a request of the writer was refused")
            expect((writer.reply() or b"")[:1] == b":", "a COMMIT was refused")
    return olds


def leave_with_old_ones(tally, place, data):
    """Rounds of old transactions whose connections are closed: after each the process holds what it held after the first."""
    refusals, rounds, count = Refusals(place), 6 if is_long() else 3, OPEN_MAX - 1 if is_long() else 20
    with Server(data, refusals.environment()) as server, Connection(server.port) as client:
        levels, kept = [], 0
        for number in range(rounds):
            with tally.run(f"sessions that leave with old transactions, round {number}"):
                olds = old_transactions(server, count)
                kept = held_by(refusals, client)
                for old in olds:
                    old.reset() if number % 2 else old.close()
                levels.append(held_by(refusals, client))
                expect(kept - levels[-1] > count * WRITES_MAX * KEPT_VALUE, f"only {kept - levels[-1]:,} bytes of {kept:,} were freed")
                expect(abs(levels[-1] - levels[0]) < 16_384, f"{levels[-1] - levels[0]:,} bytes more are held than behind the first round")
        if levels:
            print(f"  memory: {kept:,} bytes held with {count} old transactions, {levels[-1]:,} once they had left")


class EveryCommand(Harness):
    NAME = "every command"

    def test_every_command(self):
        tally = self.tally
        with folder() as place:
            data = fresh(place, SECTORS)
            refusals = Refusals(place)
            with Server(data, refusals.environment()) as server:
                log, number = every_form(tally, server)
                committer = Committer(server, log, number)
                large_ones(tally, committer)
                sweep(tally, committer)
                with tally.run("its error output"):
                    expect(server.is_alive() and server.error_text() == b"", f"it ended, or wrote {server.error_text()!r}")
            judge_file(tally, data, committer.log)
            other = os.path.join(place, "other")
            create(other, SECTORS)
            leave_with_old_ones(tally, place, other)


if __name__ == "__main__":
    run_harness()
