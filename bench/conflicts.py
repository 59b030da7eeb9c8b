#!/usr/bin/env python3
"""Counts which share of commits is refused in random mixes, by this store's rule and by PostgreSQL at the isolation level SERIALIZABLE, on the
same schedule. Prints a line for each mix.

    bench/conflicts.py [--transactions N] [--seed N] [--postgres FOLDER] [--row-locks] [--out FILE]

A schedule is made from its seed: sessions whose single requests follow one another in a random order. There is no clock in it, and nobody
retries, so each run gives the same counts. This store's rule is that of `harness/ssikvd_harness/model.py`, which the program is compared with.
PostgreSQL is driven by one request at a time over its own protocol. A write that would wait there for another transaction can never get on,
since whom it waits for comes later in the schedule; it is given up and counted as a refused write.
"""

import argparse
import collections
import random
import socket
import struct
import sys
import tempfile

sys.dont_write_bytecode = True

from entry import run_script, write_results    # noqa: E402
from servers import POSTGRES_SETTINGS, Failure, Postgres, find_postgres    # noqa: E402
from ssikvd_harness import model    # noqa: E402
from ssikvd_harness.model import Record, Store    # noqa: E402

KEYS, SESSIONS = (10, 40, 400), (8, 32)
WAIT_MILLISECONDS = 20
# Of the requests of a transaction between its BEGIN and its COMMIT.
REQUESTS, WRITES, RANGES, RANGE_KEYS = (2, 8), 0.25, 0.05, 5
READ_ONLY = 0.3

# How commits ended: done, refused for a key that both wrote, refused for a dangerous structure.
DONE, WRITTEN, STRUCTURE = "done", "written", "structure"


def key_of(number):
    return f"k{number:08d}"


def transaction(chance, keys):
    """The requests of a transaction: the kind, and the key's number."""
    writes = 0 if chance.random() < READ_ONLY else WRITES
    requests = [("BEGIN", 0)]
    for _ in range(chance.randint(*REQUESTS)):
        kind, key = chance.random(), chance.randrange(keys)
        requests.append(("SET" if kind < writes else "RANGE" if kind > 1 - RANGES else "GET", key))
    return requests + [("COMMIT", 0)]


def schedule(seed, keys, sessions, transactions):
    """Pairs of a session and its request, until so many transactions have ended."""
    chance = random.Random(f"{seed} {keys} {sessions}")
    left = {session: [] for session in range(sessions)}
    ended = 0
    while ended < transactions:
        session = chance.randrange(sessions)
        left[session] = left[session] or transaction(chance, keys)
        request = left[session].pop(0)
        ended += request[0] == "COMMIT"
        yield session, request


# This store

class Remembering(Record):
    """A record that works out once from whom it has read."""

    def __init__(self, transaction, number):
        super().__init__(transaction, number)
        self.known = {}

    def reads_from_before(self, other):
        if other not in self.known:
            self.known[other] = super().reads_from_before(other)
        return self.known[other]


model.Record = Remembering


class Narrower(Store):
    """The model, which looks at recent records alone: no other can be concurrent with one that a commit could make a pivot."""

    def _conflict(self, record):
        records = self.records
        concurrent = [r for r in records[record.begin:]] + [record]
        self.records = records[min(r.begin for r in concurrent):]
        try:
            return super()._conflict(record)
        finally:
            self.records = records


def words_of(request):
    kind, key = request
    words = {"SET": [key_of(key), "1"], "GET": [key_of(key)], "RANGE": [key_of(key), key_of(key + RANGE_KEYS), "128"]}
    return [word.encode() for word in [kind, *words.get(kind, [])]]


def by_store(store, requests):
    """How the commits ended in a store over these requests."""
    ends = collections.Counter()
    for session, request in requests:
        reply = store.request(session, words_of(request))
        if request[0] == "COMMIT":
            ends[DONE if reply.startswith(b":") else WRITTEN if b"overwritten" in reply else STRUCTURE] += 1
    return ends


# PostgreSQL

class Session:
    """A connection to PostgreSQL by its protocol, version 3, and how its transaction was refused, if it was."""

    def __init__(self, port):
        self.socket = socket.create_connection(("127.0.0.1", port))
        self.socket.setsockopt(socket.IPPROTO_TCP, socket.TCP_NODELAY, 1)
        self.bytes = self.socket.makefile("rb")
        parameters = b"user\0postgres\0database\0postgres\0\0"
        self.socket.sendall(struct.pack("!ii", 8 + len(parameters), 3 << 16) + parameters)
        self.fault()
        for setting in ("enable_seqscan = off", "synchronous_commit = off", f"lock_timeout = {WAIT_MILLISECONDS}"):
            self.ask(f"SET {setting}")
        self.refused = None

    def fault(self):
        """Reads up to the end of an answer: the code and the text of the error in it, if there is one."""
        found = None
        while True:
            kind, length = struct.unpack("!ci", self.bytes.read(5))
            body = self.bytes.read(length - 4)
            if kind == b"E":
                fields = {part[:1]: part[1:].decode() for part in body.split(b"\0") if part}
                found = fields[b"C"], fields[b"M"]
            if kind == b"Z":
                return found

    def ask(self, statement):
        """The fault of a statement, if it has one."""
        text = statement.encode() + b"\0"
        self.socket.sendall(b"Q" + struct.pack("!i", 4 + len(text)) + text)
        return self.fault()

    def request(self, request):
        """Asks it, unless the transaction was refused before. Answers how the transaction ended, where it did."""
        kind, key = request
        found = self.ask(STATEMENTS[kind].format(key=key_of(key), high=key_of(key + RANGE_KEYS))) if not self.refused else None
        if found:
            self.refused = refusal_of(*found)
            if kind != "COMMIT":
                self.ask("ROLLBACK")
        if kind != "COMMIT":
            return None
        ended, self.refused = self.refused or DONE, None
        return ended


STATEMENTS = {
    "BEGIN": "BEGIN ISOLATION LEVEL SERIALIZABLE; SELECT 1",
    "GET": "SELECT v FROM kv WHERE k = '{key}'",
    "RANGE": "SELECT k, v FROM kv WHERE k >= '{key}' AND k < '{high}' ORDER BY k",
    "SET": "UPDATE kv SET v = '1' WHERE k = '{key}'",
    "COMMIT": "COMMIT",
}


def refusal_of(code, text):
    """What an error refuses a transaction for."""
    if code == "40001" and "read/write dependencies" in text:
        return STRUCTURE
    if code in ("40001", "40P01", "55P03"):
        return WRITTEN
    raise Failure(f"PostgreSQL answered {code} {text}")


def by_postgres(programs, keys, sessions, requests):
    """How the commits ended in a PostgreSQL of its own over these requests."""
    ends = collections.Counter()
    with Postgres(programs, tempfile.gettempdir(), keys, 1) as server:
        server.psql("ALTER TABLE kv SET (autovacuum_enabled = off)")
        connections = [Session(server.port) for _ in range(sessions)]
        for session, request in requests:
            ended = connections[session].request(request)
            ends.update([ended] if ended else [])
        for connection in connections:
            connection.socket.close()
    return ends


# The table

def shares(ends):
    """Of all commits those that were refused, and those refused for a dangerous structure, in percent."""
    commits = sum(ends.values())
    return {"refused": round(100 * (commits - ends[DONE]) / commits, 1), "structures": round(100 * ends[STRUCTURE] / commits, 1)}


def rows(arguments, programs):
    for keys in KEYS:
        for sessions in SESSIONS:
            requests = list(schedule(arguments.seed, keys, sessions, arguments.transactions))
            found = {"ssikvd": shares(by_store(Narrower(), requests))}
            if programs:
                found["postgres"] = shares(by_postgres(programs, keys, sessions, requests))
            yield {"keys": keys, "sessions": sessions, **found}


def main():
    options = argparse.ArgumentParser(description=__doc__, formatter_class=argparse.RawDescriptionHelpFormatter)
    options.add_argument("--transactions", type=int, default=4_000)
    options.add_argument("--seed", type=int, default=1)
    options.add_argument("--postgres", help="the folder of PostgreSQL's programs")
    options.add_argument("--row-locks", action="store_true", help="let PostgreSQL never join what it locked by rows")
    options.add_argument("--out", help="a file for the figures, as JSON")
    arguments = options.parse_args()
    if arguments.row_locks:
        POSTGRES_SETTINGS.update(max_pred_locks_per_page="100000", max_pred_locks_per_relation="1000000")
    programs = find_postgres(arguments.postgres)
    found = []
    for row in rows(arguments, programs):
        print(row, flush=True)
        found.append(row)
    write_results(arguments.out, {"transactions": arguments.transactions, "seed": arguments.seed, "row_locks": arguments.row_locks, "rows": found})


if __name__ == "__main__":
    run_script(main)
