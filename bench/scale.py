#!/usr/bin/env python3
"""Measures what requests of ssikvd cost as the store grows: over the number of keys, of deleted keys, and of commits while an old
transaction is open. Writes the figures as JSON.

    bench/scale.py [--program PROGRAM] [--out FILE] [--quick] [--row ROW]..

Each row is measured at each size against a server of its own, over a data file in memory (--folder), by one client that pipelines a transaction's
requests. Keys have 16 bytes and come in random order, values 100 bytes. A row at a size ends after --limit seconds; its figures are
then those of what was done until then, and `cut` says how much that was. Needs Python 3 alone, and memory for data files of up to 0.6 GB.

The rows, and the figures of each. Times are the client's wall-clock; those with `cpu` are the server's CPU time.

    fill       N new keys in random order into an empty store, commits of 64: seconds in all, the longest COMMIT, the last hundred, the longest whole
               transaction by the server's CPU time, memory for each key
    insert     a store of N keys: a new key in commits of 64 at random places; in falling order before all others; alone in its commit;
               and a COMMIT of 64 of them
    rewrite    a store of N keys: a written key in commits of 64, and alone in its commit
    read       a store of N keys: GET, and RANGE with limit 100
    deleted    RANGE with limit 1 over N deleted keys, also by the server's CPU time, and with 64 own writes before them and limit 65
    old_reader RANGE with limit 1 over N keys deleted while an old transaction is open, and that one's own over N keys that came after its begin, both
               also by the server's CPU time
    old_commit the COMMIT of a transaction with 64 writes and 256 range marks after N commits of 64 other keys
    old_end    the COMMIT of a transaction that wrote nothing, after which the older versions of N keys are dropped
    read_only  N commits that only read, each with 256 marks over 1,000 keys, while a transaction is open: how much the server grows
    records    a commit of one key with an open transaction and N kept commits, over one with none
    start      opening a log of N keys, against sha256sum of the file; memory for each key
"""

import datetime
import os
import statistics
import sys
import time

sys.dont_write_bytecode = True

from entry import facts, parser_of, run_script, words_of, write_results    # noqa: E402
from servers import Failure, run    # noqa: E402
from ssikvd_harness.frames import BEGIN, COMMIT, frame    # noqa: E402
from ssikvd_harness.limits import MARKS_MAX    # noqa: E402
from stores import COMMIT_WRITES, Client, Store, before_all, map_keys, scattered, sets    # noqa: E402

LONG_SIZES, SHORT_SIZES = (10_000, 100_000, 1_000_000), (1_000, 10_000, 100_000)
QUICK_LONG_SIZES, QUICK_SHORT_SIZES = (10_000, 100_000), (1_000, 10_000)
GROWTH_LIMIT_BYTES = 1 << 30
# How often a range is asked for, all in one transaction, for which they are one mark.
RANGES = 100


class Work:
    """Rounds of work on a server until they are done or the time is over: their times, and the CPU time of all."""

    def __init__(self, server, options, rounds):
        self.server, self.until, self.rounds = server, time.perf_counter() + options.limit, rounds
        self.times, self.seconds, self.cpu_seconds = [], 0.0, 0.0

    def do(self, one):
        """`one` does a round of this number, and gives the seconds of what is looked at in it."""
        cpu, begun = self.server.processor_seconds(), time.perf_counter()
        for number in range(self.rounds):
            self.times.append(one(number))
            if time.perf_counter() > self.until:
                break
        self.seconds = time.perf_counter() - begun
        self.cpu_seconds = self.server.processor_seconds() - cpu
        return self

    def done(self):
        return len(self.times)

    def us_per(self, units):
        """Microseconds for each of so many units a round: wall-clock, and of CPU time."""
        each = 1e6 / (self.done() * units)
        return round(self.seconds * each, 2), round(self.cpu_seconds * each, 2)

    def cut(self):
        """How many rounds of how many, where the time was over before the last."""
        return {} if self.done() == self.rounds else {"cut": f"{self.done():,} of {self.rounds:,}"}


def ms(seconds):
    return round(1e3 * seconds, 3)


def us(seconds):
    return round(1e6 * seconds, 1)


def row_fill(options, keys):
    rounds = -(-keys // COMMIT_WRITES)
    with Store(options, 0, rounds) as server:
        client, empty_bytes, processor = Client(server.address), server.resident_bytes(), []

        def fill(number):
            before = server.processor_seconds()
            seconds = client.commit(map_keys(scattered, number * COMMIT_WRITES))
            processor.append(server.processor_seconds() - before)
            return seconds

        work = Work(server, options, rounds).do(fill)
        wall, cpu = work.us_per(COMMIT_WRITES)
        memory = (server.resident_bytes() - empty_bytes) / (work.done() * COMMIT_WRITES)
        return {"seconds": round(work.seconds, 2), "us_per_key": wall, "cpu_us_per_key": cpu, "longest_commit_ms": ms(max(work.times)),
                "last_commits_ms": ms(statistics.mean(work.times[-100:])), "cpu_longest_transaction_ms": ms(max(processor)),
                "bytes_per_key": round(memory), **work.cut()}


def row_insert(options, keys):
    commits = 40
    with Store(options, keys, 3 * commits) as server:
        client = Client(server.address)
        client.commit(map_keys(scattered, keys))
        new = keys + COMMIT_WRITES
        spread = Work(server, options, commits).do(lambda n: client.commit(map_keys(scattered, new + n * COMMIT_WRITES)))
        new += commits * COMMIT_WRITES
        alone = Work(server, options, commits).do(lambda n: client.commit([scattered(new + n)]))
        falling = Work(server, options, commits).do(lambda n: client.commit(map_keys(before_all, n * COMMIT_WRITES)))
        return {"us_per_key": spread.us_per(COMMIT_WRITES)[0], "cpu_us_per_key": spread.us_per(COMMIT_WRITES)[1],
                "commit_of_64_ms": ms(statistics.median(spread.times)), "longest_commit_ms": ms(max(spread.times)),
                "longest_falling_commit_ms": ms(max(falling.times)), "commit_of_1_us": us(statistics.median(alone.times)), **spread.cut()}


def row_rewrite(options, keys):
    commits = 200
    with Store(options, keys, 2 * commits) as server:
        client = Client(server.address)

        def written(number, count):
            return [scattered(it * 7919 % keys) for it in range(number * count, (number + 1) * count)]

        many = Work(server, options, commits).do(lambda n: client.commit(written(n, COMMIT_WRITES)))
        one = Work(server, options, commits).do(lambda n: client.commit(written(n + commits * COMMIT_WRITES, 1)))
        return {"us_per_key": many.us_per(COMMIT_WRITES)[0], "cpu_us_per_key": many.us_per(COMMIT_WRITES)[1],
                "commit_of_64_ms": ms(statistics.median(many.times)), "commit_of_1_us": us(statistics.median(one.times)), **many.cut()}


def row_read(options, keys):
    rounds = 2_000
    with Store(options, keys, 1) as server:
        client = Client(server.address)

        # Below the last of them stand 100 others.
        some = [key for key in map(scattered, range(min(keys, 100_000))) if key < b"e"]

        def read(request_of, lines):
            """The times of reads whose replies have so many lines, 100 in a transaction."""
            def one(number):
                if number % 100 == 0:
                    client.ask_lines((COMMIT if number else b"") + BEGIN, 2 if number else 1)
                request, begun = request_of(some[number * 7919 % len(some)]), time.perf_counter()
                client.ask_lines(request, lines)
                return time.perf_counter() - begun

            work = Work(server, options, rounds).do(one)
            client.ask(COMMIT)
            return work

        # A key or a value is two lines: its length, and itself.
        gets = read(lambda key: frame(b"GET", key), 2)
        ranges = read(lambda key: frame(b"RANGE", key, b"", b"100"), 1 + 2 * 2 * 100)
        return {"get_us": us(statistics.median(gets.times)), "cpu_get_us": gets.us_per(1)[1],
                "range_100_us": us(statistics.median(ranges.times)), "cpu_range_100_us": ranges.us_per(1)[1], **ranges.cut()}


def ranges(server, options, client, request, wanted):
    """A range, asked for again and again: its work. Where it is known, the reply has these keys and values."""
    def one(_):
        begun = time.perf_counter()
        pairs = client.ask(request)
        if wanted is not None and not wanted(pairs):
            raise Failure(f"a range gave {pairs[:4]!r}, in all {len(pairs) // 2} pairs")
        return time.perf_counter() - begun

    return Work(server, options, RANGES).do(one)


def row_deleted(options, keys):
    rounds = -(-keys // COMMIT_WRITES)
    last = b"~last"
    with Store(options, keys, rounds + 1) as server:
        client = Client(server.address)
        client.commit([last])

        def delete(number):
            some = map_keys(scattered, number * COMMIT_WRITES, min(COMMIT_WRITES, keys - number * COMMIT_WRITES))
            client.ask_lines(BEGIN + b"".join(frame(b"DEL", key) for key in some) + COMMIT, 2 + len(some))
            return 0.0

        work = Work(server, options, rounds).do(delete)
        own = map_keys(before_all, 0)

        def up_to_last(limit):
            wanted = None if work.cut() else lambda pairs: len(pairs) == 2 * limit and pairs[-2] == last
            return ranges(server, options, client, frame(b"RANGE", b"!", b"", b"%d" % limit), wanted)

        client.ask(BEGIN)
        bare = up_to_last(1)
        client.ask_lines(sets(own), len(own))
        covered = up_to_last(1 + len(own))
        return {"range_1_us": us(statistics.median(bare.times)), "cpu_range_1_us": bare.us_per(1)[1],
                "range_after_64_own_writes_us": us(statistics.median(covered.times)), **work.cut()}


def row_old_reader(options, keys):
    rounds = -(-keys // COMMIT_WRITES)
    last = b"~last"
    with Store(options, keys, 2 * rounds + 2) as server:
        old, client = Client(server.address), Client(server.address)
        client.commit([last])
        old.ask(BEGIN)
        old.ask(frame(b"GET", last))

        def some(key_of, number):
            return map_keys(key_of, number * COMMIT_WRITES, min(COMMIT_WRITES, keys - number * COMMIT_WRITES))

        def delete(number):
            deleted = some(scattered, number)
            client.ask_lines(BEGIN + b"".join(frame(b"DEL", key) for key in deleted) + COMMIT, 2 + len(deleted))
            return 0.0

        def one_pair(client, start, end, keys):
            return ranges(server, options, client, frame(b"RANGE", start, end, b"1"), None if keys is None else lambda pairs: pairs[::2] == keys)

        deleting = Work(server, options, rounds).do(delete)
        client.ask(BEGIN)
        young = one_pair(client, b"!", b"", None if deleting.cut() else [last])
        client.ask(COMMIT)
        coming = Work(server, options, rounds).do(lambda number: client.commit(some(before_all, number)))
        own = one_pair(old, b"!", b"0", [])
        return {"range_1_beside_us": us(statistics.median(young.times)), "cpu_range_1_beside_us": young.us_per(1)[1],
                "own_range_1_us": us(statistics.median(own.times)), "cpu_own_range_1_us": own.us_per(1)[1], **(deleting.cut() or coming.cut())}


def row_old_commit(options, commits):
    keys, reads = 100_000, 50_000
    # The old transaction reads and writes the keys below the middle, the others write those above it.
    above = [key for key in map(scattered, range(keys)) if key >= b"8"]
    with Store(options, keys, commits + 1) as server:
        old, client = Client(server.address), Client(server.address)
        below = sorted(key for key in map(scattered, range(reads)) if key < b"8")
        step = len(below) // MARKS_MAX
        old.ask(BEGIN)
        for number in range(MARKS_MAX):
            old.ask(frame(b"RANGE", below[number * step], below[number * step + 2], b"100"))
        old.ask_lines(sets(below[1 : 4 * COMMIT_WRITES : 4]), COMMIT_WRITES)
        some = [b"".join(frame(b"SET", key, b"v") for key in above[n * COMMIT_WRITES : (n + 1) * COMMIT_WRITES]) for n in range(500)]

        def commit(number):
            client.ask_lines(BEGIN + some[number % len(some)] + COMMIT, 2 + COMMIT_WRITES)
            return 0.0

        work = Work(server, options, commits).do(commit)
        cpu = server.processor_seconds()
        pause = old.timed(COMMIT)
        return {"old_commit_ms": ms(pause), "cpu_old_commit_ms": ms(server.processor_seconds() - cpu),
                "beside_us_per_key": work.us_per(COMMIT_WRITES)[0], **work.cut()}


def row_old_end(options, versions):
    rounds = -(-versions // COMMIT_WRITES)
    with Store(options, versions, rounds) as server:
        old, client = Client(server.address), Client(server.address)
        old.ask(BEGIN)
        old.ask(frame(b"GET", scattered(0)))

        def rewrite(number):
            some = map_keys(scattered, number * COMMIT_WRITES, min(COMMIT_WRITES, versions - number * COMMIT_WRITES))
            client.ask_lines(BEGIN + sets(some) + COMMIT, 2 + len(some))
            return 0.0

        work = Work(server, options, rounds).do(rewrite)
        cpu, done = server.processor_seconds(), min(versions, work.done() * COMMIT_WRITES)
        pause = old.timed(COMMIT)
        cpu = server.processor_seconds() - cpu
        return {"old_end_ms": ms(pause), "cpu_old_end_ms": ms(cpu), "us_per_version": round(1e6 * pause / done, 2), **work.cut()}


def row_read_only(options, commits):
    keys = 1_000
    with Store(options, keys, 1) as server:
        old, client = Client(server.address), Client(server.address)
        old.ask(BEGIN)
        old.ask(frame(b"GET", scattered(0)))
        # A value is two lines.
        some = [BEGIN + b"".join(frame(b"GET", scattered((n * 31 + it * 3) % keys)) for it in range(MARKS_MAX)) + COMMIT for n in range(keys)]
        before = server.resident_bytes()

        def read(number):
            client.ask_lines(some[number % len(some)], 2 + 2 * MARKS_MAX)
            if number % 100 == 99 and server.resident_bytes() > before + GROWTH_LIMIT_BYTES:
                work.until = 0
            return 0.0

        work = Work(server, options, commits)
        work.do(read)
        grown = server.resident_bytes() - before
        pause = old.timed(COMMIT)
        return {"grown_mb": round(grown / 1e6, 2), "bytes_per_commit": round(grown / work.done()), "old_end_ms": ms(pause),
                "us_per_commit": work.us_per(1)[0], **work.cut()}


def row_records(options, commits):
    keys, rounds = 10_000, 500

    def one_key(number):
        client.ask_lines(BEGIN + frame(b"SET", scattered(number * 7919 % keys), b"v") + COMMIT, 3)
        return 0.0

    def windows():
        """The median of the times of some commits, in twenty windows."""
        each = [Work(server, options, rounds // 20).do(one_key) for _ in range(20)]
        return tuple(round(statistics.median(it.us_per(1)[which] for it in each), 2) for which in (0, 1))

    with Store(options, keys, commits // 8 + 2 * rounds) as server:
        old, client = Client(server.address), Client(server.address)
        Work(server, options, rounds).do(one_key)
        none, cpu_none = windows()
        old.ask(BEGIN)
        old.ask(frame(b"GET", scattered(0)))
        work = Work(server, options, commits).do(one_key)
        many, cpu_many = windows()
        pause = old.timed(COMMIT)
        return {"beside_none_us": none, "beside_records_us": many, "ratio": round(many / none, 2), "cpu_ratio": round(cpu_many / cpu_none, 2),
                "old_end_ms": ms(pause), **work.cut()}


def row_start(options, keys):
    with Store(options, keys, 0) as server:
        resident, seconds = server.resident_bytes(), [server.opened]
        server_mb, file_mb = resident / 1e6, os.path.getsize(server.data) / 1e6
        server.stop()
        for _ in range(2):
            begun = time.perf_counter()
            run([options.program, "check", "--data", server.data])
            seconds.append(time.perf_counter() - begun)
        begun = time.perf_counter()
        run(["sha256sum", server.data])
        digest = time.perf_counter() - begun
        with Store(options, 0, 0) as empty:
            resident -= empty.resident_bytes()
        return {"start_ms": ms(statistics.median(seconds)), "sha256sum_ms": ms(digest), "ratio": round(statistics.median(seconds) / digest, 2),
                "bytes_per_key": round(resident / keys), "resident_mb": round(server_mb, 1), "file_mb": round(file_mb, 1)}


# Each row, and whether its sizes are numbers of keys or of commits.
ROWS = {
    "fill": (row_fill, True), "insert": (row_insert, True), "rewrite": (row_rewrite, True), "read": (row_read, True),
    "deleted": (row_deleted, True), "old_reader": (row_old_reader, True), "old_commit": (row_old_commit, False), "old_end": (row_old_end, True),
    "read_only": (row_read_only, False), "records": (row_records, False), "start": (row_start, True),
}


def sizes_of(options, row):
    if options.size:
        return options.size
    _, is_long = ROWS[row]
    if options.quick:
        return QUICK_LONG_SIZES if is_long else QUICK_SHORT_SIZES
    return LONG_SIZES if is_long else SHORT_SIZES


def measure(options, row, size):
    measured, _ = ROWS[row]
    begun = time.perf_counter()
    try:
        figures = measured(options, size)
    except (Failure, OSError) as failure:
        figures = {"failed": str(failure)}
    load, took_seconds = round(os.getloadavg()[0], 1), round(time.perf_counter() - begun, 1)
    print(f"{row} {size:,}: {figures} (load {load}, {took_seconds} s)", file=sys.stderr)
    return {"row": row, "size": size, "figures": figures, "load": load, "took_seconds": took_seconds}


def about(program):
    """What was measured, where and when."""
    return {**facts(program), "began": datetime.datetime.now(datetime.timezone.utc).strftime("%Y-%m-%d %H:%M UTC")}


def main():
    parser = parser_of(__doc__)
    parser.add_argument("--row", action="append", choices=ROWS, help="only this row; may be given more than once")
    parser.add_argument("--size", action="append", type=int, help="only this size; may be given more than once")
    parser.add_argument("--quick", action="store_true", help="sizes up to 100,000, 4 seconds for each row at a size: under two minutes")
    parser.add_argument("--limit", type=float, help="seconds for each row at a size (default 120, quick 4)")
    options = words_of(parser)
    options.limit = options.limit or (4 if options.quick else 120)
    results = {"about": about(options.program), "limit_seconds": options.limit, "rows": []}
    for row in options.row or ROWS:
        for size in sizes_of(options, row):
            results["rows"].append(measure(options, row, size))
            write_results(options.out or os.devnull, results)
    if not options.out:
        write_results("/dev/stdout", results)
    return 1 if any("failed" in it["figures"] for it in results["rows"]) else 0


if __name__ == "__main__":
    run_script(main)
