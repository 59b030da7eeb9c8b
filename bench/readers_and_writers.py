"""Transactions that read while others write, where a sync takes its time: does who reads wait for who writes?

16 connections read (BEGIN, 4 GET, COMMIT) and 16 write (BEGIN, SET, COMMIT), each with one request at a time: those that read alone, both at the
same time, those that write alone, and one that writes. Four servers: ssikvd; PostgreSQL, SERIALIZABLE; Redis with `appendfsync always`; and a
stand-in in C with the same commands, which makes two syncs in each COMMIT that writes and has none of the promises (stand_in.c).

A sync takes at least as long as --sync-ms says: a library that is preloaded into each server sleeps for what is left (slow_sync.c), and counts the
syncs. The data lies in memory, so that it is the library alone that a commit waits for. Each figure is the median of the slices of the rounds, in which
the servers take turns. The load generator checks every reply and every value, and at the end ssikvd's data file must hold exactly the commits that were
acknowledged. Two processors for the servers and the load generators are too few.
"""

import concurrent.futures
import contextlib
import os
import shutil
import statistics
import sys
import tempfile
import time

from entry import print_table, rounded, shown
from preloaded import Syncs, environment
from servers import Failure, Postgres, Redis, Ssikvd, StandIn, find_postgres
from workloads import Load, check_commits, fill, machine

SERVERS = ["ssikvd", "postgres", "redis", "stand-in"]
NAMES = {"ssikvd": "ssikvd", "postgres": "PostgreSQL SERIALIZABLE", "redis": "Redis, appendfsync always", "stand-in": "C stand-in, two syncs"}
# Of each kind of slice the connections that read and those that write.
KINDS = {"readers alone": (16, 0), "both": (16, 16), "writers alone": (0, 16), "one writer": (0, 1)}
FIGURES = ("rate", "p50_us", "p99_us", "p999_us", "committed", "refused", "busy")


class Side:
    """A server whose syncs are slowed down and counted."""

    def __init__(self, options, name, server, syncs):
        self.options, self.name, self.server, self.syncs = options, name, server, syncs

    def load(self, work, connections, pool):
        return pool.submit(Load(self.options, work, connections).measure, self.server, self.options.seconds) if connections else None

    def measure(self, kind, sync_ms):
        """A slice: the figures of those that read and of those that write, and the syncs meanwhile."""
        readers, writers = KINDS[kind]
        self.syncs.slow_down(sync_ms)
        count, taken = self.syncs.count(), self.syncs.taken_ms()
        with concurrent.futures.ThreadPoolExecutor() as pool:
            loads = {"readers": self.load("read", readers, pool), "writers": self.load("write", writers, pool)}
            found = {who: {name: it.result()[name] for name in FIGURES} for who, it in loads.items() if it}
        count, taken = self.syncs.count() - count, self.syncs.taken_ms() - taken
        if writers:
            committed = found["writers"]["committed"]
            if self.name == "ssikvd":
                self.server.committed += int(committed)
            if not count:
                raise Failure(f"no sync of {NAMES[self.name]} was counted: is the library loaded?")
            found |= {"syncs_a_commit": count / committed, "sync_took_ms": taken / count}
        return found


# The servers

def start_ssikvd(options, syncs):
    server = Ssikvd(options.program, options.folder, options.sectors, env=environment(syncs))
    return server, lambda: fill(options, server)


def start_postgres(options, syncs):
    programs = find_postgres(options.postgres)
    return programs and Postgres(programs, options.folder, options.keys, options.value_bytes, environment(syncs)), lambda: None


def start_redis(options, syncs):
    program = shutil.which("redis-server")
    server = program and Redis(program, options.own_folder, env=environment(syncs))
    return server, lambda: Load(options, "fill", 1).measure(server, 0)


def start_stand_in(options, syncs):
    server = StandIn(os.path.join(options.own_folder, "stand_in"), env=environment(syncs))
    return server, lambda: Load(options, "fill", 1).measure(server, 0)


STARTS = {"ssikvd": start_ssikvd, "postgres": start_postgres, "redis": start_redis, "stand-in": start_stand_in}


def started(stack, options):
    """Those servers that are wanted and installed, filled."""
    for name in options.servers:
        syncs = Syncs()
        stack.callback(syncs.remove)
        server, fill_it = STARTS[name](options, syncs)
        if not server:
            print(f"{NAMES[name]} was not found: its rows are missing.\n")
            continue
        stack.enter_context(server)
        fill_it()
        yield Side(options, name, server, syncs)


# Measuring

def measure_all(options, sides):
    """Each kind of slice of each server, for each time of a sync, in rounds."""
    rows = []
    for sync_ms in options.sync_ms:
        for kind in options.kinds:
            slices = {side.name: [] for side in sides}
            for number in range(options.rounds):
                for side in sides if number % 2 == 0 else reversed(sides):
                    slices[side.name].append(side.measure(kind, sync_ms))
            load = round(os.getloadavg()[0], 1)
            for side in sides:
                rows.append({"sync_ms": sync_ms, "server": side.name, "kind": kind, "load": load, "slices": slices[side.name]})
                print(f"a sync of {sync_ms:g} ms, {NAMES[side.name]}, {kind}: {said(rows[-1])}", file=sys.stderr)
    return rows


def median(row, who, name):
    """Of the slices of a row. None where nobody is of that kind there."""
    found = [it[who][name] for it in row["slices"] if who in it] if row else []
    return statistics.median(found) if found else None


def said(row):
    both = [(who, median(row, who, "rate"), median(row, who, "p50_us")) for who in ("readers", "writers")]
    return ", ".join(f"{who} {rate:,.0f} a second, {us:,.0f} us" for who, rate, us in both if rate is not None)


# The table

def cells(row_of, sync_ms, name):
    """A line of the table: readers alone, both together, writers alone."""
    alone, both, writers, one = (row_of.get((sync_ms, name, kind)) for kind in KINDS)
    beside = [shown(median(both, who, figure), each) for who in ("readers", "writers")
              for figure, each in (("rate", 1), ("p50_us", 1e3), ("p99_us", 1e3), ("p999_us", 1e3))]
    counts = [it["syncs_a_commit"] for row in (both, writers) if row for it in row["slices"]]
    rates = [shown(median(row, "writers", "rate")) for row in (writers, one)]
    return [f"{sync_ms:g}", NAMES[name], shown(median(alone, "readers", "rate")), *beside, *rates, f"{statistics.median(counts):.2f}" if counts else ""]


HEADS = ["A sync, ms", "Server", "Readers alone, a second", "Readers with writers", "p50, ms", "p99", "p99.9", "Writers with readers", "p50, ms", "p99",
         "p99.9", "Writers alone", "One writer", "Syncs a commit"]


def lines_of(rows):
    row_of = {(row["sync_ms"], row["server"], row["kind"]): row for row in rows}
    return (cells(row_of, sync_ms, name) for sync_ms, name in dict.fromkeys((row["sync_ms"], row["server"]) for row in rows))


def measure_readers_and_writers(options):
    """Prints and gives all that is reported of them."""
    head = {"when": time.strftime("%Y-%m-%d %H:%MZ", time.gmtime()), "machine": machine(options.folder), "rounds": options.rounds,
            "seconds": options.seconds, "keys": options.keys, "value_bytes": options.value_bytes}
    with tempfile.TemporaryDirectory(prefix="ssikvd-readers-", dir=options.folder) as options.own_folder, contextlib.ExitStack() as stack:
        print(f"{machine(options.folder)}. {options.rounds} rounds of {options.seconds:g} s. Load before: {os.getloadavg()[0]:.1f}.\n")
        sides = list(started(stack, options))
        rows = measure_all(options, sides)
        remarks = [check_commits(side.server) for side in sides if side.name == "ssikvd"]
    print_table(HEADS, lines_of(rows))
    for remark in remarks:
        print(f"\n{remark}")
    return {**head, "rows": rounded(rows)}
