"""The workloads of ssikvd against what each can be compared with: an echo server, a stand-in in C, the bare device, Redis and PostgreSQL.

Each row is measured in rounds: a slice of one side, a slice of the other, in turn the other way round. The ratio is the median of the
rounds' ratios, and the interquartile range of these stands next to it; rates and times are medians of their own. Since a disk stalls now and then,
whoever syncs, the durable rows have many short slices. More is better for ssikvd. On a machine that does other work the ratios say more than the
rates; the load next to each row shows that. The durable rows tell about the disk of --folder.
"""

import argparse
import contextlib
import os
import shutil
import statistics
import sys
import tempfile
import time

from beside import busy_figures
from entry import print_table, rounded
from servers import POSTGRES_SETTINGS, PROGRAMS, Echo, Failure, Postgres, Redis, Ssikvd, StandIn, connect, count_records, find_postgres, run
from ssikvd_harness.frames import BEGIN, PING
from ssikvd_harness.log_format import write_log
from stores import small_commits

IDLE_CONNECTIONS = 100
PARTS = ["ping", "batch", "fair", "busy", "read", "old", "commit", "start", "memory"]


class Load:
    """One kind of work for the load generator."""

    def __init__(self, options, work, connections, at_once=False):
        self.options, self.work, self.connections, self.at_once = options, work, connections, at_once
        self.committed = 0
        self.was_limit = False

    def measure(self, server, seconds):
        """One slice: the figures that the load generator prints."""
        options = self.options
        words = [os.path.join(PROGRAMS, "load"), "--server", server.name, "--address", server.address, "--work", self.work]
        words += ["--connections", str(self.connections), "--threads", str(options.threads), "--seconds", str(seconds)]
        words += ["--warm-up", str(seconds / 5), "--keys", str(options.keys), "--value-bytes", str(options.value_bytes)] + ["--at-once"] * self.at_once
        before = server.processor_seconds()
        figures = read_figures(run(words)) | {"seconds": seconds}
        figures["processor_seconds"] = server.processor_seconds() - before
        self.was_limit |= figures["busy"] > 0.9
        if isinstance(server, Ssikvd):
            self.committed += int(figures["committed"])
        return figures


def read_figures(line):
    return {name: float(value) for name, value in (it.split("=") for it in line.split())}


def quartile(values, number):
    """The first, second (the median) or third quartile."""
    return statistics.quantiles(values, n=4, method="inclusive")[number - 1] if len(values) > 1 else values[0]


class Row:
    """A line of the table: two sides, measured in turn."""

    def __init__(self, what, peer, goal=None):
        self.what, self.peer, self.goal = what, peer, goal
        self.ours, self.theirs, self.notes = [], [], []
        self.load = 0.0

    def measure(self, rounds, ours, theirs):
        """Each side is a function that measures one slice."""
        for number in range(rounds):
            if number % 2 == 0:
                self.ours.append(ours())
                self.theirs.append(theirs())
            else:
                self.theirs.append(theirs())
                self.ours.append(ours())
        self.load = os.getloadavg()[0]
        print(f"{self.what}: {self.ratio():.2f}", file=sys.stderr)
        return self

    def ratios(self):
        return [mine["rate"] / max(other["rate"], 1e-9) for mine, other in zip(self.ours, self.theirs)]

    def rate(self, slices):
        return quartile([it["rate"] for it in slices], 2)

    def ratio(self):
        return quartile(self.ratios(), 2)

    def verdict(self):
        if self.goal is None:
            return ""
        return f"{self.goal} {'met' if self.ratio() >= self.goal else 'missed'}"

    def side(self, slices):
        if "p50_us" not in slices[0]:
            return f"{self.rate(slices):,.1f}/s"
        median_us = quartile([it["p50_us"] for it in slices], 2)
        return f"{self.rate(slices):,.0f}/s, {median_us:,.0f} us"

    def cells(self):
        middle_half = f"{quartile(self.ratios(), 1):.2f} to {quartile(self.ratios(), 3):.2f}"
        sides = [self.side(self.ours), self.peer, self.side(self.theirs)]
        return [self.what, *sides, f"**{self.ratio():.2f}**", middle_half, self.verdict(), f"{self.load:.1f}"]


HEADS = ["What", "ssikvd", "Against", "its rate", "Ratio", "Interquartile range", "Goal", "Load"]


def compare(options, row, load, ours, theirs):
    """A row of two servers under the same load."""
    seconds = options.seconds
    row.measure(options.rounds, lambda: load.measure(ours, seconds), lambda: load.measure(theirs, seconds))
    if load.was_limit:
        row.notes.append("the load generator was busy all the time: the rates may be its own.")
    return row


def processor_us(slices):
    """A server's CPU time for each transaction of these slices."""
    return 1e6 * sum(it["processor_seconds"] for it in slices) / sum(it["committed"] for it in slices)


def processor_figures(rows):
    """What CPU time of the server each kind of transaction takes."""
    for what, row in {row.what: row for row in reversed(rows) if "processor_seconds" in row.ours[0]}.items():
        took = processor_us(row.ours)
        yield {"what": what, "figure": took, "unit": "us of CPU time", "text": f"{took:.1f} us of the server's CPU time for each"}


def counted(connections):
    return "1 connection" if connections == 1 else f"{connections} connections"


def ping_rows(options, ssikvd):
    with Echo() as echo:
        for connections, goal in ((1, 0.95), (16, 0.9), (64, 0.9)):
            row = Row(f"PING, {counted(connections)}", "C epoll echo", goal)
            compare(options, row, Load(options, "ping", connections), ssikvd, echo)
            row.notes.append(f"CPU time for each, of the echo server: {processor_us(row.theirs):.1f} us.")
            yield row


def batch_rows(options, ssikvd, redis):
    """32 pipelined PINGs, against Redis."""
    for connections in (1, 16):
        row = Row(f"32 pipelined PINGs, {counted(connections)}", "Redis", 1.0)
        yield compare(options, row, Load(options, "pings", connections), ssikvd, redis)


def fairness_figures(options, ssikvd):
    """How evenly connections are served that send one request at a time."""
    alone = argparse.Namespace(**{**vars(options), "threads": 1})  # two threads are not served evenly by the system
    for work, what in (("ping", "PING"), ("read", "BEGIN, 4 GET, COMMIT")):
        slices = [Load(alone, work, 64).measure(ssikvd, options.seconds) for _ in range(options.rounds)]
        ratios = [it["most"] / max(it["least"], 1) for it in slices]
        text = f"{quartile(ratios, 2):.2f}; {min(ratios):.2f} to {max(ratios):.2f} in {len(ratios)} slices"
        yield {"what": f"Best over worst served of 64 connections, {what}, one request at a time", "figure": quartile(ratios, 2), "unit": "times", "text": text}


class Peer:
    """What ssikvd is compared with in a row, if it is there."""

    def __init__(self, name, server, goals):
        self.name, self.server, self.goals = name, server, goals

    def row(self, options, ssikvd, what, work, how):
        load = Load(options, work, 16, how == "pipelined")
        return compare(options, Row(f"{what}, 16 connections, {how}", self.name, self.goals.get((work, how))), load, ssikvd, self.server)


def read_rows(options, ssikvd, peers):
    """Transactions that write nothing."""
    kinds = [("BEGIN, 4 GET, COMMIT", "read", "one request at a time"), ("BEGIN, 4 GET, COMMIT", "read", "pipelined"),
             ("BEGIN, RANGE of 64, COMMIT", "range", "one request at a time"), ("BEGIN, RANGE of 64, COMMIT", "range", "pipelined")]
    for what, work, how in kinds:
        for peer in peers:
            if (work, how) in peer.goals:
                yield peer.row(options, ssikvd, what, work, how)


def peers_of_reads(postgres, redis, stand_in):
    """Those that are there, with the kinds that each is measured in and what is aimed at."""
    one, at_once = "one request at a time", "pipelined"
    all_of_them = [
        Peer("PostgreSQL SERIALIZABLE", postgres, {("read", one): 2.0, ("read", at_once): 2.5, ("range", one): 3.0, ("range", at_once): None}),
        Peer("Redis, MULTI and EXEC", redis, {("read", at_once): 1.5}),
        Peer("C stand-in", stand_in, {("read", one): None, ("read", at_once): 0.7, ("range", one): 0.8, ("range", at_once): None}),
    ]
    return [it for it in all_of_them if it.server]


@contextlib.contextmanager
def open_transaction(ssikvd):
    """A transaction that stays open."""
    with connect(ssikvd.address) as connection:
        connection.sendall(BEGIN)
        if connection.recv(64) != b"+OK\r\n":
            raise Failure("no transaction was opened")
        yield


def old_rows(options, ssikvd):
    load = Load(options, "read", 16)

    def beside_old_transaction():
        with open_transaction(ssikvd):
            fill(options, ssikvd)
            return load.measure(ssikvd, options.seconds)

    row = Row("BEGIN, 4 GET, COMMIT, 16 connections, one request at a time, while one transaction is older than every value", "without that")
    yield row.measure(options.rounds, beside_old_transaction, lambda: load.measure(ssikvd, options.seconds))


class Device:
    """The writes and syncs of commits on a file next to the data file."""

    def __init__(self, folder):
        self.path = os.path.join(folder, "device")
        self.measure(0.01)

    def measure(self, seconds):
        return read_figures(run([os.path.join(PROGRAMS, "device"), self.path, str(seconds)]))


def commit_rows(options, ssikvd, postgres):
    """Durable commits. Very short slices and many rounds, since a disk's speed changes from moment to moment."""
    device, seconds, rounds = Device(ssikvd.folder), options.seconds / 10, options.rounds * 8
    kinds = [(16, False, "one request at a time", 0.9), (1, True, "pipelined", None), (1, False, "one request at a time", None)]
    for connections, at_once, how, goal in kinds:
        load = Load(options, "write", connections, at_once)
        row = Row(f"BEGIN, SET, COMMIT, {counted(connections)}, {how}", "the device, two syncs", goal)
        yield row.measure(rounds, lambda: load.measure(ssikvd, seconds), lambda: device.measure(seconds))
        ssikvd.committed += load.committed
    kinds = [("write", 1, "BEGIN, SET, COMMIT"), ("write", 16, "BEGIN, SET, COMMIT"), ("hot", 16, "BEGIN, GET, SET of one of 16 keys, COMMIT")]
    for work, connections, what in kinds if postgres else ():
        load = Load(options, work, connections)
        row = Row(f"{what}, {counted(connections)}, one request at a time", "PostgreSQL, durable")
        yield row.measure(rounds, lambda: load.measure(ssikvd, seconds), lambda: load.measure(postgres, seconds))
        ssikvd.committed += load.committed
        if work == "hot":
            row.notes.append(f"refused: {refused(row.ours):.0%} of all, of PostgreSQL {refused(row.theirs):.0%}.")


def refused(slices):
    """The part of the transactions of these slices that was refused for a conflict."""
    count = sum(it["refused"] for it in slices)
    return count / max(count + sum(it["rate"] * it["seconds"] for it in slices), 1)


def timed(words):
    """The rate of runs of a program, one a slice."""
    start = time.monotonic()
    output = run(words)
    return {"rate": 1 / (time.monotonic() - start)}, output


def start_rows(options):
    with tempfile.TemporaryDirectory(prefix="ssikvd-bench-", dir=options.folder) as folder:
        for commits in (10_000, 100_000):
            path = os.path.join(folder, "log")
            write_log(path, small_commits(commits, options.keys, options.value_bytes))
            if count_records(options.program, path) != commits:
                raise Failure("check did not find the commits of a data file that this script wrote")
            row = Row(f"Opening a log of {commits:,} commits, {os.path.getsize(path) / 1e6:.0f} MB", "sha256sum of the file")
            check = [options.program, "check", "--data", path]
            row.measure(options.rounds, lambda: timed(check)[0], lambda: timed(["sha256sum", path])[0])
            row.notes.append(f"{1000 / row.rate(row.ours):.0f} ms.")
            yield row


def memory_of_connections(ssikvd):
    """How much the process grows by a connection that has sent one PING."""
    before = ssikvd.resident_bytes()
    with contextlib.ExitStack() as opened:
        for _ in range(IDLE_CONNECTIONS):
            connection = opened.enter_context(connect(ssikvd.address))
            connection.sendall(PING)
            if connection.recv(64) != b"+PONG\r\n":
                raise Failure("no PONG")
        return (ssikvd.resident_bytes() - before) / IDLE_CONNECTIONS


def memory_figure(ssikvd):
    kilobytes = memory_of_connections(ssikvd) / 1024
    what = f"Resident memory of a connection that has sent one PING, of {IDLE_CONNECTIONS}"
    return {"what": what, "figure": kilobytes, "unit": "KiB", "text": f"{kilobytes:.1f} KiB"}


def check_commits(ssikvd):
    """Each commit that was acknowledged stands in the data file."""
    ssikvd.stop()
    found = ssikvd.records()
    if found != ssikvd.committed:
        raise Failure(f"{ssikvd.committed} commits were acknowledged, but the data file holds {found}")
    return f"Every acknowledged commit stands in the data file after the run: {found:,}."


def fill(options, ssikvd):
    load = Load(options, "fill", 1)
    load.measure(ssikvd, 0)
    ssikvd.committed += load.committed


def needs_postgres(options):
    return "read" in options.workloads or "commit" in options.workloads


def missing_peers(options, postgres, redis):
    """What is reported of rows that are missing."""
    if not postgres and needs_postgres(options):
        yield "PostgreSQL was not found: its rows are missing."
    if not redis and ("batch" in options.workloads or "read" in options.workloads):
        yield "Redis was not found: its rows are missing."


def started(stack, options, server, parts):
    """A server that some of these parts need, filled where it is asked for reads."""
    if not set(parts) & set(options.workloads):
        return None
    server = stack.enter_context(server())
    if "read" in parts:
        Load(options, "fill", 1).measure(server, 0)
    return server


def measure_all(options, stack, postgres):
    """The rows of the parts that are wanted, the figures that have no peer, and what else is reported."""
    ssikvd = stack.enter_context(Ssikvd(options.program, options.folder, options.sectors))
    redis_program, only = shutil.which("redis-server"), options.workloads
    redis = redis_program and started(stack, options, lambda: Redis(redis_program), ["batch", "read"])
    stand_in = started(stack, options, StandIn, ["read"])
    rows, figures = [], []
    if "memory" in only:
        figures.append(memory_figure(ssikvd))
    fill(options, ssikvd)
    if "ping" in only:
        rows += ping_rows(options, ssikvd)
    if "batch" in only and redis:
        rows += batch_rows(options, ssikvd, redis)
    if "fair" in only:
        figures += fairness_figures(options, ssikvd)
    if "busy" in only:
        figures += busy_figures(options, ssikvd)
    if "read" in only:
        rows += read_rows(options, ssikvd, peers_of_reads(postgres, redis, stand_in))
    if "old" in only:
        rows += old_rows(options, ssikvd)
    if "commit" in only:
        rows += commit_rows(options, ssikvd, postgres)
    if "start" in only:
        rows += start_rows(options)
    figures += list(processor_figures(rows))[::-1]
    return rows, figures, [*missing_peers(options, postgres, redis), check_commits(ssikvd)]


def machine(folder):
    """What the measurements ran on."""
    with open("/proc/cpuinfo") as info:
        model = next((line.split(":", 1)[1].strip() for line in info if line.startswith("model name")), "unknown")
    disk = run(["df", "--output=source,fstype", folder]).splitlines()[-1].split()
    system = os.uname()
    return f"{os.cpu_count()} x {model}, {system.sysname} {system.release}; {folder} is {disk[1]} on {disk[0]}"


def result_of(row):
    """A row of the results file."""
    middle_half = [quartile(row.ratios(), 1), quartile(row.ratios(), 3)]
    return {"what": row.what, "peer": row.peer, "goal": row.goal, "ratio": row.ratio(), "middle_half": middle_half, "rate": row.rate(row.ours),
            "peer_rate": row.rate(row.theirs), **percentiles("", row.ours), **percentiles("peer_", row.theirs), "load": row.load, "notes": row.notes,
            "rates": [it["rate"] for it in row.ours], "peer_rates": [it["rate"] for it in row.theirs]}


def percentiles(side, slices):
    """The medians of a side's percentiles, where it has any."""
    return {side + name: quartile([it[name] for it in slices], 2) for name in ("p50_us", "p99_us", "p999_us") if name in slices[0]}


def print_machine(options, postgres):
    print(f"{time.strftime('%Y-%m-%d %H:%MZ', time.gmtime())}. {machine(options.folder)}. Load before: {os.getloadavg()[0]:.1f}.")
    slices = f"{options.rounds} rounds of {options.seconds:g} s (commits: {options.rounds * 8} of {options.seconds / 10:g} s)"
    print(f"{slices}; {options.keys:,} keys of 9 bytes, values of {options.value_bytes} bytes; {options.threads} threads of load."
          + " All of it ran at real-time priority, above other work of the machine." * options.real_time)
    if postgres:
        version = run([os.path.join(postgres.programs, "postgres"), "--version"]).strip()
        print(f"{version}: " + ", ".join(f"{name}={value}" for name, value in POSTGRES_SETTINGS.items()) + "; the rest as installed.")
    print()


def measure_workloads(options):
    """Prints and gives all that is reported of the workloads that are asked for."""
    head = {"when": time.strftime("%Y-%m-%d %H:%MZ", time.gmtime()), "machine": machine(options.folder), "rounds": options.rounds, "seconds": options.seconds}
    with contextlib.ExitStack() as stack:
        if options.real_time:
            os.sched_setscheduler(0, os.SCHED_FIFO, os.sched_param(1))
            stack.callback(os.sched_setscheduler, 0, os.SCHED_OTHER, os.sched_param(0))
        programs = find_postgres(options.postgres) if needs_postgres(options) else None
        postgres = programs and stack.enter_context(Postgres(programs, options.folder, options.keys, options.value_bytes))
        print_machine(options, postgres)
        rows, figures, remarks = measure_all(options, stack, postgres)
    print_table(HEADS, (row.cells() for row in rows))
    for text in (*(f"{row.what}: {note}" for row in rows for note in row.notes), *(f"{it['what']}: {it['text']}." for it in figures), *remarks):
        print(f"\n{text}")
    return {**head, "rows": [rounded(result_of(row)) for row in rows], "figures": rounded(figures)}
