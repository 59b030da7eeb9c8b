#!/usr/bin/env python3
"""Measures what the C library's allocator, its settings and jemalloc make of the program: pauses, CPU time and memory.

    bench/allocators.py [--program PROGRAM] [--keys N] [--allocators NAME..] [--rounds N] [--out FILE]

For each allocator in turn, over a data file in memory: a load of N keys in random order; all of them written again; all again while an
old transaction is open; that one's end, and turns until no garbage is left; then one RANGE of 100 pairs, the first request that allocates a long block.
After that the program is started again over that log, in which each key is written three times, and over one in which each is written once; and a store
of 128 values of 16,384 bytes is asked for all of them, again and again, by one client and then by 60 at once.

The figures: the server's CPU time for each key of the load and of what was written again; the longest turn from the end on until nothing was
left, of that RANGE, and next to those 60 clients until they have left; the resident memory after each step, `later` some seconds after the end, while
PINGs came. The longest turns are taken
by a library that is preloaded as well (harness/polls.c). Needs Python 3, make and a C compiler, and for a million keys 2 GB of memory. jemalloc is
Debian's libjemalloc2.
"""

import contextlib
import ctypes.util
import statistics
import sys
import time

sys.dont_write_bytecode = True

from entry import parser_of, print_table, run_script, shown, words_of, write_results    # noqa: E402
from pause_scenes import LARGE_VALUE, LONG_REPLY_PAIRS, PAIRS, Turns, fill_large, flood, large_key, opened, set_all    # noqa: E402
from preloaded import build, environment    # noqa: E402
from scale import about    # noqa: E402
from servers import Listening    # noqa: E402
from ssikvd_harness.frames import BEGIN, COMMIT, PING, frame    # noqa: E402
from stores import COMMIT_WRITES, Client, Store, scattered    # noqa: E402

TUNABLES = "GLIBC_TUNABLES"
LATER_SECONDS, PINGS_A_SECOND = 12, 100
LARGE_RANGES = 60
CROWD_SECONDS, LEAVING_SECONDS = 3, 0.3
# Of each the variables of its environment.
ALLOCATORS = {
    "C library": {},
    "mxfast=0": {TUNABLES: "glibc.malloc.mxfast=0"},
    "mxfast=0, trim_threshold=131072": {TUNABLES: "glibc.malloc.mxfast=0:glibc.malloc.trim_threshold=131072"},
    "trim_threshold=131072": {TUNABLES: "glibc.malloc.trim_threshold=131072"},
    "trim_threshold=1000000000": {TUNABLES: "glibc.malloc.trim_threshold=1000000000"},
    "hugetlb=1": {TUNABLES: "glibc.malloc.hugetlb=1"},
    "jemalloc": {"MALLOC_CONF": ""},
    "jemalloc, decay at once": {"MALLOC_CONF": "dirty_decay_ms:0,muzzy_decay_ms:0"},
    "jemalloc, decay in 1 s": {"MALLOC_CONF": "dirty_decay_ms:1000,muzzy_decay_ms:0"},
}
COLUMNS = {
    "load_us": "Load, us a key", "again_us": "Written again, us a key", "end_ms": "End, ms", "long_ms": "RANGE of 100, ms", "filled_mb": "Filled, MB",
    "again_mb": "Written again, MB", "after_mb": "After the old one, MB", "later_mb": "Later, MB", "opened_again_mb": "Opened again, MB",
    "opened_mb": "Opened, once written, MB", "opening_again_ms": "Opening again, ms", "large_us": "Largest RANGE, us",
    "crowd_ms": "60 with largest RANGEs, ms",
}


class Opened(Listening):
    """The server over a data file that is there."""

    processor_seconds = Store.processor_seconds

    def __init__(self, options, data, variables):
        super().__init__([options.program, "serve", "--data", data, "--listen", "127.0.0.1:0"], env=variables)
        self.opening_ms = 1e3 * self.processor_seconds()


class Trial:
    """One store under one allocator."""

    def __init__(self, options, server, turns):
        self.keys, self.server, self.turns = options.keys, server, turns
        self.client, self.found = Client(server.address), {}

    def note_memory(self, name):
        self.found[f"{name}_mb"] = self.server.resident_bytes() / 1e6

    def write_all(self, name):
        """All keys are written. The CPU time for each."""
        before = self.server.processor_seconds()
        set_all(self.client, scattered, self.keys)
        self.found[f"{name}_us"] = 1e6 * (self.server.processor_seconds() - before) / self.keys

    def settle(self):
        """The turn that answered last has ended."""
        before = self.turns.count()
        while self.turns.count() < before + 2:
            self.client.ask(PING)

    def longest(self, name, work):
        """The longest turn in that work, and behind it until nothing is left to do."""
        self.settle()
        self.turns.begin()
        work()
        while not self.turns.is_idle():
            time.sleep(0.001)
        self.settle()
        self.found[f"{name}_ms"] = self.turns.longest_ms()

    def range(self):
        self.client.ask(BEGIN)
        self.client.ask(frame(b"RANGE", b"0", b"g", b"%d" % LONG_REPLY_PAIRS))
        self.client.ask(COMMIT)

    def pings(self, seconds):
        for _ in range(int(seconds * PINGS_A_SECOND)):
            self.client.ask(PING)
            time.sleep(1 / PINGS_A_SECOND)

    def run(self, later):
        self.write_all("load")
        self.note_memory("filled")
        self.write_all("again")
        self.note_memory("again")
        old = Client(self.server.address)
        opened(old)
        set_all(self.client, scattered, self.keys)
        self.longest("end", lambda: old.ask(COMMIT))
        self.note_memory("after")
        self.longest("long", self.range)
        self.pings(later)
        self.note_memory("later")


def largest_ranges(options, turns, variables):
    """The CPU time of the largest RANGE, which one client asks for again and again, and the longest turn while a crowd does, and leaves."""
    with Store(options, 0, 2 * PAIRS, variables) as server:
        client, buffer = Client(server.address), bytearray(1 << 20)
        fill_large(client, LARGE_VALUE)
        client.ask(BEGIN)
        whole = len(b"*%d\r\n" % (2 * PAIRS)) + PAIRS * (len(frame(large_key(0), b"x" * LARGE_VALUE)) - len(b"*2\r\n"))
        before = server.processor_seconds()
        for _ in range(LARGE_RANGES):
            client.socket.sendall(frame(b"RANGE", b"large", b"larges", b"%d" % PAIRS))
            left = whole
            while left > 0:
                left -= client.socket.recv_into(buffer)
        large_us = 1e6 * (server.processor_seconds() - before) / LARGE_RANGES
        turns.begin()
        flood(server.address, CROWD_SECONDS, LARGE_VALUE)
        time.sleep(LEAVING_SECONDS)
        client.ask(PING)
        return {"large_us": large_us, "crowd_ms": turns.longest_ms()}


def measure(options, name):
    """The figures of one run under this allocator."""
    with contextlib.ExitStack() as stack:
        turns = Turns(options.library)
        stack.callback(turns.remove)
        variables = environment(turns, more=[options.jemalloc] * name.startswith("jemalloc")) | ALLOCATORS[name]
        server = stack.enter_context(Store(options, 0, 3 * (options.keys // COMMIT_WRITES + 1), variables))
        trial = Trial(options, server, turns)
        trial.run(options.later)
        server.stop()
        with Opened(options, server.data, variables) as again:
            trial.found |= {"opened_again_mb": again.resident_bytes() / 1e6, "opening_again_ms": again.opening_ms}
        with Store(options, options.keys, 0, variables) as once:
            trial.found["opened_mb"] = once.resident_bytes() / 1e6
        trial.found |= largest_ranges(options, turns, variables)
    return trial.found


def main():
    parser = parser_of(__doc__)
    parser.add_argument("--keys", type=int, default=100_000, help="(%(default)s)")
    parser.add_argument("--allocators", nargs="+", choices=ALLOCATORS, default=list(ALLOCATORS), metavar="NAME", help="of: " + "; ".join(ALLOCATORS))
    parser.add_argument("--rounds", type=int, default=1, help="the allocators take turns in each (%(default)s)")
    parser.add_argument("--later", type=float, default=LATER_SECONDS, help="seconds after the end at which memory is looked at again (%(default)s)")
    options = words_of(parser)
    options.jemalloc = ctypes.util.find_library("jemalloc")
    names = [name for name in options.allocators if options.jemalloc or not name.startswith("jemalloc")]
    if len(names) < len(options.allocators):
        print("jemalloc was not found: its rows are missing.\n")
    options.library, rows = build("polls"), {name: [] for name in names}
    for _ in range(options.rounds):
        for name in names:
            rows[name].append(measure(options, name))
            print(f"{name}: {rows[name][-1]}", file=sys.stderr)
    print_table(["Allocator", *COLUMNS.values()], (
        [name, *(shown(statistics.median(it[column] for it in found)) for column in COLUMNS)] for name, found in rows.items()))
    write_results(options.out, {"about": about(options.program), "keys": options.keys, "rows": rows})


if __name__ == "__main__":
    run_script(main)
