#!/usr/bin/env python3
"""Compares two built programs of ssikvd, request by request: has one that was fast become slower?

    bench/versus.py OLD NEW                    # CPU time, in alternating slices: five minutes
    bench/versus.py OLD NEW --instructions     # the instructions that each transaction takes: two minutes; needs valgrind, and a busy machine will do

A row is one kind of transaction. Its first form measures the CPU time of both servers under the same load, in rounds of one slice each, and
gives the median of the rounds' ratios with their interquartile range: above 1, the new program takes more. The data files are in memory, so no disk
is involved. The second runs each server under callgrind, sends 200 transactions over one connection, and counts what 400 more take: in the program's
own code, and with the C library's. Then it counts those of a crowd that writes, for what grows with the clients that wait and with the numbers at which
transactions began, which one client can't show. The system's calls are not in it. Valgrind counts a `rep stosb`, with which that library fills long
stretches of memory, once for each byte.
"""

import argparse
import contextlib
import os
import re
import signal
import statistics
import subprocess
import sys
import tempfile

sys.dont_write_bytecode = True

from entry import print_table, run_script    # noqa: E402
from servers import HERE, Listening, Ssikvd, run    # noqa: E402
from ssikvd_harness.frames import BEGIN, COMMIT, PING, frame    # noqa: E402
from stores import Client    # noqa: E402
from workloads import Load, counted, quartile    # noqa: E402

KINDS = [("PING", "ping", 1, False), ("PING", "ping", 16, False), ("32 pipelined PINGs", "pings", 1, False),
         ("BEGIN, 4 GET, COMMIT", "read", 16, False), ("BEGIN, 4 GET, COMMIT, pipelined", "read", 16, True),
         ("BEGIN, RANGE of 64, COMMIT, pipelined", "range", 16, True), ("BEGIN, SET, COMMIT", "write", 16, False),
         ("BEGIN, SET, COMMIT", "write", 64, False),
         ("BEGIN, SET, COMMIT, pipelined", "write", 1, True), ("BEGIN, GET, SET of one of 16 keys, COMMIT", "hot", 16, False)]
KEYS, VALUE_BYTES, SECTORS = 10_000, 100, 4_194_303
# Under callgrind: how many transactions are sent before those that count, and how many count.
WARM, COUNTED = 200, 400
# How many clients a crowd has, and for how long it sends, in seconds.
CROWDS, CROWD_SECONDS = (16, 64), 4


def chosen(options):
    """The kinds of transactions that are asked for."""
    return [kind for kind in KINDS if not options.row or any(word in kind[0] for word in options.row)]


def processor_us(slice_of):
    return 1e6 * slice_of["processor_seconds"] / max(slice_of["committed"], 1)


def timed_row(options, kind, old, new):
    """The CPU time of both for a transaction, and the ratios of the rounds."""
    what, work, connections, at_once = kind
    load = Load(options, work, connections, at_once)
    times = {old: [], new: []}
    for number in range(options.rounds):
        for server in (old, new) if number % 2 == 0 else (new, old):
            times[server].append(processor_us(load.measure(server, options.seconds)))
    ratios = [mine / max(other, 1e-9) for mine, other in zip(times[new], times[old])]
    middle_half = f"{quartile(ratios, 1):.2f} to {quartile(ratios, 3):.2f}"
    both = [f"{statistics.median(times[it]):.2f}" for it in (old, new)]
    return [f"{what}, {counted(connections)}", *both, f"**{quartile(ratios, 2):.2f}**", middle_half]


def timed_rows(options):
    options.keys, options.value_bytes = KEYS, VALUE_BYTES
    with contextlib.ExitStack() as stack:
        old, new = (stack.enter_context(Ssikvd(it, options.folder, SECTORS)) for it in (options.old, options.new))
        for server in (old, new):
            Load(options, "fill", 1).measure(server, 0)
        for kind in chosen(options):
            yield timed_row(options, kind, old, new)


def costs(figures):
    """The instructions in the figures of callgrind, by the file of the program or library that they stand in."""
    names, found, here, is_of_callee = {}, {}, "", False
    for line in figures.splitlines():
        if match := re.match(r"(c?)ob=(\(\d+\))(?: (.+))?", line):
            name = names.setdefault(match[2], match[3])
            here = here if match[1] else name
        elif line.startswith("calls="):
            is_of_callee = True
        elif re.match(r"[0-9+*-]", line):
            found[here] = found.get(here, 0) + (0 if is_of_callee else int(line.split()[-1]))
            is_of_callee = False
    return found


class Counting(Listening):
    """The server under callgrind."""

    name = "resp"

    def __init__(self, program, folder, name):
        self.figures = os.path.join(folder, name)
        data = self.figures + ".data"
        run([program, "create", "--data", data, "--sectors", "65536"])
        words = ["valgrind", "--tool=callgrind", f"--callgrind-out-file={self.figures}", program, "serve", "--data", data, "--listen", "127.0.0.1:0"]
        super().__init__(words, stop_signal=signal.SIGINT, stderr=subprocess.DEVNULL)
        self.object = "/" + os.path.basename(os.path.realpath(program))
        self.dumps = 0

    def instructions(self):
        """Those since the last call: of the program's own code, and all."""
        self.dumps += 1
        run(["callgrind_control", "--dump", str(self.process.pid)])
        with open(f"{self.figures}.{self.dumps}") as file:
            by_object = costs(file.read())
        return sum(cost for name, cost in by_object.items() if name.endswith(self.object)), sum(by_object.values())


def requests_of(work, number):
    """The requests of one transaction."""
    key = b"k%08d"
    if work in ("ping", "pings"):
        return [PING] * (32 if work == "pings" else 1)
    if work == "read":
        body = [frame(b"GET", key % (97 * (4 * number + i) % KEYS)) for i in range(4)]
    elif work == "range":
        body = [frame(b"RANGE", key % (97 * number % (KEYS - 64)), b"", b"64")]
    elif work == "hot":
        body = [frame(b"GET", key % (number % 16)), frame(b"SET", key % (number % 16), b"v" * VALUE_BYTES)]
    else:
        body = [frame(b"SET", key % (97 * number % KEYS), b"v" * VALUE_BYTES)]
    return [BEGIN, *body, COMMIT]


def send_all(client, kind, numbers):
    _, work, _, at_once = kind
    for number in numbers:
        requests = requests_of(work, number)
        pieces = [b"".join(requests)] if at_once or work == "pings" else requests
        for piece in pieces:
            client.socket.sendall(piece)
            for _ in range(len(requests) if len(pieces) == 1 else 1):
                client.reply()


def fill(client):
    keys = [b"k%08d" % number for number in range(KEYS)]
    for start in range(0, KEYS, 50):
        part = keys[start:start + 50]
        client.ask_lines(BEGIN + b"".join(frame(b"SET", key, b"v" * VALUE_BYTES) for key in part) + COMMIT, 2 + len(part))


def counted_instructions(program, folder, name, kinds):
    """What a transaction of each kind takes, over one connection."""
    with Counting(program, folder, name) as server:
        client = Client(server.address)
        fill(client)
        for kind in kinds:
            send_all(client, kind, range(WARM))
            server.instructions()
            send_all(client, kind, range(WARM, WARM + COUNTED))
            yield [count / COUNTED for count in server.instructions()]


def crowd_instructions(options, program, name):
    """What a transaction that writes one key takes, where so many clients send their requests one at a time."""
    with Counting(program, options.folder, name) as server:
        fill(Client(server.address))
        for connections in CROWDS:
            load = Load(options, "write", connections)
            load.measure(server, 1)
            server.instructions()
            committed = load.measure(server, CROWD_SECONDS)["committed"]
            yield [count / committed for count in server.instructions()]


def instruction_row(what, old, new):
    ratios = [f"**{mine / other:.2f}**" for mine, other in zip(new, old)]
    return [what, f"{old[0]:,.0f}", f"{new[0]:,.0f}", ratios[0], f"{old[1]:,.0f}", f"{new[1]:,.0f}", ratios[1]]


def instruction_rows(options):
    options.keys, options.value_bytes = KEYS, VALUE_BYTES
    programs = [(options.old, "old"), (options.new, "new")]
    # (a row for each kind of transaction, however many connections it stands there for)
    kinds = list({kind[0]: kind for kind in chosen(options)}.values())
    both = [list(counted_instructions(program, options.folder, name, kinds)) for program, name in programs]
    for (what, *_), old, new in zip(kinds, *both):
        yield instruction_row(what, old, new)
    crowds = [list(crowd_instructions(options, program, name + "-crowd")) for program, name in programs]
    for connections, old, new in zip(CROWDS, *crowds):
        yield instruction_row(f"BEGIN, SET, COMMIT, {connections} clients", old, new)


def main():
    parser = argparse.ArgumentParser(description=__doc__, formatter_class=argparse.RawDescriptionHelpFormatter)
    parser.add_argument("old")
    parser.add_argument("new")
    parser.add_argument("--instructions", action="store_true", help="count instructions in place of time")
    parser.add_argument("--row", action="append", metavar="WORDS", help="only rows that have these words; may be given more than once")
    parser.add_argument("--rounds", type=int, default=15)
    parser.add_argument("--seconds", type=float, default=0.5)
    parser.add_argument("--threads", type=int, default=2, help="threads of the load generator")
    options = parser.parse_args()
    options.old, options.new = map(os.path.abspath, (options.old, options.new))
    with tempfile.TemporaryDirectory(prefix="ssikvd-versus-", dir="/dev/shm") as options.folder:
        print(f"Load before: {os.getloadavg()[0]:.1f}.\n")
        run(["make", "-s", "-C", HERE, "all"])
        if options.instructions:
            print_table(["What", "Old: own code", "New: own code", "Ratio", "Old: all", "New: all", "Ratio"], instruction_rows(options))
        else:
            print_table(["What", "Old: us", "New: us", "Ratio", "Interquartile range"], timed_rows(options))


if __name__ == "__main__":
    run_script(main)
