#!/usr/bin/env python3
"""For how long clients aren't served while a data file is compacted, and how fast its gates are gone over and a copy follows it: what
bench/sizing.py computes with.

    bench/compactions.py [--program PROGRAM] [--keys N].. [--runs R] [--out FILE]

A server over N keys of 9 bytes with values of 100, 64 keys a record, in a folder in memory. One client commits 80 times a second, and connects again
as soon as it can. Meanwhile dist/ssikvd-compact stops the server, swaps the files and starts it again. The figure is the longest time from one
answered commit to the next, without the distance of two. Then ssikvd-verify reads the gates of a log of 100,000 commits of one key, and all of it, and
ssikvd-follow appends them to another log. Needs Python 3 and flock.
"""
import contextlib
import json
import os
import subprocess
import sys
import tempfile
import threading
import time

sys.dont_write_bytecode = True

from entry import parser_of, run_script, words_of, write_results    # noqa: E402
from servers import HERE, Failure, connect, run    # noqa: E402
from ssikvd_harness.frames import BEGIN, COMMIT, frame    # noqa: E402
from ssikvd_harness.log_format import write_log    # noqa: E402
from ssikvd_harness.server import free_port    # noqa: E402
from stores import parts_of, small_commits    # noqa: E402

TOOLS = os.path.normpath(os.path.join(HERE, "..", "dist"))
EACH_SECONDS, COMMITS = 1 / 80, 100_000
SERVE = """#!/bin/sh
setsid '{program}' serve --data '{data}' --listen 127.0.0.1:{port} > '{folder}/said' 2>&1 < /dev/null 8>&- 9>&- &
echo $! > '{folder}/pid'
"""
STOP = """#!/bin/sh
pid=$(cat '{folder}/pid')
kill "$pid"
while grep -q '^State:.[^Z]' "/proc/$pid/status" 2> /dev/null; do sleep 0.002; done
"""


def key_of(number):
    return b"k%08d" % number


class Client(threading.Thread):
    """Commits until it is asked to end, and notes when each was answered."""

    def __init__(self, port, keys):
        super().__init__()
        self.port, self.keys, self.answered, self.ended = port, keys, [], threading.Event()

    def run(self):
        number, connection = 0, None
        while not self.ended.is_set():
            begun = time.monotonic()
            try:
                connection = connection or connect(f"127.0.0.1:{self.port}", 30)
                connection.sendall(BEGIN + frame(b"SET", key_of(number % self.keys), b"y" * 100) + COMMIT)
                reply = b""
                while reply.count(b"\n") < 3:
                    piece = connection.recv(4_096)
                    if not piece:
                        raise ConnectionError
                    reply += piece
                if not reply.startswith(b"+OK\r\n+OK\r\n:"):
                    raise SystemExit(f"compactions.py: a commit was answered {reply!r}")
                self.answered.append(time.monotonic())
                number += 1
                time.sleep(max(0.0, begun + EACH_SECONDS - time.monotonic()))
            except OSError:
                if connection:
                    connection.close()
                connection = None
                time.sleep(0.002)

    def longest(self):
        return max(later - earlier for earlier, later in zip(self.answered, self.answered[1:]))


def wait_for(port):
    for _ in range(3_000):
        with contextlib.suppress(OSError), connect(f"127.0.0.1:{port}", 1):
            return
        time.sleep(0.01)
    raise Failure("the server did not come up")


def script(folder, name, text, **more):
    path = os.path.join(folder, name)
    with open(path, "w", encoding="utf-8") as file:
        file.write(text.format(folder=folder, **more))
    os.chmod(path, 0o755)
    return path


def compaction(options, folder, keys):
    """Seconds without a commit, and of the whole compaction."""
    data, port = os.path.join(folder, "data"), free_port()
    write_log(data, ([(key_of(it), b"x" * 100) for it in part] for part in parts_of(range(keys))), free_sectors=200_000)
    start = script(folder, "start", SERVE, program=options.program, data=data, port=port)
    stop = script(folder, "stop", STOP)
    subprocess.run([start], check=True)
    client = Client(port, keys)
    try:
        wait_for(port)
        client.start()
        time.sleep(0.5)
        begun = time.monotonic()
        run([os.path.join(TOOLS, "ssikvd-compact"), "--stop", stop, "--start", start, data], env={**os.environ, "SSIKVD": options.program})
        whole = time.monotonic() - begun
        wait_for(port)
        time.sleep(0.5)
    finally:
        client.ended.set()
        if client.ident:
            client.join()
        subprocess.run([stop], check=False)
    return client.longest() - EACH_SECONDS, whole


def rate_of(tool, *words):
    """Small records that a tool goes over in a second."""
    begun = time.monotonic()
    run([os.path.join(TOOLS, tool), *words])
    return round(COMMITS / (time.monotonic() - begun))


def rate_of_following(folder, path):
    """Of a log whose beginning is the noted place, and an empty one."""
    copy, state, begin = os.path.join(folder, "copy"), os.path.join(folder, "state"), {"place": 1, "records": 0, "last": 0, "digest": "0" * 64}
    write_log(copy, [], free_sectors=os.path.getsize(path) // 512)
    with open(state, "w", encoding="ascii") as file:
        json.dump({"data": begin}, file)
    return rate_of("ssikvd-follow", "--once", "--state", state, path, copy)


def main():
    parser = parser_of(__doc__)
    parser.add_argument("--keys", type=int, nargs="+", default=[100_000, 1_000_000], help="(100000 1000000)")
    parser.add_argument("--runs", type=int, default=3, help="(%(default)s)")
    options = words_of(parser)
    found = {"runs": options.runs, "rows": []}
    for keys in options.keys:
        row = {"keys": keys, "not_served_s": [], "whole_s": []}
        for _ in range(options.runs):
            with tempfile.TemporaryDirectory(prefix="ssikvd-compactions-", dir=options.folder) as folder:
                not_served, whole = compaction(options, folder, keys)
            row["not_served_s"].append(round(not_served, 3))
            row["whole_s"].append(round(whole, 3))
        print(row)
        found["rows"].append(row)
    with tempfile.TemporaryDirectory(prefix="ssikvd-compactions-", dir=options.folder) as folder:
        path = os.path.join(folder, "small")
        write_log(path, small_commits(COMMITS, 10_000, 100))
        found["gates_a_second"] = [rate_of("ssikvd-verify", "--gates", path) for _ in range(options.runs)]
        found["verified_a_second"] = [rate_of("ssikvd-verify", path) for _ in range(options.runs)]
        found["followed_a_second"] = [rate_of_following(folder, path) for _ in range(options.runs)]
    print(", ".join(f"{name}: {found[name]}" for name in found if name.endswith("_a_second")))
    write_results(options.out, found)


if __name__ == "__main__":
    run_script(main)
