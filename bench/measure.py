#!/usr/bin/env python3
"""One run: measures all that docs/PERFORMANCE.md reports, with one program on one host, and leaves it in bench/results.

    bench/measure.py [--program PROGRAM] [--quick] [--only PART..]

Takes up to 32 minutes on a machine that does nothing else. Each part leaves a file of its own name, and head.json says what was measured, and where:

    throughput            transactions that read (BEGIN, 4 GET, COMMIT) and that write (BEGIN, SET, COMMIT) over 1 to 128 connections: ssikvd;
                          PostgreSQL, SERIALIZABLE; Redis with `appendfsync always`; etcd by its HTTP/JSON gateway. One request at a time, and pipelined
    readers_and_writers   those that read while others write, where a sync takes 0.04, 1 and 5 ms (readers_and_writers.py)
    rows                  workloads against an echo server, a stand-in in C, the device, Redis and PostgreSQL (workloads.py)
    growth                what requests cost over 10,000, 100,000 and 1,000,000 keys (scale.py)
    opening               how long it takes to open a log of so many keys, and the memory for each (scale.py)
    copies                `compact` over a log of 1,000,000 keys (copies.py)
    compactions           for how long a compaction stops the server (compactions.py)
    allocators            pauses and memory with the C library's allocator and jemalloc (allocators.py)
    pauses                for how long nobody else is served (pauses.py), over 10,000 and 1,000,000 keys

What isn't installed is left out with a word. `bench/page.py` makes the tables of the page from these files, and docs/pictures/draw.py the pictures.
`--quick` makes sure that all of it works, in about a minute; its figures are no use. Of the first three, --rounds and --seconds say how many slices there
are and how long each is, and --keys how large the stores are; --workloads chooses some of the rows, and --servers, --kinds and --sync-ms some of
readers_and_writers. Needs make and a C compiler.
"""

import contextlib
import datetime
import json
import os
import platform
import shutil
import subprocess
import sys
import tempfile
import time
from argparse import Namespace

sys.dont_write_bytecode = True

from entry import IN_MEMORY, facts, parser_of, rounded, run_script, words_of, write_results    # noqa: E402
from readers_and_writers import KINDS, SERVERS, measure_readers_and_writers    # noqa: E402
from servers import HERE, Etcd, Failure, Postgres, Redis, Ssikvd, find_postgres, run    # noqa: E402
from workloads import PARTS as WORKLOADS, Load, check_commits, fill, measure_workloads    # noqa: E402

RESULTS = os.path.join(HERE, "results")
CONNECTIONS = (1, 2, 4, 8, 16, 32, 64, 128)
# ssikvd has so many open transactions at most; of pipelined ones each ends in the turn in which it begins.
OPEN_MAX = 64
FIGURES = ("rate", "p50_us", "p99_us", "p999_us", "refused", "busy")
ONE, PIPELINED = "one request at a time", "pipelined"
SIZES = (10_000, 100_000, 1_000_000)
GROWTH_ROWS = {"fill": SIZES, "insert": SIZES, "read": SIZES, "deleted": SIZES, "old_reader": SIZES, "old_end": SIZES, "old_commit": (10_000,)}
ALLOCATORS = ["C library", "mxfast=0, trim_threshold=131072", "trim_threshold=1000000000", "jemalloc", "jemalloc, decay at once"]
# A scene with a longer pause is measured again, so often in all: what a hypervisor takes counts as CPU time of the thread as well, so other
# work of the host can only lengthen a pause.
PAUSE_MS, TRIES = 3, 3
# At a million keys in this order, as long as there is time.
PAUSE_SCENES = ["quiet", "load", "written_again", "old_commit", "younger", "much_read", "random_again", "half_deleted", "straddling",
                "queue", "coming_and_going", "beside_writers", "whole_transactions", "largest_ranges", "middle_ranges", "same_key",
                "first_long_reply", "overlapping", "refilled", "written_before", "large_commits", "old_commits", "sparse_ranges", "old_sparse_ranges",
                "older_sparse_ranges"]


# What was measured, and where

def first_line(words):
    return run(words).splitlines()[0].strip() if shutil.which(words[0]) else None


def commit_of(program):
    """The commit of the repository in which the program was built, and whether its crates have changes that are in no commit."""
    folder = os.path.dirname(os.path.realpath(program))
    commit = run(["git", "-C", folder, "rev-parse", "HEAD"]).strip()
    top = run(["git", "-C", folder, "rev-parse", "--show-toplevel"]).strip()
    return commit, bool(run(["git", "-C", top, "status", "--porcelain", "--", "crates"]).strip())


def postgres_program(options):
    programs = find_postgres(options.postgres)
    return programs and os.path.join(programs, "postgres")


def file_system(folder):
    source, kind = run(["df", "--output=source,fstype", folder]).splitlines()[-1].split()
    return f"{kind} on {source}"


def head(options):
    found = facts(options.program)
    with open("/proc/meminfo") as info:
        memory = int(info.readline().split()[1])
    commit, changed = commit_of(options.program)
    return {"commit": commit, "changed": changed, "version": first_line([options.program, "--version"]), "program_sha256": found["program_sha256"],
            "date": datetime.datetime.now(datetime.timezone.utc).strftime("%Y-%m-%d"), "processors": found["processors"], "model": found["model"],
            "memory_gb": round(memory / 1e6, 1), "kernel": found["kernel"], "libc": " ".join(platform.libc_ver()), "disk": file_system(options.folder),
            "in_memory": file_system("/dev/shm"), "virtual": first_line(["systemd-detect-virt", "--vm"]) if shutil.which("systemd-detect-virt") else None,
            "postgres": postgres_program(options) and run([postgres_program(options), "--version"]).strip(),
            "redis": first_line(["redis-server", "--version"]), "etcd": first_line(["etcd", "--version"]), "quick": options.quick, "remarks": [], "parts": {}}


def store(options, part, value):
    """The figures of a part as JSON, a row a line."""
    write_results(path_of(options, part), rounded(value))


def slices_of(options, quick, otherwise):
    """How many slices there are, and how long each is: what was asked for, else these of the quick form and of the other."""
    rounds, seconds = quick if options.quick else otherwise
    return {"rounds": options.rounds or rounds, "seconds": options.seconds or seconds}


# Throughput over connections

def started(options, stack):
    """Those servers that are installed, filled, each with the name in the results."""
    ssikvd = stack.enter_context(Ssikvd(options.program, options.folder, options.sectors))
    fill(options, ssikvd)
    yield "ssikvd", ssikvd
    programs = find_postgres(options.postgres)
    if programs:
        yield "postgres", stack.enter_context(Postgres(programs, options.folder, options.keys, options.value_bytes))
    for name, program, start in (("redis", "redis-server", Redis), ("etcd", "etcd", Etcd)):
        found = shutil.which(program)
        if not found:
            print(f"{program} was not found: its rows are missing.", file=sys.stderr)
            continue
        folder = stack.enter_context(tempfile.TemporaryDirectory(prefix="ssikvd-measure-", dir=options.folder))
        server = stack.enter_context(start(found, folder))
        Load(options, "fill", 1).measure(server, 0)
        yield name, server


def slice_of(options, server, work, how, connections):
    # Those of the slice before have closed by then: ssikvd has places for 128.
    time.sleep(0.1)
    load = Load(options, work, connections, how == PIPELINED)
    figures = load.measure(server, options.seconds)
    if isinstance(server, Ssikvd):
        server.committed += load.committed if work == "write" else 0
    return {name: figures[name] for name in FIGURES} | {"cpu_us": 1e6 * figures["processor_seconds"] / max(figures["committed"], 1)}


def throughput(options):
    rows, options = [], Namespace(**{**vars(options), **slices_of(options, (1, 0.2), (3, 1.0))})
    with contextlib.ExitStack() as stack:
        servers = dict(started(options, stack))
        for how in (PIPELINED, ONE):
            for work in ("read", "write"):
                for connections in options.connections if how == PIPELINED else options.connections[::2] + options.connections[-1:]:
                    # To etcd a transaction is one request.
                    left_out = set() if how == PIPELINED else {"etcd", *(["ssikvd"] if connections > OPEN_MAX else [])}
                    names = [name for name in servers if name not in left_out]
                    slices = {name: [] for name in names}
                    for number in range(options.rounds):
                        for name in names if number % 2 == 0 else reversed(names):
                            slices[name].append(slice_of(options, servers[name], work, how, connections))
                    for name in names:
                        figures = {figure: [it[figure] for it in slices[name]] for figure in slices[name][0]}
                        rows.append({"server": name, "work": work, "how": how, "connections": connections, **figures})
                        print(f"{work}, {how}, {connections}: {name} {sorted(figures['rate'])[len(slices[name]) // 2]:,.0f} a second", file=sys.stderr)
                store(options, "throughput", {"rounds": options.rounds, "seconds": options.seconds, "keys": options.keys,
                                              "value_bytes": options.value_bytes, "rows": rows})
        print(check_commits(servers["ssikvd"]), file=sys.stderr)


# The parts that programs of their own measure

def program(name, *words):
    """Runs one of the other programs to its end; what it prints goes where this one's does."""
    words = [sys.executable, os.path.join(HERE, name), *map(str, words)]
    with subprocess.Popen(words, stdout=sys.stderr, stdin=subprocess.DEVNULL) as child:
        try:
            status = child.wait()
        except BaseException:
            child.terminate()
            raise
    if status:
        raise Failure(f"{' '.join(words)} ended with {status}")


def path_of(options, part):
    return os.path.join(options.results, part + ".json")


def readers_and_writers(options):
    chosen = {**slices_of(options, (1, 0.2), (3, 0.7)), "folder": IN_MEMORY, "sectors": 1 << 20}
    store(options, "readers_and_writers", measure_readers_and_writers(Namespace(**{**vars(options), **chosen})))


def rows_of_workloads(options):
    chosen = {**slices_of(options, (1, 0.1), (3, 0.5)), "sectors": 1 << 20}
    store(options, "rows", measure_workloads(Namespace(**{**vars(options), **chosen})))


def results_in(file):
    """What a script left in a file, which goes."""
    with open(file, encoding="utf-8") as opened:
        found = json.load(opened)
    os.remove(file)
    return found


def merged(options, part, files):
    """One file of several: their rows one after the other."""
    found = [results_in(file) for file in files]
    store(options, part, {**found[0], "rows": [row for it in found for row in it["rows"]]})


def scale(options, part, sizes_of_rows):
    files = []
    for row, sizes in sizes_of_rows.items():
        files.append(path_of(options, f"{part}.{row}"))
        sizes = sizes[:1] if options.quick else sizes
        words = [word for size in sizes for word in ("--size", size)]
        program("scale.py", "--program", options.program, "--out", files[-1], "--row", row, "--limit", 30, *words)
    merged(options, part, files)


def growth(options):
    scale(options, "growth", GROWTH_ROWS)


def opening(options):
    scale(options, "opening", {"start": SIZES})


def copies(options):
    more = ["--keys", 10_000, "--runs", 1] if options.quick else ["--runs", 3]
    program("copies.py", "--program", options.program, "--out", path_of(options, "copies"), *more)


def compactions(options):
    more = ["--keys", 10_000, "--runs", 1] if options.quick else ["--runs", 3]
    program("compactions.py", "--program", options.program, "--out", path_of(options, "compactions"), *more)


def allocators(options):
    more = ["--keys", 5_000, "--later", 0.5] if options.quick else ["--later", 2]
    program("allocators.py", "--program", options.program, "--out", path_of(options, "allocators"), "--allocators", *ALLOCATORS, *more)


def longest_ms(row):
    return row["figures"]["cpu_longest_ms"]


def shortest(runs):
    """Of each part of a scene the run whose longest pause is the shortest, with the longest pauses of all runs."""
    for rows in zip(*runs):
        least = min(rows, key=longest_ms)
        yield {**least, "figures": {**least["figures"], "cpu_longest_of_runs_ms": [longest_ms(row) for row in rows]}}


def scene_runs(options, scene, keys):
    """What each run of a scene left: one, or some more where a pause was long."""
    for _ in range(TRIES):
        file = path_of(options, f"pauses.{keys}.{scene}")
        try:
            program("pauses.py", "--program", options.program, "--out", file, "--keys", keys, "--scene", scene, "--seconds", 1.5)
        except Failure as failure:
            print(failure, file=sys.stderr)
            return
        found = results_in(file)
        yield found
        if max(map(longest_ms, found["rows"])) <= PAUSE_MS or time.monotonic() > options.end:
            return


def pauses(options):
    """The scenes over few keys, and then as many over many as there is time for."""
    found = {}
    for keys in (10_000,) if options.quick else (10_000, 1_000_000):
        for scene in PAUSE_SCENES[:4] if options.quick else PAUSE_SCENES:
            if time.monotonic() > options.end:
                print(f"{scene}, {keys:,} keys: there is no time left", file=sys.stderr)
                continue
            runs = list(scene_runs(options, scene, keys))
            if runs:
                found = {"about": runs[0]["about"], "rows": [*found.get("rows", []), *shortest([run["rows"] for run in runs])]}
    store(options, "pauses", found)


PARTS = {"throughput": throughput, "readers_and_writers": readers_and_writers, "rows": rows_of_workloads, "growth": growth, "opening": opening, "copies": copies,
         "compactions": compactions, "allocators": allocators, "pauses": pauses}


def read_options():
    parser = parser_of(__doc__, "/tmp")
    parser.add_argument("--postgres", help="the folder of PostgreSQL's programs (else found)")
    parser.add_argument("--results", default=RESULTS, help="the folder for the figures (%(default)s)")
    parser.add_argument("--only", nargs="+", choices=PARTS, default=list(PARTS), help="parts of the run (all); head.json stays as it is")
    parser.add_argument("--minutes", type=float, default=31, help="after which no further scene of the pauses begins (%(default)s)")
    parser.add_argument("--quick", action="store_true", help="very short slices, few connections and small stores")
    parser.add_argument("--rounds", type=int, help="slices of throughput, readers_and_writers and rows (3, quick 1)")
    parser.add_argument("--seconds", type=float, help="of each of these (1, 0.7 and 0.5, quick 0.2, 0.2 and 0.1)")
    parser.add_argument("--threads", type=int, default=2, help="of each load generator (%(default)s)")
    parser.add_argument("--keys", type=int, default=10_000, help="of these three (%(default)s)")
    parser.add_argument("--value-bytes", type=int, default=100, help="(%(default)s)")
    parser.add_argument("--workloads", nargs="+", choices=WORKLOADS, default=WORKLOADS, help="of rows (all)")
    parser.add_argument("--real-time", action="store_true", help="run the rows above all other work of the machine (needs root)")
    parser.add_argument("--servers", nargs="+", choices=SERVERS, default=SERVERS, help="of readers_and_writers (all)")
    parser.add_argument("--kinds", nargs="+", choices=KINDS, default=list(KINDS), help="of readers_and_writers (all)")
    parser.add_argument("--sync-ms", type=float, nargs="+", default=[0.04, 1, 5], help="how long a sync takes at least there (0.04 1 5)")
    options = words_of(parser)
    options.connections = (1, 16, 128) if options.quick else CONNECTIONS
    options.sectors = 1 << 22
    options.end = time.monotonic() + 60 * options.minutes
    return options


def main():
    options = read_options()
    subprocess.run(["make", "-s", "-C", HERE], check=True)
    os.makedirs(options.results, exist_ok=True)
    found = head(options)
    for part in options.only:
        begun, failed = time.monotonic(), {}
        try:
            PARTS[part](options)
        except Failure as failure:
            print(f"{part}: {failure}", file=sys.stderr)
            failed = {"failed": str(failure)}
        found["parts"][part] = {"seconds": round(time.monotonic() - begun), "load_after": round(os.getloadavg()[0], 1), **failed}
        if options.only == list(PARTS):
            store(options, "head", found)
        print(f"--- {part}: {found['parts'][part]['seconds']} s", file=sys.stderr)
    failed = [part for part, it in found["parts"].items() if "failed" in it]
    return f"measure.py: failed: {', '.join(failed)}" if failed else 0


if __name__ == "__main__":
    run_script(main)
