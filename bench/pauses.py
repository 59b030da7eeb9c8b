#!/usr/bin/env python3
"""Measures for how long one client waits while others keep the server busy, and for how long the server looks at nobody else.

    bench/pauses.py [--program PROGRAM] [--keys N].. [--out FILE]
    bench/pauses.py --table FILE.. | --waits FILE..

One client sends PING each millisecond, from a process of its own, during: a random load; everything written again while an old transaction is open,
and the end of that one; the COMMIT of one with 256 ranges and 64 writes after everything was written again; the end of the younger of two old ones;
the end of the older of two after others have read everything; one key written again and again while many lists of older versions are left; a queue
with an old reader; half of the keys deleted, and ranges over them; ranges over keys that were deleted at their begin and are set again; 256 ranges
over a run of written keys that straddles the begin, side by side and each within the next; many COMMITs that have read all that was written before
their begin; 60 clients with the largest RANGEs, and with such of a quarter of the bytes; 128 connections coming and going; the first long reply after
an old transaction, whose versions were freed; 16 clients that read and 16 that write, where a sync takes 1 ms; 60 clients that send whole
transactions in one piece, all at once. Three more are crowds, whose requests all stand ready in one turn: COMMITs of 1 MiB, COMMITs of old
transactions, and RANGEs over keys most of which were deleted. One more lasts: everything written again four times, in random order, while a transaction
stays open. Each has a server of its own over a data file in memory (--folder).

The figures of each: the median of the waits, what all but one in a thousand stay below, the longest; the longest CPU time of the server
between the return of a poll and the next, and of all together; of the longest what was the system's, and how many pages of memory it provided; the
most syncs between two polls; with writers also the waits of those that read. Of the one that lasts, of each round the longest turn with a COMMIT, what all
but one in a thousand and one in a hundred stay below, the median, and the memory of the server behind it.
The waits are wall-clock, so other work of the machine is in them, and so is by how much the client itself was late, which is printed too. The CPU time
has nothing of that, but what a hypervisor takes from a processor can count as CPU time of the thread that ran there. It is measured by a library
that is preloaded into the server (harness/polls.c). Needs Python 3, make and a C compiler, and at a million keys 2 GB of memory.

`--table` prints the table of CPU times from such files, and `--waits` that of the waits. `measure.py` leaves the files of the documents.
"""

import json
import sys

sys.dont_write_bytecode = True

from entry import need_program, parser_of, print_table, run_script, shown, write_results    # noqa: E402
from pause_scenes import AGAIN, CROWDS, SCENES, measured    # noqa: E402
from preloaded import build    # noqa: E402
from scale import about    # noqa: E402

ALL_SCENES = SCENES | CROWDS | AGAIN
ROUNDS = (("round_longest_ms", "longest COMMIT"), ("round_most_ms", "99.9 %"), ("round_p99_ms", "99 %"), ("round_median_ms", "median"), ("round_memory_mb", "MB"))
CLOCK = (("median_ms", "median"), ("most_ms", "99.9 %"), ("longest_ms", "longest"), ("client_late_ms", "the client itself was late"))


# Tables

def read_rows(paths):
    """The rows of these files, each a scene at a size."""
    rows = []
    for path in sorted(paths):
        with open(path, encoding="utf-8") as file:
            rows += json.load(file)["rows"]
    return rows


def by_scene(rows):
    """Of each scene its figures by the number of keys. Of several runs it is the longest that counts, of the waits and of the turns."""
    found = {}
    for row in rows:
        figures = found.setdefault(row["what"], {}).setdefault(row["keys"], {})
        for name, value in row["figures"].items():
            figures[name] = max(value, figures.get(name, value))
    return found


def print_processor_table(rows):
    """The longest CPU time between two polls, a column for each number of keys."""
    sizes = sorted({row["keys"] for row in rows})
    print_table(["Beside", *(f"{size:,} keys" for size in sizes)], (
        [what, *(shown(found[size]["cpu_longest_ms"]) if size in found else "" for size in sizes)] for what, found in by_scene(rows).items()))


def print_clock_table(rows):
    """The wall-clock waits of PING."""
    print_table(["Beside", "Keys", *(head for _, head in CLOCK)], (
        [what, f"{size:,}", *(shown(figures[name]) for name, _ in CLOCK)]
        for what, found in by_scene(rows).items() for size, figures in sorted(found.items())))


def print_rounds_table(rows):
    """What each round of the scene that lasts took."""
    print_table(["Beside", "Keys", "Round", *(head for _, head in ROUNDS)], (
        [what, f"{size:,}", str(number), *map(shown, of)]
        for what, found in by_scene(rows).items() for size, figures in sorted(found.items())
        for number, of in enumerate(zip(*(figures.get(name, []) for name, _ in ROUNDS)), 1)))


# Measuring

def measure(options):
    results = {"about": about(options.program), "rows": []}
    for options.keys in options.sizes:
        for name in options.scene or ALL_SCENES:
            for what, figures in measured(options, name):
                print(f"{what}, {options.keys:,} keys: {figures}", file=sys.stderr)
                results["rows"].append({"what": what, "keys": options.keys, "figures": figures})
            write_results(options.out, results)
    return results["rows"]


def main():
    parser = parser_of(__doc__)
    parser.add_argument("--keys", action="append", type=int, dest="sizes", help="the number of keys; may be given more than once (10,000)")
    parser.add_argument("--scene", action="append", choices=ALL_SCENES, help="only this scene; may be given more than once")
    parser.add_argument("--seconds", type=float, default=3, help="of the scenes that have no end of their own (%(default)s)")
    parser.add_argument("--behind", type=float, default=0.3, help="seconds that are measured behind each part (%(default)s)")
    parser.add_argument("--table", nargs="+", metavar="FILE", help="prints the processor times that were measured before")
    parser.add_argument("--waits", nargs="+", metavar="FILE", help="prints the waits that were measured before")
    options = parser.parse_args()
    if options.table or options.waits:
        return print_processor_table(read_rows(options.table)) if options.table else print_clock_table(read_rows(options.waits))
    need_program(parser, options)
    options.sizes, options.wasted_ms, options.library = options.sizes or [10_000], 0, build("polls")
    rows = measure(options)
    print("The longest CPU time between two polls, ms\n")
    print_processor_table(rows)
    print("\nThe wall-clock waits of PING, ms\n")
    print_clock_table(rows)
    if any(name in AGAIN for name in options.scene or ALL_SCENES):
        print("\nThe CPU time of turns with a COMMIT, ms, and the server's memory\n")
        print_rounds_table(rows)
    return 0


if __name__ == "__main__":
    run_script(main)
