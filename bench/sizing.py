#!/usr/bin/env python3
"""What rate a data file sustains, and for how much of the time compactions stop its server: prints the table of docs/OPERATIONS.md, "Sizing".

It measures nothing. It computes from figures in bench/results, for small commits, of one key, that take two sectors; keys have up to 16 bytes and values
100. K is the number of keys, and r the rate of commits a second.

The timer looks each minute, and begins a compaction if more than half of the sectors are used, or if the log would be full within ten minutes at that
rate. The watch looks each second, and begins one at half where the log would be full within two minutes. A compaction goes over the gates of the c
commits since the last one, reads them, and copies K keys, while the server runs. The copy follows what comes meanwhile, which takes the share
f = r / FOLLOWED of the time again, of that the same share, and so on; then all of it is read, and it follows once more. If that takes T seconds, with
those until the watch sees it, r T commits are behind the map in the new file, or fewer where they wrote the same keys. A rate is sustained where it is
below half full then, and where the old one had room for them.
"""
import argparse
import math
import os
import sys

sys.path.append(os.path.dirname(os.path.abspath(__file__)))

import page     # noqa: E402

LOOK, WITHIN, ABOVE = 60, 600, 0.5          # the timer's seconds, and the two rules of its unit
SEEN, SOON = 3, 120                         # in how many seconds the watch is begun again and sees a full half; and how soon a log must be full for it
GATES = page.gates_a_second()               # small records whose gates ssikvd-follow goes over in a second
FOLLOWED = page.followed_a_second()         # small records that it appends to a copy in a second
READ = page.read_a_second()                 # small records that an opening reads a second
COPIED = page.copied_a_second()             # keys that `compact` copies a second, written in random order
KEYS_OF_SECTOR = 4                          # 64 keys take 16 sectors
STOPPED = page.stopped_s()                  # for each number of keys, the seconds for which clients weren't served in a compaction
MIB = 2_048
FILES = ((128 * MIB, 100_000), (512 * MIB, 100_000), (512 * MIB, 1_000_000), (2_048 * MIB, 100_000), (2_048 * MIB, 1_000_000))
RATES = (100, 1_000, 10_000)


def half(sectors, keys):
    """The small commits behind the map when half of the sectors are used."""
    return (ABOVE * sectors - keys / KEYS_OF_SECTOR) / 2


def room(sectors, keys):
    """The small commits for which there is room behind the map."""
    return (sectors - 2 - keys / KEYS_OF_SECTOR) / 2


def meanwhile(sectors, keys, rate):
    """The commits that come while a compaction is made that the watch begins; more than any file has room for where the copy can't follow."""
    share = rate / FOLLOWED
    if share >= 1:
        return math.inf
    commits = half(sectors, keys)
    copied = (SEEN + commits / GATES + commits / READ + keys / COPIED) / (1 - share)
    return rate * (copied + rate * copied / READ / (1 - share))


def sustained(sectors, keys):
    """The highest rate at which the log is never full, and less than half full after a compaction."""
    low, high = 0.0, FOLLOWED
    for _ in range(60):
        rate = (low + high) / 2
        fits = meanwhile(sectors, keys, rate) <= min(half(sectors, keys), room(sectors, keys) - half(sectors, keys))
        low, high = (rate, high) if fits else (low, rate)
    return low


def between(sectors, keys, rate):
    """The seconds from the end of one compaction to that of the next, and the commits that come while one is made. Those are behind the map when
    it has ended, so from there to half it is the shorter by as much as it takes."""
    due = min(half(sectors, keys), room(sectors, keys) - WITHIN * rate)
    by_timer = LOOK * max(1, math.ceil(due / rate / LOOK))
    is_watched = (room(sectors, keys) - half(sectors, keys)) / rate < SOON
    return min(by_timer, half(sectors, keys) / rate) if is_watched else by_timer, meanwhile(sectors, keys, rate) if is_watched else 0


def words(seconds):
    """A time in words."""
    for size, name in ((86_400, "days"), (3_600, "h"), (60, "min"), (1, "s")):
        if seconds >= 2 * size or seconds >= size and name == "min" or name == "s":
            return f"{seconds / size:.{0 if seconds >= 10 * size or name in ('min', 's') else 1}f} {name}"
    return None


def rounded(number):
    """Rounded down to two figures."""
    unit = 10 ** (len(str(int(number))) - 2)
    return int(number) // unit * unit


def cell(sectors, keys, rate):
    """How often a compaction comes at a rate, and what share of the time it stops the server."""
    if rate > sustained(sectors, keys):
        return "not sustained"
    seconds, count = between(sectors, keys, rate)
    return f"{words(seconds)}, {100 * (STOPPED[keys] + count / READ) / seconds:.2g} %"


def lines():
    """The table."""
    yield "| File | Keys | Sustains, commits a second |" + "".join(f" Compactions at {rate:,} a second |" for rate in RATES)
    yield "|" + "---|" * (3 + len(RATES))
    for sectors, keys in FILES:
        size = f"{sectors // MIB} MiB" if sectors < 1_024 * MIB else f"{sectors // MIB // 1_024} GiB"
        cells = "".join(f" {cell(sectors, keys, rate)} |" for rate in RATES)
        yield f"| {size} | {keys:,} | {rounded(sustained(sectors, keys)):,} |{cells}"


def main():
    argparse.ArgumentParser(description=__doc__, formatter_class=argparse.RawDescriptionHelpFormatter).parse_args()
    print("\n".join(lines()))


if __name__ == "__main__":
    main()
