#!/usr/bin/env python3
"""How long the check of each crate takes from nothing, in a copy of the repository: a table of seconds, for docs/MAINTAINING.md.

The crates are checked one after the other, in the order of crates.txt, each over the work of those below it. `checks.py NAME ..` prints the
named ones alone; those below them are checked as well. `--processors 2` keeps to two of the machine's. Next to the wall-clock time is the
CPU time, which says more where the machine does other work. It needs `rt`, and does not touch the repository.
"""
import argparse
import os
import re
import resource
import shutil
import subprocess
import tempfile
import time

TOP = os.path.normpath(os.path.join(os.path.dirname(os.path.abspath(__file__)), ".."))


def crates():
    """The crates with those of the repository that they stand on."""
    found = {}
    with open(os.path.join(TOP, "crates.txt"), encoding="utf-8") as file:
        for line in file:
            match = re.match(r"(\w+)[^:#]*:(.*)", line)
            if match:
                found[match[1]] = match[2].split()
    return {name: [low for low in lows if low in found] for name, lows in found.items()}


def in_order(stands_on, names):
    """The named crates and all below them, the lower first."""
    order = []

    def add(name):
        for low in stands_on[name]:
            add(low)
        if name not in order:
            order.append(name)

    for name in names:
        add(name)
    return order


def processor_seconds():
    """What ended child processes took of the processors so far."""
    used = resource.getrusage(resource.RUSAGE_CHILDREN)
    return used.ru_utime + used.ru_stime


def main():
    stands_on = crates()
    parser = argparse.ArgumentParser(description=__doc__, formatter_class=argparse.RawDescriptionHelpFormatter)
    parser.add_argument("crates", nargs="*", metavar="NAME", help="of a crate (all)")
    parser.add_argument("--processors", type=int, default=os.cpu_count(), help="that the checks run on, one job each (%(default)s)")
    options = parser.parse_args()
    os.sched_setaffinity(0, sorted(os.sched_getaffinity(0))[:options.processors])
    unknown = [name for name in options.crates if name not in stands_on]
    if unknown or not shutil.which("rt"):
        raise SystemExit(f"checks.py: no crate {unknown[0]}" if unknown else "checks.py: there is no rt")
    wanted, total = options.crates or list(stands_on), 0.0
    with tempfile.TemporaryDirectory() as copy:
        shutil.copytree(os.path.join(TOP, "crates"), os.path.join(copy, "crates"), ignore=shutil.ignore_patterns("out"))
        for name in ("crates.txt", "HANDLES"):
            shutil.copy(os.path.join(TOP, name), copy)
        print(f"on {options.processors} of {os.cpu_count()} processors\n\n| Crate | Seconds | of CPU time |\n|---|---|---|")
        for name in in_order(stands_on, wanted):
            begun, used = time.monotonic(), processor_seconds()
            ran = subprocess.run(
                ["rt", "check", "--jobs", str(options.processors)], cwd=os.path.join(copy, "crates", name), capture_output=True, text=True)
            took, used = time.monotonic() - begun, processor_seconds() - used
            total += took
            if ran.returncode:
                raise SystemExit(f"checks.py: {name} is not proved\n{ran.stdout[-2_000:]}{ran.stderr[-2_000:]}")
            if name in wanted:
                print(f"| `{name}` | {took:.0f} | {used:.0f} |", flush=True)
    print(f"\nin all {total / 60:.0f} minutes")


if __name__ == "__main__":
    main()
