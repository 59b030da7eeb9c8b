#!/usr/bin/env python3
"""What `compact` costs against reading the old file and writing the new one: seconds of wall-clock time, medians of some runs.

    bench/copies.py [--program PROGRAM] [--keys N] [--runs R] [--folder F] [--out FILE]

Logs of N keys of 16 bytes with values of 100, 64 keys a record, once by rising keys over the whole log and once in a random order. Each is copied
by `compact`; next to it stand `sha256sum` of the old file and writing as many bytes as the new one has, with one sync. The folder is one in
memory, unless another is named. Needs Python 3 and sha256sum.
"""
import os
import random
import resource
import statistics
import subprocess
import sys
import tempfile
import time

sys.dont_write_bytecode = True

from entry import parser_of, run_script, words_of, write_results    # noqa: E402
from ssikvd_harness.log_format import write_log    # noqa: E402
from stores import parts_of    # noqa: E402

VALUE = b"v" * 100


def log_of(keys, order):
    """A log of so many keys, which rise within each record."""
    names = [b"key%013d" % number for number in range(keys)]
    if order == "random":
        random.Random(7).shuffle(names)
    return ([(key, VALUE) for key in sorted(part)] for part in parts_of(names))


def timed(work):
    begun = time.monotonic()
    work()
    return time.monotonic() - begun


def write_once(path, block, length):
    """Writes so many bytes, and syncs once."""
    with open(path, "wb", buffering=0) as file:
        for _ in range(length // len(block)):
            file.write(block)
        os.fdatasync(file.fileno())
    os.unlink(path)


def measured(options, folder, order):
    """The times of each kind."""
    old, new = os.path.join(folder, "old"), os.path.join(folder, "new")
    write_log(old, log_of(options.keys, order))
    times = {"compact": [], "sha256sum of the file": [], "writing as many bytes with one sync": []}
    block, quiet = os.urandom(1 << 20), {"stdout": subprocess.DEVNULL, "check": True}
    for _ in range(options.runs):
        times["compact"].append(timed(lambda: subprocess.run([options.program, "compact", "--from", old, "--to", new], **quiet)))
        length = os.path.getsize(new)
        os.unlink(new)
        times["sha256sum of the file"].append(timed(lambda: subprocess.run(["sha256sum", old], **quiet)))
        times["writing as many bytes with one sync"].append(timed(lambda: write_once(new, block, length)))
    print(f"{order} order, {os.path.getsize(old) / 1e6:.0f} MB:")
    for name, found in times.items():
        print(f"  {name}: {statistics.median(found):.2f} s ({min(found):.2f} to {max(found):.2f})")
    other = sum(statistics.median(found) for name, found in times.items() if name != "compact")
    ratio = statistics.median(times["compact"]) / (3 * other)
    print(f"  compact over three times the others together: {ratio:.2f}")
    return {"order": order, "keys": options.keys, "file_mb": round(os.path.getsize(old) / 1e6, 1), "seconds": times, "ratio": ratio}


def main():
    parser = parser_of(__doc__)
    parser.add_argument("--keys", type=int, default=1_000_000, help="(%(default)s)")
    parser.add_argument("--runs", type=int, default=11, help="(%(default)s)")
    options = words_of(parser)
    with tempfile.TemporaryDirectory(prefix="ssikvd-copies-", dir=options.folder) as folder:
        rows = [measured(options, folder, order) for order in ("rising", "random")]
    most_mb = resource.getrusage(resource.RUSAGE_CHILDREN).ru_maxrss * 1024 / 1e6
    print(f"the most that a process held: {most_mb:.0f} MB")
    write_results(options.out, {"runs": options.runs, "most_mb": round(most_mb), "rows": rows})


if __name__ == "__main__":
    run_script(main)
