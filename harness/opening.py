"""What opening a log costs as it grows: the CPU time of `serve` until it listens, over a small log and over one with 16 times as many writes.

The larger may take at most two and a half times as much for each write. There are logs of keys in random order, of keys that rise, and of few keys. Each
is opened several times, and the least counts, since other work of the machine can only add. The judge is shown to fail by figures that grow as the
square does.
"""
import os

from ssikvd_harness.arguments import run_harness
from ssikvd_harness.cases import Harness
from ssikvd_harness.deviations import expect, is_refused
from ssikvd_harness.log_format import write_log
from ssikvd_harness.server import Server, folder
from ssikvd_harness.settings import PROGRAM

SMALL, TIMES, TRIES, COMMIT_WRITES = 1_024, 16, 3, 64
# How many times as much for each write the larger may take.
BOUND = 2.5
VALUE = b"v" * 100
LOGS = {
    "keys in random order": lambda number: b"%016x" % (number * 0x9E3779B97F4A7C15 % (1 << 64)),
    "keys that rise": lambda number: b"%016x" % number,
    "few keys": lambda number: b"%016x" % (number % (2 * COMMIT_WRITES)),
}


def opening_seconds(data):
    """The least CPU time until the log was open."""
    least = None
    for _ in range(TRIES):
        with Server(data) as server:
            expect(server.is_listening(), f"it doesn't listen: {server.line!r}")
            with open(f"/proc/{server.process.pid}/schedstat", encoding="ascii") as file:
                took = int(file.read().split()[0]) / 1e9
        least = took if least is None else min(least, took)
    return least


def judge(small, large):
    """How many times as much the larger log takes for each write, which is below the bound."""
    growth = large / small / TIMES
    expect(growth <= BOUND, f"the larger log takes {growth:.2f} times as much for each write, {small:.4f} and {large:.4f} s, the bound is {BOUND}")
    return growth


def records(key_of, writes):
    """The records of a log of this many writes."""
    for start in range(0, writes, COMMIT_WRITES):
        yield sorted((key_of(number), VALUE) for number in range(start, start + COMMIT_WRITES))


def of_log(place, key_of):
    """What opening such logs of both sizes takes."""
    took = []
    for writes in (SMALL, TIMES * SMALL):
        data = os.path.join(place, "data")
        write_log(data, records(key_of, writes), free_sectors=64)
        took.append(opening_seconds(data))
    return took


class Opening(Harness):
    NAME = "opening"
    NEEDS = (PROGRAM,)

    def test_growth(self):
        growths = []
        with folder() as place:
            for name, key_of in LOGS.items():
                with self.tally.run(name):
                    growths.append(judge(*of_log(place, key_of)))
        if growths:
            self.tally.more = f"; for each write at most {max(growths):.2f} times as much, of {BOUND}"

    def test_bound(self):
        with self.tally.run("the bound"):
            expect(is_refused(judge, 1, TIMES ** 2) and not is_refused(judge, 1, TIMES), "growth by the square is taken, or growth by the size is not")


if __name__ == "__main__":
    run_harness()
