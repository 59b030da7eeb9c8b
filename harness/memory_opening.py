"""What making the map of a log holds at most, counted by a preloaded library over `check`, which does that and nothing else.

The writes of a log are collected, and then put into the map in key order. Each time no more than half of their room is used, the rest is freed, so at
most the room of all writes is held with half of the map, or half of it with the map. A reader that freed it at the end would hold both whole. In
these logs the keys rise, so sorting takes no memory; keys are short and values empty, so neither takes memory of its own; the number of the writes is
a power of two, so no room is spare; and they are fewer than what is swept while it is collected. The judge is shown to fail by the figure of such a
reader.
"""
import os

from ssikvd_harness.arguments import run_harness
from ssikvd_harness.cases import Harness
from ssikvd_harness.deviations import expect, is_refused
from ssikvd_harness.failing_calls import Refusals
from ssikvd_harness.log_format import write_log
from ssikvd_harness.server import folder, run

COMMIT_WRITES = 64
# A collected write takes so many bytes, and a pair of the map so many.
ENTRY_BYTES, PAIR_BYTES = 80, 56
# What the program takes besides, as for the record that it reads.
REST = 32_768


def most_held(place, writes):
    """How many bytes `check` held at most over a log of this many writes."""
    data, refusals = os.path.join(place, "data"), Refusals(place)
    numbers = range(0, writes, COMMIT_WRITES)
    write_log(data, ([(b"%016x" % number, b"") for number in range(start, start + COMMIT_WRITES)] for start in numbers))
    status, out, err = run(["check", "--data", data], environment=refusals.environment())
    expect(status == 0 and not err and b" keys %d " % writes in out, f"check answered {(status, out, err)}")
    return refusals.most()


def judge(most, writes):
    """The bound is what all writes and half of the map take, or half of them and the map."""
    bound = max(ENTRY_BYTES * writes + PAIR_BYTES * writes // 2, ENTRY_BYTES * writes // 2 + PAIR_BYTES * writes) + REST
    expect(most <= bound, f"{most:,} bytes are held for {writes:,} writes, of {bound:,}")
    return bound


class MemoryOpening(Harness):
    NAME = "what making the map of a log holds"

    def test_memory_opening(self):
        with folder() as place:
            for writes in (8_192, 32_768):
                with self.tally.run(f"{writes:,} writes"):
                    most = most_held(place, writes)
                    print(f"  memory: {most:,} bytes are held at most while the map of {writes:,} writes is made, of {judge(most, writes):,}")
                    expect(is_refused(judge, (ENTRY_BYTES + PAIR_BYTES) * writes, writes), "room that is freed at the end is accepted")
                    expect(most > ENTRY_BYTES * writes, "not even the writes are counted")


if __name__ == "__main__":
    run_harness()
