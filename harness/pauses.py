"""For how long `serve` looks at nobody else: the longest CPU time between two polls, in the scenes of bench/pauses.py, each below its bound. In two
of them also the most syncs between two polls, for which all others wait. `long` has the crowds, and a transaction that stays open while everything is
written again and again, over larger stores.

The CPU time is that of the server's thread alone, so other work of the machine is hardly in it. `polls.c` measures it. A virtual machine counts as
CPU time what its host took away meanwhile, once 29 ms in a turn of under one, and that can only add: so a scene that is above a bound runs again, and
each part is judged by the least of up to three runs. The bounds are more than six times the longest of three runs over 10,000 keys on a busy machine,
and more than twice in the scenes of one key written again, of ranges within each other and of many COMMITs in one turn, each of which is there for a
wrong body that only costs. Those of `long` are three times what was measured. The judge is shown to fail: by a figure above each bound, and by a
server that wastes more in one turn than any bound allows.
"""
import argparse
import os
import sys

from ssikvd_harness.arguments import is_long, run_harness
from ssikvd_harness.cases import Harness
from ssikvd_harness.deviations import Deviation, expect, is_refused
from ssikvd_harness.settings import OUT, PROGRAM, TOP

sys.path.append(os.path.join(TOP, "bench"))

import pause_scenes     # noqa: E402

LIBRARY = os.path.join(OUT, "polls.so")
KEYS, LONG_KEYS, SECONDS, BEHIND_SECONDS = 10_000, 100_000, 0.2, 0.02
TRIES = 3

# Of each part of a scene, in milliseconds of the processor.
QUICK_MS = {
    "nothing else": 2,
    "a random load": 4,
    "everything written again while an old transaction is open": 12,
    "the end of that transaction": 28,
    "the COMMIT of one with 256 ranges and 64 writes, after everything was written again": 32,
    "the end of the younger of two old ones": 56,
    "the end of the older of two, after others have read everything": 4,
    "one key written again and again, while many lists of older versions are left": 2,
    "a queue with an old reader": 16,
    "half of the keys deleted, and ranges over them": 3,
    "ranges of 1 over keys that were deleted at the begin and are set again": 3,
    "256 ranges over a run that straddles the begin": 4,
    "256 ranges, each within the next, over a run that straddles the begin": 2,
    "many COMMITs in one turn, of transactions that have read all that was written before their begin": 6,
    "60 clients with the largest RANGEs": 72,
    "60 clients with RANGEs of 128 values of 4,096 bytes": 24,
    "128 connections coming and going": 24,
    "idle turns, until what an old transaction saw is freed": 6,
    "the first RANGE of 100 pairs after that": 2.5,
    "16 clients that read and 16 that write, where a sync takes 1 ms": 16,
    "60 clients with whole transactions in one piece, all at once, after their first": 4,
}
LONG_MS = {
    "24 COMMITs of 64 values of 16,384 bytes, all in one turn": 60,
    "60 COMMITs of ones with 256 ranges and 64 writes, after everything was written again, all in one turn": 12,
    "60 clients with 21 RANGEs of 128 over keys of which one in 384 is left, all in one turn": 12,
    "60 clients with 21 RANGEs of 128 of which each sees one key in 384, the others set again since, all in one turn": 12,
    "60 clients with such RANGEs next to an older transaction that sees values of the others, all in one turn": 12,
    "everything written again four times, in random order, while a transaction stays open": 6,
}
# Where they are judged, the most syncs between two polls: those of one COMMIT.
SYNCS = {
    "16 clients that read and 16 that write, where a sync takes 1 ms": 2,
    "60 clients with whole transactions in one piece, all at once, after their first": 2,
}


def scenes_and_bounds():
    return (pause_scenes.CROWDS | pause_scenes.AGAIN, LONG_MS) if is_long() else (pause_scenes.SCENES, QUICK_MS)


def options(wasted_ms=0):
    place, keys = "/dev/shm" if os.path.isdir("/dev/shm") else None, LONG_KEYS if is_long() else KEYS
    return argparse.Namespace(
        program=PROGRAM, library=LIBRARY, folder=place, keys=keys, seconds=SECONDS, behind=BEHIND_SECONDS, wasted_ms=wasted_ms)


def judge(what, took_ms, syncs=0):
    _, bounds_ms = scenes_and_bounds()
    expect(took_ms <= bounds_ms[what], f"{what}: {took_ms} ms of CPU time between two polls, the bound is {bounds_ms[what]}")
    expect(what not in SYNCS or syncs <= SYNCS[what], f"{what}: {syncs} syncs between two polls, the bound is {SYNCS.get(what)}")


def judged_ms(figures):
    """The longest CPU time between two polls. Of a scene that lasts what all COMMITs of a round but one in a thousand stay below: in so long a time the host
    takes something away again and again."""
    return max(figures.get("round_most_ms", [figures["cpu_longest_ms"]]))


def parts(scene, wasted_ms=0):
    """What the scene is made of, each with the CPU time that is judged and the most syncs between two polls."""
    try:
        return [(what, (judged_ms(it), it["most_syncs"])) for what, it in pause_scenes.measured(options(wasted_ms), scene)]
    except pause_scenes.Failure as failure:
        raise Deviation(f"{scene}: {failure}") from None


def least_parts(scene, wasted_ms=0):
    """The same, with the least of up to three runs, which end once all parts are below their bounds."""
    least = {}
    for _ in range(TRIES):
        for what, took in parts(scene, wasted_ms):
            least[what] = tuple(map(min, took, least.get(what, took)))
        if not any(is_refused(judge, what, *took) for what, took in least.items()):
            break
    return least.items()


def scenes(tally):
    """Each scene below its bounds. Which parts there were, and of the longest its part of the bound."""
    seen, (all_scenes, bounds_ms) = {}, scenes_and_bounds()
    for scene in all_scenes:
        with tally.run(scene):
            for what, took in least_parts(scene):
                seen[what] = took[0] / bounds_ms[what]
                judge(what, *took)
    return seen


def judged(tally, seen):
    """What is above a bound is refused, and what a server wastes is seen."""
    _, bounds_ms = scenes_and_bounds()
    with tally.run("the bounds"):
        expect(set(seen) == set(bounds_ms), f"there are bounds for {set(bounds_ms) - set(seen)}, which no scene has")
        expect(all(is_refused(judge, what, 1.001 * bound) for what, bound in bounds_ms.items()), "a figure above its bound is taken")
        expect(all(is_refused(judge, what, 0, bound + 1) for what, bound in SYNCS.items() if what in bounds_ms), "a sync too many is taken")
    if is_long():
        return
    with tally.run("a server that wastes time"):
        wasted_ms = 1 + max(bounds_ms.values())
        for what, (took_ms, _) in least_parts("quiet", wasted_ms):
            expect(took_ms >= wasted_ms and is_refused(judge, what, took_ms), f"it wasted {wasted_ms} ms, and {took_ms} ms were seen")


class Pauses(Harness):
    NAME = "pauses"
    NEEDS = (PROGRAM, LIBRARY)

    def test_pauses(self):
        seen = scenes(self.tally)
        judged(self.tally, seen)
        nearest = max(seen, key=seen.get, default="nothing")
        self.tally.more = f"; nearest to its bound: {nearest}, {seen.get(nearest, 0):.0%} of it"


if __name__ == "__main__":
    run_harness()
