"""By how much the machine itself was late, be it the disk or the processors: what a judge of times takes off."""
from __future__ import annotations

import collections
import os
import tempfile
import threading
import time
from collections.abc import Callable
from dataclasses import dataclass

PAUSE, BETWEEN = 0.01, 0.05    # seconds of a short sleep, and between two syncs
STOOD_STILL = 0.05    # by how much a sleep must overrun to be counted: less is usual where processes take turns
KEPT = 4_096    # how many syncs are remembered


@dataclass(frozen=True)
class Moment:
    """A moment, by how many seconds sleeps had overrun by then, and for how many the server had waited for a processor."""

    at: float
    late: float
    waited: float


class Lateness:
    """How late the machine under a server is: by how much its own short sleeps overrun, how long its own syncs next to the server's data take, and
    for how long the server could run and had no processor. Of a server that stands still by itself it sees nothing."""

    def __init__(self, process: int, place: str, sleep: Callable[[float], None] = time.sleep) -> None:
        self.process, self.place, self.sleep, self.is_over = process, place, sleep, False
        self.slept = 0.0, time.monotonic()    # by how much its sleeps have overrun, and when the last one ended
        self.syncing = 0.0    # since when a sync is under way
        self.syncs: collections.deque[tuple[float, float]] = collections.deque(maxlen=KEPT)    # when each ended, and how long it took
        self.threads = [threading.Thread(target=work, daemon=True) for work in (self._sleep, self._sync)]

    def _sleep(self) -> None:
        while not self.is_over:
            late, begun = self.slept
            self.sleep(PAUSE)
            now = time.monotonic()
            self.slept = late + counted(now - begun), now

    def _sync(self) -> None:
        with tempfile.TemporaryFile(dir=self.place) as file:
            while not self.is_over:
                self.syncing = time.monotonic()
                os.pwrite(file.fileno(), bytes(512), 0)
                os.fdatasync(file.fileno())
                end = time.monotonic()
                self.syncs.append((end, end - self.syncing))
                self.syncing = 0.0
                time.sleep(BETWEEN)

    def _waited(self) -> float:
        """For how many seconds the server has had no processor though it could run; 0 where the system doesn't say."""
        try:
            with open(f"/proc/{self.process}/schedstat", encoding="ascii") as file:
                return int(file.read().split()[1]) / 1e9
        except (OSError, IndexError):
            return 0.0

    def now(self) -> Moment:
        (late, asleep), at = self.slept, time.monotonic()
        return Moment(at, late + counted(at - asleep), self._waited())

    def lost(self, since: Moment, syncs: int) -> float:
        """How many seconds the machine itself was late since a moment, at most: by its processors, and by so many syncs one after another."""
        syncing, now = self.syncing, self.now()
        under_way = now.at - syncing if syncing else 0.0
        took = [seconds for end, seconds in list(self.syncs) if end >= since.at] or [under_way]
        by_syncs = syncs * sum(took) / len(took) + max(*took, under_way)
        return max(now.late - since.late, now.waited - since.waited) + by_syncs

    def __enter__(self) -> Lateness:
        for thread in self.threads:
            thread.start()
        return self

    def __exit__(self, *_: object) -> None:
        self.is_over = True
        for thread in self.threads:
            thread.join()


def counted(slept: float) -> float:
    """By how much a sleep overran, where that is more than usual."""
    return slept - PAUSE if slept > PAUSE + STOOD_STILL else 0.0
