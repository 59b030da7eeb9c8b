"""What a harness found: deviations, and the tally that counts them."""
import contextlib
import subprocess
import time
import unittest
from collections.abc import Callable, Iterator
from typing import Any, TypeVar

from .settings import PATIENCE

Found = TypeVar("Found")

__unittest = True    # so that unittest leaves the frames of this file out of what it shows of a failure


class Deviation(AssertionError):
    """The program did what it should not: a failure of the test that finds it."""


class GivenUp(Exception):
    """There were too many deviations."""


def expect(holds: object, text: str) -> None:
    """Raises a deviation of this text where it doesn't hold."""
    if not holds:
        raise Deviation(text)


def is_refused(judge: Callable[..., object], *figures: Any) -> bool:
    """Does the judge find a deviation in these figures?"""
    try:
        judge(*figures)
    except Deviation:
        return True
    return False


def wait_for(found: Callable[[], Found], text: str, seconds: float = PATIENCE, pause: float = 0.02) -> Found:
    """What is found in the end; a deviation of this text where nothing is found in time."""
    end = time.monotonic() + seconds
    while not (result := found()):
        expect(time.monotonic() < end, text)
        time.sleep(pause)
    return result


def missing(what: str, needed: str) -> None:
    """Says what is left out, and which program or library it needs."""
    print(f"  {what}: not run, for want of {needed}", flush=True)


class Tally:
    """What a harness found. Each run is a subtest of the test case that the tally was begun by, if there is one. Deviations of one text are counted
    together, and it is given up where there are too many."""

    TEXT_MAX = 600
    DEVIATIONS_MAX = 200

    def __init__(self, name: str, case: unittest.TestCase | None = None) -> None:
        self.name, self.case, self.runs = name, case, 0
        self.deviations: dict[str, list[str]] = {}
        self.more, self.is_given_up = "", False

    @contextlib.contextmanager
    def run(self, what: str) -> Iterator[None]:
        """One run, whose deviation is counted, and is a failure of the test case."""
        self._go_on()
        self.runs += 1
        with self.case.subTest(what) if self.case else contextlib.nullcontext():
            try:
                yield
            except Exception as found:
                if not isinstance(found, unittest.SkipTest):
                    self._count(found, what)
                if self.case:
                    raise
        self._go_on()

    def _count(self, found: Exception, what: str) -> None:
        if not self.case and not isinstance(found, (Deviation, OSError, ValueError, subprocess.SubprocessError)):
            raise found
        text = str(found) if isinstance(found, Deviation) else f"{type(found).__name__}: {found}"
        self.deviations.setdefault(text[:self.TEXT_MAX], []).append(what)

    def _go_on(self) -> None:
        if self.count() >= self.DEVIATIONS_MAX:
            self.is_given_up = True
            raise GivenUp(f"{self.name}: there are {self.count()} deviations")

    def count(self) -> int:
        return sum(len(places) for places in self.deviations.values())

    def take(self, other: "Tally") -> None:
        """Counts the runs of another one, too, with their deviations under its name."""
        self.runs += other.runs
        for text, places in other.deviations.items():
            self.deviations[f"{other.name}: {text}"] = places
            for place in places if self.case else ():
                with self.case.subTest(f"{other.name}, {place}"):
                    raise Deviation(text)

    def end(self, more: str = "") -> bool:
        """Prints the line of the harness, after its deviations, and returns whether all held."""
        for text, places in self.deviations.items():
            print(f"  DEVIATION in {len(places)} runs, first {places[0]}, last {places[-1]}: {text}")
        count = self.count()
        verdict = f"{count} DEVIATIONS" if count else "not all was run" if self.is_given_up else "all held"
        print(f"{self.name}: {self.runs} runs, {verdict}{'; given up' * self.is_given_up}{more or self.more}", flush=True)
        return not count and not self.is_given_up
