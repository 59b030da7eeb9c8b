"""A harness as a test case of unittest."""
import os
import subprocess
import sys
import unittest
from collections.abc import Callable, Sequence
from typing import Any, NoReturn

from .arguments import is_long, name_of_harness, need, words_of_harness
from .deviations import Tally, expect, missing
from .settings import HARNESS, PROGRAM, SHIM
from .tools import command

Part = Callable[[Tally], object]


def leave_out(what: str, needed: str) -> NoReturn:
    """Skips the test, or all of a class, with a line that says which program or library it needs."""
    missing(what, needed)
    raise unittest.SkipTest(f"for want of {needed}")


def test_of(part: Part, is_of_long: bool) -> Callable[["Harness"], None]:
    """A test that plays a part, in the long form alone or in both."""
    def test(self: "Harness") -> None:
        if is_of_long and not is_long():
            self.skipTest("it is of the long form")
        part(self.tally)

    test.__doc__ = part.__doc__
    return test


class Harness(unittest.TestCase):
    """A harness: what its tests find is counted in one tally, whose line is printed at the end. Each part is a test, `test_` and its name."""

    NAME = ""                                   # that the line begins with
    NEEDS: tuple[str, ...] = (PROGRAM, SHIM)    # files without which it can't be run
    PARTS: tuple[Part, ...] = ()
    PARTS_OF_LONG: tuple[Part, ...] = ()
    _tallies: list[Tally]

    def __init_subclass__(cls, **more: Any) -> None:
        super().__init_subclass__(**more)
        if cls.__module__ == "__main__":    # so that the tests of a script that is run by itself have their names, too
            cls.__module__ = name_of_harness()
        for parts, is_of_long in ((cls.PARTS, False), (cls.PARTS_OF_LONG, True)):
            for part in parts:
                setattr(cls, f"test_{part.__name__}", test_of(part, is_of_long))

    @classmethod
    def setUpClass(cls) -> None:
        cls._tallies = []
        if cls.NEEDS:
            need(*cls.NEEDS)

    @classmethod
    def tearDownClass(cls) -> None:
        for tally in cls._tallies:
            tally.end()

    def begin(self, name: str) -> Tally:
        """A tally whose runs are subtests of this test. Its line is printed at the end of them all."""
        tally = Tally(name, self)
        self._tallies.append(tally)
        return tally

    @property
    def tally(self) -> Tally:
        """That of the harness."""
        tally = self._tallies[0] if self._tallies else self.begin(self.NAME)
        tally.case = self
        return tally

    def run(self, result: unittest.TestResult | None = None) -> unittest.TestResult | None:
        """A test that ends by an exception outside of the runs has given up."""
        before = self._faults(result)
        ran = super().run(result)
        if self._faults(result) > before:
            for tally in self._tallies:
                tally.is_given_up = True
        return ran

    def _faults(self, result: unittest.TestResult | None) -> int:
        """How many failures and errors there are that no tally counts."""
        return len(result.failures) + len(result.errors) - sum(tally.count() for tally in getattr(self, "_tallies", ())) if result else 0

    def leave_out_unless(self, what: str, lacks: Callable[[], str | None]) -> None:
        """Skips a test of the long form in the quick one, and where something is lacking."""
        if not is_long():
            self.skipTest("it is of the long form")
        needed = lacks()
        if needed:
            leave_out(what, needed)

    def run_again(self, before: Sequence[str], *options: str, **variables: str) -> None:
        """Runs the harness's script after these words, such as `unshare`, with these options and variables. What it does there must hold."""
        script = os.path.join(HARNESS, f"{type(self).__module__}.py")
        ran = subprocess.run([*before, sys.executable, script, *options, *words_of_harness()], env={**os.environ, **variables}, check=False)
        expect(ran.returncode == 0, f"what was run by {before[0]} ended with status {ran.returncode}")

    def is_in_own_namespaces(self, variable: str, *more: str) -> bool:
        """Has this process mounts and a network of its own, in which this variable is set? Where it hasn't, the harness is run again in one that has."""
        if not os.environ.get(variable):
            self.run_again(("unshare", "--mount", "--net", *more), **{variable: "1"})
            return False
        command("ip", "link", "set", "lo", "up")
        return True
