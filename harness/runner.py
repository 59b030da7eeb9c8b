#!/usr/bin/env python3
"""Runs the harnesses over the built program, several at a time: `harness/run.sh` with the same words.

    run.sh quick                 the quick form of all of them
    run.sh long                  the long form
    run.sh                       both
    run.sh quick kills trace     these alone
    run.sh long -k memory        the tests with this in their names, or that fit it where it has a `*`

Each harness is a test case of unittest, and each test has a name such as `following.Following.test_refusals`. unittest's loader finds them, and its result
has what failed; -v prints their names, -f stops at the first failure. The tests of a harness run in a process of their own. What that prints is shown
once it has ended, and is kept in harness/out/NAME.log. First the libraries and file systems of this folder that are older than their source are built,
into harness/out. The status is 0 where all held, 1 where a test failed, 2 where the words are refused.
"""
import argparse
import concurrent.futures
import fnmatch
import glob
import json
import os
import re
import subprocess
import sys
import tempfile
import unittest
from dataclasses import dataclass
from typing import Any

from ssikvd_harness.arguments import FORMS, add_unittest, loader_of, parser_of_harness
from ssikvd_harness.deviations import missing
from ssikvd_harness.settings import HARNESS, OUT, PROGRAMS

QUICK, LONG = (FORMS[0],), (FORMS[1],)


@dataclass(frozen=True)
class Harness:
    """A script of this folder, and the forms that are run of it."""

    name: str
    forms: tuple[str, ...] = FORMS


# What judges the harnesses themselves.
FIRST = (Harness("lint", QUICK), Harness("failing_harnesses", QUICK))
# Several at a time, the ones that take long in front.
TOGETHER = (
    Harness("packages"), Harness("day"), Harness("kills"), Harness("hostile"), Harness("operation"), Harness("following"), Harness("at_rest"),
    Harness("looks"), Harness("planted_links"), Harness("mistakes", QUICK), Harness("stat_and_why"), Harness("restoring"), Harness("clients"), Harness("languages"), Harness("lossy"),
    Harness("power_cuts"), Harness("vanishing"), Harness("histories"), Harness("resending", LONG), Harness("commands"), Harness("documents"),
    Harness("system_limits"), Harness("server_calls"), Harness("proxies"), Harness("every_command"), Harness("random_scripts"), Harness("trace"),
    Harness("streams"), Harness("pictures"), Harness("installing"), Harness("under_systemd", LONG), Harness("fail_over", LONG),
    Harness("audit", QUICK), Harness("columns", QUICK), Harness("words", QUICK), Harness("reading", QUICK), Harness("clauses", QUICK),
    Harness("handles", QUICK), Harness("frames", QUICK), Harness("memory_commands", QUICK), Harness("memory_calls", QUICK), Harness("memory_reads", QUICK),
    Harness("memory_pages", QUICK), Harness("memory_sessions", QUICK), Harness("memory_commits"), Harness("memory_opening", QUICK),
    Harness("memory_order", QUICK))
# One by one: the first two run programs of several languages side by side, with deadlines of a few seconds, the others judge processor time.
ALONE = (Harness("starters"), Harness("cookbook"), Harness("opening", QUICK), Harness("pauses"))
HARNESSES = (*FIRST, *TOGETHER, *ALONE)

LIBRARIES = ("refuse", "trace", "polls", "skip_syncs")
FILE_SYSTEMS = ("lossy", "recorder", "mirror")    # where FUSE isn't there, lossy.py, power_cuts.py and fail_over.py are left out


def build() -> None:
    """The libraries and file systems whose source is younger than they are."""
    os.makedirs(OUT, exist_ok=True)
    flags = subprocess.run(["sh", "-c", "pkg-config --cflags --libs fuse3 2>/dev/null"], capture_output=True, text=True).stdout.split()
    headers = glob.glob(os.path.join(HARNESS, "*.h"))
    for name in (*LIBRARIES, *(FILE_SYSTEMS if flags else ())):
        is_library = name in LIBRARIES
        source, made = os.path.join(HARNESS, f"{name}.c"), os.path.join(OUT, f"{name}.so" if is_library else name)
        if not os.path.exists(made) or os.path.getmtime(made) < max(map(os.path.getmtime, (source, *headers))):
            more = ["-shared", "-fPIC", "-o", made, source] if is_library else ["-o", made, source, *flags]
            try:
                subprocess.run(["cc", "-O2", "-Wall", "-Wextra", *more], check=True)
            except (OSError, subprocess.SubprocessError) as found:
                raise SystemExit(f"runner: {source} can't be built: {found}") from None
    if not flags:
        missing("what needs a file system of its own", "libfuse3-dev and pkg-config")


def environment(form: str) -> dict[str, str]:
    """That of each harness, which runs in this folder: programs that are named by a path from here are found there, too."""
    named = {name: os.path.abspath(os.environ[name]) for name in PROGRAMS if os.environ.get(name)}
    return {**os.environ, **named, "FORM": form, "PYTHONDONTWRITEBYTECODE": "1"}


class Fault(Exception):
    """A failure or an error in another process, as it was shown there."""


class Shown(unittest.TestCase):
    """A subtest, or what else failed in another process, by the words with which it was shown there."""

    def __init__(self, name: str) -> None:
        super().__init__()
        self.name = name

    def runTest(self) -> None:    # it ran elsewhere
        pass

    def id(self) -> str:
        return self.name

    __str__ = id


class Process(unittest.TestSuite):
    """The tests of a harness, which run in a process of their own: the script of the harness in this folder."""

    def __init__(self, name: str, form: str, place: str = HARNESS, patterns: tuple[str, ...] = (), is_to_stop: bool = False) -> None:
        self.name, self.form, self.place, self.log = name, form, place, os.path.join(OUT, f"{name}.log")
        self.words = [*(word for pattern in patterns for word in ("-k", pattern)), *["-f"] * is_to_stop]
        self.found: dict[str, Any] = {}
        self.status: int | None = None
        super().__init__(loader_of(list(patterns)).loadTestsFromName(name))

    def play(self) -> "Process":
        """Runs the script to its end, and reads its result."""
        with tempfile.NamedTemporaryFile(prefix="ssikvd-result-") as result, open(self.log, "wb") as log:
            words = [sys.executable, os.path.join(self.place, f"{self.name}.py"), "--report", result.name, *self.words, self.form]
            self.status = subprocess.run(words, cwd=self.place, stdout=log, stderr=subprocess.STDOUT, env=environment(self.form)).returncode
            text = result.read()
        self.found = json.loads(text) if text else {}
        return self

    def tests(self) -> list[unittest.TestCase]:
        """The tests of all suites within."""
        def of(suite: Any) -> list[unittest.TestCase]:
            return [test for each in suite for test in (of(each) if isinstance(each, unittest.TestSuite) else [each])]

        return of(self)

    def countTestCases(self) -> int:
        return len(self.tests())

    def run(self, result: unittest.TestResult, debug: bool = False) -> unittest.TestResult:
        """Shows what the process printed, and adds its result to this one."""
        with open(self.log, encoding="utf-8", errors="replace") as log:
            print(log.read(), end="", flush=True)
        told = {kind: list(self.found.get(kind, ())) for kind in ("failures", "errors", "skipped")}
        began, is_held = set(self.found.get("begun", ())), not told["failures"] and not told["errors"]
        for test in self.tests():
            if test.id() in began:
                result.startTest(test)
                own = {kind: [one for one in all_of_them if (one[0] + " ").startswith(test.id() + " ")] for kind, all_of_them in told.items()}
                self._add(result, own)
                if not any(own.values()):
                    result.addSuccess(test)
                result.stopTest(test)
                told = {kind: [one for one in all_of_them if one not in own[kind]] for kind, all_of_them in told.items()}
        self._add(result, told)    # what belongs to no test of its own, such as a program that is missing
        is_whole = began | self._left_out() == {test.id() for test in self.tests()}
        if self.status != (0 if is_held else 1) or not self.found or is_held and not is_whole:
            ran = f"{len(began)} of {self.countTestCases()} tests were begun"
            self._add(result, {"errors": [("", f"{self.name} {self.form}", f"it ended with status {self.status}; {ran}")]})
        return result

    def _left_out(self) -> set[str]:
        """The tests of classes that were left out as a whole."""
        found = [re.fullmatch(r"setUpClass \((.*)\)", name) for name, _, _ in self.found.get("skipped", ())]
        return {test.id() for test in self.tests() if any(one and test.id().startswith(f"{one[1]}.") for one in found)}

    @staticmethod
    def _add(result: unittest.TestResult, told: dict[str, list[Any]]) -> None:
        for _, name, text in told.get("failures", ()):
            result.addFailure(Shown(name), (Fault, Fault(f"\n{text}"), None))
        for _, name, text in told.get("errors", ()):
            result.addError(Shown(name), (Fault, Fault(f"\n{text}"), None))
        for _, name, reason in told.get("skipped", ()):
            result.addSkip(Shown(name), reason)


class Several(unittest.TestSuite):
    """Harnesses that run at the same time, this many of them."""

    def __init__(self, processes: list[Process], jobs: int) -> None:
        self.jobs = jobs
        super().__init__(processes)

    def run(self, result: unittest.TestResult, debug: bool = False) -> unittest.TestResult:
        with concurrent.futures.ThreadPoolExecutor(self.jobs) as threads:
            try:
                for done in concurrent.futures.as_completed([threads.submit(process.play) for process in self if isinstance(process, Process)]):
                    done.result().run(result)
                    if result.shouldStop:
                        break
            finally:
                threads.shutdown(wait=True, cancel_futures=True)
        return result


def suite_of(form: str, chosen: dict[str, tuple[str, ...]], jobs: int, is_to_stop: bool = False) -> unittest.TestSuite:
    """The harnesses that are chosen and have this form, each with the patterns of its tests: those that run together, and those that run alone."""
    return unittest.TestSuite(
        Several([Process(one.name, form, HARNESS, chosen[one.name], is_to_stop) for one in group if one.name in chosen and form in one.forms], at_once)
        for group, at_once in ((FIRST, 1), (TOGETHER, jobs), (ALONE, 1)))


def options(parser: argparse.ArgumentParser) -> None:
    parser.add_argument("words", nargs="*", metavar="quick | long | NAME", help="the form, and the harnesses; both forms of all where none is named")
    add_unittest(parser)
    parser.add_argument("--jobs", type=int, default=int(os.environ.get("JOBS") or 4), metavar="N", help="how many at a time (default $JOBS, or 4)")
    parser.add_argument("--list", action="store_true", help="print their names with their forms, and run nothing; with -v those of their tests")


def patterns_of(name: str, patterns: list[str]) -> tuple[str, ...] | None:
    """Those of the patterns that choose tests of a harness: none where all of them are chosen, None where no test is."""
    if not patterns or any(fnmatch.fnmatchcase(name, word if "*" in word else f"*{word}*") for word in patterns):
        return ()
    return tuple(patterns) if loader_of(patterns).loadTestsFromName(name).countTestCases() else None


def chosen_by(words: list[str], patterns: list[str], parser: argparse.ArgumentParser) -> dict[str, tuple[str, ...]]:
    """The names of the harnesses that are asked for, each with the patterns of its tests; all of its tests where there is none."""
    names = [harness.name for harness in HARNESSES]
    unknown = set(words) - set(names)
    if unknown:
        parser.error(f"there is no harness {', '.join(sorted(unknown))}; --list has all of them")
    found = {name: patterns_of(name, patterns) for name in names if name in words or not words}
    chosen = {name: those for name, those in found.items() if those is not None}
    if not chosen:
        parser.error("no harness and no test has such a name; --list -v has all of them")
    return chosen


def show(chosen: dict[str, tuple[str, ...]], forms: list[str], has_tests: bool) -> None:
    """Prints the names of the harnesses with their forms, or those of their tests."""
    for harness in HARNESSES:
        if harness.name in chosen and set(harness.forms) & set(forms):
            print(harness.name, *harness.forms)
            for test in Process(harness.name, forms[0], HARNESS, chosen[harness.name]).tests() if has_tests else ():
                print(f"    {test.id()}")


def main() -> int:
    parser = parser_of_harness()
    options(parser)
    asked = parser.parse_args()
    chosen = chosen_by([word.removesuffix(".py") for word in asked.words if word not in FORMS], asked.k or [], parser)
    forms = [form for form in FORMS if form in asked.words] or list(FORMS)
    if asked.list:
        show(chosen, forms, asked.verbosity > 1)
        return 0
    gone = [form for form in forms if not any(form in harness.forms for harness in HARNESSES if harness.name in chosen)]
    if gone == forms:
        parser.error(f"none of {', '.join(sorted(chosen))} has a form {' or '.join(gone)}")
    build()
    suite = unittest.TestSuite(suite_of(form, chosen, max(1, asked.jobs), asked.failfast) for form in forms)
    runner = unittest.TextTestRunner(verbosity=asked.verbosity if asked.verbosity > 1 else 0, failfast=asked.failfast)
    return 0 if runner.run(suite).wasSuccessful() else 1


if __name__ == "__main__":
    sys.exit(main())
