"""The words of a harness's command line, and how its tests are loaded and run."""
import argparse
import io
import json
import os
import sys
import unittest
from collections.abc import Callable
from typing import Any

from .settings import PROGRAM, SHIM

FORMS = ("quick", "long")
Options = Callable[[argparse.ArgumentParser], None]


class _Asked:
    """What was asked for. A harness that `python3 -m unittest` runs has the form that `FORM` in the environment names, or the quick one."""

    form = os.environ.get("FORM") or FORMS[0]
    words: list[str] | None = None
    options: argparse.Namespace | None = None


def is_long() -> bool:
    """Is the long form of the harness asked for?"""
    return _Asked.form == "long"


def asked(options: Options) -> argparse.Namespace:
    """What was asked for by options of a harness's own; their defaults where its script wasn't run by itself."""
    if _Asked.options is None:
        parser = argparse.ArgumentParser()
        options(parser)
        _Asked.options = parser.parse_args([])
    return _Asked.options


def words_of_harness() -> list[str]:
    """The words with which the harness's script is run as this process runs it."""
    return [_Asked.form] if _Asked.words is None else _Asked.words


def name_of_harness() -> str:
    return os.path.basename(sys.argv[0]).removesuffix(".py")


def need(*files: str) -> None:
    """Ends the harness with a message where a program or a library that it needs is missing."""
    for name in files or (PROGRAM, SHIM):
        if not os.access(name, os.R_OK if name.endswith(".so") else os.X_OK) or os.path.isdir(name):
            raise FileNotFoundError(f"there is no {os.path.normpath(name)}; harness/README.md says how to build it")


def parser_of_harness() -> argparse.ArgumentParser:
    """What reads the words of a harness, which its text describes."""
    return argparse.ArgumentParser(
        prog=os.path.basename(sys.argv[0]), description=sys.modules["__main__"].__doc__, formatter_class=argparse.RawDescriptionHelpFormatter)


def add_form(parser: argparse.ArgumentParser) -> None:
    """The form of a harness: the quick one where none is named."""
    parser.add_argument("form", nargs="?", choices=FORMS, default=FORMS[0], help="how much to run (default quick)")


def add_unittest(parser: argparse.ArgumentParser) -> None:
    """The options that unittest has as well."""
    parser.add_argument("-k", action="append", metavar="WORD", help="the tests with WORD in their names, or that match it where it has a `*`")
    parser.add_argument("-v", "--verbose", action="store_const", const=2, dest="verbosity", help="print the names of the tests")
    parser.add_argument("-f", "--failfast", action="store_true", help="stop at the first failure")
    if parser.argument_default != argparse.SUPPRESS:    # that of a word of another parser, which has these options, too
        parser.set_defaults(verbosity=1)


def loader_of(patterns: list[str] | None) -> unittest.TestLoader:
    """unittest's loader of the tests with names like these."""
    loader = unittest.TestLoader()
    if patterns:
        loader.testNamePatterns = [word if "*" in word else f"*{word}*" for word in patterns]
    return loader


class Result(unittest.TextTestResult):
    """unittest's result, and the names of the tests that were begun."""

    def __init__(self, stream: Any, descriptions: bool, verbosity: int) -> None:
        super().__init__(stream, descriptions, verbosity)
        self.begun: list[str] = []

    def startTest(self, test: unittest.TestCase) -> None:
        super().startTest(test)
        self.begun.append(test.id())

    def found(self) -> dict[str, list[Any]]:
        """All that it has, as JSON can say it."""
        return {
            "begun": self.begun, **{
                kind: [(test.id(), str(test), text) for test, text in entries]
                for kind, entries in (("failures", self.failures), ("errors", self.errors), ("skipped", self.skipped))}}


def run_tests(options: argparse.Namespace) -> bool:
    """Runs the tests of the script that was begun. Did all hold? Where the result goes to a file, unittest prints nothing of it."""
    suite = loader_of(options.k).loadTestsFromModule(sys.modules["__main__"])
    if not suite.countTestCases():
        print(f"{name_of_harness()}: it has no test" + " of such a name" * bool(options.k), file=sys.stderr)
        sys.exit(2)
    stream = io.StringIO() if options.report else None
    result: Any = unittest.TextTestRunner(stream, verbosity=options.verbosity, failfast=options.failfast, resultclass=Result).run(suite)
    if options.report:
        with open(options.report, "w", encoding="utf-8") as file:
            json.dump(result.found(), file)
    held: bool = result.wasSuccessful()
    return held


def run_harness(options: Options | None = None, instead: Callable[[argparse.Namespace], int | None] | None = None, has_form: bool = True) -> None:
    """Reads the words, runs the tests of the script and ends with their status: 0 where all held. `instead` does what else may be asked for, and
    gives the status of that; None where the tests are to be run."""
    parser = parser_of_harness()
    add_unittest(parser)
    parser.add_argument("--report", help=argparse.SUPPRESS)    # a file for the result, which runner.py reads
    if has_form:
        add_form(parser)
    if options:
        options(parser)
    found = parser.parse_args()
    _Asked.form, _Asked.words, _Asked.options = getattr(found, "form", None) or FORMS[0], sys.argv[1:], found
    status = instead(found) if instead else None
    sys.exit((0 if run_tests(found) else 1) if status is None else status)
