"""Harnesses that fail, over which runner.py must not say that all held, and one that holds.

Each is a script that is written into a folder: one whose run deviates, one with a deviation outside of its runs, one that ends in a traceback within
a run, outside of one or as it is read, one whose program is missing, one that gives up, one that ends amid its tests with the status of success, one
that is killed, one without tests, and one that leaves a test out without a word. The failures must be counted, and be recognized by the words of
their lines.
"""
import contextlib
import io
import os
import subprocess
import sys
import unittest

from runner import Process
from ssikvd_harness.arguments import run_harness
from ssikvd_harness.cases import Harness
from ssikvd_harness.deviations import Deviation, Tally, expect, is_refused
from ssikvd_harness.server import folder
from ssikvd_harness.settings import HARNESS, PATIENCE

SCRIPT = '''"""A harness that was written to be judged."""
import os
import signal
import sys

sys.path.append({folder!r})

from ssikvd_harness.arguments import run_harness
from ssikvd_harness.cases import Harness, leave_out
from ssikvd_harness.deviations import expect
{above}

class Written(Harness):
    NAME, NEEDS = "written", ({needs!r},) * {has_needs}

    {members}
    def test_first(self):
        for number in range(3):
            with self.tally.run(f"run {{number}}"):
                expect(number < 3, "three")

    def test_second(self):
        with self.tally.run("the second"):
            expect(1 == 1, "one")
        {body}


if __name__ == "__main__":
    {last}
    run_harness()
'''
GIVES_UP = 'for number in range(300):\n            with self.tally.run(f"run {number}"):\n                expect(False, "no")'
# Of each what its second test does, how many failures and errors there are, and what is told of them.
FAILING = {
    "deviating": ('with self.tally.run("the last"):\n            expect(False, "it deviates")', 1, 0, "it deviates"),
    "deviating_outside": ('expect(False, "outside of the runs")', 1, 0, "outside of the runs"),
    "wrong_within": ('with self.tally.run("the last"):\n            {}["absent"]', 0, 1, "KeyError: 'absent'"),
    "wrong_outside": ('{}["absent"]', 0, 1, "KeyError: 'absent'"),
    "ending": ('sys.exit(0)', 0, 1, "SystemExit: 0"),
    "giving_up": (GIVES_UP, 200, 1, "there are 200 deviations"),
    "vanishing_amid": ("os._exit(0)", 0, 1, "it ended with status 0; 0 of 2 tests were begun"),
    "killed": ("os.kill(os.getpid(), signal.SIGKILL)", 0, 1, "it ended with status -9; 0 of 2 tests were begun"),
}


def write(place, name, body="pass", above="", needs="", last="pass", members=""):
    with open(os.path.join(place, f"{name}.py"), "w", encoding="utf-8") as file:
        file.write(SCRIPT.format(folder=HARNESS, above=above, needs=needs, has_needs=int(bool(needs)), body=body, last=last, members=members))


def played(place, name):
    """The result of a script that the runner plays, what is reported of what failed, and what the runner shows."""
    sys.path.insert(0, place)
    try:
        process, result = Process(name, "quick", place), unittest.TestResult()
        process.log = os.path.join(place, f"{name}.log")
        with contextlib.redirect_stdout(io.StringIO()) as shown:
            process.play().run(result)
    finally:
        sys.path.remove(place)
        sys.modules.pop(name, None)
    return result, "".join(text for _, text in (*result.failures, *result.errors)), shown.getvalue()


def judge(result, text, failures, errors, told):
    """This many failures and errors, and these words."""
    expect(not result.wasSuccessful(), "it is said that all held")
    expect(len(result.failures) == failures and len(result.errors) == errors, f"{len(result.failures)} failures and {len(result.errors)} errors: {text}")
    expect(told in text, f"it says {text}, and not {told}")


def failing(tally):
    """Each script that fails is counted, and what it prints doesn't say that all held."""
    with folder() as place:
        for name, (body, failures, errors, told) in FAILING.items():
            with tally.run(f"{name} is counted"):
                write(place, name, body)
                result, text, log = played(place, name)
                judge(result, text, failures, errors, told)
                expect("all held" not in log, f"it printed {log}")


def missing_or_unread(tally):
    """So is one whose program is missing, and one that can't be read."""
    with folder() as place:
        with tally.run("a program that is missing is counted"):
            write(place, "without_program", needs=os.path.join(place, "absent"))
            result, text, log = played(place, "without_program")
            judge(result, text, 0, 1, f"there is no {place}/absent; harness/README.md says how to build it")
            expect("all held" not in log, f"it printed {log}")
        with tally.run("a script that can't be read is counted"):
            write(place, "unread", above="import absent_module\n")
            result, text, _ = played(place, "unread")
            judge(result, text, 0, 1, "it ended with status 1; 0 of 1 tests were begun")
        with tally.run("a script that isn't there is counted"):
            result, text, _ = played(place, "absent_script")
            judge(result, text, 0, 1, "it ended with status 2; 0 of 1 tests were begun")
        with tally.run("a script without tests is counted"):
            write(place, "without_tests")
            with open(os.path.join(place, "without_tests.py"), "r+", encoding="utf-8") as file:
                text = file.read().replace("def test_", "def other_")
                file.seek(0)
                file.write(text)
                file.truncate()
            result, text, _ = played(place, "without_tests")
            judge(result, text, 0, 1, "it ended with status 2; 0 of 0 tests were begun")
        with tally.run("a test that isn't begun is counted"):
            write(place, "of_one_test", last="del Written.test_second")
            result, text, _ = played(place, "of_one_test")
            judge(result, text, 0, 1, "it ended with status 0; 1 of 2 tests were begun")


def holding(tally):
    """One that holds is counted as that, with its runs; by itself and by `python3 -m unittest`, too."""
    with folder() as place:
        write(place, "holding")
        with tally.run("a script that holds"):
            result, text, log = played(place, "holding")
            expect(result.wasSuccessful() and result.testsRun == 2, f"{result.testsRun} tests ran: {text}")
            expect(log == "written: 4 runs, all held\n", f"it printed {log!r}")
        with tally.run("a script that is left out"):
            write(place, "left_out", members='@classmethod\n    def setUpClass(cls):\n        leave_out("it", "a tool")\n')
            result, text, log = played(place, "left_out")
            expect(result.wasSuccessful() and len(result.skipped) == 1 and "for want of a tool" in log, f"{result.skipped}, {text}, and it printed {log!r}")
        for what, words, due in (
                ("by itself", ["holding.py", "quick", "-v"], "test_second (holding.Written"), ("-k", ["holding.py", "-k", "first"], "Ran 1 test "),
                ("python3 -m unittest", ["-m", "unittest", "holding.Written.test_first"], "Ran 1 test ")):
            with tally.run(f"a script that holds, {what}"):
                ran = subprocess.run([sys.executable, "-B", *words], cwd=place, capture_output=True, text=True, timeout=3 * PATIENCE)
                expect(ran.returncode == 0 and due in ran.stderr and "all held" in ran.stdout, f"{ran.returncode}: {ran.stdout}{ran.stderr}")
        for what, words in (("by itself", ["failing.py"]), ("python3 -m unittest", ["-m", "unittest", "failing"])):
            with tally.run(f"a script that fails, {what}"):
                write(place, "failing", FAILING["deviating"][0])
                ran = subprocess.run([sys.executable, "-B", *words], cwd=place, capture_output=True, text=True, timeout=3 * PATIENCE)
                expect(ran.returncode == 1 and "FAILED (failures=1)" in ran.stderr, f"{ran.returncode}: {ran.stdout}{ran.stderr}")
                expect("DEVIATION in 1 runs, first the last, last the last: it deviates" in ran.stdout, f"it printed {ran.stdout}")


def tallies(tally):
    """A tally without a test case counts what deviates, and what is taken from another one."""
    with tally.run("a tally of its own"):
        own, other = Tally("own"), Tally("other")
        for number in range(3):
            with own.run(f"run {number}"):
                expect(number != 1, "one")
        expect((own.runs, own.count()) == (3, 1), f"it counts {own.runs} runs and {own.count()} deviations")
        other.take(own)
        expect((other.runs, other.deviations) == (3, {"own: one": ["run 1"]}), f"it takes {other.runs} runs and {other.deviations}")
    with tally.run("what isn't a deviation"):
        try:
            with Tally("own").run("a wrong name"):
                {}["absent"]
        except KeyError:
            pass
        else:
            raise Deviation("it is hidden")
        expect(is_refused(expect, False, "no") and not is_refused(expect, True, "yes"), "expect takes what doesn't hold")


class FailingHarnesses(Harness):
    NAME = "failing_harnesses"
    NEEDS = ()
    PARTS = (failing, missing_or_unread, holding, tallies)


if __name__ == "__main__":
    run_harness()
