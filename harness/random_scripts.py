"""The model against all worked rows, and then random scripts of a few sessions over a few keys, by `play` and by the plain engine: each line
is compared with the model.

A script is made from its number alone, so one that deviates is found again by its number. The first ones that deviate are shrunk to the lines that
show it. So is the script that sees a store whose DEL deletes nothing.
"""
import os
import random
import re
import subprocess

from ssikvd_harness.arguments import is_long, run_harness
from ssikvd_harness.cases import Harness
from ssikvd_harness.deviations import Deviation, expect, is_refused
from ssikvd_harness.frames import OK
from ssikvd_harness.model import Store
from ssikvd_harness.rows import request_of, shown
from ssikvd_harness.settings import PLAIN_PLAY, PROGRAM, TOP
from ssikvd_harness.shrinking import shrunk

SCRIPTS = {"quick": range(300), "long": range(300, 12_300)}
EMPTY = '""'
WORKED = os.path.join(TOP, "crates", "test_rows", "src", "worked.rt")
ROW = re.compile(r"pub static (\w+): \[(?:Line|Counted); \d+\] = \[(.*?)\n\];", re.DOTALL)
LINE = re.compile(r'(?:\((\d+), (\d+), )?\("((?:[^"\\]|\\.)*)", "((?:[^"\\]|\\.)*)"\)')
LOG_FULL_SECTORS = 4
SHRUNK_MAX, SHRINKING_SECONDS = 3, 20.0    # how many scripts that deviate are shrunk, and for how long


def request(chance, keys, ranges):
    """A request within a transaction, of which this share are ranges."""
    kind, key, other = chance.random(), chance.choice(keys), chance.choice(keys)
    rest = 1 - ranges
    if kind < 0.67 * rest:
        return f"GET {key}"
    if kind < 0.92 * rest:
        return f"SET {key} {chance.randrange(10)}"
    if kind < rest:
        return f"DEL {key}"
    low, high = sorted([key, other])
    return f"RANGE {low} {chance.choice([high, EMPTY])} {chance.randrange(1, 6)}"


def script_of(number):
    """The lines of the script of this number: each session begins, asks some requests, and mostly commits. Half of the scripts have many ranges."""
    chance = random.Random(number)
    sessions, length = chance.randrange(3, 9), chance.randrange(10, 120)
    keys = [chr(ord("a") + i) for i in range(chance.randrange(3, 11))]
    ranges = 0.5 if number % 2 else 0.1
    is_open, lines = set(), []
    for _ in range(length):
        session = chance.randrange(1, sessions + 1)
        asked = request(chance, keys, ranges)
        if session not in is_open:
            is_open.add(session)
            asked = "BEGIN"
        elif chance.randrange(6) == 0:
            is_open.remove(session)
            asked = "ABORT" if chance.randrange(12) == 0 else "COMMIT"
        lines.append(f"{session} {asked}")
    return lines


def worked_rows():
    """The worked rows of the tests: their names, and their lines with the replies. A line that counts is one line for each number."""
    with open(WORKED, encoding="utf-8") as source:
        for name, text in ROW.findall(source.read()):
            lines = []
            for first, end, asked, due in LINE.findall(text):
                numbers = range(int(first), int(end)) if end else range(1)
                lines += [(asked.replace('\\"', '"').replace("#", str(number)), due) for number in numbers]
            yield name, lines


def expect_row(name, lines):
    """The model answers a row as it is worked."""
    store = Store(LOG_FULL_SECTORS) if name == "LOG_FULL" else Store()
    for line, due in lines:
        got = shown(store.request(*request_of(line), fails=name == "DEVICE_FAULT")).decode()
        if got != due:
            raise Deviation(f"the model answers {line}: {got}, not {due}")


def by_model(lines, kind=Store):
    """What the model answers to the lines, as `play` prints it; or another model."""
    store = kind()
    return [f"{line.split(' ')[0]} {shown(store.request(*request_of(line))).decode()}" for line in lines]


def by_program(words, lines):
    """What a program prints for the lines."""
    done = subprocess.run(words, input="".join(line + "\n" for line in lines), capture_output=True, text=True, timeout=120)
    if done.returncode != 0:
        raise Deviation(f"status {done.returncode} {done.stderr.strip()}")
    return done.stdout.splitlines()


def expect_alike(lines, due, printed):
    """Each line is answered as expected."""
    if len(printed) != len(due):
        raise Deviation(f"{len(printed)} answers to {len(due)} lines")
    for place, (line, wanted, got) in enumerate(zip(lines, due, printed), 1):
        if wanted != got:
            raise Deviation(f"line {place}, {line}: {got}, not {wanted}")


class Forgetful(Store):
    """A wrong store: its DEL deletes nothing."""

    @staticmethod
    def _write(t, key, value=None):
        return OK if value is None else Store._write(t, key, value)


def play(lines, answers):
    """The lines are answered as the model does."""
    expect_alike(lines, by_model(lines), answers(lines))


def expect_due(lines, due, answers, seconds):
    """The lines are answered as expected. Of a script that deviates the few lines that still do are reported, searched for at most this long."""
    try:
        expect_alike(lines, due, answers(lines))
    except Deviation as found:
        few = shrunk(lines, lambda some: play(some, answers), seconds) if seconds else None
        raise Deviation(f"{found}; with {len(few)} of {len(lines)} lines: {'; '.join(few)}" if few else f"{found}") from None


def planted(tally):
    """A store that forgets a deletion is noticed, by a script of which only what shows it is left."""
    with tally.run("a wrong store"):
        scripts = [script_of(number) for number in SCRIPTS["quick"]]
        lines = next(lines for lines in scripts if is_refused(play, lines, lambda some: by_model(some, Forgetful)))
        few = shrunk(lines, lambda some: play(some, lambda again: by_model(again, Forgetful)))
        expect(few and len(few) <= 6 < len(lines), f"of {len(lines)} lines are left {few}")
        expect(all(not is_refused(play, few[:at] + few[at + 1:], lambda some: by_model(some, Forgetful)) for at in range(len(few))), f"too many are left: {few}")


class RandomScripts(Harness):
    NEEDS = (PROGRAM, PLAIN_PLAY)

    def test_random_scripts(self):
        form = "long" if is_long() else "quick"
        tally, commits, pivots = self.begin(f"random_scripts {form}"), 0, 0
        programs = {"play": [PROGRAM, "play"], "plain engine": [PLAIN_PLAY]}
        for name, lines in worked_rows():
            with tally.run(f"row {name}"):
                expect_row(name, lines)
        planted(tally)
        for number in SCRIPTS[form]:
            lines = script_of(number)
            due = by_model(lines)
            commits += sum(" :" in line for line in due)
            pivots += sum("CONFLICT pivot" in line for line in due)
            for name, words in programs.items():
                with tally.run(f"script {number} by the {name}"):
                    expect_due(lines, due, lambda some: by_program(words, some), SHRINKING_SECONDS if tally.count() < SHRUNK_MAX else 0)
        tally.more = f"; {commits} commits, {pivots} refused for a pivot"


if __name__ == "__main__":
    run_harness()
