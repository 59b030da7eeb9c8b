"""The recipes of docs/COOKBOOK.md in each language, run by harness/cookbook.py.

The table of docs/COOKBOOK.md has the commands that build and run them. `PROGRAM ADDRESS` takes a call from each line of its input and prints what it
gives in one line. A part of a key is an integer, bytes as 0x and hex digits, or a text.

    key PART..                          the key, in hex digits
    parts HEX                           the parts of this key, its texts as 0x and hex digits
    book ROOM START END WHO             `booked`, or `WHO has it`
    register USER ADDRESS               `registered`, or `another has it`
    put TASK STATE                      `done`
    list STATE                          its tasks
    hold SEAT WHO SECONDS [NOW]         `held`, or `not free`; without NOW it is the program's clock, here as below
    buy SEAT WHO [NOW]                  `sold`, or `not held`
    sweep [NOW]                         `N dropped`
    enqueue JOB [AT PRODUCER]           `done`
    take                                a job, or `none`
    take_near WIDTH                     the same
    add COUNTER [WRITER]                `done`; the two are the parts of a key
    total COUNTER                       the sum
    load LIST VERSION ITEM=VALUE..      `done`
    show LIST                           ITEM=VALUE..
    clear LIST                          `N deleted`

Several programs of a language share a server. A gate in front of it holds back COMMITs until as many have come as are expected, so that transactions
are open at once, and counts the refusals. One judge looks at what the calls give and at what they leave. It must find each wrong form of the recipes
in Python.
"""
from __future__ import annotations

import concurrent.futures
import contextlib
import itertools
import os
import random
import shutil
import socket
import subprocess
import threading
import time
from collections.abc import Callable, Iterator, Sequence
from typing import Any

from .arguments import is_long
from .connection import Connection
from .cutting import Proxy
from .deviations import Tally, expect, is_refused, missing
from .languages import CLIENTS, PACKAGES, shell
from .server import Server, create, folder
from .settings import PATIENCE, TOP
from .recipe_judges import (
    Items, booked, items_of, key, not_indexed, not_inverse, once, overlaps, recipes, torn, under, wrong_holds, wrong_takes)

DOCUMENT = os.path.join(TOP, "docs", "COOKBOOK.md")
AS_TYPED = "127.0.0.1:7777 take"
SECTORS = 65_536
PROGRAMS = 6
FREE_TIMES = ((("9", "11"), ("10", "11")), (("8", "15"), ("10", "11")), (("9", "11"), ("10", "12")))


Call = Callable[[str], str]    # a call of a program, with what it gives


class Language:
    """A row of the document's table, in a copy of the packages."""

    def __init__(self, name: str, build: str, run: str, place: str) -> None:
        self.name, self.build, self.run, self.place = name, build.strip("`"), run.strip("`").removesuffix(AS_TYPED), place

    def start(self, port: int) -> subprocess.Popen[str]:
        return subprocess.Popen(["bash", "-c", f"exec env {self.run} 127.0.0.1:{port}"], cwd=self.place, stdin=subprocess.PIPE,
                                stdout=subprocess.PIPE, stderr=subprocess.PIPE, text=True, env={**os.environ, "PYTHONDONTWRITEBYTECODE": "1"})


def languages(copy: str) -> Iterator[Language]:
    """The languages of the document's table that are installed."""
    with open(DOCUMENT, encoding="utf-8") as file:
        rows = [[cell.strip() for cell in line.split("|")[1:-1]] for line in file if line.endswith(AS_TYPED + "` |\n")]
    expect([row[0] for row in rows] == ["Python", "Go", "JavaScript", "Java", "Rust"], f"the document's table has {[row[0] for row in rows]}")
    for name, place, build, run in rows:
        package = next(package for package in PACKAGES if package.name == name)
        if package.is_there():
            expect(f"clients/{package.place}/examples/" in place, f"the recipes in {name} are to be in {place}")
            yield Language(name, build, run, os.path.join(copy, package.place))
        else:
            missing(f"the recipes in {name}", package.needs)


class Gate(Proxy):
    """Holds back COMMITs once some have passed, until this many are held or all are let go. Counts them, and the refusals."""

    def __init__(self, port: int | None) -> None:
        super().__init__(port, 0.0)
        self.passing, self.due, self.lock, self.opened = 0, 0, threading.Lock(), threading.Event()
        self.opened.set()

    def hold(self, due: int, passing: int = 0) -> None:
        self.refusals.clear()
        self.passing, self.due = passing, due
        self.opened.clear()

    def let_go(self) -> None:
        self.opened.set()

    def conflicts(self) -> int:
        return sum(count for text, count in self.refusals.items() if text.startswith(b"-CONFLICT"))

    def _pass_on(self, name: bytes, request: bytes, before: bytes | None, client: socket.socket, server: Connection) -> bool:
        if name == b"COMMIT" and self._is_held():
            self.opened.wait(PATIENCE)
        return super()._pass_on(name, request, before, client, server)

    def _is_held(self) -> bool:
        with self.lock:
            self.passing -= 1
            self.due -= self.passing < 0
            if self.due <= 0:
                self.let_go()
            return self.passing < 0


class Run:
    """Programs of one language over a gate, and the server behind it."""

    def __init__(self, language: Language, place: str) -> None:
        data = os.path.join(place, "data")
        create(data, SECTORS)
        self.server = Server(data)
        self.port, self.gate = self.server.port, Gate(self.server.port)
        self.programs, self.have_begun = [language.start(self.gate.own_port) for _ in range(PROGRAMS)], False

    def __enter__(self) -> Run:
        return self

    def __exit__(self, *_: object) -> None:
        self.gate.let_go()
        for program in self.programs:
            program.kill()
            program.communicate()
        self.gate.close()
        self.server.kill()

    def call(self, words: str | Sequence[str], number: int = 0) -> str:
        """What a program gives for a call, given as words or as one text."""
        program = self.programs[number]
        assert program.stdin and program.stdout and program.stderr
        with contextlib.suppress(OSError):    # where it has ended, it gives nothing
            program.stdin.write((words if isinstance(words, str) else " ".join(words)) + "\n")
            program.stdin.flush()
        given = program.stdout.readline()
        expect(given.endswith("\n"), f"the call {words} gave nothing: {given or program.stderr.read()[-300:]}")
        return given[:-1]

    def at_once(self, *calls: str) -> tuple[list[str], int]:
        """What calls give whose transactions are all open before the first commits, and how many conflicts there were. All programs have begun by then:
        else the COMMIT of one may be held for longer than it waits for a reply."""
        if not self.have_begun:
            self.have_begun = all([self.call("key 1", number) for number in range(PROGRAMS)])
        self.gate.hold(len(calls))
        with concurrent.futures.ThreadPoolExecutor(len(calls)) as threads:
            given = list(threads.map(self.call, calls, range(len(calls)), timeout=2 * PATIENCE))
        return given, self.gate.conflicts()

    def crowd(self, play: Callable[[Call, int], Any], count: int = PROGRAMS) -> list[Any]:
        """Runs play(call, number) for this many programs at once. What each gave."""
        def one(number: int) -> Any:
            return play(lambda words: self.call(words, number), number)

        with concurrent.futures.ThreadPoolExecutor(count) as threads:
            return list(threads.map(one, range(count), timeout=6 * PATIENCE))

    def steps(self, *pairs: tuple[str, str]) -> None:
        """Calls one after another, each with what it gives."""
        for words, due in pairs:
            given = self.call(words)
            expect(given == due, f"{words} gave {given!r}, expected {due!r}")


# The judges, one for each recipe

def word(part: int | bytes) -> str:
    return str(part) if isinstance(part, int) else "0x" + part.hex()


def keys(run: Run) -> None:
    """Keys stand in the order of their parts, which come back from them."""
    chance = random.Random(7)
    lists: list[list[Any]] = [[chance.choice((0, 1, -1, 255, 256, 2 ** 63 - 1, -2 ** 63, b"", b"\0", b"\0\1", b"a", b"a\0", b"ab", b"\xff", "\u00e9\U0001d11e".encode()))
              for _ in range(chance.randrange(1, 4))] for _ in range(120)]
    spelled = []
    for parts in lists:
        spelled.append((run.call(["key", *map(word, parts)]), parts))
        expect(run.call(["parts", spelled[-1][0]]) == " ".join(map(word, parts)), f"the parts {parts} don't come back")
    spelled.sort()
    for (one, before), (other, after) in itertools.pairwise(spelled):
        lesser, greater = ([(not isinstance(part, int), part) for part in parts] for parts in (before, after))
        expect(lesser <= greater and (one == other) == (before == after), f"the keys of {before} and {after} are {one} and {other}")
    run.steps(("key task -258", key("task", -258).hex()))


def reservations(run: Run) -> None:
    for number, (one, other) in enumerate(FREE_TIMES):
        given, conflicts = run.at_once(f"book {number} {' '.join(one)} ann", f"book {number} {' '.join(other)} bob")
        expect(sorted(given) in (["ann has it", "booked"], ["bob has it", "booked"]) and conflicts == 1, f"two at once gave {given}, {conflicts} conflicts")
    run.steps(("book r 9 11 ann", "booked"), ("book r 11 12 bob", "booked"), ("book r 7 9 eve", "booked"), ("book r 8 10 bob", "eve has it"),
              ("book r 10 11 bob", "ann has it"), ("book r 1 20 bob", "eve has it"), ("book q 9 11 bob", "booked"))

    def play(call: Call, number: int) -> Any:
        chance = random.Random(number)
        starts = [chance.randrange(400) for _ in range(15)]
        return [call(f"book {chance.choice('ab')} {start} {start + chance.randrange(1, 40)} {number}") for start in starts]

    given = list(itertools.chain(*run.crowd(play)))
    found = [one for one in booked(run.port) if one[0] in (b"a", b"b")]
    expect(not overlaps(booked(run.port)), f"double bookings: {overlaps(booked(run.port))[:2]}")
    expect(given.count("booked") == len(found) > PROGRAMS, f"{given.count('booked')} were reported, {len(found)} are there")


def unique_addresses(run: Run) -> None:
    given, conflicts = run.at_once("register ann x", "register bob x")
    expect(sorted(given) == ["another has it", "registered"] and conflicts == 1, f"two at once gave {given}, {conflicts} conflicts")
    owner, other = ("ann", "bob") if given[0] == "registered" else ("bob", "ann")
    run.steps((f"register {other} x", "another has it"), (f"register {owner} x", "registered"), (f"register {owner} y", "registered"),
              (f"register {other} x", "registered"), (f"register {other} y", "another has it"))

    def play(call: Call, number: int) -> Any:
        chance = random.Random(number)
        for _ in range(12):
            call(f"register u{chance.randrange(6)} a{chance.randrange(8)}")

    run.crowd(play)
    expect(not not_inverse(run.port), f"the index is wrong: {not_inverse(run.port)}")


def index(run: Run) -> None:
    run.steps(*((f"put t {state}", "done") for state in ("waiting", "running", "done")), ("list waiting", ""), ("list done", "t"))
    is_done, states = threading.Event(), ("waiting", "running", "done")

    def play(call: Call, number: int) -> Any:
        chance = random.Random(number)
        try:
            for _ in range(15):
                call(f"put {chance.randrange(20)} {chance.choice(states)}")
        finally:
            is_done.set()

    def look() -> None:
        while not is_done.wait(0.005):
            expect(not once(run.port, not_indexed), "a reader found an index that isn't that of the tasks")

    with concurrent.futures.ThreadPoolExecutor(1) as threads:
        looking = threads.submit(look)
        run.crowd(play)
        looking.result(PATIENCE)
    expect(not once(run.port, not_indexed), "at the end the index is another")
    tasks = once(run.port, under("task"))
    for state in states:
        due = sorted(task.decode() for (task,), value in tasks if value.decode() == state)
        run.steps((f"list {state}", " ".join(due)))


def holds(run: Run) -> None:
    run.steps(("hold 1 ann 10 100", "held"), ("hold 1 bob 10 109", "not free"), ("buy 1 bob 105", "not held"), ("buy 1 ann 110", "not held"),
              ("hold 1 bob 10 110", "held"), ("sweep 119", "0 dropped"), ("buy 1 bob 119", "sold"), ("hold 1 ann 10 200", "not free"),
              ("hold 2 ann 10 100", "held"))
    given, conflicts = run.at_once("buy 2 ann 105", "sweep 110")
    expect(given in (["sold", "0 dropped"], ["not held", "1 dropped"]) and conflicts == 1, f"a purchase and a sweep gave {given}, {conflicts} conflicts")
    run.steps(*((f"hold m{seat} ann {seat % 3} 100", "held") for seat in range(70)), *(("sweep 200", f"{count} dropped") for count in (32, 32, 6, 0)))
    clock = itertools.count(300)

    def play(call: Call, number: int) -> Any:
        chance, bought = random.Random(number), []
        for _ in range(15):
            seat = f"s{chance.randrange(8)}"
            if number == 0:
                call(f"sweep {next(clock)}")
            elif call(f"hold {seat} {number} 12 {next(clock)}") == "held" and call(f"buy {seat} {number} {next(clock)}") == "sold":
                bought.append(seat)
        return bought

    bought = list(itertools.chain(*run.crowd(play)))
    expect(len(bought) == len(set(bought)) > 0, f"seats were sold twice: {sorted(bought)}")
    sold = {seat.decode() for (seat,), _ in once(run.port, under("sold"))}
    wrong = once(run.port, wrong_holds)
    expect(set(bought) <= sold and not wrong, f"reported are {sorted(bought)}, sold are {sorted(sold)}; {wrong}")


def queue(run: Run) -> None:
    run.steps(*((f"enqueue j{number} {number} 1", "done") for number in range(4)))
    given, conflicts = run.at_once("take", "take")
    expect(sorted(given) == ["j0", "j1"] and conflicts == 1, f"two consumers gave {given}, {conflicts} conflicts")
    given, conflicts = run.at_once("enqueue j4 4 1", "enqueue j5 5 2", "take")
    expect(given == ["done", "done", "j2"] and conflicts == 0, f"producers and a consumer gave {given}, {conflicts} conflicts")
    run.steps(("take", "j3"), ("take", "j4"), ("take", "j5"), ("take", "none"), ("take_near 4", "none"))
    for take in ("take", "take_near 4"):
        queue_in_crowd(run, take)


def queue_in_crowd(run: Run, take: str) -> None:
    """Half of the programs enqueue, the others take."""
    count, producing = 12, PROGRAMS // 2
    ended: list[int] = []

    def play(call: Call, number: int) -> Any:
        if number < producing:
            for turn in range(count):
                call(f"enqueue {number}.{turn}")
            ended.append(number)
            return []
        taken: list[str] = []
        while len(taken) <= count * producing:
            is_over = len(ended) == producing
            job = call(take)
            if job == "none" and is_over:
                break
            taken += [job] if job != "none" else []
        return taken

    taken = list(itertools.chain(*run.crowd(play)))
    wrong = wrong_takes([f"{number}.{turn}" for number in range(producing) for turn in range(count)], taken)
    expect(not wrong, f"{take}: taken twice or not at all: {list(wrong)[:3]}")


def counter(run: Run) -> None:
    given, conflicts = run.at_once("add hits", "add hits")
    expect(given == ["done", "done"] and conflicts == 1, f"two additions gave {given}, {conflicts} conflicts")
    given, conflicts = run.at_once(*(f"add hits {number}" for number in range(PROGRAMS)))
    expect(conflicts == 0, f"writers of keys of their own had {conflicts} conflicts")
    run.steps(("total hits", str(2 + PROGRAMS)), ("add hits ann", "done"))
    run.crowd(lambda call, number: [call("add hits") for _ in range(10)])
    run.steps(("total hits", str(3 + 11 * PROGRAMS)), ("total none", "0"))


def load(name: str, version: int, items: Items) -> str:
    return " ".join(["load", name, str(version), *(f"{item}={value}" for item, value in items)])


def batch(run: Run) -> None:
    def show(number: int = 0) -> Items:
        pairs = (each.split("=") for each in run.call("show prices", number).split())
        return [(item, value) for item, value in pairs]

    for version, count in enumerate((1, 61, 62, 63, 64, 124, 125, 300), 1):
        run.steps((load("prices", version, items_of(version, count)), "done"))
        expect(show() == items_of(version, count), f"of {count} items {len(show())} are read")
    run.steps(*(("clear prices", f"{count} deleted") for count in (*[64] * 7, 52, 0)), (load("prices", 6, items_of(6, 124)), "done"))
    expect(show() == items_of(8, 300), "an old version became the current one again")
    for steps in range(6) if is_long() else (1, 5):    # those of another program, in Python
        for _ in range(steps):
            once(run.port, lambda store: recipes.step(store, "prices", 9 + steps, items_of(9 + steps, 300)))
        run.steps((load("prices", 9 + steps, items_of(9 + steps, 300)), "done"))
        expect(show() == items_of(9 + steps, 300), f"it didn't go on after {steps} steps")
    run.gate.hold(PROGRAMS, 3)
    with concurrent.futures.ThreadPoolExecutor(1) as threads:
        loading = threads.submit(run.call, load("prices", 20, items_of(20, 300)), 1)
        while run.gate.passing >= 0 and not loading.done():
            time.sleep(0.001)
        found = once(run.port, lambda store: recipes.read(store, "prices"))
        run.gate.let_go()
        expect(loading.result(PATIENCE) == "done" and found == items_of(14, 300), f"amid a load there are {len(found)} items, of {found[:1]}")
    is_done, last = threading.Event(), 24 if is_long() else 22

    def play(call: Call, number: int) -> None:
        if number > 1:
            while not is_done.is_set():
                expect(not torn(show(number), 300), "a reader found items that are no version")
            return
        try:
            for version in range(21, last + 1):
                call(load("prices", version, items_of(version, 300)))
                while call("clear prices") != "0 deleted":
                    pass
        finally:
            is_done.set()

    run.crowd(play, 4)
    expect(show() == items_of(last, 300), "the last version isn't there")


JUDGES = (keys, reservations, unique_addresses, index, holds, queue, counter, batch)

# Wrong forms in Python: the judge that must find it, what stands in the file once, and what stands there instead.
WRONG = (
    (keys, 'return b"".join(integer(part) if isinstance(part, int) else text(part) for part in parts)',
     'return b"/".join(b"%d" % part if isinstance(part, int) else text(part) for part in parts)'),
    (keys, 'data.replace(b"\\0", b"\\0\\xff")', "data"),
    (reservations, "other = holder(transaction, room, start, end)", "other = opened.transact(lambda other: holder(other, room, start, end))"),
    (reservations, 'key("booking", room, start + 1)', 'key("booking", room, start)'),
    (reservations, "if int(begin) < end else None", ""),
    (unique_addresses, " not in (None, user.encode())", ' == b"nobody"'),
    (unique_addresses, '        transaction.delete(key("address", old))', "        pass"),
    (index, '        transaction.delete(key("by state", old, task))', "        pass"),
    (holds, '        if found[0] > now:\n            return False\n', ""),
    (holds, "or found[0] <= now ", ""),
    (holds, '    transaction.delete(key("ends", ends, seat))', "    pass"),
    (queue, "        transaction.delete(place)\n        return job", "        return job"),
    (queue, "job = store.transact(lambda transaction: remove(transaction, place))",
     "job = dict(near)[place]; store.transact(lambda transaction: transaction.delete(place))"),
    (counter, "run(add, key(*map(part, words)))",
     "(lambda place, before: run(lambda own: own.set(place, str(before + 1))))(key(*map(part, words)), run(total, words[0]))"),
    (counter, "transaction.range(*under(counter))", 'transaction.range(key(counter), key(counter, ""))'),
    (batch, "    if done + STEP < len(items):\n        return True\n    if version > current(transaction, name):\n", "    if True:\n"),
    (batch, "    if version > current(transaction, name):\n", "    if True:\n"),
)


# All languages

def wrong(tally: Tally, language: Language) -> None:
    """Each wrong form of the recipes in Python, which its judge must find."""
    path = os.path.join(language.place, "examples", "recipes.py")
    with open(path, encoding="utf-8") as file:
        text = file.read()
    for judge, right, instead in WRONG:
        with tally.run(f"wrong: {instead or right}"), folder() as place:
            expect(text.count(right) == 1, f"{right!r} stands {text.count(right)} times in recipes.py")
            with open(path, "w", encoding="utf-8") as file:
                file.write(text.replace(right, instead))
            with Run(language, place) as run:
                expect(is_refused(judge, run), f"{judge.__name__} doesn't find {instead!r} for {right!r}")


def play(language: Language) -> tuple[Tally, float]:
    """All judges over a language, with how long they took."""
    tally, begun = Tally(language.name), time.monotonic()
    with tally.run("build"):
        if language.build:
            found = shell(language.build, language.place)
            expect(found[0] == 0, f"{language.build} ended with {found}")
    with folder() as place, Run(language, place) as run:
        for judge in JUDGES:
            with tally.run(judge.__name__):
                judge(run)
    if language.name == "Python" and is_long():
        wrong(tally, language)
    return tally, time.monotonic() - begun


def in_languages(tally: Tally) -> None:
    with folder() as place:
        copy = shutil.copytree(CLIENTS, os.path.join(place, "clients"), ignore=shutil.ignore_patterns("out", "target", "__pycache__"))
        there = list(languages(copy))
        with concurrent.futures.ThreadPoolExecutor(max(1, len(there))) as threads:
            for found, seconds in threads.map(play, there):
                tally.take(found)
                print(f"  the recipes in {found.name}: {found.runs} runs in {seconds:.0f} seconds", flush=True)
