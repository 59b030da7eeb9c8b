"""Memory refused to the engine and to the hub, at one call after another.

`test_refused_memory` answers line by line, over an engine or over a hub. It is asked the worked examples, with its n-th allocation refused,
n = 1, 2, 3 .. until a run meets no refusal. Each reply must be the model's.

- At the engine the call that is refused answers `memory`, and the same call made again gives the expected reply.
- At the hub a session that is refused when it joins is absent. One that is refused at a request is `Refused`; the model lets it leave.
  The replies of other sessions between BEGIN and COMMIT are the example's wherever the BEGIN found the example's map.
- Each run is made again and ends after the refusal. At the engine the transactions are open that were before, and the device is byte
  for byte the log of the commits that were answered; at the hub that of the refused session isn't open, and all others are.

Then reads that need no new mark are made while every allocation is refused, at the hub also some whose replies have 536 bytes, for which a session keeps
the room, and one byte more.
"""
import json
import os
import select
import subprocess
from collections import Counter

from ssikvd_harness.arguments import run_harness
from ssikvd_harness.cases import Harness
from ssikvd_harness.deviations import Deviation, expect
from ssikvd_harness.failing_calls import MEMORY, Refusals
from ssikvd_harness.limits import OUTPUT_ROOM
from ssikvd_harness.log_format import SECTOR, log_image
from ssikvd_harness.model import Store
from ssikvd_harness.rows import ROWS, request_of, shown
from ssikvd_harness.server import folder
from ssikvd_harness.settings import PATIENCE, REFUSED_MEMORY, SHIM

SECTORS = 64
OUT_OF_MEMORY = b"test_refused_memory: out of memory\n"
ROUNDS = 3
CALLS_MAX, ERRORS_MAX = 10_000, 10

OPEN, REFUSED, ABSENT = "Open", "Refused", "Absent"


class OutOfOwnMemory(Exception):
    """The program has no memory for the lines themselves."""


class Program:
    """A running `test_refused_memory`, whose n-th allocation is refused where an n is given."""

    def __init__(self, place, n=None):
        refusals = Refusals(place)
        self.allocations = refusals.of(MEMORY)
        if n:
            self.allocations.fail(n)
        self.process = subprocess.Popen(
            [REFUSED_MEMORY], stdin=subprocess.PIPE, stdout=subprocess.PIPE, stderr=subprocess.PIPE, env=refusals.environment())
        self.came = b""

    def _line(self):
        """The next line that it writes, without its end."""
        out = self.process.stdout.fileno()
        while b"\n" not in self.came:
            if not select.select([out], [], [], PATIENCE)[0]:
                raise Deviation("no answer in time")
            piece = os.read(out, 1 << 16)
            if not piece:
                self._judge_end()
            self.came += piece
        line, self.came = self.came.split(b"\n", 1)
        return line.decode()

    def _judge_end(self):
        """It ended by itself, which only its own lack of memory explains."""
        found = (self.process.wait(PATIENCE), self.came, self.process.stderr.read())
        expect(found == (3, b"", OUT_OF_MEMORY) and self.has_met(), f"it ended with {found}")
        raise OutOfOwnMemory

    def ask(self, line):
        """Its answer to a line."""
        try:
            self.process.stdin.write(line.encode() + b"\n")
            self.process.stdin.flush()
        except BrokenPipeError:
            pass  # it has ended, and the next line tells
        return self._line()

    def has_met(self):
        """Was an allocation refused?"""
        return self.allocations.failed > 0

    def end(self):
        """Ends the store: the sessions with an open transaction, and the device's bytes."""
        name, sessions = self.ask("end").split(" ", 1)
        expect(name == "open", f"`end` was answered {name!r}")
        image = bytearray(SECTOR * SECTORS)
        for line in iter(self._line, "end"):
            _, at, content = line.split(" ", 2)
            content = bytes(json.loads(content))
            image[SECTOR * int(at):SECTOR * int(at) + len(content)] = content
        return {str(i + 1) for i, is_open in enumerate(json.loads(sessions)) if is_open}, bytes(image)

    def __enter__(self):
        return self

    def __exit__(self, *_):
        self.process.kill()
        self.process.communicate()


def expect_end(program, store):
    """The model's transactions are open, and the device is the log of the model's commits."""
    sessions, image = program.end()
    expect(sessions == set(store.open), f"open are {sorted(sessions)}, expected {sorted(store.open)}")
    expect(image == log_image(store.log, SECTORS), "the device is not the log of what was committed")


def open_store(program, level, counts):
    """Opens a store, the second time where memory was refused."""
    if (answer := program.ask(level)) == "memory":
        expect(program.has_met(), "memory without a refusal")
        counts["an opening"] += 1
        answer = program.ask(level)
    expect(answer == "opened", f"opening answered {answer!r}")


def reply_of(store, line):
    """The model's answer to a line."""
    label, parts = request_of(line)
    return f"{label} {shown(store.request(label, parts)).decode()}"


def engine_run(program, row, stops, counts):
    """An example at the engine. Where `stops`, it ends after the call that is refused."""
    store = Store(SECTORS)
    open_store(program, "engine", counts)
    for line, reply in row:
        label, name, *_ = line.split(" ")
        answer = program.ask(line)
        if answer == f"{label} memory":
            expect(program.has_met(), f"{line}: memory without a refusal")
            counts[name] += 1
            if stops:
                break
            answer = program.ask(line)
        due = reply_of(store, line)
        expect(answer == due == f"{label} {reply}", f"{line}: {answer!r}, expected {due!r}")
    expect_end(program, store)


class Sessions:
    """The sessions of an example at the hub, next to the model, and next to the model of the example with no refusal."""

    def __init__(self, program, counts):
        self.program, self.counts = program, counts
        self.store, self.undisturbed = Store(SECTORS), Store(SECTORS)
        self.status, self.finds_map = {}, {}

    def ask(self, line, due):
        answer = self.program.ask(line)
        expect(answer == due, f"{line}: {answer!r}, expected {due!r}")

    def _refuse(self, label, what, status):
        """Memory was refused to a session."""
        expect(self.program.has_met(), f"{label} {what}: memory without a refusal")
        self.counts[what] += 1
        self.status[label] = status
        self.store.leave(label)

    def _join(self, label):
        answer = self.program.ask(f"{label} joins")
        if answer == f"{label} Memory Absent":
            self._refuse(label, "joining", ABSENT)
        else:
            expect(answer == f"{label} Done Open", f"{label} joins: {answer!r}")
            self.status[label] = OPEN

    def _serve(self, label, name, line, row_due):
        """A request of an open session."""
        if name == "BEGIN":
            self.finds_map[label] = self.store.contents == self.undisturbed.contents
        answer = self.program.ask(line)
        if answer == f"{label} Memory Refused":
            self._refuse(label, name, REFUSED)
            return
        is_between = label in self.store.open and name != "COMMIT"
        due = reply_of(self.store, line)
        expect(answer == due, f"{line}: {answer!r}, expected {due!r}")
        expect(not is_between or not self.finds_map[label] or answer == row_due, f"{line}: {answer!r}, in the example {row_due!r}")

    def play(self, line):
        """A line of the example."""
        label, name, *_ = line.split(" ")
        if label not in self.status:
            self._join(label)
        row_due = reply_of(self.undisturbed, line)
        if self.status[label] == OPEN:
            self._serve(label, name, line, row_due)
        else:
            self.ask(line, f"{label} {'Idle Refused' if self.status[label] == REFUSED else 'Unknown Absent'}")

    def refused(self):
        return [label for label, status in self.status.items() if status != OPEN]

    def probe(self):
        """With memory again a refused session leaves, an absent one is unknown, and a new session finds the model's map."""
        self.program.allocations.pass_on()
        for label in self.refused():
            self.ask(f"{label} leaves", f"{label} {'Done' if self.status[label] == REFUSED else 'Unknown'} Absent")
        self.ask("9 joins", "9 Done Open")
        for line in ("9 BEGIN", '9 RANGE a "" 128', "9 ABORT"):
            self.ask(line, reply_of(self.store, line))


def numbered(row):
    """The lines of an example, with its sessions numbered in the order in which they come."""
    labels = list(dict.fromkeys(line.split(" ")[0] for line, _ in row))
    return [f"{labels.index(line.split(' ')[0]) + 1} {line.split(' ', 1)[1]}" for line, _ in row]


def hub_run(program, row, stops, counts):
    """An example at the hub. Where `stops`, it ends after the event that is refused."""
    open_store(program, "hub", counts)
    sessions = Sessions(program, counts)
    for line in numbered(row):
        sessions.play(line)
        if stops and sessions.refused():
            break
    else:
        sessions.probe()
    for label in sessions.refused() if stops else ():
        if sessions.status[label] == ABSENT:  # nothing has changed, so it can join again
            sessions.ask(f"{label} joins", f"{label} Done Open")
            sessions.ask(f"{label} PING", f"{label} +PONG")
    expect_end(program, sessions.store)


RUNS = {"engine": engine_run, "hub": hub_run}


def one_run(level, row, n, stops, counts):
    """An example with the n-th allocation refused. Was there one?"""
    with folder() as place, Program(place, n) as program:
        try:
            RUNS[level](program, row, stops, counts)
        except OutOfOwnMemory:
            counts["the lines"] += 1
        return program.has_met()


def run_in_turn(tally, level, name, row, counts):
    """The example with the n-th allocation refused, for rising n until none was."""
    at_first = tally.count()
    for n in range(1, CALLS_MAX):
        has_met, here = True, Counter()
        with tally.run(f"{level}, {name} at allocation {n}"):
            has_met = one_run(level, row, n, False, here)
        counts += here
        if not has_met or tally.count() - at_first >= ERRORS_MAX:
            return
        if here and not here.keys() & {"the lines", "an opening"}:
            with tally.run(f"{level}, {name} up to allocation {n}"):
                one_run(level, row, n, True, Counter())
    raise SystemExit(f"{level}, {name}: {CALLS_MAX} allocations are too many for it")


# Reads while every allocation is refused

BEFORE = (
    "1 BEGIN", "1 SET a 1", "1 SET b 22", "1 SET c 333", "1 COMMIT",
    "1 BEGIN", "1 SET own mine",
    "2 BEGIN", "2 SET own mine", "2 DEL b", "2 GET a", "2 GET absent", "2 RANGE a c 10", "2 RANGE a c 1", '2 RANGE a "" 128', '2 RANGE a "" 2')
AGAIN = (
    "2 GET own", "2 GET b", "2 GET a", "2 GET absent", "2 RANGE a c 10", "2 RANGE a c 1", '2 RANGE a "" 128', '2 RANGE a "" 2',
    "2 RANGE c a 5", "2 RANGE b b 5", "2 PING", "2 BEGIN", '2 GET ""', "2 FOO")
WANTING = ("1 SET new 1", "1 GET unmarked", "1 RANGE d e 1", "1 COMMIT")


def refuse_to_engine(program):
    """Each call that needs memory is refused as often as it is made."""
    for line in WANTING:
        for _ in range(2):
            answer = program.ask(line)
            expect(answer == "1 memory", f"{line}: {answer!r} without memory")


def refuse_to_hub(program, store):
    """A session that needs memory is refused, and a new one is absent."""
    for line, due in ((WANTING[0], "1 Memory Refused"), (WANTING[1], "1 Idle Refused"), ("3 joins", "3 Memory Absent")):
        answer = program.ask(line)
        expect(answer == due, f"{line}: {answer!r} without memory")
    store.leave("1")


def reads(tally, level):
    with folder() as place, Program(place) as program:
        store = Store(SECTORS)

        def ask(line):
            answer, due = program.ask(line), reply_of(store, line)
            expect(answer == due, f"{line}: {answer!r}, expected {due!r}")

        with tally.run(f"{level}, before the reads"):
            open_store(program, level, Counter())
            if level == "hub":
                for label in "12":
                    expect(program.ask(f"{label} joins") == f"{label} Done Open", f"{label} doesn't join")
            for line in BEFORE:
                ask(line)
        made = program.allocations.made
        program.allocations.fail_all()
        for turn in range(ROUNDS):
            for line in AGAIN:
                with tally.run(f"{level}, {line} in round {turn}"):
                    ask(line)
        with tally.run(f"{level}, the allocations that were asked for"):
            expect(program.allocations.made == made, f"{program.allocations.made - made} allocations")
        with tally.run(f"{level}, what needs memory"):
            refuse_to_engine(program) if level == "engine" else refuse_to_hub(program, store)
        with tally.run(f"{level}, reads behind it"):
            for line in AGAIN:
                ask(line)
        program.allocations.pass_on()
        with tally.run(f"{level}, with memory again"):
            for line in (*(WANTING if level == "engine" else ()), *AGAIN, "2 COMMIT"):
                ask(line)
            expect_end(program, store)


# Replies around the room that a session keeps, while every allocation is refused

# The bytes of the values of `a` and `b` with which the reply to this read just fits.
AT_THE_ROOM = (((528, None), "1 GET a"), ((517, None), "1 RANGE a b 1"), ((300, 202), '1 RANGE a "" 2'))


def replies_around_the_room(tally):
    for (a, b), line in AT_THE_ROOM:
        for more in (0, 1):
            sizes = (a, b + more) if b else (a + more, 1)
            with folder() as place, Program(place) as program, tally.run(f"hub, {line} of {OUTPUT_ROOM + more} bytes"):
                store = Store(SECTORS)
                open_store(program, "hub", Counter())
                expect(program.ask("1 joins") == "1 Done Open", "1 doesn't join")
                # The range is marked before memory is refused, by a read of the same keys.
                for it in ("1 BEGIN", "1 SET a v", "1 SET b v", line, f"1 SET a {'v' * sizes[0]}", f"1 SET b {'v' * sizes[1]}"):
                    answer, due = program.ask(it), reply_of(store, it)
                    expect(answer == due, f"{it}: {answer!r}, expected {due!r}")
                program.allocations.fail_all()
                answer = program.ask(line)
                expect(answer == ("1 Memory Refused" if more else reply_of(store, line)), f"{line}: {answer!r} without memory")


class MemoryCalls(Harness):
    NEEDS = (REFUSED_MEMORY, SHIM)

    def test_memory_calls(self):
        for level in RUNS:
            tally, counts = self.begin(f"{level}, the n-th allocation refused"), Counter()
            for name, row in ROWS.items():
                run_in_turn(tally, level, name, row, counts)
            tally.more = "; refused to " + ", ".join(f"{what} {count}" for what, count in sorted(counts.items()))
            tally = self.begin(f"{level}, reads with all memory refused")
            reads(tally, level)
            if level == "hub":
                replies_around_the_room(tally)


if __name__ == "__main__":
    run_harness()
