"""Looks at a log that fills, as the timer of `ssikvd-compact` makes them, and `ssikvd-watch` between two of them: a full log is never met.

Clients write as fast as the program answers them. On a clock that runs faster a minute is over once they have filled 10 of 100 sectors, and a tenth
of that is filled while a look is under way; then they fill 60 of 100 in a minute, then 80. By the rate each look compacts, also the first one after a
compaction, and no COMMIT is answered `FULL log`. Each that was acknowledged is there at the end. By the fill alone the looks before the rise do
nothing, and it is met. What a look says after few and after many commits, and after a compaction, is what the rule asks for.

`ssikvd-watch` ends where its rule asks for it, over logs that grow slowly or fast, stand still, are replaced, absent or damaged, and where
a compaction has failed, on a clock of the harness's. Tools with a planted fault are reported. In the long form a compaction ends before the
log is full while clients fill it with the largest commits as fast as they are answered; one that copies by `ssikvd compact` then doesn't.
The largest file is served from memory, with small commits and with large ones as fast as the program can, while the timer's looks and the
watch begin compactions as their units do: no full log is met. It is met where the watch begins too late.
"""
import contextlib
import json
import math
import os
import re
import socket
import struct
import subprocess
import threading
import time
from types import ModuleType

from ssikvd_harness.arguments import is_long, run_harness
from ssikvd_harness.cases import Harness
from ssikvd_harness.deviations import expect, is_refused, missing, wait_for
from ssikvd_harness.examples import simple_client
from ssikvd_harness.frames import frame
from ssikvd_harness.limits import VALUE_MAX, WRITES_MAX
from ssikvd_harness.log_format import BODY_MAX, SECTOR, log_image, log_of, map_of
from ssikvd_harness.server import check, create, folder
from ssikvd_harness.settings import PATIENCE, PROGRAM, text_of
from ssikvd_harness.tools import DIST, ENVIRONMENT, in_memory, loaded, tool
from ssikvd_harness.trials import Trial, write_script

CLIENTS, AT_ONCE = 4, 16
BEGIN, COMMIT, FULL = frame("BEGIN"), frame("COMMIT"), b"-FULL log\r\n"


class Load:
    """Clients of which each counts in a key of its own, some transactions at once, and comes again where its connection is lost. Together they
    begin no more transactions than they are allowed. Each transaction also sets this many further keys, to values of the longest size."""

    def __init__(self, port, further=0):
        self.port, self.is_over, self.lock = port, threading.Event(), threading.Lock()
        self.further = [b"".join(frame("SET", f"client {number} {key}", b"v" * VALUE_MAX) for key in range(further)) for number in range(CLIENTS)]
        self.replies, self.at_once = 3 + further, max(AT_ONCE // (1 + further), 1)
        self.acknowledged, self.full, self.other = [0] * CLIENTS, 0, set()
        self.begun = self.allowed = 0
        self.threads = [threading.Thread(target=self._work, args=(number,), daemon=True) for number in range(CLIENTS)]

    def allow(self, count):
        """Allows this many more transactions."""
        self.allowed = self.begun + count

    def wait(self):
        """Waits until they have begun."""
        end = time.monotonic() + 3 * PATIENCE
        while self.begun + self.at_once <= self.allowed and time.monotonic() < end:
            time.sleep(0.002)

    def _take(self):
        with self.lock:
            if self.begun + self.at_once > self.allowed:
                return False
            self.begun += self.at_once
            return True

    def __enter__(self):
        for thread in self.threads:
            thread.start()
        return self

    def __exit__(self, *_):
        self.is_over.set()
        for thread in self.threads:
            thread.join(PATIENCE)

    def _work(self, number):
        while not self.is_over.is_set():
            with contextlib.suppress(OSError), socket.create_connection(("127.0.0.1", self.port), PATIENCE) as connection:
                with connection.makefile("rb") as lines:
                    while not self.is_over.is_set() and self._ask(connection, lines, number):
                        pass
            time.sleep(0.01)

    def _ask(self, connection, lines, number):
        """Some transactions, and their replies. Did all of them come?"""
        if not self._take():
            time.sleep(0.002)
            return True
        first = self.acknowledged[number] + 1
        last = first + self.at_once
        requests = [BEGIN + frame("SET", f"client {number}", str(value)) + self.further[number] + COMMIT for value in range(first, last)]
        connection.sendall(b"".join(requests))
        for value in range(first, last):
            reply = [lines.readline() for _ in range(self.replies)][-1]
            if not reply.endswith(b"\n"):
                return False
            if reply.startswith(b"-"):
                self.full += reply == FULL
                self.other |= {reply} - {FULL}
                return True
            self.acknowledged[number] = value
        return True


class Looks:
    """A served file, and the timer's command over it."""

    def __init__(self, place, sectors):
        self.trial, self.state = Trial(place, os.path.join(DIST, "ssikvd-compact")), os.path.join(place, "looked")
        create(self.trial.data, sectors)
        self.trial.start()

    def look(self, *words, within, script="ssikvd-compact"):
        starts = ["--stop", self.trial.bin + "/stops", "--start", self.trial.bin + "/starts"]
        return tool(script, *starts, "--above", "50", "--within", str(within), "--state", self.state, *words, self.trial.data,
                    seconds=6 * PATIENCE)

    def watch(self, above, times, seconds):
        """Waits as long for `ssikvd-watch`: has it ended?"""
        words = ["ssikvd-watch", "--above", str(above), "--times", str(times), "--state", self.state, self.trial.data]
        with subprocess.Popen(words, stdout=subprocess.DEVNULL, stderr=subprocess.PIPE, env=ENVIRONMENT) as process:
            try:
                process.wait(max(seconds, 0.0))
            except subprocess.TimeoutExpired:
                process.kill()
                return False
            expect(process.returncode == 0, f"ssikvd-watch ended with {process.returncode}: {process.stderr.read()}")
            return True


@contextlib.contextmanager
def looks_at(sectors):
    with in_memory() as place:
        looks = Looks(place, sectors)
        try:
            yield looks
        finally:
            looks.trial.stop()


SECTORS = 8_192
SLOW, FAST = (10, 10, 10, 10, 60), (80,)    # of 100 sectors, what is filled in each minute


def run_looks(minutes, has_rate):
    """A look in each minute, while the clients write: the load, and the fill at each compaction, in sectors."""
    with looks_at(SECTORS) as looks:
        fills, before = [], time.monotonic()
        looks.look(within=0)
        with Load(looks.trial.port) as load:
            for part in minutes:
                load.allow(SECTORS // 2 * part // 100)
                load.wait()
                load.allow(SECTORS // 2 * part // 1_000)
                before, now = time.monotonic(), before
                status, out, err = looks.look(within=10 * math.ceil(before - now) if has_rate else 0)
                expect(status == 0, f"a look ended with {status}: {out}{err}")
                found = re.search(r": (\d+) of \d+ sectors are used.*: compaction\n", out)
                if found:
                    fills.append(int(found[1]))
        looks.trial.stop()
        judge_kept(load, map_of(log_of(looks.trial.data)))
        return load, fills


def keeps_up(tally):
    minutes = SLOW + FAST * (40 if is_long() else 1)
    with tally.run("looks that know the rate"):
        for _ in range(3):    # a tool that begins late between two looks sees another rate
            load, fills = run_looks(minutes, True)
            if load.full == 0 and len(fills) == len(minutes):
                break
        print(f"  {len(fills)} compactions, {sum(load.acknowledged)} commits", flush=True)
        expect(load.full == 0, f"{load.full} commits met a full log; compactions at {fills} of {SECTORS}")
        expect(len(fills) == len(minutes), f"it was compacted {len(fills)} times in {len(minutes)} minutes")
    with tally.run("looks that don't"):
        load, _ = run_looks(SLOW, False)
        expect(load.full > 0, "no full log was met")


# The default size, which is the largest. Looks come each minute, a watch begins again a second after a compaction.
LARGE, MINUTE, AGAIN = 4_194_304, 60.0, 1.0
COMPACTIONS = 12


def highest_rate(further, above=50, times=2, compactions=COMPACTIONS):
    """The timer's looks and the watch, as their units begin them, over the largest file in memory, while clients write as fast as they are
    answered: the load, its rate, what the compactions said, and how many sectors of the fullest log were used."""
    with looks_at(LARGE) as looks:
        with Load(looks.trial.port, further) as load:
            load.allow(1 << 60)
            said, most, begun = [], 0, time.monotonic()
            next_look = begun + MINUTE
            while sum(": compaction\n" in out for out in said) < compactions and not load.full:
                looks.watch(above, times, next_look - time.monotonic())
                if time.monotonic() >= next_look:
                    next_look += MINUTE
                status, out, err = looks.look(within=600)
                expect(status == 0 and not err, f"a look ended with {status}: {out}{err}")
                said.append(out)
                most = max(most, used_in(looks.trial.data + ".old")) if ": compaction\n" in out else most
                time.sleep(AGAIN)
            rate = sum(load.acknowledged) / (time.monotonic() - begun)
        judge_kept(load, found_in(looks.trial))
        return load, rate, said, most


def found_in(trial):
    """The counters of the clients, as a server has them that reads the file again."""
    trial.stop()
    trial.start()
    store = simple_client.Client(trial.port)
    found = {}
    for key in (b"client %d" % number for number in range(CLIENTS)):
        store.transact(lambda store, key=key: found.update({key: store.ask("GET", key) or 0}))
    store.close()
    trial.stop()
    return found


# 512 MiB of the largest commits, and what of it is used when a compaction begins. The copy and what came meanwhile have to fit into the rest.
GROWING, BEGUN_AT = 1_048_576, 0.25
# The copy by a command that reads on as long as the log grows, hardly faster than a server writes.
BY_COMPACT = ("if ends_in_time; then copy=copy_by_command; else copy=copy_by_follower; fi", "copy=copy_by_command")


def judge_growing(script):
    """A compaction while clients write the largest commits as fast as they are answered: none of them meets a full log, and none is lost."""
    with looks_at(GROWING) as looks:
        trial = looks.trial
        with Load(trial.port, WRITES_MAX - 1) as load:
            load.allow(1 << 60)
            looks.look("--part", "look", within=0)
            wait_for(lambda: used_in(trial.data) > BEGUN_AT * GROWING, "clients aren't served", 6 * PATIENCE)
            found = looks.look(within=10 ** 9, script=script)
            expect(found[0] == 0 and "copied while the server ran" in found[1] and not found[2], f"it ended with {found}")
            expect(load.full == 0, f"{load.full} commits met a full log; {used_in(trial.data + '.old')} of {GROWING} sectors were used")
            print(f"  a compaction of {BEGUN_AT * GROWING:.0f} sectors ended at {used_in(trial.data + '.old')} of {GROWING}", flush=True)
        judge_kept(load, found_in(trial))


def used_in(data):
    with loaded("ssikvd-used").Log(data) as log:
        return log.walk().used


def ends_in_time(tally):
    """How much more a log takes that grows fast while it is compacted."""
    with in_memory() as place:
        room = os.statvfs(place)
        if room.f_bavail * room.f_frsize < 3 * SECTOR * GROWING:
            missing("a compaction under the largest commits", "1.5 GiB of memory")
            return
    with tally.run("a compaction under the largest commits"):
        judge_growing("ssikvd-compact")
    with tally.run("one that reads on as long as the log grows is reported"), folder() as place:
        text, script = text_of(os.path.join("dist", "ssikvd-compact")), os.path.join(place, "ssikvd-compact")
        expect(text.count(BY_COMPACT[0]) == 1, f"{BY_COMPACT[0]!r} stands {text.count(BY_COMPACT[0])} times in ssikvd-compact")
        write_script(script, text.replace(*BY_COMPACT))
        expect(is_refused(judge_growing, script), "it was not reported")


def judge_kept(load, found):
    for number, value in enumerate(load.acknowledged):
        expect(int(found.get(b"client %d" % number, 0)) >= value, f"client {number} has lost a commit: {value} was acknowledged")
    expect(not load.other, f"COMMIT was answered {load.other}")


def keeps_up_at_once(tally):
    """The highest rate of commits of three sizes, up to those of 1 MiB, which fill 2 GiB within 15 seconds."""
    for name, further in (("small commits", 0), ("commits of 16 KiB", 1), ("the largest commits", WRITES_MAX - 1)):
        with tally.run(f"the highest rate of {name}"):
            load, rate, said, most = highest_rate(further)
            beside = sum("copied while the server ran" in out for out in said)
            print(f"  {name}: {sum(load.acknowledged)}, {rate:.0f} a second, {beside} compactions begun while the server ran, "
                  f"{100 * most / LARGE:.0f} % of the fullest log used", flush=True)
            expect(load.full == 0, f"{load.full} commits met a full log: {said}")
            expect(beside >= COMPACTIONS, f"it was compacted {beside} times")
    with tally.run("a watch that begins too late is reported"):
        expect(highest_rate(0, above=99, times=0, compactions=2)[0].full > 0, "no full log was met")


def rule(tally):
    """What a look alone says."""
    with tally.run("a log that stands still for a moment"), folder() as place:
        data, read = os.path.join(place, "data"), loaded("ssikvd-used")
        grown(data, 10)(None)
        state = {**read.figures(data, {}, 100.0, None)[0], "rate": 40.0}
        rates = [read.figures(data, state, 100.0 + seconds, None)[0]["rate"] for seconds in (0.3, 1.2)]
        expect(rates == [40.0, 0.0], f"after 0.3 and 1.2 seconds its rate is {rates}")
    with looks_at(1_024) as looks:
        def due(within, number):
            return looks.look("--part", "look", within=within)[0] == number

        with tally.run("a first look, and one at a log that doesn't grow"):
            looks.trial.commit(3)
            expect(due(10 ** 9, 4), "a first look knows a rate")
            expect(due(10 ** 9, 4), "a log that doesn't grow will be full")
        with tally.run("a log that grows"):
            looks.trial.commit(3)
            expect(due(0, 4), "0 asks for a compaction")
            looks.trial.commit(3)
            expect(due(10 ** 9, 0), "a log that grows isn't compacted")
            looks.trial.commit(3)
            expect(due(1, 4), "a log that lasts for longer is compacted")
        with tally.run("the first look after a compaction"):
            looks.trial.commit(20)
            found = looks.look(within=10 ** 9)
            expect(found[0] == 0 and "copied in" in found[1], f"it answered {found}")
            expect(due(10 ** 9, 0), "the rate from before the compaction is forgotten")
        with tally.run("more than half is used"):
            while check(looks.trial.data)[2] <= 512:
                looks.trial.commit(20)
            expect(due(0, 0), "it isn't compacted")


# The watch, on a clock of the harness's

WATCHED = 1_000    # sectors


class Over(Exception):
    """The watch hasn't ended when its time was over."""


class Clock:
    """What the watch takes for the time. In each pause the next of some steps is done."""

    def __init__(self, steps):
        self.steps, self.now, self.day, self.pauses = list(steps), 1_000.0, 1e9, []

    def monotonic(self):
        return self.now

    def time(self):
        return self.day

    def sleep(self, seconds):
        self.now, self.day = self.now + seconds, self.day + seconds
        self.pauses.append(seconds)
        if not self.steps:
            raise Over
        self.steps.pop(0)(self)


def grown(data, records, first=b"0"):
    """A step after which the log has this many records of two sectors. That of another first value is another log."""
    def step(_):
        with open(data, "wb") as file:
            file.write(log_image([[(b"a", first)], *[[(b"a", b"1")]] * (records - 1)], WATCHED))
    return step


def changed_watch(right="", wrong=""):
    """The watch as a module, with one text in the place of another."""
    text = text_of(os.path.join("dist", "ssikvd-watch"))
    expect(not right or text.count(right) == 1, f"{right!r} stands {text.count(right)} times in ssikvd-watch")
    module = ModuleType("watch")
    module.__file__ = os.path.join(DIST, "ssikvd-watch")
    exec(compile(text.replace(right, wrong) if right else text, module.__file__, "exec"), module.__dict__)
    return module


def after_steps(module, data, state, steps):
    """After how many seconds the watch ends, and how many sectors are used then, or None where it doesn't end while these steps are done; and what it
    says."""
    module.time, said, before = Clock(steps), [], descriptors_of()
    watch = module.Watch(data, state)
    watch.say = lambda text: said.extend([text] if text else [])
    try:
        used = watch.wait(50, 120, 2)[0]
    except Over:
        used = None
    expect(descriptors_of() == before, "it leaves a file open")
    return sum(module.time.pauses), used, said


def descriptors_of():
    """How many descriptors this process has."""
    return len(os.listdir("/proc/self/fd"))


def grown_by_largest(data, records):
    """A step after which a log of the largest size has this many of the largest records, of which only what the watch reads is there."""
    def step(_):
        with open(data, "wb") as file:
            file.write(log_image([], 4))
            for index in range(records):
                file.seek(SECTOR * (1 + (BODY_MAX + 1) * index))
                file.write(b"\1".ljust(SECTOR, b"\0") + struct.pack(">IQ", SECTOR * BODY_MAX - 44, index))
            file.truncate(SECTOR * LARGE)
    return step


def set_back(state, seconds):
    """A step after which the last look is this many seconds older."""
    def step(_):
        with open(state, encoding="utf-8") as file:
            found = json.load(file)
        for value in found.values():
            value["time"] -= seconds
        with open(state, "w", encoding="utf-8") as file:
            json.dump(found, file)
    return step


def set_clock(seconds):
    def step(clock):
        clock.day += seconds
    return step


def nothing(_):
    pass


def both(*steps):
    def step(clock):
        for one in steps:
            one(clock)
    return step


def forget(state):
    with contextlib.suppress(FileNotFoundError):
        os.remove(state)


def judge_watch(module):
    """What the watch does over each kind of log."""
    with folder() as place:
        data, state = os.path.join(place, "data"), os.path.join(place, "state")

        def expect_end(what, due, *steps):
            found = after_steps(module, data, state, steps)
            expect(found == due, f"{what}: it gives {found}, expected {due}")

        few, half, more = grown(data, 10), grown(data, 251), grown(data, 260)
        few(None)
        expect_end("a log that isn't half full", (4, None, []), grown(data, 60), grown(data, 100), grown(data, 140))
        few(None)
        expect_end("one that would be full before it is compacted", (2, 302, []), grown(data, 60), grown(data, 150), grown(data, 200))
        forget(state)
        half(None)
        expect_end("a log that doesn't grow", (3, None, []), nothing, nothing)
        expect_end("one that is full in four minutes", (3, None, []), grown(data, 252), nothing)
        expect_end("one that does so while the clock is set back", (2, None, []), both(set_clock(-0.99), grown(data, 253)))
        expect_end("one that is half full and grows", (1, 522, []), both(set_clock(3_600), more))
        expect_end("that one again", (3, None, []), both(set_clock(3_600), grown(data, 270)), grown(data, 280))
        expect_end("that one, a minute later", (1, 582, []), both(set_back(state, 61), set_clock(3_600), grown(data, 290)))
        expect_end("that one, once the clock was set", (1, 622, []), both(set_clock(-7_200), grown(data, 310)))
        half(None)
        expect_end("another log than the one that was reported", (1, 522, []), both(set_clock(-7_200), more))
        forget(state)
        few(None)
        expect_end("another log", (3, None, []), grown(data, 300, b"2"), grown(data, 300, b"3"))
        few(None)
        expect_end("another log that grows", (2, 642, []), grown(data, 300, b"2"), grown(data, 320, b"2"))
        forget(state)
        os.remove(data)
        expect_end("an absent file", (3, 504, [f"{data}: No such file or directory"] * 2), nothing, few, half)
        forget(state)
        few(None)
        with open(data, "r+b") as file:
            file.seek(2 * 512)
            file.write(b"\xff")
        expect_end("a damaged file", (61, 504, [f"{data}: damaged record 0"]), few, half)
        forget(state)
        grown_by_largest(data, 740)(None)
        expect_end("a log that takes a while to read", (2, 2_082 * 774 + 2, []), *(grown_by_largest(data, it) for it in (745, 774, 775)))
        forget(state)
        grown_by_largest(data, 300)(None)
        expect_end("one that fills fast", (2, 2_082 * 410 + 2, []), *(grown_by_largest(data, it) for it in (325, 410, 435)))
        forget(state)
        grown_by_largest(data, 10)(None)
        expect_end("one whose compaction would make little room", (3, 2_082 * 620 + 2, []), *(grown_by_largest(data, it) for it in (200, 400, 620)))
        forget(state)
        half(None)
        os.mkdir(state)
        expect_end("a state that can't be written", (1, 522, [f"no state in {state}: Is a directory"]), more)


WRONG_WATCHES = {
    "a rate between two logs": ("if is_same and before is not None", "if before is not None"),
    "a log that isn't half full": ("is_half_full = 100 * count > above * sectors and ", "is_half_full = "),
    "a log that lasts": ("sectors - count < within * rate", "rate"),
    "a compaction that is begun late": ("is_late = ", "is_late = False and "),
    "reading that takes no time": (" + count / COPIED", ""),
    "reading of what was there alone": (" / (1 - rate / COPIED)", ""),
    "a compaction that doesn't make room": (" and rate * at_least(sectors) < 3 * count", ""),
    "a compaction that is put off": (" < 3 * count", " < count"),
    "a compaction that has failed": (" and not self.has_failed()", ""),
    "a compaction of another log": ("return log.goes_on(*used.end_of(found))", "return True"),
    "a clock of the day": ("before, self.at = self.at, time.monotonic()", "before, self.at = self.at, time.time()"),
    "a damaged file that is read each second": ("self.at, pause = None, AGAIN", "self.at = None"),
    "a file that stays open": ("with used.Log(self.name) as log:\n            is_same", "if log := used.Log(self.name):\n            is_same"),
    "no state": ("                    self.keep()\n", ""),
}


def watches(tally):
    """What `ssikvd-watch` does, and what it reads at its start."""
    with tally.run("the watch"):
        judge_watch(changed_watch())
    for name, texts in WRONG_WATCHES.items():
        with tally.run(f"a watch with a fault, {name}, is reported"):
            expect(is_refused(judge_watch, changed_watch(*texts)), "it was not reported")
    with tally.run("a watch that begins reads new gates alone"), folder() as place:
        data, state = os.path.join(place, "data"), os.path.join(place, "state")
        with open(data, "wb") as file:
            file.write(log_image([[(b"a", b"1" * 10_000)]] * 2_000, 65_536))
        read = loaded("ssikvd-used")
        tool("ssikvd-used", "--state", state, data)
        counted, own = [], read.os.pread
        read.os.pread = lambda *words: counted.append(len(own(*words))) or own(*words)
        try:
            read.read(data, read.load(state)[data])
        finally:
            read.os.pread = own
        expect(sum(counted) < 1 << 20, f"it reads {sum(counted)} bytes")


class LooksOfTheTimer(Harness):
    NAME = "looks"
    NEEDS = (PROGRAM,)
    PARTS = (rule, watches, keeps_up)
    PARTS_OF_LONG = (ends_in_time, keeps_up_at_once)


if __name__ == "__main__":
    run_harness()
