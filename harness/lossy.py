"""`ssikvd` over a file system that loses what wasn't synced.

The file system is lossy.c, which FUSE mounts. A crash kills the program in a call, and leaves each sector that no sync had made durable old, new,
torn or with noise, and undoes names that no sync of the folder had made durable. After each crash the file is read by a reader of the format, in
plain Python, by `check` and by RANGE: it must hold every commit that was answered, whole, in order, and nothing but whole transactions that were
asked for.

    serve      crashes of `serve` under eight clients, of its opening, and kills; what one run left the next one opens
    create     crashes of `create`: the file is absent, refused, or a whole empty log. `create faults`: calls of it fail
    compact    crashes of `compact`: the old file is as it was, the new one absent, refused, or a whole copy. `compact faults`: calls fail
    faults     calls on the data file that fail, move less or are interrupted, under `serve` and in its opening
    stopped    the sync of a gate fails and drops its page; the file is opened in place, or after `dd iflag=nocache`, or compacted; later
               commits outlive a crash
    before     the same, and `ssikvd-before` is asked: where the system drops pages it lets the store be started; where it doesn't, and the
               device has something else, or that can't be read, it refuses until the log was compacted or the machine restarted
    swap       a compacted file takes the old one's name; commits over it outlive a crash
    sight      syncs are left out, one kind at a time, or pages can't be dropped: each must be seen within a hundred runs

`lossy.py quick` plays some of each, `long` many, and followed by modes those alone. Two are played only by name: `stopped without copies`, where the
advice to drop pages has no effect and commits are lost, and `swap synced`, in which the operator makes the names durable before the file is served.
All is left out where FUSE isn't there.
"""
import contextlib
import errno
import itertools
import os
import random
import subprocess

from ssikvd_harness import settings
from ssikvd_harness.arguments import asked, is_long, need, run_harness
from ssikvd_harness.cases import Harness, leave_out
from ssikvd_harness.connection import Connection
from ssikvd_harness.deviations import Deviation, expect
from ssikvd_harness.frames import OK, bulk, frame, parts_of, refusal
from ssikvd_harness.limits import WRITES_MAX
from ssikvd_harness.log_format import HEAD, SECTOR, Damaged, NotALog, OldFormat, copy_of, log_image, map_of, read_log, sectors_used
from ssikvd_harness.server import DEVICE_FAULT, FILE_FAULT, STORE_STOPPED as STOPPED_LINE, Server, check, folder, run
from ssikvd_harness.settings import OUT, PATIENCE, TOP

LOSSY = os.path.join(OUT, "lossy")
BEFORE = os.path.join(TOP, "dist", "ssikvd-before")
CLIENTS, SHARED_KEYS, SECTORS, ROOM_LEFT, LIVES = 8, 120, 2_400, 900, 25
STORE_FAULT, STORE_STOPPED, NONE_OPEN, FULL_LOG = (refusal(text) for text in ("STORE fault", "STORE stopped", "ERR none", "FULL log"))
NOT_A_LOG = b"ssikvd: not a log\n"
KILLED, SIGHT_MAX = -9, 100


# The file system

class NoFuse(Exception):
    """FUSE isn't there, or nothing can be mounted."""


class Disk:
    """The mounted folder, and the commands that it is given."""

    def __init__(self, place):
        self.place = os.path.join(place, "disk")
        os.mkdir(self.place)
        self.process = subprocess.Popen([LOSSY, self.place], stdin=subprocess.PIPE, stdout=subprocess.PIPE, stderr=subprocess.PIPE, text=True)
        if not self.process.stdout.readline():
            raise NoFuse("; ".join(self.process.communicate()[1].split("\n")).strip("; "))

    def tell(self, *words):
        """A command. Answers how often it crashed, how many sectors the last crash found not yet durable, and whether the plan was met."""
        print(*words, file=self.process.stdin, flush=True)
        done, *numbers = self.process.stdout.readline().split()
        expect(done == "done", f"the file system refused {words}")
        return tuple(int(number) for number in numbers)

    def crashes(self):
        return self.tell("state")[0]

    def is_met(self):
        return self.tell("state")[2] == 1

    def calm(self):
        self.tell("plan")

    def path(self, name):
        return os.path.join(self.place, name)

    def is_there(self, name):
        return name in os.listdir(self.place)

    def read(self, name):
        with open(self.path(name), "rb") as file:
            return file.read()

    def write(self, name, content):
        """A new file, durable with its name."""
        with open(self.path(name), "xb") as file:
            file.write(content)
        self.tell("settle")

    def close(self):
        self.process.stdin.close()
        self.process.wait()


class Machine:
    """A disk, chance, and what was counted."""

    def __init__(self, disk, seed):
        self.disk, self.chance, self.counts = disk, random.Random(seed), {}
        disk.tell("seed", seed)

    def count(self, name, by=1):
        self.counts[name] = self.counts.get(name, 0) + by

    def crash_at_once(self):
        """The machine crashes while no call is under way."""
        self.disk.tell("crash")
        self.note_crash()

    def note_crash(self):
        self.count("crashes")
        self.count("crashes with something not yet durable", by=self.disk.tell("state")[1] > 0)

    def text(self):
        return ", ".join(f"{count:,} {name}" for name, count in self.counts.items())


# What was committed

def log_of(content):
    """The write sets that these bytes hold."""
    try:
        return read_log(lambda at: content[SECTOR * at:SECTOR * at + SECTOR], len(content) // SECTOR)[0]
    except (NotALog, OldFormat, Damaged) as fault:
        raise Deviation(f"what is left is no log: {type(fault).__name__} {fault}") from None


class History:
    """What a file must hold: what the last opening found, and what was asked for since."""

    def __init__(self, log=()):
        self.begin(log)

    def begin(self, log):
        """A run begins over this log."""
        self.log, self.answered, self.unknown = list(log), {}, []

    def judge(self, content):
        """The log in these bytes. It has all that was answered, at its number; between stands only what was asked for and not answered."""
        log = log_of(content)
        new = log[len(self.log):]
        expect(log[:len(self.log)] == self.log, "not all commits of earlier runs are there")
        last, left = max(self.answered, default=0), list(self.unknown)
        expect(len(new) >= last, f"{last - len(new)} of {last} acknowledged commits are lost")
        for number, writes in enumerate(new, 1):
            if number in self.answered:
                expect(self.answered[number] == writes, f"commit {number} is another one")
            else:
                expect(writes in left, f"commit {number} was not asked for, or was refused")
                left.remove(writes)
        return log


# Clients

def value(chance, is_large):
    size = chance.choice((0, 100, 3_000, 9_000, 16_384) if is_large else (0, 1, 30, 100, 463, 464, 1_500))
    return b"\1" * size if chance.random() < 0.3 else chance.randbytes(size)


def some_writes(chance, label, serial):
    """A client's counter, and up to 63 of the keys that all share. A counter is never the same again."""
    count = chance.choice((0, 0, 1, 1, 2, 5, 12, chance.randrange(WRITES_MAX)))
    keys = [b"key %03d" % key for key in chance.sample(range(SHARED_KEYS), count)]
    shared = [(key, None if chance.random() < 0.1 else value(chance, count < 3)) for key in keys]
    return sorted([*shared, (counter_of(label), b"%d" % serial)])


def counter_of(label):
    return b"client %d" % label


class Asked:
    """A transaction that reads its client's counter and writes, sent in one to three pieces."""

    def __init__(self, connection, label, counter, writes, pieces):
        self.connection, self.label, self.counter, self.writes = connection, label, counter, writes
        sets = [frame("DEL", key) if value is None else frame("SET", key, value) for key, value in writes]
        self.requests = [frame("BEGIN"), frame("GET", counter_of(label)), *sets, frame("COMMIT")]
        content = b"".join(self.requests)
        size = -(-len(content) // pieces)
        self.pieces = [content[i * size:(i + 1) * size] for i in range(pieces)]

    def outcome(self):
        """The reply to COMMIT; None where the connection was closed. The others must be the expected ones."""
        replies = []
        try:
            for _ in self.requests:
                replies.append(self.connection.reply())
        except Deviation as found:
            if "closed within a reply" not in str(found):
                raise
            return None
        if replies[0] == STORE_STOPPED:
            expect(set(replies[1:]) == {NONE_OPEN}, f"behind a refused BEGIN came {replies[1:]}")
            return STORE_STOPPED
        due = [OK, bulk(self.counter)] + [OK] * len(self.writes)
        expect(all(found in (wanted, None) for found, wanted in zip(replies, due)), f"received {replies}, expected {due}")
        return replies[-1]


class Clients:
    """Connections whose transactions are under way at once."""

    def __init__(self, machine, server, history, serial):
        self.machine, self.server, self.history, self.serial = machine, server, history, serial
        self.connections = [Connection(server.port) for _ in range(CLIENTS)]
        contents = map_of(history.log)
        self.counters = [contents.get(counter_of(label)) for label in range(CLIENTS)]
        self.rounds = []

    def round(self):
        """Some of the clients ask at once, and all replies are read. Is the server still there?"""
        chance = self.machine.chance
        asked = []
        for label in chance.sample(range(CLIENTS), chance.randint(1, CLIENTS)):
            self.serial += 1
            writes = some_writes(chance, label, self.serial)
            asked.append(Asked(self.connections[label], label, self.counters[label], writes, chance.randint(1, 3)))
        for turn in range(3):
            for one in asked:
                for piece in one.pieces[turn:turn + 1]:
                    one.connection.send(piece)
        self.rounds.append([one.outcome() for one in asked])
        return all([self.note(one, reply) for one, reply in zip(asked, self.rounds[-1])])

    def note(self, one, reply):
        """What a reply to COMMIT says of its transaction. Did one come?"""
        if reply is None or reply == STORE_FAULT:
            self.history.unknown.append(one.writes)
        elif reply[:1] == b":":
            self.history.answered[int(reply[1:])] = one.writes
            self.counters[one.label] = dict(one.writes)[counter_of(one.label)]
            self.machine.count("commits answered")
        else:
            expect(reply[:10] == b"-CONFLICT " or reply in (FULL_LOG, STORE_STOPPED), f"COMMIT was answered {reply}")
        return reply is not None

    def commit(self, writes):
        """One transaction more, alone: the reply to its COMMIT."""
        one = Asked(self.connections[0], 0, self.counters[0], sorted(writes), 1)
        one.connection.send(b"".join(one.pieces))
        reply = one.outcome()
        self.note(one, reply)
        return reply

    def end_server(self):
        self.server.process.kill()
        self.server.process.wait()

    def close(self):
        for connection in self.connections:
            connection.close()


def walk(port):
    """The whole map by RANGE, in one transaction that is then aborted."""
    found, lo = {}, b"\0"
    with Connection(port) as reader:
        expect(reader.ask(frame("BEGIN")) == OK, "BEGIN was refused")
        while lo:
            parts = parts_of(reader.ask(frame("RANGE", lo, "", "128")))
            found.update(zip(parts[0::2], parts[1::2]))
            lo = parts[-2] + b"\0" if len(parts) == 256 else b""
        expect(reader.ask(frame("ABORT")) == OK, "ABORT was refused")
    return found


# A data file through many lives

def tail(chance, count):
    """What may lie behind the closed gate of an empty log: zeros, ones, open gates, noise, or an old record."""
    old = log_image([[(b"old", b"o" * 2_000)]] * (count // 6), count + 1)[SECTOR:]
    fills = (bytes(count * SECTOR), b"\1" * (count * SECTOR), b"\1".ljust(SECTOR, b"\0") * count, chance.randbytes(count * SECTOR), old)
    return chance.choice(fills)[:count * SECTOR]


class Store:
    """A data file that is served in many runs."""

    def __init__(self, machine, has_copies=None):
        self.machine, self.disk, self.name, self.serial = machine, machine.disk, "F", 0
        self.history, self.ended, self.was_met = History(), None, False
        self.has_copies = machine.chance.random() < 0.5 if has_copies is None else has_copies
        self.disk.tell("wipe")
        self.disk.tell("copies", int(self.has_copies))
        self.disk.write(self.name, HEAD + bytes(SECTOR) + tail(machine.chance, SECTORS - 2))

    @property
    def path(self):
        return self.disk.path(self.name)

    @contextlib.contextmanager
    def served(self, opening=None):
        """A server over the file, and its clients, once the map that it found is the expected one; None where it never listened."""
        if opening:
            self.disk.tell("plan", *opening)
        with Server(self.path) as server:
            self.was_met = self.disk.is_met()
            self.disk.calm()
            if server.is_listening():
                self.history.begin(self.history.judge(self.disk.read(self.name)))
                expect(walk(server.port) == map_of(self.history.log), "the map by RANGE is another one than the file's")
                self.machine.count("maps read")
                clients = Clients(self.machine, server, self.history, self.serial)
                yield clients
                self.serial = clients.serial
                clients.close()
            else:
                self.ended = (server.status(), server.error_text())
                yield None

    def look(self):
        """After a crash: the file holds what it should, and `check` counts it."""
        expect(self.disk.is_there(self.name), f"{self.name} isn't there")
        log = self.history.judge(self.disk.read(self.name))
        found = check(self.path)
        expect(found == (len(log), len(map_of(log)), sectors_used(log), SECTORS), f"check counts {found}")
        more = len(log) - len(self.history.log) - len(self.history.answered)
        self.machine.count("found unanswered", by=more)
        self.machine.count("unanswered in all", by=len(self.history.unknown))
        self.history.begin(log)

    def is_full(self):
        return sectors_used(self.history.log) > SECTORS - ROOM_LEFT

    def crash_in_opening(self):
        """A run that ends while it opens the file. Did it? Else it is killed once it listens."""
        chance, before = self.machine.chance, self.disk.crashes()
        kind, last = chance.choice((("open", 1), ("read", 6), ("sync", 1), ("folder", 1)))
        plan = (kind, chance.randint(1, last), chance.choice(("before", "after")))
        with self.served(plan) as clients:
            if clients:
                clients.end_server()
                return False
        expect(self.disk.crashes() > before and self.ended == (KILLED, b""), f"it ended with {self.ended} before it listened")
        self.machine.note_crash()
        self.machine.count("of them within an opening")
        self.look()
        return True

    def load(self, plan, rounds):
        """A run under load, up to its end in a call, or this many rounds, after which it is killed. Did it end in a call?"""
        with self.served() as clients:
            expect(clients, f"it doesn't open the file: {self.ended}")
            if plan:
                self.disk.tell("plan", *plan)
            is_alive = all(clients.round() for _ in range(rounds))
            expect(is_alive != self.disk.is_met(), "a connection was closed")
            self.disk.calm()
            clients.end_server()
            expect(clients.server.error_text() == b"", f"it wrote {clients.server.error_text()!r}")
        return not is_alive

    def crash_under_load(self):
        """A run under load, which a crash ends in a call, or else at any time; or a kill alone. Was it a crash?"""
        chance = self.machine.chance
        plan = chance.choice((None, ("write", "before"), *[("write", "after")] * 3, *[("sync", "before")] * 3, ("sync", "after")))
        if self.load(plan and (plan[0], chance.randint(1, 16), plan[1]), chance.randint(1, 8)):
            self.machine.note_crash()
        elif chance.random() < 0.2:
            self.machine.count("kills alone")
            return False
        else:
            self.machine.crash_at_once()
        self.look()
        return True

    def crash_behind_opening(self):
        """A run that is killed in a commit, and one that opens what this left not yet durable. What it found outlives a crash at once."""
        self.load(("sync", self.machine.chance.randint(1, 8), "kill"), 8)
        self.machine.count("killed in a call")
        self.load(None, 0)
        self.machine.crash_at_once()
        self.look()
        return True

    def live(self):
        """A run of the server. Did the machine crash?"""
        lives = [self.crash_in_opening] + [self.crash_behind_opening] * 2 + [self.crash_under_load] * 7
        return self.machine.chance.choice(lives)()


def crashes_of_serve(machine):
    """Crashes, one after the other, over one file after another. Each is yielded once it was judged."""
    while True:
        store = Store(machine)
        machine.count("files")
        for _ in range(LIVES):
            if store.live():
                yield
            if store.is_full():
                break


# Commands that make a file

class Maker:
    """A command that makes a file, what this holds where it is whole, and the file F that is there before and is not to be changed."""

    def __init__(self, machine, words, made, log, before=None):
        self.machine, self.disk, self.words, self.made, self.log, self.before = machine, machine.disk, words, made, log, before

    def left(self):
        """What is left of the file by its bytes: nothing, no log, or a whole one. None of its calls makes anything durable."""
        if not self.disk.is_there(self.made):
            return "absent"
        content = self.disk.read(self.made)
        if len(content) < 2 * SECTOR or len(content) % SECTOR or content[:SECTOR] != HEAD:
            return "refused"
        expect(log_of(content) == self.log, "a log is left that isn't whole")
        return "whole"

    def look(self):
        """After a crash `check` says the same as the bytes."""
        found = self.left()
        status, _, text = run(["check", "--data", self.disk.path(self.made)])
        expect((status == 0) == (found == "whole"), f"a file that is {found} is checked with {status} {text!r}")
        expect(status == 0 or status == 3 and text in (NOT_A_LOG, FILE_FAULT), f"it is refused by {status} {text!r}")
        return found

    def once(self, plan):
        """The command under a plan, or none, and then a crash."""
        self.disk.tell("wipe")
        self.disk.tell("copies", 0)
        if self.before:
            self.disk.write("F", self.before)
        crashes = self.disk.tell("plan", *plan)[0]
        status, _, text = run(self.words)
        is_down, is_met = self.disk.crashes() > crashes, self.disk.is_met()
        self.disk.calm()
        if is_down:
            expect((status, text) == (KILLED, b""), f"it ended with {status} {text!r}")
            self.machine.note_crash()
        else:
            self.look_at_end(status, text, is_met)
            self.machine.crash_at_once()
        found = self.look()
        expect(found == "whole" or status, f"it ended with 0; after a crash its file is {found}")
        expect(not self.before or self.disk.read("F") == self.before, "the old file was changed")
        self.machine.count(found)

    def look_at_end(self, status, text, is_met):
        """It ended by itself: what did it report, and what has it left?"""
        expect((status, text) in ((0, b""), (3, FILE_FAULT), (3, DEVICE_FAULT)), f"{status} {text!r}")
        expect(status == 0 or is_met, f"it failed by itself: {status} {text!r}")
        found = self.left()
        expect(found == "whole" or status, f"it ended with 0, and its file is {found}")
        expect(found == "absent" or text != FILE_FAULT, f"it reported a file fault, and left a file that is {found}")


def crash_plan(chance, calls):
    kind, last = chance.choice(calls)
    return kind, chance.randint(1, last), chance.choice(("before", "after"))


def fault_plan(chance, calls):
    """A call that fails, and how."""
    kind, last = chance.choice(calls)
    actions = {"write": ("error", "done", "part", "short", "none"), "read": ("error", "short", "none"),
               "sync": ("error", "done", "some", "keep", "revert"), "folder": ("error", "done"), "name": ("error",)}
    errors = (errno.EIO, errno.ENOSPC, errno.EDQUOT, errno.EINTR)
    action = chance.choice(actions[kind])
    return kind, chance.randint(1, last), action, chance.choice(errors if action == "error" and kind in ("read", "write", "sync") else errors[:3])


def creating(machine):
    sectors = machine.chance.randint(2, 300)
    return Maker(machine, ["create", "--data", machine.disk.path("F"), "--sectors", str(sectors)], "F", [])


def compacting(machine):
    chance = machine.chance
    log = [some_writes(chance, label % CLIENTS, label) for label in range(chance.randint(0, 30))]
    words = ["compact", "--from", machine.disk.path("F"), "--to", machine.disk.path("G")]
    return Maker(machine, words, "G", copy_of(log), log_image(log, sectors_used(log) + chance.randint(0, 200)))


def making(machine, maker_of, plan_of, calls):
    """Runs of `create` or `compact`, each under a plan. Each is yielded once it was judged."""
    while True:
        maker = maker_of(machine)
        maker.once(plan_of(machine.chance, calls) if machine.chance.random() < 0.9 else ())
        yield


# Faults of the data file under `serve`

def is_soft(plan):
    """Is such a call made up for?"""
    return plan[2] == "short" or plan[2:] == ("error", errno.EINTR)


class Faulty(Store):
    """A data file of which a call fails in some runs."""

    def fail_in_opening(self):
        calls = (("sync", 1), ("folder", 1)) if self.has_copies else (("sync", 1), ("folder", 1), ("read", 6))
        plan = fault_plan(self.machine.chance, calls)
        with self.served(plan) as clients:
            if clients:
                expect(not self.was_met or is_soft(plan), f"it listens behind {plan}")
                clients.end_server()
                return
        due = FILE_FAULT if plan[0] == "folder" else DEVICE_FAULT
        expect(self.ended == (3, due) and not is_soft(plan), f"behind {plan} it ended with {self.ended}")
        self.machine.count("openings refused")
        self.finish(plan)

    def fail_under_load(self):
        chance = self.machine.chance
        plan = fault_plan(chance, (("write", 60), ("sync", 30)))
        with self.served() as clients:
            expect(clients, f"it doesn't open the file: {self.ended}")
            witness = Connection(clients.server.port)
            expect(witness.ask(frame("BEGIN")) == OK, "BEGIN was refused")
            self.disk.tell("plan", *plan)
            for _ in range(chance.randint(2, 6)):
                expect(clients.round(), "a connection was closed")
            is_met = self.disk.is_met()
            self.disk.calm()
            is_hard = is_met and not is_soft(plan)
            due = bulk(map_of(self.history.log).get(counter_of(0)))
            expect(witness.ask(frame("GET", counter_of(0))) == due, "an open transaction doesn't read on")
            witness.close()
            self.look_at_stopped(clients, is_hard)
            clients.end_server()
        self.machine.count("stores stopped" if is_hard else "faults made up for" if is_met else "faults not met")
        self.finish(plan)

    @staticmethod
    def look_at_stopped(clients, is_hard):
        """A hard fault is one STORE fault, then STORE stopped, reported once; at any other nothing is."""
        faults = [at for at, replies in enumerate(clients.rounds) for reply in replies if reply == STORE_FAULT]
        expect(len(faults) == is_hard, f"{len(faults)} STORE faults were answered")
        behind = {reply for replies in clients.rounds[faults[0] + 1 if is_hard else 0:] for reply in replies}
        expect(behind <= {STORE_STOPPED} if is_hard else STORE_STOPPED not in behind, f"behind {len(faults)} faults came {behind}")
        told = clients.server.error_text()
        expect(told == (STOPPED_LINE if is_hard else b""), f"it wrote {told!r}")

    def finish(self, plan):
        """The machine crashes, or the next run opens what is there. This must drop pages, where the kernel has copies of them."""
        if self.machine.chance.random() < 0.5 or plan[2] == "keep" and not self.has_copies:
            self.machine.crash_at_once()
            self.look()


def faults_of_serve(machine):
    """Runs with faults and runs without, over one file after another. Each fault is yielded once it was judged."""
    while True:
        store = Faulty(machine)
        for _ in range(LIVES):
            if machine.chance.random() < 0.3:
                store.fail_in_opening()
            else:
                store.fail_under_load()
            yield
            while machine.chance.random() < 0.3:
                store.live()
            if store.is_full():
                break


# What the operator does

def small(serial):
    return [(counter_of(0), b"%d" % serial), (b"key %03d" % (serial % SHARED_KEYS), b"%d" % serial)]


def commit_some(store, clients, count):
    """Small transactions, each of which must be answered."""
    for _ in range(count):
        clients.serial += 1
        reply = clients.commit(small(clients.serial))
        expect(reply and reply[:1] == b":", f"COMMIT was answered {reply}")


def commits_and_crash(store):
    """A run with acknowledged commits, which a crash ends: are all of them there?"""
    chance = store.machine.chance
    with store.served() as clients:
        expect(clients, f"it doesn't open the file: {store.ended}")
        commit_some(store, clients, chance.randint(1, 6))
        clients.end_server()
    store.machine.crash_at_once()
    store.look()


def stop_the_store(store):
    """A commit whose gate's sync fails, and drops its page; the record is so long that the next append doesn't touch that page."""
    with store.served() as clients:
        expect(clients, "it doesn't open a new file")
        commit_some(store, clients, store.machine.chance.randint(0, 9))
        store.disk.tell("plan", "sync", 2, "keep", errno.EIO)
        clients.serial += 1
        reply = clients.commit([(counter_of(0), b"%d" % clients.serial), (b"long", b"v" * 9_000)])
        expect(reply == STORE_FAULT, f"COMMIT was answered {reply}")
        store.disk.calm()
        clients.end_server()


def swap_in_compacted(store):
    """`compact`, and the copy takes the file's name; no sync. Answers what was copied."""
    disk, log = store.disk, store.history.judge(store.disk.read(store.name))
    status, _, text = run(["compact", "--from", store.path, "--to", disk.path("G")])
    expect((status, text) == (0, b""), f"compact ended with {status} {text!r}")
    os.rename(store.path, disk.path("F.old"))
    os.rename(disk.path("G"), store.path)
    store.history.begin(copy_of(log))
    return log


def after_a_stop(machine, way, has_copies=True):
    """A store stopped; then this is done: nothing but to open it again, the clean pages are dropped first, or a copy by `compact` is put
    in its place. Later commits outlive a crash."""
    store = Store(machine, has_copies)
    with open(store.path, "rb", buffering=0):    # while it is open, the kernel keeps its copies
        stop_the_store(store)
        if way == "dd":
            subprocess.run(["dd", "if=" + store.path, "iflag=nocache", "count=0", "status=none"], check=True)
        elif way == "compact":
            swap_in_compacted(store)
            store.disk.tell("settle")
        commits_and_crash(store)


# For each kind of file system: whether it drops pages where it is advised to, and whether it has reads past its cache.
FILE_SYSTEMS = {"drops pages": (True, True), "keeps pages": (False, True), "has no direct reads": (False, False)}
DIFFERS, UNKNOWN = "the cache differs from the device", "can't be read past the cache"


def before(store, past_cache="yes"):
    """What `ssikvd-before` answers: its status, which is 2 where the cache differs and 3 where that can't be known."""
    environment = {**os.environ, "SSIKVD": settings.PROGRAM, "PAST_CACHE": past_cache}
    ran = subprocess.run([BEFORE, store.path, str(SECTORS)], env=environment, capture_output=True, text=True, timeout=6 * PATIENCE, check=False)
    status, text = ran.returncode, ran.stderr
    fits = (DIFFERS in text) == (status == 2) and (UNKNOWN in text) == (status == 3 or past_cache == "no" and bool(text))
    expect(status in (0, 2, 3) and fits, f"ssikvd-before answered {status} {text!r}")
    return status


def before_a_start(machine, kind):
    """A store stopped, and `ssikvd-before` is asked. Where it refuses, the log is compacted or the machine restarted, and then it doesn't.
    Later commits outlive a crash."""
    has_copies, has_direct_reads = FILE_SYSTEMS[kind]
    store = Store(machine, has_copies)
    store.disk.tell("direct", int(has_direct_reads))
    with open(store.path, "rb", buffering=0):
        stop_the_store(store)
        status = before(store)
        expect(status in {"drops pages": (0,), "keeps pages": (0, 2), "has no direct reads": (3,)}[kind], f"ssikvd-before answered {status}")
        machine.count(f"{kind}, {'refused' if status else 'let start'}")
        if status:
            make_sound(store)
            expect(before(store, "no" if status == 3 else "yes") == 0, "ssikvd-before refuses a sound store")
        commits_and_crash(store)


def make_sound(store):
    """What an operator does after a refusal: a copy by `compact` in the file's place, or the machine restarts."""
    if store.machine.chance.random() < 0.5:
        swap_in_compacted(store)
        store.disk.tell("settle")
    else:
        store.machine.crash_at_once()
        store.look()


def started_all_the_same(machine):
    """Stores stopped, which are started by PAST_CACHE=no though a sync has failed."""
    while True:
        store = Store(machine, False)
        store.disk.tell("direct", 0)
        stop_the_store(store)
        expect(before(store, "no") == 0, "ssikvd-before doesn't heed PAST_CACHE=no")
        commits_and_crash(store)
        yield


def starts(machine):
    for kind in itertools.cycle(FILE_SYSTEMS):
        try:
            before_a_start(machine, kind)
        except Deviation as found:
            raise Deviation(f"{kind}: {found}") from None
        yield


def look_between(store, log):
    """After a crash between the renames and the opening: of the three names at least one is there, and each is the old file or the copy."""
    disk, wanted = store.disk, map_of(log)
    left = sorted(name for name in ("F", "F.old", "G") if disk.is_there(name))
    maps = [map_of(log_of(disk.read(name))) for name in left]
    expect(left and all(found == wanted for found in maps), f"{left} are left, and {maps.count(wanted)} hold all that was acknowledged")
    store.machine.count("left as " + " and ".join(left))


def after_a_swap(machine, way):
    """Commits over a file that took another's name outlive a crash; at times it comes before the copy is served. The names are made durable by the
    operator (`synced`), or by the opening, or by neither (`ignored`)."""
    store = Store(machine)
    with store.served() as clients:
        expect(clients, "it doesn't open a new file")
        commit_some(store, clients, machine.chance.randint(1, 9))
        clients.end_server()
    log = swap_in_compacted(store)
    if way == "synced":
        store.disk.tell("settle")
    elif way == "ignored":
        store.disk.tell("ignore", "folder")
    if machine.chance.random() < 0.2:
        machine.crash_at_once()
        look_between(store, log)
    else:
        commits_and_crash(store)


def stops(machine, ways, has_copies=True):
    while True:
        way = ways[sum(machine.counts.get(name, 0) for name in ways) % len(ways)]
        machine.count(way)
        try:
            after_a_stop(machine, way, has_copies)
        except Deviation as found:
            raise Deviation(f"{way}: {found}") from None
        yield


def swaps(machine, way):
    while True:
        machine.disk.tell("ignore")
        after_a_swap(machine, way)
        machine.count("swaps")
        yield


# Modes

CREATED_CALLS = (("name", 1), ("write", 3), ("write", 20), ("sync", 1), ("sync", 3), ("folder", 1))
COPIED_CALLS = (("name", 1), ("open", 1), ("write", 9), ("write", 60), ("sync", 1), ("sync", 3), ("folder", 1))
FAULTED_CALLS = (("name", 1), ("write", 9), ("write", 60), ("sync", 3), ("folder", 1))

# The runs of each mode, and how many `quick` and `long` make. Those of none are played where they are named, a hundred times.
MODES = {
    "serve": (crashes_of_serve, 50, 2_000),
    "create": (lambda machine: making(machine, creating, crash_plan, CREATED_CALLS), 20, 400),
    "create faults": (lambda machine: making(machine, creating, fault_plan, FAULTED_CALLS), 20, 400),
    "compact": (lambda machine: making(machine, compacting, crash_plan, COPIED_CALLS), 15, 300),
    "compact faults": (lambda machine: making(machine, compacting, fault_plan, FAULTED_CALLS), 15, 300),
    "faults": (faults_of_serve, 25, 600),
    "stopped": (lambda machine: stops(machine, ("opened in place", "dd", "compact")), 9, 300),
    "stopped without copies": (lambda machine: stops(machine, ("opened in place",), False), 0, 0),
    "before": (starts, 9, 150),
    "swap": (lambda machine: swaps(machine, "opening"), 8, 100),
    "swap synced": (lambda machine: swaps(machine, "synced"), 0, 0),
}

# What is left out, and the mode that is to see it.
SIGHT = (
    ("a sync of the body", "body", crashes_of_serve),
    ("a sync of the gate", "gate", crashes_of_serve),
    ("the sync of an opening", "opening", crashes_of_serve),
    ("the sync of the folder by `create`", "folder", MODES["create"][0]),
    ("the sync of the folder by `serve`", None, lambda machine: swaps(machine, "ignored")),
    ("the dropping of pages by an opening", None, MODES["stopped without copies"][0]),
    ("the comparison by `ssikvd-before`", None, started_all_the_same),
)


def play(tally, disk, name, runs_of, count, seed):
    """This many runs of a mode."""
    machine = Machine(disk, seed)
    runs = runs_of(machine)
    for number in range(count):
        with tally.run(f"{name} {number} of seed {seed}"):
            try:
                next(runs)
            except Deviation:
                runs = runs_of(machine)
                raise
    tally.more = "; " + machine.text()


def seen_at(disk, ignored, runs_of, seed):
    """The run in which it is seen that this is left out."""
    disk.tell("ignore", *([ignored] if ignored else []))
    runs = runs_of(Machine(disk, seed))
    try:
        for number in range(1, SIGHT_MAX + 1):
            try:
                next(runs)
            except Deviation as found:
                return number, str(found)
    finally:
        disk.tell("ignore")
        disk.calm()
    raise Deviation(f"not seen in {SIGHT_MAX} runs")


def sight(tally, disk, seed):
    """Is each thing that is left out seen?"""
    lines = []
    for what, ignored, runs_of in SIGHT:
        with tally.run(what):
            number, text = seen_at(disk, ignored, runs_of, seed)
            lines.append(f"{what} at run {number}")
            print(f"  without {what}: run {number}, {text[:100]}", flush=True)
    tally.more = "; left out and seen: " + ", ".join(lines)


def options(parser):
    parser.add_argument("modes", nargs="*", metavar="mode", help="only these: " + "; ".join([*MODES, "sight"]))
    parser.add_argument("--program", default=settings.PROGRAM)
    parser.add_argument("--seed", type=int, default=7)
    parser.add_argument("--runs", type=int, help="how many runs of each mode")


class Lossy(Harness):
    NEEDS = ()

    def test_modes(self):
        words = asked(options)
        unknown = set(words.modes) - {*MODES, "sight"}
        if unknown:
            raise SystemExit(f"lossy: no mode: {', '.join(sorted(unknown))}")
        settings.PROGRAM = words.program
        need(settings.PROGRAM)
        if not os.access(LOSSY, os.X_OK):
            leave_out("lossy", "libfuse3 when the harnesses were built")
        with folder() as place:
            try:
                disk = Disk(place)
            except NoFuse as found:
                print(f"lossy: left out, {found}")
                self.skipTest(str(found))
            with contextlib.closing(disk):
                for name in words.modes or [*(name for name in MODES if MODES[name][1]), "sight"]:
                    tally = self.begin(f"lossy, {name}")
                    if name == "sight":
                        sight(tally, disk, words.seed)
                    else:
                        runs_of, quick, long = MODES[name]
                        play(tally, disk, name, runs_of, words.runs or (long if is_long() else quick) or 100, words.seed)


if __name__ == "__main__":
    run_harness(options)
