"""A day of full load, with backups, kills and full disks: nothing is lost, and no helper stops the server except for its swaps.

The timers' services are played one after the other, with the commands of their units, as their user, in a folder of a size that a disk may have;
only `systemctl` is played. Clients write as fast as they are answered, so that each look of `ssikvd-compact` finds a log that is soon full, and
compacts. A minute is as long as that takes: what is shortened is the time between two looks, not their number. Each client looks at its own keys
all along. In between `ssikvd-ship` makes backups, of which each is verified and compared, and some are restored elsewhere and served; the
figures are written; the server and each helper are killed at moments of their work; and the disk is full, first for a copy alone, then for anything,
until the log is full, too. Then the helpers say why, the server goes on, and once there is room the next compaction is made.

After each kill, and at the end, the map must be that of the commits that were acknowledged; of each client the one that was under way may be there,
too. The server never ends by itself, and is stopped by a swap alone: how long, in all and at most, is reported. At the end no file is left that isn't
expected. Finally, days with a planted fault are shown to the same judge.

`quick` makes a dozen compactions, `long` 1,440. It needs root and mounts of its own, and says what it lacks.
"""
import argparse
import contextlib
import dataclasses
import os
import random
import select
import shutil
import threading
import time

from ssikvd_harness.arguments import asked as asked_for, is_long, run_harness
from ssikvd_harness.cases import Harness, leave_out
from ssikvd_harness.connection import Connection
from ssikvd_harness.deviations import Deviation, expect, is_refused, wait_for
from ssikvd_harness.frames import OK, frame, parts_of, refusal
from ssikvd_harness.limits import PAIRS_MAX
from ssikvd_harness.log_format import SECTOR, apply, log_of, map_of
from ssikvd_harness.server import Server, check, folder, free_port
from ssikvd_harness.services import DONE, FAILED, KILLED, LEFT_OUT, Services
from ssikvd_harness.settings import PATIENCE, PROGRAM, text_of
from ssikvd_harness.tools import command, in_memory, lacking, tool

USER, CLIENTS, KEYS = 12_345, 4, 60
FULL = refusal("FULL log")
STORES, BACKUPS, METRICS = "/var/lib/ssikvd", "/var/lib/ssikvd-backups", "/run/ssikvd-metrics"
DATA, COPY = STORES + "/shop.data", BACKUPS + "/shop.data"
COMPACT, SHIP, FIGURES = "ssikvd-compact", "ssikvd-ship", "ssikvd-used"
# What stands in each folder once a helper has done its work.
DUE = {STORES: {"shop.data", "shop.data.old", "shop.data.lock", "shop.looked", "shop.used", "shop.stat"},
       BACKUPS: {"shop.data", "shop.data.old", "shop.data.lock"},
       METRICS: {"ssikvd-shop.prom", "ssikvd-shop-probe.prom", "ssikvd-shop-stat.prom", "ssikvd-shop-backup.prom"}}


@dataclasses.dataclass(frozen=True)
class Plan:
    """How many compactions a day has, and at each how many of them something else is done; of `restore` and `ship_kill`, at each how many backups."""

    compactions: int
    backup: int
    restore: int
    figures: int
    server_kill: int
    prepare_kill: int
    copy_kill: int
    ship_kill: int
    figures_kill: int
    full_disk: int


QUICK = Plan(12, backup=4, restore=2, figures=5, server_kill=4, prepare_kill=3, copy_kill=5, ship_kill=2, figures_kill=10, full_disk=8)
LONG = Plan(1_440, backup=15, restore=4, figures=15, server_kill=12, prepare_kill=20, copy_kill=24, ship_kill=2, figures_kill=30, full_disk=160)


# Clients

def asked(connection, requests):
    """The replies to these requests; None where the connection was lost."""
    connection.send(b"".join(requests))
    try:
        replies = [connection.reply() for _ in requests]
    except Deviation as found:
        if "closed within a reply" in str(found):
            return None
        raise
    return None if None in replies else replies


class Client(threading.Thread):
    """Writes and deletes keys of its own, one transaction at a time, and looks at them. It has what was acknowledged, and what is under way."""

    def __init__(self, load, number, seed):
        super().__init__(daemon=True)
        self.load, self.number, self.chance, self.lock = load, number, random.Random(f"{seed} {number}"), threading.Lock()
        self.first, self.counter = b"%d." % number, b"%d.count" % number
        self.contents, self.count, self.pending = {}, 0, None
        self.at_snapshot, self.since = (0, {}), []
        self.refused, self.looks, self.looked, self.served, self.failure = 0, 0, 0.0, 0.0, None    # when it looked last, and was served first
        self.is_parked = threading.Event()

    def run(self):
        try:
            while not self.load.is_over.is_set():
                with contextlib.suppress(OSError), Connection(self.load.port) as connection:
                    if self.has_looked(connection):
                        self.served = time.monotonic()
                        while self.has_done(connection):
                            pass
                self.park()
                time.sleep(0.003)
        except Exception as found:    # what went wrong is told by the harness
            self.failure = found

    def park(self):
        """Waits while the load is held."""
        if not self.load.may_go.is_set():
            self.is_parked.set()
            self.load.may_go.wait()
            self.is_parked.clear()

    def chosen(self):
        """What the next transaction writes: some keys, of which some are deleted, and its own number."""
        keys = self.chance.sample(range(KEYS), self.chance.randint(1, 4))
        values = [b"%d:" % (self.count + 1) + b"v" * self.chance.randrange(self.load.longest) if self.chance.random() < 0.9 else None for _ in keys]
        return [*((b"%d.%03d" % (self.number, key), value) for key, value in zip(keys, values)), (self.counter, b"%d" % (self.count + 1))]

    def has_done(self, connection):
        """One transaction, if it is time for one. False where the connection was lost."""
        self.park()
        if self.load.is_over.is_set():
            return False
        if not self.load.take():
            return self.is_idle(connection)
        writes = self.pending = self.chosen()
        replies = asked(connection, [frame("BEGIN"), *(frame("DEL", key) if value is None else frame("SET", key, value) for key, value in writes),
                                     frame("COMMIT")])
        if replies is None:
            return False
        expect(replies[:-1] == [OK] * (len(writes) + 1) and (replies[-1][:1] == b":" or replies[-1] == FULL), f"a commit was answered {replies}")
        if replies[-1] == FULL:
            self.pending, self.refused = None, self.refused + 1
            time.sleep(0.02)
        else:
            self.acknowledge()
        return bool(replies[-1] != FULL and self.count % 8) or self.has_looked(connection)

    def is_idle(self, connection):
        """Nothing is to be written: it looks now and then, and sees where the connection is lost."""
        if select.select([connection.socket], [], [], 0.02)[0]:
            return False
        return time.monotonic() < self.looked + 0.2 or self.has_looked(connection)

    def acknowledge(self):
        """What was under way is in the store."""
        with self.lock:
            apply(self.contents, self.pending)
            self.since.append(self.pending)
            self.count, self.pending = self.count + 1, None

    def has_looked(self, connection):
        """Looks at its own keys. False where the connection was lost."""
        replies = asked(connection, [frame("BEGIN"), frame("RANGE", self.first, b"%d/" % self.number, str(PAIRS_MAX)), frame("COMMIT")])
        if replies is None:
            return False
        expect(replies[0] == OK and replies[1][:1] == b"*" and replies[2][:1] == b":", f"a look was answered {replies}")
        parts = parts_of(replies[1])
        self.judge(dict(zip(parts[0::2], parts[1::2])))
        self.looked, self.looks = time.monotonic(), self.looks + 1
        return True

    def judge(self, found):
        """Are these the keys of what was acknowledged? What was under way may be there, too."""
        if self.pending and found.get(self.counter) == b"%d" % (self.count + 1):
            self.acknowledge()
        self.pending = None
        wrong = sorted(key for key in {*found, *self.contents} if found.get(key) != self.contents.get(key))
        expect(not wrong, f"client {self.number}, {self.count} commits acknowledged: lost or others' are {wrong[:3]}")

    def note(self):
        """Notes what was acknowledged, for a backup that begins."""
        with self.lock:
            self.at_snapshot, self.since = (self.count, dict(self.contents)), []

    def judge_copy(self, found):
        """Are these the keys after one of the commits since what was noted?"""
        count, due = self.at_snapshot
        with self.lock:
            more, pending = int(found.get(self.counter, b"0")) - count, self.pending
            expect(0 <= more <= len(self.since) + bool(pending), f"a copy has commit {count + more} of client {self.number}, expected {count}")
            due = dict(due)
            for writes in [*self.since, *([pending] if pending else [])][:more]:
                apply(due, writes)
        expect({key: value for key, value in found.items() if key.startswith(self.first)} == due, f"a copy has other keys of client {self.number}")


class Load:
    """Clients, which together begin as many transactions as they are allowed."""

    def __init__(self, port, seed, longest, is_active):
        self.port, self.longest, self.is_active = port, longest, is_active    # is_active raises where the server has ended by itself
        self.is_over, self.may_go, self.lock = threading.Event(), threading.Event(), threading.Lock()
        self.begun = self.allowed = 0
        self.may_go.set()
        self.clients = [Client(self, number, seed) for number in range(CLIENTS)]
        for client in self.clients:
            client.start()

    def take(self):
        with self.lock:
            if self.begun >= self.allowed:
                return False
            self.begun += 1
            return True

    def allow(self, count):
        """Allows this many more transactions."""
        with self.lock:
            self.allowed = self.begun + count

    def wait(self):
        """Waits until they have begun."""
        self.until(lambda: self.begun >= self.allowed, "clients aren't served")

    def until(self, found, text):
        def judged():
            self.judge()
            return found()

        wait_for(judged, text, 6 * PATIENCE, 0.005)

    def judge(self):
        self.is_active()
        for client in self.clients:
            if client.failure:
                raise client.failure

    def first_served(self, since):
        """Waits until a client is served that came after a moment: when that was."""
        self.until(lambda: any(client.served > since for client in self.clients), "nobody is served")
        return min(client.served for client in self.clients if client.served > since)

    @contextlib.contextmanager
    def held(self):
        """Meanwhile no client asks anything."""
        self.may_go.clear()
        try:
            self.until(lambda: all(client.is_parked.is_set() for client in self.clients), "a client doesn't wait")
            yield
        finally:
            for client in self.clients:
                client.is_parked.clear()
            self.may_go.set()

    def count(self):
        return sum(client.count for client in self.clients)

    def refused(self):
        return sum(client.refused for client in self.clients)

    def end(self):
        self.is_over.set()
        self.may_go.set()
        for client in self.clients:
            client.join(6 * PATIENCE)


def read_all(port):
    """All keys and values, page by page."""
    found, lo = {}, b"\0"
    with Connection(port) as client:
        expect(client.ask(frame("BEGIN")) == OK, "BEGIN was refused")
        while True:
            parts = parts_of(client.ask(frame("RANGE", lo, "", str(PAIRS_MAX))))
            found.update(zip(parts[0::2], parts[1::2]))
            if len(parts) < 2 * PAIRS_MAX:
                return found
            lo = parts[-2] + b"\0"


# Disks

class Disk:
    """A file system of a size, in memory or on a disk, and a file that fills it."""

    def __init__(self, place, at, size, is_on_disk):
        self.at, self.ballast = at, os.path.join(at, "of-another")
        os.makedirs(at, exist_ok=True)
        if is_on_disk:
            image = os.path.join(place, os.path.basename(at) + ".image")
            with open(image, "wb") as file:
                os.posix_fallocate(file.fileno(), 0, size + (16 << 20))
            command("mkfs.ext4", "-q", "-F", "-m", "0", "-E", "lazy_itable_init=0,lazy_journal_init=0", image)
            command("mount", "-o", "loop", image, at)
            shutil.rmtree(os.path.join(at, "lost+found"))
        else:
            command("mount", "-t", "tmpfs", "-o", f"size={size}", "tmpfs", at)
        os.chown(at, USER, USER)
        os.chmod(at, 0o700)

    def fill(self, left=0):
        """Leaves this many bytes free."""
        with open(self.ballast, "ab") as file:
            for _ in range(100):
                now = os.statvfs(self.at)
                more = now.f_bavail * now.f_frsize - left
                if more <= 0:
                    return
                with contextlib.suppress(OSError):
                    os.posix_fallocate(file.fileno(), file.seek(0, os.SEEK_END), more if more < 65_536 else more - 16_384)

    def clear(self):
        os.remove(self.ballast)

    def names(self):
        return set(os.listdir(self.at))


# A day

class Day:
    """A store that is served, loaded and kept by the helpers, by a plan."""

    def __init__(self, place, plan, seed, sectors, longest, is_on_disk=False, changes=()):
        self.plan, self.chance, self.sectors, self.size = plan, random.Random(seed), sectors, SECTOR * sectors
        os.chmod(place, 0o755)
        self.place, self.elsewhere = place, os.path.join(place, "elsewhere")
        self.disk = Disk(place, STORES, 2 * self.size + (1 << 20), is_on_disk)
        self.backups = Disk(place, BACKUPS, 3 * self.size + (1 << 20), is_on_disk)
        os.makedirs(METRICS)
        os.chown(METRICS, USER, USER)
        self.port = free_port()
        settings = {"LISTEN": f"127.0.0.1:{self.port}", "SECTORS": str(sectors), "ALLOCATOR": ""}
        self.services, self.load = Services(place, "shop", USER, settings, changes, self.write_at_stop), None
        self.finished, self.beside, self.stops, self.copies, self.restored, self.full, self.full_amid = 0, 0, [], 0, 0, 0, 0
        self.commits = sectors // 14    # of three sectors each: a minute's share of a log that is full in four of them
        self.services.start()
        self.load = Load(self.port, seed, longest, self.services.is_active)

    def is_due(self, every, offset=0):
        return self.finished % every == offset % every

    def play(self, name, due, words=()):
        """Plays a service, of which these tools are killed at a moment of their usual time. Its result, which must be one of these."""
        result = self.services.play(name, {word: self.chance.uniform(0.0, self.services.took.get(word, 0.5)) for word in words})
        self.judge(result in due, f"{name} ended with {result}: {self.services.said}")
        return result

    def judge(self, holds, text):
        self.load.judge()
        expect(holds, text)

    # Compactions

    def compact(self, kill=()):
        """A compaction, started again where there was nothing to do or a helper was killed."""
        for _ in range(20):
            self.load.allow(self.commits)
            before = self.services.stopped_at
            result = self.play(COMPACT, (DONE, LEFT_OUT, *((KILLED, FAILED) if kill else ())), kill)
            self.after_stop(before)
            self.load.wait()
            if result == DONE and "copied in" in self.services.said:
                self.note_compaction()
                return
            if kill:
                self.compare()
                kill = kill[1:]
        expect(False, f"no compaction is made: {self.services.said}")

    def write_at_stop(self):
        """Clients write as the server is stopped."""
        begun = self.load.begun
        self.load.allow(self.commits // 4)
        self.load.until(lambda: self.load.begun >= begun + CLIENTS, "clients aren't served before a stop")

    def after_stop(self, before):
        """If the server was stopped: how long nobody was served."""
        if self.services.stopped_at != before:
            self.judge(self.services.is_active(), "the server wasn't started again")
            self.stops.append(self.load.first_served(self.services.started_at) - self.services.stopped_at)

    def note_compaction(self):
        self.finished += 1
        self.beside += "copied while the server ran" in self.services.said
        left = self.disk.names() - DUE[STORES]
        expect(not left, f"after a compaction there is {sorted(left)}")

    def compare(self):
        """Is the map that of what was acknowledged?"""
        with self.load.held():
            self.judge(self.services.is_active(), "no server runs")
            found, count = read_all(self.port), 0
            for client in self.load.clients:
                own = {key: value for key, value in found.items() if key.startswith(client.first)}
                client.judge(own)
                count += len(own)
            expect(count == len(found), "there are keys of nobody")

    def kill_server(self):
        """Kills the server at a moment of the next service, and starts it again."""
        def play():
            time.sleep(delay)
            try:
                self.services.kill_server()
            except Exception as found:    # what went wrong is told by the harness
                failures.append(found)

        failures, delay = [], self.chance.uniform(0.0, 0.5)
        killer = self.services.under_way = threading.Thread(target=play, daemon=True)
        killer.start()
        try:
            self.compact()
        finally:
            killer.join()
            self.services.under_way = None
        if failures:
            raise failures[0]
        self.compare()

    # Backups

    def backup(self):
        """A backup, which is verified and compared."""
        if self.is_due(self.plan.backup * self.plan.ship_kill):
            self.load.allow(self.commits // 4)
            self.play(SHIP, (DONE, KILLED), (SHIP,))
            if os.path.exists(COPY):
                log_of(COPY)
        self.load.allow(self.commits // 4)
        self.load.wait()
        for client in self.load.clients:
            client.note()
        self.play(SHIP, (DONE,))
        self.copies += 1
        found = self.verified(COPY)
        for client in self.load.clients:
            client.judge_copy(found)
        left = self.backups.names() - DUE[BACKUPS]
        expect(not left, f"after a backup there is {sorted(left)}")
        if self.copies % self.plan.restore == 0:
            self.restore(found)

    @staticmethod
    def verified(name):
        """The map of a data file, which `ssikvd-verify` and `check` take, too."""
        status, out, err = tool("ssikvd-verify", name)
        log = log_of(name)
        found = map_of(log)
        expect(status == 0 and not err and f"records {len(log)} " in out, f"ssikvd-verify answered {status, out, err}")
        expect(check(name)[:2] == (len(log), len(found)), f"check counts {check(name)}")
        return found

    def restore(self, due):
        """Restores the backup elsewhere, after a run that is killed, and serves it."""
        data = os.path.join(self.elsewhere, "shop.data")
        os.mkdir(self.elsewhere)
        words, took, killed = ["ssikvd-restore", "--data", data, COPY], self.services.took, self.services.killed
        status = self.services.run(words, True, {}, self.chance.uniform(0.0, took.get(words[0], 0.3)))[0]
        killed[words[0]] = killed.get(words[0], 0) + (status < 0)
        begun = time.monotonic()
        status, said = self.services.run(words, True)
        took[words[0]] = time.monotonic() - begun
        expect(status == 0, f"ssikvd-restore ended with {status}: {said}")
        left = set(os.listdir(self.elsewhere)) - {"shop.data", "shop.data.lock", "shop.data.before-restore"}
        expect(not left, f"after a restore there is {sorted(left)}")
        with Server(data) as server:
            expect(read_all(server.port) == due, "what was restored is another map")
        shutil.rmtree(self.elsewhere)
        self.restored += 1

    def figures(self):
        if self.is_due(self.plan.figures_kill):
            self.play(FIGURES, (DONE, KILLED), (FIGURES,))
        self.play(FIGURES, (DONE,))

    # Full disks

    def expect_refused(self, *texts):
        """A look finds no room, says why, and the server goes on."""
        before, stops = self.services.server, self.services.stopped_at
        self.play(COMPACT, (FAILED,))
        expect(any(text in self.services.said for text in texts), f"of a full disk it says {self.services.said}")
        self.judge(self.services.server is before and self.services.stopped_at == stops and self.services.is_active(), "the server was stopped")

    def room_taken_amid(self):
        """The room is taken while the copy is made. It fails, and the server goes on, or it was fast enough."""
        def take():
            wait_for(lambda: os.path.exists(DATA + ".new") or is_over.is_set(), "no copy is begun", 6 * PATIENCE, 0.0005)
            self.disk.fill()

        is_over = threading.Event()
        self.disk.fill(self.size + (256 << 10))
        self.load.allow(self.commits // 4)
        taker = threading.Thread(target=take, daemon=True)
        taker.start()
        before = self.services.stopped_at
        result, said = self.play(COMPACT, (DONE, FAILED, LEFT_OUT)), self.services.said
        is_over.set()
        taker.join()
        self.after_stop(before)
        is_told = any(text in said for text in ("couldn't be copied; the server goes on", "was left as it was"))
        expect(result != FAILED or is_told, f"of a disk that gets full it says {said}")
        self.full_amid += result == FAILED
        self.disk.clear()
        self.load.wait()
        if result == DONE and "copied in" in said:
            self.note_compaction()

    def full_disk(self):
        """The disk is full: for a copy alone, amid a copy, for anything; then the log is full, too, and the server is killed. Then there is room."""
        refused = self.load.refused()
        with contextlib.suppress(FileNotFoundError):
            os.remove(DATA + ".old")
        self.room_taken_amid()
        with contextlib.suppress(FileNotFoundError):
            os.remove(DATA + ".old")
        self.disk.fill(self.size // 2)
        self.load.allow(self.commits // 4)
        self.expect_refused("has no room in")
        self.load.wait()
        self.disk.fill()
        self.load.allow(self.commits // 4)
        self.expect_refused("No space left", "has no room in")
        self.load.wait()
        expect(self.load.refused() == refused, "a log was full that should have had room")
        self.load.allow(self.sectors)
        self.load.until(lambda: self.load.refused() >= refused + 2 * CLIENTS, "the log isn't full at last")
        self.load.allow(0)
        self.services.kill_server()
        self.compare()
        self.expect_refused("No space left", "has no room in")
        self.disk.clear()
        self.full += 1
        self.compact()
        refused = self.load.refused()
        self.compact()
        expect(self.load.refused() == refused, "a commit was refused once there was room")
        self.full_backups()

    def full_backups(self):
        """The backups' disk is full: the previous copy stays, and the next run brings it up to date."""
        if not os.path.exists(COPY):
            return
        before = self.verified(COPY)
        self.backups.fill()
        self.play(SHIP, (FAILED,))
        expect("No space left" in self.services.said and "up to date" in self.services.said, f"of a full disk it says {self.services.said}")
        expect(self.verified(COPY) == before, "the previous copy has changed")
        self.backups.clear()
        self.backup()

    # All of it

    def minute(self):
        """What the timers and fate have for a minute, around one compaction."""
        plan, now, refused = self.plan, self.finished, self.load.refused()
        kill = [word for word, every in (("prepare", plan.prepare_kill), ("copy", plan.copy_kill)) if self.is_due(every, every // 2)]
        if self.is_due(plan.full_disk, plan.full_disk // 2):
            self.full_disk()
            refused = self.load.refused()
        elif self.is_due(plan.server_kill, 1) and not kill:
            self.kill_server()
        else:
            self.compact(kill)
        expect(self.finished > now and self.load.refused() == refused, "no compaction was made, or a commit met a full log")
        if self.is_due(plan.backup):
            self.backup()
        if self.is_due(plan.figures):
            self.figures()

    def play_all(self):
        begun = time.monotonic()
        while self.finished < self.plan.compactions:
            before = self.finished
            self.minute()
            if self.finished // 60 > before // 60:
                print(f"  after {time.monotonic() - begun:.0f} s: {self.told()}", flush=True)
        self.end()

    def end(self):
        """Nothing is lost, and nothing is left."""
        self.figures()
        self.load.allow(0)
        self.compare()
        self.backup()
        self.load.end()
        self.judge(self.services.is_active(), "no server runs at the end")
        due = {key: value for client in self.load.clients for key, value in client.contents.items()}
        self.services.end()
        expect(self.verified(DATA) == due == self.verified(COPY), "a commit is lost at the end")
        said = [line for line in text_of(os.path.join(self.place, "journal")).splitlines() if not line.startswith("listening ")]
        expect(not said, f"the server said {said[:3]}")
        for place, names in DUE.items():
            expect(set(os.listdir(place)) <= names, f"at the end there is {sorted(os.listdir(place))} in {place}")

    def told(self):
        kills = ", ".join(f"{count} of {name}" for name, count in sorted(self.services.killed.items()))
        longest, sum_of = max(self.stops, default=0.0), sum(self.stops)
        looks = sum(client.looks for client in self.load.clients)
        return (f"{self.finished} compactions, {self.beside} while the server ran; {self.load.count()} commits, {self.load.refused()} refused by a "
                f"full log, {looks} looks at them; {len(self.stops)} stops of {longest:.2f} s at most and {sum_of:.1f} s in all; "
                f"{self.copies} backups, {self.restored} restored; {self.full} full disks, {self.full_amid} amid a copy; kills: {kills}")

    def close(self):
        self.load.end()
        self.services.end()


@contextlib.contextmanager
def mounts():
    """Folders in which a system keeps its state, of this process alone."""
    places = ("/run", "/var/lib")
    for place in places:
        command("mount", "-t", "tmpfs", "tmpfs", place)
    try:
        yield
    finally:
        for place in (STORES, BACKUPS, *places):
            with contextlib.suppress(Deviation):    # it wasn't mounted
                command("umount", "-l", place)


def play(plan, seed, sectors, longest, is_on_disk=False, changes=()):
    """A day to its end: what is reported of it."""
    with folder() if is_on_disk else in_memory() as place, mounts():
        day = Day(place, plan, seed, sectors, longest, is_on_disk, changes)
        try:
            day.play_all()
            return day.told()
        finally:
            day.close()


# Days with a planted fault

SHORT = Plan(3, backup=2, restore=9, figures=9, server_kill=9, prepare_kill=9, copy_kill=9, ship_kill=9, figures_kill=9, full_disk=99)
WRONG = {
    "a copy that is taken as it is": ("ssikvd-compact", "    caught_up || roomy_file\n", "    used=0 sectors=0\n"),
    "a state that is left": ("ssikvd-compact", '    trap - EXIT\n    rm -f "$data.new.state"\n', "    trap - EXIT\n"),
    "a backup that isn't brought up to date": ("ssikvd-ship", "        advance(log, records)\n", "        log.step()\n"),
    "a server that a helper ends": (
        "ssikvd-used", "def main():\n",
        "def main():\n    with open(os.path.dirname(os.path.dirname(__file__)) + '/pid') as file:\n        os.kill(int(file.read()), 9)\n"),
}


def show_that_it_fails(tally, sectors, longest):
    for name, change in WRONG.items():
        with tally.run(f"{name} is reported"):
            expect(is_refused(play, SHORT, 1, sectors, longest, False, (change,)), f"{name} was not reported")


def lacks():
    """What is missing for a run, or None."""
    return lacking((name, None) for name in ("unshare", "setpriv", "mount", "ip", "ss")) or ("root" if os.geteuid() else None)


def options(parser):
    parser.add_argument("--compactions", type=int, help="how many compactions to make")
    parser.add_argument("--sectors", type=int, default=16_384, help="the size of the data file in sectors (default 16384)")
    parser.add_argument("--longest", type=int, default=700, help="the most bytes that a value has (default 700)")
    parser.add_argument("--seed", type=int, default=58)
    parser.add_argument("--on-disk", action="store_true", help="run on ext4 over files in the folder for temporary files, not in memory")
    parser.add_argument("--alone", action="store_true", help=argparse.SUPPRESS)    # no planted faults


class ADay(Harness):
    NAME = "day"
    NEEDS = (PROGRAM,)

    def test_day(self):
        needed = lacks()
        if needed:
            leave_out("day", needed)
        if not self.is_in_own_namespaces("SSIKVD_DAY"):
            return
        tally, words, plan = self.tally, asked_for(options), LONG if is_long() else QUICK
        plan = dataclasses.replace(plan, compactions=words.compactions or plan.compactions)
        with tally.run(f"a day of {plan.compactions} compactions by seed {words.seed}"):
            print(f"  {play(plan, words.seed, words.sectors, words.longest, words.on_disk)}", flush=True)
        if not words.alone:
            show_that_it_fails(tally, words.sectors, words.longest)


if __name__ == "__main__":
    run_harness(options)
