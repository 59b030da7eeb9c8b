"""Losses of power on ext4, xfs and btrfs, as Linux mounts them, over a disk that loses what wasn't flushed.

The disk is a loop device over the file of recorder.c, which writes down each write and each flush that the file system sends. Over it a run is
played: `create`, openings, commits, kills, `compact`, a swap of names, `ssikvd-ship`, `ssikvd-restore`. Then the power is cut at any of these writes
and flushes: what came before the last flush is there, and of the writes after it any are, in any order, whole or torn by sector. The file system is
mounted as it was left, and the files on it are read by a reader of the log in plain Python, and some by `check`: each has every commit that was
answered, in order, and nothing other than what was asked for. What one cut left, the next run goes on with.

    power_cuts.py quick             20 cuts of each file system
    power_cuts.py long              2,600 cuts of each
    power_cuts.py --cuts N --only ext4 --seed N
    power_cuts.py --sight           syncs are left out, of the gate, of a record, of the folder after a swap, and a disk leaves noise in the
                                    physical sector that it was writing: each must be seen

With btrfs what one sync makes durable is there whole or not at all: it writes to free places, and its superblock after a flush. So there the sync of
a record before its gate isn't missed. It is mounted once more with `nodatacow`, as `chattr +C` has it for one folder, which writes in place.

It needs root, FUSE, loop devices, and for each file system the tool that makes it; what isn't there is left out. It mounts in a namespace of its
own, in memory.
"""
import argparse
import collections
import contextlib
import os
import random
import struct
import subprocess
import sys
import time

from ssikvd_harness.arguments import asked, is_long, run_harness
from ssikvd_harness.cases import Harness
from ssikvd_harness.connection import Connection
from ssikvd_harness.deviations import Tally, expect, wait_for
from ssikvd_harness.frames import OK, frame
from ssikvd_harness.log_format import HEAD, SECTOR, Damaged, NotALog, OldFormat, copy_of, map_of, read_log, sectors_used
from ssikvd_harness.server import Server, check, create, folder, run
from ssikvd_harness.settings import HARNESS, OUT, PATIENCE, PROGRAM, TOP
from ssikvd_harness.tools import command

RECORDER, SKIPS = (os.path.join(OUT, name) for name in ("recorder", "skip_syncs.so"))
SHIP, RESTORE = (os.path.join(TOP, "dist", name) for name in ("ssikvd-ship", "ssikvd-restore"))
INSIDE = "--inside"
IN_PRIVATE = ["unshare", "--mount", "--propagation", "private"]    # with mounts of its own, which nobody else sees
BTRFS = (128 << 20, ["mkfs.btrfs", "-q", "-f"])
# Each file system, with its size and what makes it. What stands behind a hyphen is an option with which it is mounted.
MAKERS = {
    "ext4": (64 << 20, ["mkfs.ext4", "-q", "-F", "-b", "4096", "-E", "lazy_itable_init=0,lazy_journal_init=0"]),
    "xfs": (310 << 20, ["mkfs.xfs", "-q", "-f"]),
    "btrfs": BTRFS,
    "btrfs-nodatacow": BTRFS,
}
QUICK_CUTS, LONG_CUTS, CUTS_OF_A_LIFE = 20, 2_600, 10
SECTORS, KEYS = 4_800, 60
PHYSICAL = 4_096    # bytes of a physical sector
# What stands at byte 64 of each superblock of btrfs, and at byte 1,080 of the disk of that of ext4.
BTRFS_MARK, EXT4_MARK = b"_BHRfS_M", b"\x53\xef"
FLUSH = None
CHECKED_OF = 10    # one of so many images is read by `check` too
SIGHT_MAX = 2_000    # cuts within which a sync that is left out must be seen


# The disk

class Disk:
    """An image of a file system, the writes and flushes of the run that is played on it, and where it is mounted."""

    def __init__(self, place, kind):
        self.counts = collections.Counter()    # of what was done
        self.kind, self.image, self.before = kind, os.path.join(place, f"{kind}.image"), os.path.join(place, f"{kind}.before")
        self.durable, self.left = os.path.join(place, f"{kind}.durable"), os.path.join(place, f"{kind}.left")
        self.record, self.fuse, self.top = (os.path.join(place, f"{kind}.{name}") for name in ("record", "fuse", "top"))
        os.mkdir(self.fuse)
        os.mkdir(self.top)
        size, maker = MAKERS[kind]
        with open(self.image, "wb") as file:
            file.truncate(size)
        command(*maker, self.image)
        command("fallocate", "--dig-holes", self.image)

    def path(self, name):
        return os.path.join(self.top, name)

    def position(self):
        """How far what is recorded reaches."""
        return os.stat(self.record).st_size

    @contextlib.contextmanager
    def mounted(self, image):
        system, _, option = self.kind.partition("-")
        command("mount", "-t", system, "-o", f"loop,{option}".rstrip(","), image, self.top)
        try:
            yield
        finally:
            unmount(self.top)

    @contextlib.contextmanager
    def recorded(self):
        """The file system, of which each write and flush is recorded."""
        command("cp", "--sparse=auto", self.image, self.before)
        with contextlib.suppress(FileNotFoundError):
            os.remove(self.record)
        recorder = subprocess.Popen([RECORDER, self.image, self.record, self.fuse])
        try:
            wait_for_file(os.path.join(self.fuse, "disk"), recorder)
            with self.mounted(os.path.join(self.fuse, "disk")):
                yield
        finally:
            unmount(self.fuse)
            recorder.wait(PATIENCE)

    def operations(self):
        """What was recorded, each with where it ends: a place and bytes, or a flush."""
        with open(self.record, "rb") as file:
            content = file.read()
        found, at = [], 0
        while at < len(content):
            place, size = struct.unpack_from("=2q", content, at)
            found.append((at + 16 + size, FLUSH if place < 0 else (place, content[at + 16:at + 16 + size])))
            at += 16 + size
        return found


def wait_for_file(name, process):
    """Waits until the process has made this file."""
    text = f"there is no {os.path.basename(name)}"
    wait_for(lambda: os.path.exists(name) or process.poll() is not None, text)
    expect(os.path.exists(name), text)


def unmount(place):
    """What a server that was killed has open may be there for a moment."""
    wait_for(lambda: not subprocess.run(["umount", place], capture_output=True, check=False).returncode, f"{os.path.basename(place)} stays in use")


def apply(file, write):
    place, content = write
    os.pwrite(file, content, place)


def torn(chance, write):
    """Some sectors of a write. A superblock is whole, of several sectors under one checksum: a file system asks that of any disk."""
    place, content = write
    if content[64:72] == BTRFS_MARK or (place == 0 and content[1_080:1_082] == EXT4_MARK):
        return [write]
    count = -(-len(content) // SECTOR)
    first, last = sorted(chance.sample(range(count + 1), 2)) if count > 1 else (0, chance.randrange(2))
    kept = range(first, last) if chance.random() < 0.5 else [at for at in range(count) if not first <= at < last]
    return [(place + SECTOR * at, content[SECTOR * at:SECTOR * (at + 1)]) for at in kept]


def survivors(chance, writes):
    """The writes after the last flush that a loss of power leaves made, in the order in which they were."""
    how = chance.choice(("none", "all", "beginning", "some", "some", "reordered", "torn", "torn"))
    if how == "none":
        return []
    if how == "beginning":
        return writes[:chance.randrange(len(writes) + 1)]
    kept = list(writes) if how == "all" else [write for write in writes if chance.random() < 0.5]
    if how == "reordered":
        chance.shuffle(kept)
    if how == "torn":
        return [part for write in kept for part in (torn(chance, write) if chance.random() < 0.5 else [write])]
    return kept


def torn_physical(chance, writes):
    """What a disk leaves that breaks the premise: the writes up to one, of which the physical sector that was being written holds noise."""
    kept = writes[:chance.randrange(len(writes)) + 1] if writes else []
    if not kept:
        return kept
    place, content = kept[-1]
    sectors = range(place // PHYSICAL, -(-(place + len(content)) // PHYSICAL))
    return [*kept, (PHYSICAL * chance.choice(sectors), chance.randbytes(PHYSICAL))]


# What must be there

class Due:
    """What a name may hold: one of these logs, each with how many of its records must be there; nothing; or no log."""

    def __init__(self, *logs, absent=False, no_log=False):
        self.logs, self.absent, self.no_log = [(list(log), least) for log, least in logs], absent, no_log

    def judge(self, name, content):
        if content is None:
            expect(self.absent, f"{name} isn't there")
            return
        try:
            found = read_log(lambda at: content[SECTOR * at:SECTOR * at + SECTOR], len(content) // SECTOR)[0]
        except (NotALog, OldFormat, Damaged) as fault:
            expect(self.no_log, f"{name} is no log: {type(fault).__name__} {fault}")
            return
        holds = any(least <= len(found) <= len(log) and found == log[:len(found)] for log, least in self.logs)
        wanted = [f"{least} to {len(log)}" for log, least in self.logs]
        expect(holds, f"{name} has {len(found)} records, or others; expected {' or '.join(wanted)}")


class Timeline:
    """What is expected of each name, from which place of the record on."""

    def __init__(self, logs):
        self.events = [(0, name, Due((log, len(log)))) for name, log in logs.items()]

    def note(self, position, name, due):
        self.events.append((position, name, due))

    def at(self, position):
        found = {}
        for begin, name, due in self.events:
            if begin <= position:
                found[name] = due
        return found


# A run

DATA, OLD, COPIED, BACKUP, BEFORE = "F", "F.old", "G", "B", "F.before-restore"


class Life:
    """What is done to the files of a disk, and what is expected of them meanwhile."""

    def __init__(self, disk, chance, logs, environment=None):
        self.disk, self.chance, self.environment = disk, chance, environment
        self.logs, self.timeline = {name: list(log) for name, log in logs.items()}, Timeline(logs)

    def path(self, name):
        return self.disk.path(name)

    def due(self, name, *logs, **more):
        self.timeline.note(self.disk.position(), name, Due(*logs, **more))

    def whole(self, name, log):
        """From now on the name holds this log."""
        self.logs[name] = list(log)
        self.due(name, (log, len(log)))

    def create(self):
        self.due(DATA, ((), 0), absent=True, no_log=True)
        create(self.path(DATA), SECTORS)
        self.whole(DATA, [])
        self.disk.counts["created"] += 1

    def commits(self, count):
        """A server over the file, which is killed after this many commits."""
        with Server(self.path(DATA), self.environment) as server:
            expect(server.is_listening(), f"no server: {server.error_text()!r}")
            self.whole(DATA, self.logs[DATA])    # also where it took this name before
            with Connection(server.port) as one:
                for number in range(1, count + 1):
                    self.commit(one, number)
            server.process.kill()
            server.process.wait()
        self.disk.counts["commits"] += count
        self.disk.counts["kills"] += 1

    def commit(self, one, number):
        writes, log = some_writes(self.chance), self.logs[DATA]
        self.due(DATA, ([*log, writes], len(log)))
        sets = b"".join(frame("DEL", key) if value is None else frame("SET", key, value) for key, value in writes)
        one.send(frame("BEGIN") + sets + frame("COMMIT"))
        replies = [one.reply() for _ in range(len(writes) + 2)]
        expect(replies == [OK] * (len(writes) + 1) + [b":%d\r\n" % number], f"a commit was answered {replies[-1]}")
        self.whole(DATA, [*log, writes])

    def compact_and_swap(self):
        """A compacted copy takes the file's name, and is served."""
        log = self.logs[DATA]
        copy, left = copy_of(log), self.logs.get(COPIED)
        for name in (OLD, COPIED):
            self.forget(name)
        # what a cut left under this name may come back, until `compact` has settled the folder
        self.due(COPIED, (copy, len(copy)), *([(left, len(left))] if left is not None else []), absent=True, no_log=True)
        found = run(["compact", "--from", self.path(DATA), "--to", self.path(COPIED)], seconds=6 * PATIENCE)
        expect(found[0] == 0, f"compact answered {found}")
        self.due(COPIED, (copy, len(copy)), absent=True)
        self.due(OLD, (log, len(log)), absent=True)
        self.due(DATA, (log, len(log)), (copy, len(copy)))
        os.link(self.path(DATA), self.path(OLD))
        os.rename(self.path(COPIED), self.path(DATA))
        self.logs.pop(COPIED, None)
        self.logs[DATA] = copy
        self.commits(self.chance.randint(1, 4))
        self.disk.counts["swaps"] += 1

    def forget(self, name):
        """Nothing is expected of a name any more, and it goes."""
        self.timeline.note(self.disk.position(), name, None)
        self.logs.pop(name, None)
        with contextlib.suppress(FileNotFoundError):
            os.remove(self.path(name))

    def ship(self):
        log, before = self.logs[DATA], self.logs.get(BACKUP)
        dues = [(log, len(before) if before and log[:len(before)] == before else 0 if before is None else len(log))]
        if before is not None:
            dues.append((before, len(before)))
        self.due(BACKUP, *dues, absent=before is None)
        command(sys.executable, SHIP, self.path(DATA), self.path(BACKUP))
        self.whole(BACKUP, log)
        self.disk.counts["shipped"] += 1

    def restore(self):
        """The backup in the file's place."""
        log, backup = self.logs[DATA], self.logs[BACKUP]
        self.forget(BEFORE)
        self.due(DATA, (log, len(log)), (backup, len(backup)))
        words = [sys.executable, RESTORE, "--data", self.path(DATA), self.path(BACKUP)]
        ran = subprocess.run(words, capture_output=True, timeout=6 * PATIENCE, check=False)
        if b"closed gate" in ran.stderr:    # an earlier cut came amid a run of ssikvd-ship
            command(*words, "--as-it-ends")
        else:
            expect(ran.returncode == 0, f"ssikvd-restore ended with {ran.returncode} {ran.stderr[-300:]!r}")
        self.whole(DATA, backup)
        self.disk.counts["restored"] += 1

    def play(self):
        """Some of all that is done to a file, in any order."""
        if DATA not in self.logs:
            self.create()
        self.commits(self.chance.randint(1, 12))
        for _ in range(self.chance.randint(2, 4)):
            steps = [self.compact_and_swap, self.ship, lambda: self.commits(self.chance.randint(0, 12))]
            if BACKUP in self.logs:
                steps.append(self.restore)
            self.chance.choice(steps)()

    def play_swap(self):
        """The part of it in which the folder's sync of an opening counts."""
        if DATA not in self.logs:
            self.create()
        self.commits(self.chance.randint(1, 4))
        self.compact_and_swap()


def some_writes(chance):
    count = chance.choice((1, 1, 1, 2, 5, 20))
    keys = sorted(chance.sample(range(KEYS), count))
    sizes = (0, 1, 30, 463, 464, 1_500, 9_000) if count < 3 else (0, 10, 200)
    return [(b"key %02d" % key, None if chance.random() < 0.1 else chance.randbytes(chance.choice(sizes))) for key in keys]


# Cuts

class Cuts:
    """Losses of power of what a run left recorded, on a disk that keeps these of the writes after the last flush."""

    def __init__(self, disk, life, chance, tally, kept_of=survivors):
        self.disk, self.life, self.chance, self.tally, self.kept_of, self.operations = disk, life, chance, tally, kept_of, disk.operations()
        os.replace(disk.before, disk.durable)
        self.settled = 0    # of the operations so many are in the durable image

    def play(self, count):
        """This many cuts at ascending places. Returns what the last of them left of each file."""
        left = {}
        for at in sorted(self.chance.randrange(len(self.operations) + 1) for _ in range(count)):
            with self.tally.run(f"{self.disk.kind}, cut behind {at} of {len(self.operations)} operations"):
                left = self.cut(at)
        return left

    def cut(self, at):
        flushes = [i for i in range(self.settled, at) if self.operations[i][1] is FLUSH]
        if flushes:
            self.settle(flushes[-1] + 1)
        command("cp", "--sparse=auto", self.disk.durable, self.disk.left)
        file = os.open(self.disk.left, os.O_WRONLY)
        for write in self.kept_of(self.chance, [write for _, write in self.operations[self.settled:at]]):
            apply(file, write)
        os.close(file)
        due = self.life.timeline.at(self.operations[at - 1][0] if at else 0)
        with self.disk.mounted(self.disk.left):
            return self.judge(due)

    def settle(self, count):
        file = os.open(self.disk.durable, os.O_WRONLY)
        for _, write in self.operations[self.settled:count]:
            if write is not FLUSH:
                apply(file, write)
        os.close(file)
        self.settled = count

    def judge(self, due):
        left = {}
        for name, one in due.items():
            if one is None:
                continue
            content = None
            with contextlib.suppress(FileNotFoundError), open(self.disk.path(name), "rb") as file:
                content = file.read()
            one.judge(name, content)
            if content and content.startswith(HEAD):
                left[name] = read_log(lambda at, content=content: content[SECTOR * at:SECTOR * at + SECTOR], len(content) // SECTOR)[0]
        if DATA in left and self.chance.randrange(CHECKED_OF) == 0:
            found, log = check(self.disk.path(DATA))[:3], left[DATA]
            expect(found == (len(log), len(map_of(log)), sectors_used(log)), f"check counts {found}")
        return left


def play(disk, chance, tally, cuts, environment=None, played=Life.play, kept_of=survivors):
    """Runs and cuts of a file system, until there were this many or the first deviation. What the last cut of a run left is the next one's disk. How
    many cuts there were."""
    logs, done, lives = {}, 0, 0
    while done < cuts and not tally.deviations:
        with tally.run(f"{disk.kind}, run {lives + 1}"):
            with disk.recorded():
                life = Life(disk, chance, logs, environment)
                played(life)
        if tally.deviations:
            break
        some = min(CUTS_OF_A_LIFE, cuts - done)
        found = Cuts(disk, life, chance, tally, kept_of)
        logs, done, lives = found.play(some), done + some, lives + 1
        os.replace(disk.left, disk.image)
        if DATA not in logs or sectors_used(logs[DATA]) > SECTORS // 2:    # a new file, on the same disk
            logs = start_anew(disk)
    return done, lives


def start_anew(disk):
    with disk.mounted(disk.image):
        for name in os.listdir(disk.top):
            if os.path.isfile(disk.path(name)):
                os.remove(disk.path(name))
        os.sync()
    return {}


# What must be seen

# What is played where a sync is left out, and on which file systems. With xfs and btrfs the sync of a renamed file makes its name durable too.
SIGHTS = {
    "gate": (Life.play, tuple(MAKERS)),
    "record": (Life.play, ("ext4", "xfs", "btrfs-nodatacow")),
    "folder": (Life.play_swap, ("ext4",)),
}


def sight(tally, place, kind, seed):
    """A server that leaves out a sync is seen within this many cuts, and so is a disk that doesn't write physical sectors whole or not at all."""
    for which, (played, kinds) in SIGHTS.items():
        if kind in kinds:
            environment = {**os.environ, "LD_PRELOAD": SKIPS, "SKIPPED_SYNC": which}
            expect_seen(tally, place, kind, seed, f"without the sync of the {which}", environment, played)
    expect_seen(tally, place, kind, seed, "with noise in a physical sector", kept_of=torn_physical)


def expect_seen(tally, place, kind, seed, what, *played, **more):
    """Runs and cuts that must deviate."""
    own, begun = Tally(what), time.monotonic()
    with folder_in(place) as here:
        done, _ = play(Disk(here, kind), random.Random(seed), own, SIGHT_MAX, *played, **more)
    with tally.run(f"{kind} {what}"):
        expect(own.deviations, f"{done} cuts {what} don't see it")
        text = next(iter(own.deviations))
        print(f"  {kind} {what}: within {done} cuts, {time.monotonic() - begun:.0f} s: {text[:200]}", flush=True)


@contextlib.contextmanager
def folder_in(place):
    name = os.path.join(place, f"sight{time.monotonic_ns()}")
    os.mkdir(name)
    yield name


# All of it

def kinds_here(only):
    """The file systems that can be made and mounted here."""
    with open("/proc/filesystems", encoding="ascii") as file:
        known = {line.split()[-1] for line in file}
    has = {kind for kind, (_, maker) in MAKERS.items() if kind.partition("-")[0] in known and any(
        os.access(os.path.join(path, maker[0]), os.X_OK) for path in (*os.environ["PATH"].split(os.pathsep), "/usr/sbin", "/sbin"))}
    return [kind for kind in MAKERS if kind in has and (not only or kind in only)]


def inside(tally, asked):
    """What is done with mounts of its own."""
    more, kinds = "", kinds_here(asked.only)
    cuts = asked.cuts or (LONG_CUTS if is_long() else QUICK_CUTS)
    with folder() as place:
        command("mount", "-t", "tmpfs", "none", place)
        try:
            for kind in kinds:
                if asked.sight:
                    sight(tally, place, kind, asked.seed)
                    continue
                begun, own = time.monotonic(), tally.count()
                disk = Disk(place, kind)
                done, lives = play(disk, random.Random(f"{asked.seed} {kind}"), tally, cuts)
                counts = ", ".join(f"{count:,} {name}" for name, count in disk.counts.items())
                more += f"; {kind}: {done:,} cuts of {lives} runs ({counts}), {time.monotonic() - begun:.0f} s"
                if tally.count() > own:
                    break
        finally:
            unmount(place)
    left_out = [kind for kind in asked.only or MAKERS if kind not in kinds]
    tally.more = more + (f"; left out are {', '.join(left_out)}" if left_out else "")


def why_left_out():
    """Why nothing can be mounted here; None where it can."""
    if os.geteuid() != 0:
        return "it needs root"
    if not os.access(RECORDER, os.X_OK):
        return "there is no harness/out/recorder, which run.sh builds where libfuse3 is"
    if not os.path.exists("/dev/fuse") or not os.path.exists("/dev/loop-control"):
        return "there is no FUSE, or no loop device"
    tried = subprocess.run([*IN_PRIVATE, "mount", "-t", "tmpfs", "none", HARNESS], capture_output=True, timeout=PATIENCE, check=False)
    return "nothing can be mounted" if tried.returncode else None


def options(parser):
    parser.add_argument("--cuts", type=int, help="how many cuts of each file system")
    parser.add_argument("--only", action="append", choices=tuple(MAKERS), help="only this file system; may be given more than once")
    parser.add_argument("--seed", type=int, default=2_009)
    parser.add_argument("--sight", action="store_true", help="show that a sync that is left out is seen")
    parser.add_argument(INSIDE, action="store_true", help=argparse.SUPPRESS)    # with mounts of its own


class PowerCuts(Harness):
    NAME = "losses of power"
    NEEDS = (PROGRAM,)

    def test_power_cuts(self):
        why = why_left_out()
        if why:
            print(f"losses of power: left out, since {why}", flush=True)
            self.skipTest(why)
        words = asked(options)
        if words.inside:
            inside(self.tally, words)
        else:
            self.run_again(IN_PRIVATE, INSIDE)


if __name__ == "__main__":
    run_harness(options)
